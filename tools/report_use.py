"""Two sections of a report: what no covered title can use, and how many points each cover can lose."""
import picture
from html_page import Raw, code, counted, joined, section, table, tag, whole
from report_routes import route_parts
from report_words import cover_words, no_row_words, passed

MOST_STOPS = 12  # titles that are stopped by lost points, with their routes

SCOPE = ("This is said of the titles that covers have, whatever is prohibited. Titles that no cover has, and service messages that "
         "go back by a title, may still use what is listed.")


# ---- what is unused

def of_form(records, form):
    return [record for record in records if record["form"] == form]


def unused(report):
    """What `unused` lists: by relay the rows with their lines in the file, then covers and gaps."""
    answer = report.unused[-1] if report.unused else {"form": ""}
    if answer["form"] == "too_wide":
        said = f"Covered titles get to at least {passed(answer)} classes."
        return section("Unused parts", tag("p", tag("b", "No answer: too wide. "), said, class_="verdict warn"))
    if answer["form"] != "unused_counted":
        return Raw("")
    counts = [counted(answer[f"{one}s"], one) for one in ("relay", "row", "target", "cover") if answer[f"{one}s"]]
    if not counts and not answer["gaps"]:
        said = "Nothing: some covered title uses each relay, row and target, and each cover adds something."
        return section("Unused parts", tag("p", said, class_="verdict good"))
    inner = [tag("p", tag("b", f"Unused: {', '.join(counts) or 'nothing'}. "), SCOPE, class_="verdict warn" if counts else "verdict good")]
    return section("Unused parts", *inner, *unused_places(report), *unused_covers(report), *gaps(report))


def unused_places(report):
    """One table in the order of the plan: relays, rows, and targets of rows."""
    records = [record for record in report.unused if record["form"] in ("unused_relay", "unused_row", "unused_target")]
    if not records:
        return []
    if report.plan is None:
        return [tag("p", joined((code(picture.line_of(record)) for record in records), Raw("<br>")))]
    places = {relay.name: place for place, relay in enumerate(report.plan.relays)}
    records.sort(key=lambda record: (places[record["node"]], record.get("row", -1), record.get("target", -1)))
    has_comment = any(row.comment for relay in report.plan.relays for row in relay.rows)
    head = ["relay", ("row",), ("line",), "selector", "prefix", "ssn", "what is unused"] + (["comment"] if has_comment else [])
    return [table(head, [place_cells(report.plan.by_name[record["node"]], record, has_comment) for record in records])]


def place_cells(relay, record, has_comment):
    name = tag("b", relay.name)
    if record["form"] == "unused_relay":
        return [name, "", "", "", "", "", "the relay: no covered title gets to it"] + ([""] if has_comment else [])
    row = relay.rows[record["row"]]
    what = "the row: it counts for no covered title that gets to the relay"
    if record["form"] == "unused_target":
        target = row.targets[record["target"]]
        what = joined([f"the {picture.ordinal(record['target'])} target, ", code(target.words()), ": an earlier one is open if it is"])
    prefix, ssn = code(row.prefix) if row.prefix else "any", "any" if row.ssn is None else row.ssn
    cells = [name, row.place, row.line or "", code(row.selector), prefix, ssn, what]
    return cells + ([row.comment] if has_comment else [])


def unused_covers(report):
    records = of_form(report.unused, "unused_cover")
    if not records:
        return []
    said = "Each of these asks for nothing that the other one does not ask for. All of them can go together."
    rows = [[record["cover"], record["within"]] for record in records]
    return [tag("h3", "Covers"), tag("p", said), table([("cover",), ("adds nothing to cover",)], rows)]


def gaps(report):
    records = of_form(report.unused, "gap")
    if not records:
        return []
    rows = []
    for record in records:
        title = record["title"]
        what, mend = (words.format(record["node"]) for words in no_row_words(record["cause"]))
        shown = code(f"{title['selector']} {title['ssn']} {title['digits'] or '-'}")
        rows.append([record["cover"], tag("b", record["node"]), shown, f"{what} {mend}"])
    head = [("cover",), "relay", "a title that gets there", "what is wrong, and how to mend it"]
    return [tag("h3", "Titles without a row"), table(head, rows, bad=range(len(rows)))]


# ---- lost points

def margins(report):
    """What `margin` prints: a table of the covers, and the titles that the fewest points stop, with their routes."""
    records = [record for record in report.margins if record["form"].startswith("cover_")]
    if not records:
        return Raw("")
    routes = {route.verdict["cover"]: route for route in picture.routes_in(report.margins) if route.verdict["form"] == "cover_stopped"}
    points = {cover: ", ".join(points_of(route)) for cover, route in routes.items()}
    rows = [[record["cover"], margin_words(record), whole(points.get(record["cover"], ""))] for record in records]
    bad = [place for place, record in enumerate(records) if record["form"] == "cover_stopped"]
    said = "A point is lost if all relays hold it prohibited. The relay that the titles of a cover reach first is not lost."
    listed = table([("cover",), "points that can be lost", "points that stop a title"], rows, bad)
    if len(rows) > 20:
        listed = tag("details", tag("summary", counted(len(rows), "cover")), listed)
    shown = sorted(routes.values(), key=lambda route: (route.verdict["points"], route.verdict["cover"]))[:MOST_STOPS]
    stops = [part for route in shown for part in stop_parts(report, route)]
    return section("Lost points", all_margins(report.margins[-1]), tag("p", said, class_="dim"), listed, *stops)


def all_margins(last):
    """A coloured line for the last line."""
    if last["form"] == "covers_survive":
        words, said = "stops" if last["points"] == 1 else "stop", "While no point is lost, no covered title is stopped."
        if last["points"]:
            said = f"No {counted(last['points'], 'lost point')}, and no fewer, {words} a covered title."
        return tag("p", tag("b", "All covers survive. "), said, class_="verdict good")
    if last["form"] != "margins_counted":
        return tag("p", "The program ended before its last line.", class_="verdict warn")
    said = [counted(last["stopped"], "cover is stopped", "covers are stopped")] if last["stopped"] else []
    said += [f"the search was given up for {counted(last['too_wide'], 'cover')}"] if last["too_wide"] else []
    number = str(last["least"]) + ("" if last["stopped"] else " or more")
    head = tag("b", f"The least number of lost points that stop a covered title is {number}. ")
    return tag("p", head, f"{'; '.join(said)}.".capitalize(), class_="verdict warn")


def margin_words(record):
    form = record["form"]
    if form == "cover_survives_any":
        return "any number"
    if form == "cover_survives":
        return f"{record['points']}; of more nothing is said"
    number = record["points"]
    if form == "cover_too_wide":
        return f"{number - 1}; for {number} the search was given up" if number else "not known: the search was given up"
    return f"{number - 1}; {counted(number, 'point')} can stop a title" if number else "none: a title is stopped though no point is lost"


def points_of(route):
    return [mark.partition(":")[2] for mark in route.hops[0].held]


def stop_parts(report, route):
    """The words, the picture and the hops of a title that is stopped."""
    number = route.verdict["cover"]
    plans = {None: report.plan} if report.plan else {}
    route.find_steps(plans)
    about = [tag("p", cover_words(report.plan.covers[number]))] if report.plan and number < len(report.plan.covers) else []
    lost = f"If {', '.join(points_of(route)) or 'no point'} {'are' if route.verdict['points'] > 1 else 'is'} lost"
    said = tag("p", whole(f"{lost}, the title below is blocked at relay {route.hops[-1].relay}."), class_="verdict bad")
    return [tag("h3", f"A title of cover {number}"), *about, said, *route_parts(report.dot, plans, route)]
