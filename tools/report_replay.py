"""The section of a report on a replay: its counts as tables, and a strip of time."""
import lines
from html_page import Raw, code, counted, joined, section, table, tag, whole
from report_words import marks_words, verdict_line

MOST_ENDS = 60  # that a table shows


def strip_of(counts):
    """Messages, returns and events by line numbers."""
    strip, high = counts.strip, 100
    if not strip.bins:
        return Raw("")
    total = max(len(strip.bins), -(-counts.last // strip.width))
    step, most = 1000 / total, max(one["messages"] for one in strip.bins) or 1
    drawn = []
    for place, one in enumerate(strip.bins):
        left = place * step
        for kind, name in (("messages", "message"), ("returned", "returned")):
            if one[kind]:
                tall = max(one[kind] / most * high, 1.5)
                drawn.append(f'<rect class="{name}" x="{left:.1f}" y="{high - tall:.1f}" width="{max(step - 0.4, 0.6):.1f}" height="{tall:.1f}"></rect>')
        if one["events"]:
            drawn.append(f'<line class="event" x1="{left + step / 2:.1f}" x2="{left + step / 2:.1f}" y1="108" y2="122" vector-effect="non-scaling-stroke"></line>')
        if one["plans"]:
            drawn.append(f'<line class="plan" x1="{left + step / 2:.1f}" x2="{left + step / 2:.1f}" y1="0" y2="122" vector-effect="non-scaling-stroke" stroke-dasharray="4 3"></line>')
    axis = '<line class="axis" x1="0" x2="1000" y1="101" y2="101" vector-effect="non-scaling-stroke"></line>'
    svg = Raw(f'<svg viewBox="0 0 1000 124" preserveAspectRatio="none" role="img" aria-label="Messages, returns and events by line numbers">{axis}{"".join(drawn)}</svg>')
    key = tag("p", tag("span", "messages"), tag("span", "returned", class_="k-returned"), tag("span", "events", class_="k-event"), tag("span", "a plan begins", class_="k-plan"), class_="key dim")
    ends = tag("div", tag("span", "line 1"), tag("span", f"each bar: {counted(strip.width, 'line')}, up to {counted(most, 'message')}"), tag("span", f"line {counts.last:,}"), class_="ends")
    return joined([key, tag("div", svg, ends, class_="strip")])


def end_words(kind, detail):
    if kind == "returned" and detail.isdigit():
        return f"{detail} {lines.RETURN_CAUSES.get(int(detail), '')}".strip()
    return f"subsystem {detail} of the relay" if kind == "local" and detail.isdigit() else detail


def ends_table(counts):
    order = ["returned", "cut", "ended", "local"]
    ranked = sorted(counts.ends.items(), key=lambda item: (order.index(item[0][0]), -item[1], item[0]))
    rows = [[kind, whole(end_words(kind, detail)), relay, whole(marks_words(marks.split(","))) if marks else "", f"{count:,}"]
            for (kind, detail, marks, relay), count in ranked[:MOST_ENDS]]
    rest = ranked[MOST_ENDS:]
    if rest:
        rows.append(["", counted(len(rest), "other end"), "", "", f"{sum(count for _, count in rest):,}"])
    bad = [place for place, row in enumerate(rows) if row[0] in ("returned", "cut")]
    return table(["end", "cause or place", "last relay", "marks that closed the way", ("messages",)], rows, bad)


def totals_words(counts):
    ends = {}
    for (kind, *_), count in counts.ends.items():
        ends[kind] = ends.get(kind, 0) + count
    said = [f"{ends[kind]:,} {words}" for kind, words in (("ended", "ended at a place"), ("local", "for a subsystem of a relay"), ("returned", "returned"), ("cut", "cut")) if kind in ends]
    others = [counted(count, *OTHERS.get(form, (f"line of the form {form}", f"lines of the form {form}"))) for form, count in sorted(counts.others.items())]
    events = sum(counts.events.values())
    parts = counted(sum(counts.segments.values()), "segment") if counts.segments else ""
    routed = f"{counted(counts.last, 'line')} of the trace. {counted(counts.messages, 'message')} routed: {', '.join(said) or 'none'}."
    return routed + " " + ", ".join(filter(None, [counted(events, "event"), *others, parts and f"{parts} for subsystems of relays"])) + "."


OTHERS = {"management": ("message for SCCP management", "messages for SCCP management"), "sends": ("message sent by a relay itself", "messages sent by relays themselves"),
          "connection": ("connection-oriented message",), "undecodable": ("message that does not read", "messages that do not read"),
          "unknown_node": ("line for a relay that the plan does not have", "lines for relays that the plan does not have")}


def plans_table(counts):
    rows = [["" if number is None else number, code(file), "start" if line is None else f"{line:,}", said, f"{counts.by_plan[number]:,}" if number else "0"]
            for line, number, file, said in counts.plans]
    return table([("plan",), "file", ("from line",), "verdict", ("messages",)], rows)


def replay(report):
    counts = report.counts
    if counts is None:
        return Raw("")
    inner = [tag("p", "Trace ", code(report.words.trace), f", {counted(report.words.workers, 'worker')}.")]
    if counts.verdict:
        return section("Replay", *inner, verdict_line(counts.verdict), tag("p", "The first plan is not accepted, so nothing was replayed."))
    if counts.fault:
        inner.append(tag("p", tag("b", "The replay ended early. "), code(counts.fault), class_="verdict warn"))
    inner += [tag("p", totals_words(counts)), strip_of(counts)]
    if counts.ends:
        inner += [tag("h3", "Ends"), ends_table(counts)]
    if counts.services:
        rows = [[words, f"{count:,}"] for words, count in counts.services.most_common()]
        inner += [tag("h3", "Service messages of returned ones"), table(["what became of it", ("messages",)], rows)]
    names = [relay.name for relay in report.plan.relays] if report.plan else sorted(set(counts.reached) | set(counts.events))
    rows = [[tag("b", name), f"{counts.reached[name]:,}", f"{counts.ended[name]:,}", f"{counts.events[name]:,}"] for name in names]
    inner += [tag("h3", "Relays"), table(["relay", ("messages that reached it",), ("that ended there",), ("events",)], rows)]
    inner += [tag("h3", "Plans"), plans_table(counts)] if counts.plans else []
    if counts.more_plans:
        inner.append(tag("p", f"{counted(counts.more_plans, 'later plan')} more.", class_="dim"))
    return section("Replay", *inner, events_list(counts))


def events_list(counts):
    if not counts.shown_events:
        return Raw("")
    rows = [[f"{line:,}", code(said)] for line, said in counts.shown_events]
    said = f"The first {len(rows)} of {len(rows) + counts.more_events:,} events" if counts.more_events else counted(len(rows), "event")
    return tag("details", tag("summary", f"{said}, with their lines"), table([("line",), "event"], rows))
