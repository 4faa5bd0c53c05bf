#!/usr/bin/env python3
"""Writes what the program says of a plan as one HTML page, which needs no other file and no network.

  tools/report.py [--wide] PLAN [--losses N] [--change NEW] [--trace TRACE [--workers N]] [-o FILE]

The page has the verdict of `verify`, the relays with their rows, the covers, and the printed route as a picture and as a table with
what to mend. Of a plan that is not accepted it has the same of each bad cover, as `covers` prints it. Of any plan it has what
`unused` lists, each row with its line in the file, and of an accepted one what `margin` prints of up to three lost points, unless
another number is given by --losses, with the titles that are stopped. With --change it has the answer on the changeover from PLAN
to NEW, and with --trace what a replay came to, by one worker unless N are asked for. Pictures are drawn by dot of Graphviz;
without it the page has the tables only.

  --wide          every command runs after the word wide, for plans of real size
  -o FILE         the page; standard output if it is absent
  --program FILE  the program to run, in place of ./sccp of this repository
  --dot FILE      the dot to run, in place of the one on the path; with - none is run

Statuses: 0 the page was written, whatever it says, 64 the words are wrong, 70 the program cannot be run, 74, 75 a file cannot be read
or written.
"""
import argparse
import os
import shutil
import subprocess
import sys
import time

sys.dont_write_bytecode = True
import lines  # noqa: E402
import picture  # noqa: E402
import plan_file  # noqa: E402
import replay_counts  # noqa: E402
from html_page import Dot, Raw, code, counted, document, joined, section, table, tag, whole  # noqa: E402
from report_replay import replay  # noqa: E402
from report_routes import FOCUS, route_parts  # noqa: E402
from report_use import margins, unused  # noqa: E402
from report_words import bad_parts, cover_words, first_line, length_words, verdict_line  # noqa: E402

MOST_DRAWN = 300  # edges of a plan above which it is not drawn as a whole


# ---- the program

class Program:
    """Runs the program, and keeps which calls were made."""

    def __init__(self, path):
        self.path, self.calls = path, []

    def lines(self, words):
        """The lines that the program prints of these words, while it runs."""
        call = {"words": words, "lines": 0, "status": None}
        self.calls.append(call)
        try:
            process = subprocess.Popen([self.path, *words], stdin=subprocess.DEVNULL, stdout=subprocess.PIPE, text=True, errors="replace")
        except OSError as fault:
            raise picture.Failed(70, f"{self.path}: cannot be run: {fault.strerror}") from None
        with process:
            for line in process.stdout:
                call["lines"] += 1
                yield line
        call["status"] = process.returncode
        if process.returncode == 70 or process.returncode < 0:
            raise picture.Failed(70, f"{self.path} ended with status {process.returncode}")

    def about(self):
        """What the launcher says of itself and of the program that it runs."""
        try:
            done = subprocess.run([self.path, "--version"], stdin=subprocess.DEVNULL, capture_output=True, text=True, errors="replace", check=False,
                                  env=dict(os.environ, NO_BUILD="1"))
        except OSError:
            return []
        return done.stdout.splitlines() if done.returncode == 0 else []


# ---- what is known of a plan

class Report:
    """The plan, what the program printed of it, and what draws the pictures."""

    def __init__(self, words, program, dot):
        self.words, self.program, self.dot = words, program, dot
        self.plan, self.unshown = self.read(words.plan)
        self.new = self.read(words.change)[0] if words.change else None
        self.verified = self.ask(["verify", words.plan])
        if any(record["form"] == "bad_plan" for record in self.verified):
            self.plan, self.unshown = None, "The program does not take the file for a plan."
        self.each = self.ask(["covers", words.plan]) if first_line(self.verified)["form"] in ("refused", "too_wide") else []
        is_plan = first_line(self.verified)["form"] in ("accepted", "refused", "too_wide")
        is_accepted = first_line(self.verified)["form"] == "accepted"
        self.unused = self.ask(["unused", words.plan]) if is_plan else []
        self.margins = self.ask(["margin", words.plan, str(words.losses)]) if is_accepted else []
        self.changed = self.ask(["change", words.plan, words.change]) if words.change else []
        self.counts = self.replay() if words.trace else None

    @staticmethod
    def read(path):
        """The plan of a file, or why it cannot be shown."""
        try:
            return plan_file.read(path), ""
        except OSError as fault:
            return None, f"The file cannot be read: {fault.strerror}."
        except plan_file.Unreadable as fault:
            return None, f"{str(fault)[0].upper()}{str(fault)[1:]}."

    def ask(self, words):
        return list(lines.read_groups(self.program.lines(self.called(words)), words[0]))

    def called(self, words):
        """The words of a call of this command."""
        return ["wide", *words] if self.words.wide else words

    def replay(self):
        counts = replay_counts.Counts()
        words = ["replay", self.words.plan, self.words.trace, str(self.words.workers)]
        for record in lines.read_lines(self.program.lines(self.called(words)), "replay"):
            counts.take(record)
        return counts

    def unread(self):
        """Printed lines of no known form."""
        groups = self.verified + self.each + self.unused + self.margins + self.changed
        return [record["text"] for record in groups if record["form"] == "text"] + (self.counts.unread if self.counts else [])


# ---- sections of the page

def top(report):
    inner = [tag("h1", os.path.basename(report.words.plan)), verdict_line(first_line(report.verified))]
    if report.plan:
        plan = report.plan
        rows = sum(len(relay.rows) for relay in plan.relays)
        inner.append(tag("p", f"{counted(len(plan.relays), 'relay')}, {counted(rows, 'row')}, {counted(len(plan.covers), 'cover')}. "
                         "Relays, rows, covers and hops have the numbers of the program, from 0.", class_="dim"))
    else:
        inner.append(tag("p", "The tables of the plan are not shown. ", report.unshown, class_="dim"))
    for line in report.unread():
        inner.append(tag("p", "A line that is not understood: ", code(line), class_="verdict warn"))
    return joined(inner, "\n")


def route_section(report):
    """The route that verify prints: a bad one, or a longest one of an accepted plan."""
    route = picture.first_route(picture.routes_in(report.verified))
    if route is None:
        return Raw("")
    plans = {None: report.plan} if report.plan else {}
    route.find_steps(plans)
    verdict, inner = route.verdict, []
    if not route.is_bad:
        return section("A longest route", tag("p", f"No covered title takes more hops than this one, {counted(len(route.hops), 'hop')}."), *route_parts(report.dot, plans, route))
    if report.plan and verdict["cover"] < len(report.plan.covers):
        inner.append(tag("p", cover_words(report.plan.covers[verdict["cover"]])))
    return section(f"Bad route of a title of cover {verdict['cover']}", *inner, bad_parts(verdict, route), *route_parts(report.dot, plans, route))


def bad_covers(report):
    """The bad routes of the other covers, each by itself."""
    shown = first_line(report.verified).get("cover")
    made = []
    for route in picture.routes_in(report.each):
        if route.verdict["form"] != "cover_refused" or route.verdict["cover"] == shown:
            continue
        route.find_steps({None: report.plan} if report.plan else {})
        inner = [tag("p", cover_words(report.plan.covers[route.verdict["cover"]]))] if report.plan else []
        plans = {None: report.plan} if report.plan else {}
        made.append(section(f"Bad route of a title of cover {route.verdict['cover']}", *inner, bad_parts(route.verdict, route), *route_parts(report.dot, plans, route)))
    return joined(made, "\n") if made else Raw("")


def changeover(report):
    if not report.words.change:
        return Raw("")
    words = report.words
    answer = first_line(report.changed)
    if answer["form"] in ("accepted", "text") and report.changed:
        answer = report.changed[-1]
    inner = [tag("p", "From ", code(words.plan), " to ", code(words.change), "."), verdict_line(answer)]
    if answer["form"] == "change_refused":
        asked = " ".join([*["wide"] * words.wide, "order", words.plan, words.change])
        inner.append(tag("p", "To change the relays in steps that are safe, if there are such: ", code(asked), "."))
    route = next((route for route in picture.routes_in(report.changed)[::-1]), None)
    plans = {"old": report.plan, "new": report.new} if report.plan and report.new else {}
    if route:
        route.find_steps(plans)
        if route.is_bad:
            inner.append(bad_parts(route.verdict, route))
        else:
            inner.append(tag("p", f"No title that both plans cover takes more hops than this one, {counted(len(route.hops), 'hop')}."))
        inner += route_parts(report.dot, plans, route)
    return section("Changeover", *inner)


def whole_plan(report):
    """The whole plan, if the picture of its route does not have it."""
    plan = report.plan
    if plan is None:
        return Raw("")
    count = len(picture.Edges(plan).rows)
    routes = picture.routes_in(report.verified)
    if not count or count <= FOCUS and routes:
        return Raw("")
    if count > MOST_DRAWN:
        return section("The whole plan", tag("p", f"It has {counted(count, 'edge')} between relays and places, too many for a picture.", class_="dim")) if report.dot.path else Raw("")
    route = picture.first_route(routes) if count <= picture.MOST_EDGES else None
    drawn = report.dot.svg(picture.draw({None: plan}, route, words=False), "All relays of the plan")
    return section("The whole plan", tag("p", "An edge is for all rows of a relay that lead there. It is dashed if only backups do.", class_="dim"), drawn) if drawn else Raw("")


def leads_words(relay):
    relays = dict.fromkeys(target.relay for row in relay.rows for target in row.targets if target.relay is not None)
    return ", ".join(relays)


def places_words(relay):
    places = dict.fromkeys(target.words() for row in relay.rows for target in row.targets if target.relay is None)
    shown = list(places)[:8]
    return whole(", ".join(shown) + (f" and {len(places) - 8} more" if len(places) > 8 else ""))


def relays(report):
    if report.plan is None:
        return Raw("")
    route = picture.first_route(picture.routes_in(report.verified))
    on_route = {hop.relay for hop in route.hops} if route and route.is_bad else set()
    columns = [("relay", lambda relay: tag("b", relay.name)), ("point", lambda relay: whole(relay.point)),
               ("subsystems", lambda relay: ", ".join(map(str, relay.subsystems))), ("concerned", lambda relay: whole(", ".join(relay.concerned))),
               (("rows",), lambda relay: len(relay.rows)), ("hands titles to", leads_words), ("titles end at", places_words)]
    columns = [column for column in columns if any(column[1](relay) != "" for relay in report.plan.relays)]
    rows = [[shown(relay) for _, shown in columns] for relay in report.plan.relays]
    bad = [place for place, relay in enumerate(report.plan.relays) if relay.name in on_route]
    inner = [table([head for head, _ in columns], rows, bad)]
    return section("Relays", *inner, *(rows_of(relay) for relay in report.plan.relays if relay.rows))


def rows_of(relay):
    has_line, has_comment = any(row.line for row in relay.rows), any(row.comment for row in relay.rows)
    head = [("row",)] + ([("line",)] if has_line else []) + ["selector", "prefix", "ssn", "targets"] + (["comment"] if has_comment else [])
    rows = []
    for row in relay.rows:
        targets = joined((code(target.words()) for target in row.targets), ", ")
        rows.append([row.place] + ([row.line] if has_line else []) + [code(row.selector), code(row.prefix) if row.prefix else "any", "any" if row.ssn is None else row.ssn, targets]
                    + ([row.comment] if has_comment else []))
    return tag("details", tag("summary", f"Rows of {relay.name} ({len(relay.rows):,})"), table(head, rows))


def covers(report):
    if report.plan is None or not report.plan.covers:
        return Raw("")
    verdict = first_line(report.verified)
    bad = [record["cover"] for record in report.each if record["form"] == "cover_refused"] or ([verdict["cover"]] if verdict["form"] == "refused" else [])
    rows = [[cover.place, tag("b", cover.relay), code(cover.selector), cover.ssn, code(cover.prefix) if cover.prefix else "any", length_words(cover),
             joined((code(place) for place in cover.allowed), ", ")] for cover in report.plan.covers]
    listed = table([("cover",), "relay", "selector", ("ssn",), "prefix", "digits", "allowed places"], rows, bad)
    if len(rows) > 20:
        listed = tag("details", tag("summary", counted(len(rows), "cover")), listed)
    return section("Covers", tag("p", "The verdict is about these titles and no others.", class_="dim"), listed)


def calls(report):
    rows = [[tag("code", " ".join(["./sccp", *call["words"]]), class_="long"), call["status"], f"{call['lines']:,}"] for call in report.program.calls]
    about = report.program.about()
    inner = [table(["call", ("status",), ("printed lines",)], rows)]
    inner += [tag("p", joined(about, Raw("<br>")), class_="dim code")] if about else []
    made = time.strftime("%Y-%m-%d %H:%M UTC", time.gmtime())
    return section("Calls that were made", *inner, tag("p", f"Made by tools/report.py, {made}. The program decides; this page repeats what it printed.", class_="dim"))


# The sections in their order: each is a function of the report, and gives nothing if there is nothing to say.
SECTIONS = [top, route_section, bad_covers, margins, changeover, replay, relays, covers, unused, whole_plan, calls]


def page(report):
    body = joined((part for part in (make(report) for make in SECTIONS) if part), "\n")
    return document(f"{os.path.basename(report.words.plan)}: report", body)


# ---- the words of the call

def dot_of(words):
    if words.dot == "-":
        return Dot(None)
    return Dot(words.dot or shutil.which("dot"))


USAGE = "report.py [--wide] PLAN [--losses N] [--change NEW] [--trace TRACE [--workers N]] [-o FILE] [--program FILE] [--dot FILE]"


def parsed(words):
    parser = argparse.ArgumentParser(add_help=False, allow_abbrev=False, usage=USAGE)
    parser.add_argument("plan")
    parser.add_argument("--wide", action="store_true")
    parser.add_argument("--losses", type=int, default=3, choices=range(100), metavar="N")
    parser.add_argument("--change")
    parser.add_argument("--trace")
    parser.add_argument("--workers", type=int, default=1, choices=range(1, 17), metavar="N")
    parser.add_argument("-o", dest="output")
    parser.add_argument("--program", default=os.path.join(picture.TOP, "sccp"))
    parser.add_argument("--dot")
    return parser.parse_args(words)


def main(words):
    if words in (["-h"], ["--help"]):
        print(__doc__, end="")
        return 0
    try:
        words = parsed(words)
    except SystemExit:
        return 64
    for path in filter(None, (words.plan, words.change, words.trace)):
        if not os.access(path, os.R_OK):
            print(f"report.py: {path}: cannot be read", file=sys.stderr)
            return 74
    try:
        made = page(Report(words, Program(words.program), dot_of(words)))
        if words.output:
            with open(words.output, "w", encoding="utf-8") as file:
                file.write(made)
        else:
            sys.stdout.write(made)
    except picture.Failed as fault:
        print(f"report.py: {fault}", file=sys.stderr)
        return fault.status
    except OSError as fault:
        print(f"report.py: {words.output or 'standard output'}: cannot be written: {fault.strerror}", file=sys.stderr)
        return 75
    return 0


if __name__ == "__main__":
    sys.exit(main(sys.argv[1:]))
