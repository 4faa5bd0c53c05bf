#!/usr/bin/env python3
"""Draws the relays of a plan, and a route that the program printed, as a text for Graphviz.

  tools/picture.py PLAN                       the whole plan
  tools/picture.py PLAN --verify              with the route that ./sccp verify PLAN prints
  tools/picture.py PLAN --route FILE          with the first route in a file of printed lines, a bad one before others; - is
                                              standard input
  tools/picture.py --change OLD NEW           two plans, with the mixed route that ./sccp change OLD NEW prints
  tools/picture.py --change OLD NEW --route FILE

  --no-rows       only the relays and places of the route
  --wide          verify and change run after the word wide, for plans of real size
  --program FILE  the program to run, in place of ./sccp of this repository

The text goes to standard output: `tools/picture.py PLAN --verify | dot -Tsvg > plan.svg`.

Relays are boxes, and places where titles end are ellipses. A grey edge is for all rows of a relay that lead to the same next one:
their prefixes, each with the place of the target (49 1st). It is dashed if only backups lead there. The hops of the route have the
numbers that the program gives them, from 0: red for a bad route, green for any other. What a relay of the route holds prohibited
is dashed. Above 40 grey edges a plan is drawn without words at them, and a route with its own relays and places only.

A hop is drawn if the plan has a row for what its line says: of the longest prefix, and of two the one that names the subsystem
number. Below the picture the hops are repeated in words, and a hop that does not fit as it was printed.

Statuses: 0 the text was written, 1 the plan cannot be drawn or the lines have no route, 64 the words are wrong, 70 the program
cannot be run, 74 a file cannot be read.
"""
import argparse
import collections
import os
import subprocess
import sys

sys.dont_write_bytecode = True
import lines  # noqa: E402
import plan_file  # noqa: E402

TOP = os.path.dirname(os.path.dirname(os.path.abspath(__file__)))
ORDINALS = ["1st", "2nd", "3rd", "4th", "5th", "6th", "7th", "8th"]
MOST_PREFIXES = 3  # that are named at an edge
MOST_EDGES = 40
WIDEST = 6  # relays of a route that are drawn from left to right; a longer one goes down
BAD, GOOD, GREY, NOTE = "#b3261e", "#1a7f37", "#8c959f", "#0550ae"


# ---- routes of printed lines

class Hop:
    """A printed hop, with the step that the plan has for it; `step` is none if the plan has another one."""

    def __init__(self, number, record):
        self.number, self.record = number, record
        self.which = record.get("which")
        self.relay = record["node"]
        title = record["title"]
        self.title = plan_file.Title(title["selector"], title["ssn"], title["digits"])
        self.held = [lines.mark_text(mark) for mark in record["held"]]
        self.step = None

    def find_step(self, plan):
        relay = plan.by_name.get(self.relay)
        step = plan.step(relay, self.title, self.held) if relay else None
        if step and self.is_printed(step):
            self.step = step

    def is_printed(self, step):
        """Whether the line says what the plan says."""
        record = self.record
        if step.what != record["step"]:
            return False
        if step.what == "sent":
            return (step.to, step.target) == (record["next"], record["target"])
        if step.what == "ended":
            return (step.to, step.target) == (f"{record['point']}/{record['ssn']}", record["target"])
        return step.what == "overgrown" or step.cause == record["cause"]

    def words(self):
        """What happens at the hop."""
        held = ", ".join(mark_words(mark) for mark in self.held) or "nothing"
        which = f"{self.which} plan at " if self.which else ""
        title = f"{self.title.selector} {self.title.ssn} {self.title.digits or '-'}"
        return f"{which}{self.relay}, {title}, {held} prohibited: {self.outcome()}"

    def outcome(self):
        record, what = self.record, self.record["step"]
        if what == "sent":
            return f"to {record['next']} by the {ordinal(record['target'])} target"
        if what == "ended":
            return f"ends at {record['point']}/{record['ssn']} by the {ordinal(record['target'])} target"
        if what == "overgrown":
            return "would have more than 32 digits"
        return f"{what}, cause {record['cause']}"


class Route:
    """The hops that belong to a verdict, and the line of the verdict."""

    def __init__(self, record):
        self.verdict = without_hops(record)
        self.hops = [Hop(number, hop) for number, hop in enumerate(record["hops"])]
        self.is_bad = "refused" in record["form"] or record["form"] == "cover_stopped"

    def line(self):
        return "" if self.verdict["form"] == "route" else line_of(self.verdict)

    def find_steps(self, plans):
        """Looks the steps of the hops up: `plans` has the plan of each word old and new, or one under None."""
        for hop in self.hops:
            plan = plans.get(hop.which or self.verdict.get("which"), plans.get(None))
            if plan is not None:
                hop.find_step(plan)
        for hop, following in zip(self.hops, self.hops[1:]):
            if hop.step and (hop.step.to, hop.step.title) != (following.relay, following.title):
                hop.step = None

    def title(self):
        return self.hops[0].title


def without_hops(record):
    return {key: value for key, value in record.items() if key != "hops"}


def line_of(record):
    """The printed line of a record, without the hops after it."""
    return lines.write_line(without_hops(record))


def routes_in(records):
    """The routes of records as read_groups gives them."""
    return [Route(record) for record in records if record.get("hops")]


def first_route(found):
    """The first bad route, or else the first one."""
    return next((route for route in found if route.is_bad), found[0] if found else None)


def ordinal(place):
    return ORDINALS[place] if place < len(ORDINALS) else f"{place + 1}th"


def mark_words(mark):
    kind, _, where = mark.partition(":")
    point, _, ssn = where.partition("/")
    return {"point": point, "sccp": f"SCCP at {point}", "subsystem": f"subsystem {ssn} at {point}"}[kind]


# ---- what is drawn

class Edges:
    """For each relay and each relay or place that it leads to, the rows by the place of the target."""

    def __init__(self, plan):
        self.rows = collections.defaultdict(lambda: collections.defaultdict(list))
        for relay in plan.relays:
            for row in relay.rows:
                for place, target in enumerate(row.targets):
                    self.rows[relay.name, node_of(target)][place].append(row)

    def words(self, edge):
        """A line for each place of a target: up to three prefixes, or the first and the last with their number."""
        found = []
        for place, rows in sorted(self.rows.get(edge, {}).items()):
            texts = sorted({(row.prefix or "any") + ("" if row.ssn is None else f" ssn {row.ssn}") for row in rows})
            shown = " ".join(texts) if len(texts) <= MOST_PREFIXES else f"{texts[0]} .. {texts[-1]} ({len(texts)})"
            found.append(f"{shown} {ordinal(place)}")
        return found


def node_of(target):
    """The node of the drawing that a target leads to: a relay's name, or a place as point and subsystem number."""
    if target.relay is not None:
        return "relay", target.relay
    return "place", target.point, plan_file.ANY_SSN if target.ssn is None else str(target.ssn)


def stop_of(hop):
    return "stop", str(hop.number)


def identity(node):
    return " ".join([node[0], *filter(None, ["/".join(node[1:])])])


class Drawing:
    """The text of a picture of one plan, or of two under the words old and new, with a route or without one."""

    def __init__(self, plans, route=None, rows=True, words=True):
        self.plans, self.route = plans, route
        self.hops = route.hops if route else []
        self.edges = {which: Edges(plan) for which, plan in plans.items()}
        keys = list(dict.fromkeys(edge for edges in self.edges.values() for edge in edges.rows))
        self.is_full = rows and not (route and len(keys) > MOST_EDGES)
        self.has_edge_words = len(keys) <= MOST_EDGES
        self.has_words = words
        self.keys = keys if self.is_full else self.tried()
        self.drawn = [hop for hop in self.hops if hop.step]
        self.colour = BAD if route and route.is_bad else GOOD
        self.kind = "bad" if route and route.is_bad else "good"

    def tried(self):
        """The edges of the targets that a hop finds closed."""
        found = {}
        for hop in self.hops:
            if hop.step and hop.step.row:
                targets = hop.step.row.targets[:hop.step.target]
                found.update(((hop.relay, node_of(target)), None) for target in targets)
        return list(found)

    def end_of(self, hop):
        """The node that a hop leads to."""
        if hop.step.what in ("sent", "ended"):
            return node_of(hop.step.row.targets[hop.step.target])
        return stop_of(hop)

    def text(self):
        found = ["digraph plan {"] + self.settings()
        if self.hops:
            found += self.title_lines()
        found += [line for node in self.nodes() for line in self.node_lines(node)]
        taken = set()
        for hop in self.drawn:
            end = self.end_of(hop)
            taken.add((hop.relay, end))
            found.append(edge_line(("relay", hop.relay), end, label=hop_label(hop), color=self.colour, fontcolor=self.colour,
                                   fontsize=14, penwidth=2, **{"class": f"hop {self.kind}"}))
        found += [self.group_line(edge) for edge in self.keys if edge not in taken]
        return "\n".join(found + ["}"]) + "\n"

    def settings(self):
        is_long = len({hop.relay for hop in self.hops}) > WIDEST
        graph = {"rankdir": "TB" if is_long else "LR", "fontname": "Helvetica", "fontsize": 11, "labelloc": "b", "labeljust": "l",
                 "nodesep": 0.3, "ranksep": 0.4 if is_long else 0.6, "bgcolor": "white"}
        found = [f"  graph {attributes(graph)};"]
        if self.has_words and self.hops:
            found.append('  label="%s";' % "".join(escaped(line) + "\\l" for line in self.legend()))
        found.append(f"  node {attributes({'fontname': 'Helvetica', 'fontsize': 11, 'style': 'filled', 'fillcolor': 'white'})};")
        found.append(f"  edge {attributes({'fontname': 'Helvetica', 'fontsize': 10, 'color': GREY, 'fontcolor': '#57606a', 'arrowsize': 0.7})};")
        return found

    def legend(self):
        head = [self.route.line()] if self.route.line() else []
        for hop in self.hops:
            said = hop.words() if hop.step else f"{lines.write_line(hop.record)} (the plan has another step here)"
            head.append(f"{hop.number}  {said}")
        return head

    def title_lines(self):
        title = self.route.title()
        words = f"{title.selector} ssn {title.ssn}\n{title.digits or 'no digits'}"
        note = {"shape": "note", "color": NOTE, "fontcolor": NOTE, "class": "title", "label": words}
        return [f"  {quoted(identity(('title',)))} {attributes(note)};",
                edge_line(("title",), ("relay", self.hops[0].relay), color=NOTE, **{"class": "title"})]

    def nodes(self):
        """What is drawn: the relays of the route first, then the others, and the places."""
        route = [("relay", hop.relay) for hop in self.hops]
        relays = [("relay", relay.name) for plan in self.plans.values() for relay in plan.relays] if self.is_full else []
        ends = [self.end_of(hop) for hop in self.drawn]
        tried = [node for _, node in self.keys]
        return list(dict.fromkeys(route + relays + ends + tried))

    def node_lines(self, node):
        if node[0] == "relay":
            return self.relay_lines(node)
        if node[0] == "place":
            return self.place_lines(node)
        hop = next(hop for hop in self.drawn if stop_of(hop) == node)
        words = {"overgrown": "more than\n32 digits", "blocked": f"blocked\ncause {hop.step.cause}"}
        words = words.get(hop.step.what, f"no row\ncause {hop.step.cause}")
        return [f"  {quoted(identity(node))} {attributes({'shape': 'octagon', 'color': self.colour, 'fontcolor': self.colour, 'class': f'stop {self.kind}', 'label': words})};"]

    def relay_lines(self, node):
        name = node[1]
        relays = [plan.by_name[name] for plan in self.plans.values() if name in plan.by_name]
        counts = list(dict.fromkeys(rows_words(len(relay.rows)) for relay in relays))
        words = [name] + ([relays[0].point, ", ".join(counts)] if relays else [])
        on_route = any(hop.relay == name for hop in self.hops)
        words += self.closed_words([f"point:{relays[0].point}", f"sccp:{relays[0].point}"] if relays else [])
        shown = {"shape": "box", "style": "rounded,filled" + (",dashed" if len(words) > 3 else ""),
                 "color": self.colour if on_route else "#57606a", "fillcolor": ("#fbeae9" if self.kind == "bad" else "#e9f6ec") if on_route else "#f6f8fa",
                 "class": "relay" + (f" {self.kind}" if on_route else ""), "label": "\n".join(words)}
        return [f"  {quoted(identity(node))} {attributes(shown)};"]

    def place_lines(self, node):
        point, ssn = node[1:]
        at = [plan.by_point[point].name for plan in self.plans.values() if point in plan.by_point]
        words = [point + (f" (relay {at[0]})" if at else ""), "ssn of the title" if ssn == plan_file.ANY_SSN else f"ssn {ssn}"]
        numbers = {str(hop.title.ssn) for hop in self.hops} if ssn == plan_file.ANY_SSN else {ssn}
        closed = self.closed_words([f"point:{point}", f"sccp:{point}"] + [f"subsystem:{point}/{number}" for number in sorted(numbers)])
        shown = {"shape": "ellipse", "style": "filled,dashed" if closed else "filled", "color": GREY if closed else "#57606a",
                 "fontcolor": "#57606a" if closed else "black", "fillcolor": "#eeeeee" if closed else "white",
                 "class": "place" + (" closed" if closed else ""), "label": "\n".join(words + closed)}
        return [f"  {quoted(identity(node))} {attributes(shown)};"]

    def closed_words(self, marks):
        """Which relays of the route hold one of these marks."""
        holders = list(dict.fromkeys(hop.relay for hop in self.hops if any(mark in hop.held for mark in marks)))
        return [f"prohibited at {', '.join(holders)}"] if holders else []

    def group_line(self, edge):
        words = {which: edges.words(edge) for which, edges in self.edges.items()}
        rows = [place for edges in self.edges.values() for place in edges.rows.get(edge, {})]
        if len({tuple(found) for found in words.values()}) > 1:
            label = [f"{which} {line}" for which, found in words.items() for line in found]
        else:
            label = next(iter(words.values()))
        shown = {"style": "solid" if 0 in rows else "dashed", "class": "rows"}
        if self.is_full and self.has_edge_words:
            shown["label"] = "\n".join(label)
        return edge_line(("relay", edge[0]), edge[1], **shown)


def hop_label(hop):
    return f"{hop.number} {hop.which}" if hop.which else str(hop.number)


def rows_words(count):
    return f"{count} row" + ("" if count == 1 else "s")


def escaped(text):
    return text.replace("\\", "\\\\").replace('"', '\\"').replace("\n", "\\n")


def quoted(text):
    return f'"{escaped(text)}"'


def attributes(shown):
    return "[" + ", ".join(f"{key}={quoted(str(value))}" for key, value in shown.items()) + "]"


def edge_line(start, end, **shown):
    return f"  {quoted(identity(start))} -> {quoted(identity(end))} {attributes(shown)};"


def draw(plans, route=None, rows=True, words=True):
    """The text of a picture. `plans` has one plan under None, or two under old and new; without words there are none below it."""
    if route:
        route.find_steps(plans)
    return Drawing(plans, route, rows, words).text()


# ---- the words of the call

class Failed(Exception):
    """Why there is no picture, and the status."""

    def __init__(self, status, why):
        super().__init__(why)
        self.status = status


def read_plan(path):
    try:
        return plan_file.read(path)
    except OSError as fault:
        raise Failed(74, f"{path}: cannot be read: {fault.strerror}") from None
    except plan_file.Unreadable as fault:
        raise Failed(1, f"{path}: {fault}") from None


def printed_by(program, words):
    """The lines that the program prints of these words."""
    try:
        done = subprocess.run([program, *words], stdin=subprocess.DEVNULL, stdout=subprocess.PIPE, text=True, errors="replace", check=False)
    except OSError as fault:
        raise Failed(70, f"{program}: cannot be run: {fault.strerror}") from None
    if done.returncode == 70 or done.returncode < 0:
        raise Failed(70, f"{program} ended with status {done.returncode}")
    return done.stdout.splitlines()


def lines_in(path):
    if path == "-":
        return sys.stdin.read().splitlines()
    try:
        with open(path, encoding="utf-8", errors="replace") as file:
            return file.read().splitlines()
    except OSError as fault:
        raise Failed(74, f"{path}: cannot be read: {fault.strerror}") from None


def picture_of(words):
    if words.change:
        plans = dict(zip(("old", "new"), map(read_plan, words.change)))
        asked = ["change", *words.change]
    else:
        plans = {None: read_plan(words.plan)}
        asked = ["verify", words.plan] if words.verify else None
    printed = None
    if words.route:
        printed = lines_in(words.route)
    elif asked:
        printed = printed_by(words.program, ["wide", *asked] if words.wide else asked)
    if printed is None:
        return draw(plans, rows=not words.no_rows)
    route = first_route(routes_in(lines.read_groups(printed)))
    if route is None:
        raise Failed(1, f"no route in what was printed: {printed[0] if printed else 'nothing'}")
    return draw(plans, route, rows=not words.no_rows)


def main(words):
    parser = argparse.ArgumentParser(add_help=False, allow_abbrev=False, usage="picture.py [--verify | --route FILE] [--no-rows] [--wide] [--program FILE] PLAN | --change OLD NEW")
    parser.add_argument("plan", nargs="?")
    parser.add_argument("--change", nargs=2)
    parser.add_argument("--verify", action="store_true")
    parser.add_argument("--route")
    parser.add_argument("--no-rows", action="store_true")
    parser.add_argument("--wide", action="store_true")
    parser.add_argument("--program", default=os.path.join(TOP, "sccp"))
    if words in (["-h"], ["--help"]):
        print(__doc__, end="")
        return 0
    try:
        words = parser.parse_args(words)
    except SystemExit:
        return 64
    if (words.plan is None) == (words.change is None) or words.verify and (words.route or words.change):
        parser.print_usage(sys.stderr)
        return 64
    try:
        sys.stdout.write(picture_of(words))
    except Failed as fault:
        print(f"picture.py: {fault}", file=sys.stderr)
        return fault.status
    return 0


if __name__ == "__main__":
    sys.exit(main(sys.argv[1:]))
