"""Counts what a replay printed, in one pass and in memory that does not grow with the trace.

`Counts().take(record)` takes each record of `lines.read_lines(printed, "replay")` in order. The numbers are those of the printed
lines, and nothing is worked out beyond them.
"""
import collections

import lines

MOST_KINDS = 2000  # different ends that are kept apart; further ones are counted together
MOST_KEPT = 200  # plan lines, and events with their text
MOST_BINS = 200  # pieces of the strip of time


class Strip:
    """Counts by line numbers, in pieces of equal width that grows as more lines are read."""

    KINDS = ("messages", "returned", "events", "plans")

    def __init__(self):
        self.width, self.bins = 1, []

    def add(self, line, kind):
        while (line - 1) // self.width >= MOST_BINS:
            self.bins = [self.joined(place) for place in range(0, len(self.bins), 2)]
            self.width *= 2
        place = max(line - 1, 0) // self.width
        while len(self.bins) <= place:
            self.bins.append(dict.fromkeys(self.KINDS, 0))
        self.bins[place][kind] += 1

    def joined(self, place):
        pair = self.bins[place:place + 2]
        return {kind: sum(one[kind] for one in pair) for kind in self.KINDS}


class Counts:
    def __init__(self):
        self.printed = 0
        self.messages = 0
        self.ends = collections.Counter()
        self.by_plan = collections.Counter()
        self.reached, self.ended, self.events = (collections.Counter() for _ in range(3))
        self.kinds = collections.Counter()
        self.services = collections.Counter()
        self.segments = collections.Counter()
        self.plans, self.more_plans = [], 0
        self.shown_events, self.more_events = [], 0
        self.others = collections.Counter()
        self.strip = Strip()
        self.last = 0
        self.verdict = None
        self.fault = ""
        self.unread = []

    def take(self, record):
        self.printed += 1
        form = record["form"]
        take = getattr(self, "take_" + form, None)
        if take:
            take(record)
        elif form == "text":
            self.unread = (self.unread + [record["text"]])[:10]
        elif form in ("refused", "too_wide", "bad_plan"):
            self.verdict = record
        elif form in ("bad_trace_line", "too_long", "read_fault"):
            self.fault = lines.write_line(record)
        elif form != "hop":
            self.others[form] += 1
        self.last = max(self.last, record.get("line") or record.get("lines") or 0)

    def take_journey(self, record):
        self.messages += 1
        self.by_plan[record["plan"]] += 1
        via = record["via"]
        self.reached.update(dict.fromkeys(via, 1))
        self.ended[via[-1]] += 1
        self.add_end(end_of(record), via[-1])
        self.strip.add(record["line"], "messages")
        if record["end"] == "returned":
            self.strip.add(record["line"], "returned")
            self.services[way_of(record["service"])] += 1
        if record.get("segment"):
            self.segments[record["segment"]] += 1

    def add_end(self, end, relay):
        key = (*end, relay)
        if key not in self.ends and len(self.ends) >= MOST_KINDS:
            key = (end[0], "other ends", "", "")
        self.ends[key] += 1

    def take_event(self, record):
        self.events[record["node"]] += 1
        self.kinds[record["event"]] += 1
        self.strip.add(record["line"], "events")
        if len(self.shown_events) < MOST_KEPT:
            self.shown_events.append((record["line"], lines.write_line(record).partition(" ")[2]))
        else:
            self.more_events += 1

    def take_plan_accepted(self, record):
        self.strip.add(record.get("line", 1), "plans")
        self.add_plan(record.get("line"), record["plan"], record["file"], f"accepted bound {record['bound']}")

    def take_later_plan(self, record):
        said = lines.write_line(record).split(" ", 3)[3]
        self.add_plan(record["line"], None, record["file"], said)

    take_plan_refused = take_plan_too_wide = take_plan_bad = take_plan_other_nodes = take_later_plan

    def add_plan(self, line, number, file, said):
        if len(self.plans) < MOST_KEPT:
            self.plans.append((line, number, file, said))
        else:
            self.more_plans += 1

    def take_end(self, record):
        self.last = record["lines"]


def end_of(record):
    """How a message ended: the word, its number or place, and the marks that closed its way."""
    end = record["end"]
    if end == "ended":
        return end, f"{record['point']}/{record['ssn']}", ""
    if end == "local":
        return end, str(record["ssn"]), ""
    if end == "returned":
        return end, str(record["cause"]), ",".join(lines.mark_text(mark) for mark in record["marks"])
    return end, "", ""


def way_of(service):
    """What became of the service message of a returned message."""
    if service is None:
        return "none was asked for"
    if service["way"] == "sent":
        return "sent to the point that the message was from"
    if service["way"] == "closed":
        return "not sent, since its way was closed"
    ends = {"ended": "by title, ended at a place", "local": "by title, for a subsystem of a relay", "lost": "by title, lost on its way",
            "management": "by title, for SCCP management", "cut": "by title, cut after fourteen relays"}
    return ends.get(service["end"], "by title")
