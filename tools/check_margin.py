#!/usr/bin/env python3
"""Compares what `margin` prints with brute force, on small plans that are drawn, and replays the losses that it shows.

For half of the plans only points may be lost, and for the others the relays' own subsystems as well. For each cover the sets of what
the plan names of these, without the point of its entry relay, are gone through by their size, and each title is followed for fourteen
hops while all relays hold the set. So the least number of losses that stop a title is known. What is printed is held against it: the
bound, the verdict and the last line exactly, of each cover the number, and the shown route hop by hop, whichever lawful one was chosen.

Each shown title is then sent by `replay`, before and after every relay that is not lost itself learns of the losses: first it
arrives, and then it is returned from the last shown relay, over the shown ones. Relays learn of a subsystem by a message for SCCP
management from its point, and the relay that has it by a line of its own.

  tools/check_margin.py [--plans N] [--seed N] [--program FILE]

200 plans are drawn, most of them safe. The program is ./sccp of this repository if none is named. The last line counts the answers,
and of the losses that were replayed those of a destination, of a relay, of both, and of a subsystem. Each plan with a difference is
printed with it, and the status is then 1.
"""
import argparse
import collections
import itertools
import os
import sys
import tempfile

sys.dont_write_bytecode = True
sys.path.insert(0, os.path.dirname(os.path.realpath(__file__)))
import small_plans  # noqa: E402
from small_plans import FAR, MOST_HOPS, Cover, Final, Node, Plan, Relay, Row  # noqa: E402
from small_plans import answer_of, has, hop_of, is_safe, plan_text, route_of, spots_of, step  # noqa: E402

TOP = os.path.dirname(os.path.dirname(os.path.abspath(__file__)))
ORIGIN = "7-0-7"  # the point that sends the messages of a replay


# ---- brute force

def destinations(plan):
    return {target.point for node in plan.nodes for row in node.rows for target in row.targets if isinstance(target, Final)}


def points_of(plan):
    """The points whose loss may close a target."""
    return sorted(destinations(plan) | {node.point for node in plan.nodes})


def losses_of(plan, subsystems):
    """What may be lost, as marks."""
    own = [("subsystem", node.point, ssn) for node in plan.nodes for ssn in node.subsystems] if subsystems else []
    return [("point", point) for point in points_of(plan)] + own


class Outage:
    """What becomes of titles while all relays hold these marks."""

    def __init__(self, plan, marks):
        self.plan, self.marking = plan, frozenset(marks)
        self.ends = {}

    def end_of(self, spot):
        """The last step of the title's route of at most fourteen hops. The plan is safe, so no title goes in a circle."""
        if spot not in self.ends:
            made = step(self.plan, spot, self.marking)
            self.ends[spot] = self.end_of(made[1]) if made[0] == "sent" else made
        return self.ends[spot]

    def stops_one(self, cover):
        """Whether some title of the cover does not arrive."""
        ends = {self.end_of(spot) for spot in spots_of(cover)}
        return any(end[0] != "ended" or end[1:3] not in cover.allowed for end in ends)


def least_stopping(plan, cover, subsystems, most):
    """The least number of losses that stop a title of the cover, up to this number, or None if no so many do."""
    losses = [mark for mark in losses_of(plan, subsystems) if mark != ("point", plan.nodes[cover.node].point)]
    for count in range(min(len(losses), most) + 1):
        if any(Outage(plan, lost).stops_one(cover) for lost in itertools.combinations(losses, count)):
            return count
    return None


# ---- what is printed

class Shown:
    """A title that is stopped: its cover, the lines of its hops, and what is lost."""

    def __init__(self, plan, number, count, lines):
        self.number, self.count, self.lines = number, count, lines
        self.hops = [hop_of(plan, line) for line in lines]
        self.points = sorted(mark[1] for mark in self.hops[0][1] if mark[0] == "point")
        self.subsystems = sorted(mark[1:] for mark in self.hops[0][1] if mark[0] == "subsystem")

    def check(self, plan, subsystems):
        cover = plan.covers[self.number]
        spots, made = route_of([(plan, line) for line in self.lines])
        marking = self.hops[0][1]
        assert all(hop[1] == marking for hop in self.hops), "the relays hold different marks"
        losses = losses_of(plan, subsystems)
        assert all(mark in losses for mark in marking) and len(marking) == self.count, f"not {self.count} losses"
        assert has(cover, spots[0]), f"cover {self.number} does not have the title"
        assert plan.nodes[cover.node].point not in self.points, "the entry relay is lost"
        assert made[0] == "blocked" and len(spots) <= MOST_HOPS, "the title is not blocked"


def shown_in(plan, lines):
    """The lines about each cover: its number, the words after that, and what is shown of it."""
    found, hops = [], []
    for line in lines:
        if line.startswith("at "):
            hops.append(line)
            continue
        if hops:
            found[-1][2].extend(hops)
            hops = []
        words = line.split(" ")
        assert words[0] == "cover" and len(words) > 2, f"no line of a cover: {line}"
        found.append((int(words[1]), words[2:], []))
    if hops:
        found[-1][2].extend(hops)
    return found


def check_cover(plan, losses, subsystems, number, words, hops):
    """The number that stops a cover, if it is printed as it is, and what is shown of it."""
    whole = words == ["survives", "any"]
    least = least_stopping(plan, plan.covers[number], subsystems, 99 if whole else losses)
    if least is not None and least <= losses:
        assert words == ["stopped", "by", str(least)], f"cover {number} is stopped by {least}"
        shown = Shown(plan, number, least, hops)
        shown.check(plan, subsystems)
        return least, shown
    assert not hops, f"hops of cover {number}, which is not stopped"
    others = len(losses_of(plan, subsystems)) - 1
    if least is None and (losses >= others or whole):
        assert words == ["survives", "any"], f"cover {number} survives any"
    else:
        assert words == ["survives", str(losses)], f"cover {number} survives {losses}"
    return None, None


def check_answer(plan, losses, subsystems, verified, status, printed):
    """The titles that are shown, if all is printed as brute force has it. `verified` has the status and the lines of verify."""
    bound = is_safe([plan])
    if bound is None:
        assert (status, printed) == verified and status == 1, "a plan that is refused is printed as by verify"
        return None
    assert printed and printed[0] == f"accepted bound {bound}", f"the plan is safe for {bound}"
    shown, stopping = [], []
    covers = shown_in(plan, printed[1:-1])
    assert [number for number, _, _ in covers] == list(range(len(plan.covers))), "not one line for each cover"
    for number, words, hops in covers:
        least, one = check_cover(plan, losses, subsystems, number, words, hops)
        if one is not None:
            shown.append(one)
            stopping.append(least)
    last = f"least {min(stopping)} stopped {len(stopping)} too wide 0" if stopping else f"all survive {losses}"
    assert printed[-1] == last, f"the last line is to be: {last}"
    assert status == (1 if stopping else 0), f"status {status}"
    return shown


# ---- replays

def message_of(spot):
    """A UDT that asks for its return, to the title of a spot of kind 4, from subsystem 8 of the origin."""
    kind, translation, plan, nature = map(int, spot.selector.split(":"))
    assert kind == 4
    is_odd = len(spot.digits) % 2
    digits = spot.digits + "0" * is_odd
    swapped = "".join(digits[at + 1] + digits[at] for at in range(0, len(digits), 2))
    called = bytes([0x12, spot.ssn, translation, plan << 4 | (1 if is_odd else 2), nature]) + bytes.fromhex(swapped)
    zone, area, point = map(int, ORIGIN.split("-"))
    code = zone << 11 | area << 3 | point
    calling = bytes([0x43, code & 255, code >> 8, 8])
    parts = [bytes([len(part)]) + part for part in (called, calling, b"\xAA\xBB")]
    pointers = [3 - at + sum(len(part) for part in parts[:at]) for at in range(3)]
    return (bytes([0x09, 0x80, *pointers]) + b"".join(parts)).hex().upper()


def code_of(point):
    """The two octets of a point code."""
    zone, area, number = map(int, point.split("-"))
    return (zone << 11 | area << 3 | number).to_bytes(2, "little")


def losing(node, point, ssn):
    """The line by which a relay learns that a subsystem is prohibited."""
    if node.point == point:
        return f"down {node.name} {ssn}"
    data = bytes([2, ssn, *code_of(point), 0])
    return f"msg {node.name} {point} 0900030507024201024201{len(data):02X}{data.hex().upper()}"


def check_replay(program, folder, plan, shown):
    """The title arrives while nothing is lost, and is stopped as shown once each relay that is not lost holds what is lost."""
    spot = shown.hops[0][0]
    entry = plan.nodes[spot.node].name
    message = f"msg {entry} {ORIGIN} {message_of(spot)}"
    up = [node for node in plan.nodes if node.point not in shown.points]
    lines = [losing(node, *subsystem) for node in up for subsystem in shown.subsystems]
    lines += [f"pause {node.name} {point}" for node in up for point in shown.points]
    with open(os.path.join(folder, "trace.txt"), "w", encoding="utf-8") as file:
        file.write("\n".join([message, *lines, message]) + "\n")
    printed = answer_of(program, folder, "replay", "plan.toml", "trace.txt", "1")[1]
    first, last = [line for line in printed if line.split(" ")[0] in ("1", str(len(lines) + 2)) and " by 1 via " in line]
    before, words = first.split(" "), last.split(" ")
    made = step(plan, *shown.hops[-1][:2])
    via = ",".join(plan.nodes[here.node].name for here, _, _ in shown.hops)
    arrived = before[3] == "via" and before[4].split(",")[0] == entry and before[5] in ("ended", "local")
    assert arrived, f"the title does not arrive: {first}"
    assert words[3:7] == ["via", via, "returned", str(made[1])], f"the title is to be returned from {via}, cause {made[1]}: {last}"
    marks = set(words[8].split(","))
    lost = {f"point:{point}" for point in shown.points} | {f"subsystem:{point}/{ssn}" for point, ssn in shown.subsystems}
    assert words[7] == "marks" and marks <= lost, f"other marks: {last}"


def kinds_of(plan, shown):
    """Of what is lost, whether it is a destination, a relay or both, or a subsystem."""
    relays, ends = {node.point for node in plan.nodes}, destinations(plan)
    points = {"both" if point in relays & ends else "a relay" if point in relays else "a destination" for point in shown.points}
    return points | {"a subsystem" for _ in shown.subsystems}


# ---- plans that are drawn

class Draw(small_plans.Draw):
    """Plans with destinations at the points of relays among them, and with several targets in most rows."""

    def final(self, place):
        kind = self.random.random()
        if kind < 0.2:
            return Final(f"1-0-{place + 1}", 6)
        if kind < 0.55:
            return Final(f"1-0-{self.random.randint(1, 4)}", 6)
        return Final(self.one([*FAR, "2-0-3"]), 6)

    def rows(self, names, place, order):
        return [row._replace(targets=row.targets + [self.target(names, place, order, row.prefix)]) if self.chance(0.5) else row
                for row in super().rows(names, place, order)]

    def shape(self):
        return [node._replace(subsystems=[6, 8] if self.chance(0.9) else []) for node in super().shape()]

    def cover(self, count):
        cover = super().cover(count)
        places = [(point, ssn) for point in [*FAR, "2-0-3", *(f"1-0-{n}" for n in range(1, 6))] for ssn in (6, 8)]
        allowed = places if self.chance(0.9) else [place for place in places if self.chance(0.8)]
        most = min(2, cover.most)
        return cover._replace(least=max(1, min(cover.least, most)), most=most, allowed=allowed)

    def mates(self):
        """A row with many destinations, and after them a relay that has others: several points have to be lost."""
        far = [f"2-0-{n}" for n in range(1, 7)]
        self.random.shuffle(far)
        split = self.one([1, 2, 3])
        first, second = far[:split], far[split - 1:split + self.one([1, 2])]
        rows = [Row("4:0:1:4", None, "", [Final(point, 6) for point in first] + [Relay("b", 0, "", None, None)]),
                Row("4:0:1:4", None, "", [Final(point, 6) for point in second])]
        if self.chance(0.5):
            self.random.shuffle(rows[0].targets)
        nodes = [Node("a", "1-0-1", [6], [], rows[:1]), Node("b", "1-0-2", [6], [], rows[1:])]
        return Plan(nodes, [Cover(0, "4:0:1:4", 6, "", 1, 2, [(point, 6) for point in far])])

    def drawn(self):
        if self.chance(0.2):
            return self.mates()
        shape = self.shape()
        return self.plan(shape) if self.chance(0.05) else self.until_safe(lambda: self.plan(shape))


# ---- the words of the call

def main():
    parser = argparse.ArgumentParser(description=__doc__, formatter_class=argparse.RawDescriptionHelpFormatter)
    parser.add_argument("--plans", metavar="N", type=int, default=200, help="how many plans are drawn")
    parser.add_argument("--seed", metavar="N", type=int, default=1, help="what they are drawn from")
    parser.add_argument("--program", metavar="FILE", default=os.path.join(TOP, "sccp"), help="the program to run")
    words = parser.parse_args()
    program = os.path.abspath(words.program)
    draw, answers, replayed, different = Draw(words.seed), collections.Counter(), collections.Counter(), 0
    with tempfile.TemporaryDirectory() as folder:
        for number in range(words.plans):
            plan, losses, subsystems = draw.drawn(), draw.one([0, 1, 1, 2, 3, 9]), draw.chance(0.5)
            with open(os.path.join(folder, "plan.toml"), "w", encoding="utf-8") as file:
                file.write(plan_text(plan))
            status, printed = answer_of(program, folder, "margin", "plan.toml", str(losses), *["subsystems"] * subsystems)
            try:
                verified = answer_of(program, folder, "verify", "plan.toml") if printed[:1] and printed[0].startswith("refused") else None
                shown = check_answer(plan, losses, subsystems, verified, status, printed)
                answers["refused plans"] += shown is None
                answers.update(f"stopped by {one.count}" for one in shown or [])
                answers.update(line.split(" ", 2)[2] for line in printed if " survives " in line)
                for one in shown or []:
                    check_replay(program, folder, plan, one)
                    replayed.update(kinds_of(plan, one))
            except (AssertionError, IndexError, ValueError) as fault:
                different += 1
                of = "points and subsystems" if subsystems else "points"
                print(f"plan {number} of seed {words.seed}, {losses} {of}: {fault}", plan_text(plan), "\n".join(printed), sep="\n")
    told = ", ".join(f"{count} {what}" for what, count in sorted(answers.items()))
    points = ", ".join(f"{count} of {what}" for what, count in sorted(replayed.items()))
    print(f"{words.plans} plans, {different} with differences. Covers: {told}. Replayed, with losses: {points}")
    return 1 if different else 0


if __name__ == "__main__":
    sys.exit(main())
