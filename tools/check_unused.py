#!/usr/bin/env python3
"""Compares what `unused` prints with brute force, on small plans that are drawn.

Each title of each cover is followed hop by hop, over every set of the marks that the targets of its row have, for fourteen hops.
So it is known which relays, rows and targets titles use, and of which covers a title finds no row. Of two covers it is asked
title by title whether all titles of the one are titles of the other. All lines have to be as this has them, but of the title that
a gap shows only that it is one after the fewest hops: there may be several.

  tools/check_unused.py [--plans N] [--seed N] [--program FILE]

200 plans are drawn, of several sorts, safe or not. The program is ./sccp of this repository if none is named. The last line counts
what was found unused. Each plan with a difference is printed with it, and the status is then 1.
"""
import argparse
import collections
import os
import sys
import tempfile

sys.dont_write_bytecode = True
sys.path.insert(0, os.path.dirname(os.path.realpath(__file__)))
import small_plans  # noqa: E402
from small_plans import MOST_HOPS, SELECTORS, Cover, Final, Node, Plan, Relay, Row, Spot  # noqa: E402
from small_plans import answer_of, choices_of, outcome, plan_text, row_of, spots_of  # noqa: E402

TOP = os.path.dirname(os.path.dirname(os.path.abspath(__file__)))


# ---- brute force

class Used:
    """What the titles of the covers use within fourteen hops, whatever is prohibited."""

    def __init__(self, plan):
        small_plans.CHOICES.clear()
        self.plan = plan
        self.relays, self.rows, self.targets = set(), set(), set()
        self.gaps = collections.defaultdict(set)  # of each cover, the titles that find no row after the fewest hops
        for number, cover in enumerate(plan.covers):
            here = set(spots_of(cover))
            for _ in range(MOST_HOPS):
                is_first = number not in self.gaps
                here = {further for spot in here for further in self.look(number, spot, is_first)}

    def look(self, number, spot, is_first):
        """Notes what a title of this cover uses at a relay, and gives what it may be at the next one. A gap counts if the cover had none
        after fewer hops."""
        self.relays.add(spot.node)
        row, _ = row_of(self.plan, spot)
        if row is None:
            if is_first:
                self.gaps[number].add(spot)
            return set()
        place = next(place for place, other in enumerate(self.plan.nodes[spot.node].rows) if other is row)
        self.rows.add((spot.node, place))
        chosen = choices_of(self.plan, spot, row)
        self.targets.update((spot.node, place, what[1]) for what in chosen if what[0] == "taken")
        steps = [outcome(self.plan, spot, row, what) for what in chosen]
        return {made[1] for made in steps if made[0] == "sent"}


def needless_covers(plan):
    """Each cover that asks for nothing that another one does not ask for, with the first such; of equal ones the first stays."""
    titles = [set(spots_of(cover)) for cover in plan.covers]
    allowed = [set(cover.allowed) for cover in plan.covers]
    places = range(len(plan.covers))
    adds_nothing = {(j, i) for j in places for i in places if i != j and titles[j] <= titles[i] and allowed[i] <= allowed[j]}
    found = []
    for j in places:
        others = [i for i in places if (j, i) in adds_nothing and (i < j or (i, j) not in adds_nothing)]
        found += [(j, others[0])] if others else []
    return found


def or_dash(value):
    return "-" if value is None or value == "" else str(value)


def wanted_lines(plan, used):
    """The lines up to the gaps, by what they are about."""
    nodes = list(enumerate(plan.nodes))
    rows = [(n, node, r, row) for n, node in nodes for r, row in enumerate(node.rows)]
    return {
        "relays": [f"unused relay {node.name}" for n, node in nodes if n not in used.relays],
        "rows": [f"unused row {node.name} {r} {row.selector} {or_dash(row.ssn)} {or_dash(row.prefix)}" for n, node, r, row in rows
                 if n in used.relays and (n, r) not in used.rows],
        "targets": [f"unused target {node.name} {r} {t}" for n, node, r, row in rows for t in range(len(row.targets))
                    if (n, r) in used.rows and (n, r, t) not in used.targets],
        "covers": [f"unused cover {j} within {i}" for j, i in needless_covers(plan)],
    }


def is_gap(plan, used, number, line):
    """Whether a line shows a title of this cover that finds no row after the fewest hops."""
    words = line.split(" ")
    if len(words) != 11 or words[:2] != ["gap", "cover"] or words[3:5] != ["no", "row"] or words[6] != "at":
        return False
    spot = Spot(small_plans.place_of(plan, words[7]), words[8], int(words[9]), "" if words[10] == "-" else words[10])
    return words[2] == str(number) and spot in used.gaps[number] and words[5] == str(row_of(plan, spot)[1])


def differences(plan, status, printed):
    """What is not as brute force has it, and how many lines of each sort there are to be."""
    used = Used(plan)
    wanted = wanted_lines(plan, used)
    gaps = sorted(used.gaps)
    counts = {what: len(lines) for what, lines in wanted.items()} | {"gaps": len(gaps)}
    lines = [line for found in wanted.values() for line in found]
    shown, last = printed[len(lines):-1], printed[-1:]
    faults = []
    if status != 0:
        faults.append(f"status {status}, not 0")
    faults += [f"not printed: {line}" for line in lines if line not in printed]
    if printed[:len(lines)] != lines:
        faults.append("the first lines are to be: " + " | ".join(lines))
    if len(shown) != len(gaps):
        faults.append(f"there are gaps of the covers {gaps}")
    faults += [f"no gap of cover {number}: {line}" for number, line in zip(gaps, shown) if not is_gap(plan, used, number, line)]
    end = "unused " + " ".join(f"{what} {count}" for what, count in counts.items())
    if last != [end]:
        faults.append(f"the last line is to be: {end}")
    return faults, counts


# ---- plans that are drawn

class Draw(small_plans.Draw):
    """Plans of several sorts: mixed ones, long titles, titles in a circle with a row for a certain hop, and many alike covers."""

    def small(self):
        plan = self.plan(self.shape())
        nodes = [node._replace(rows=self.with_shadows(self.of_selectors(node.rows))) for node in plan.nodes]
        return Plan(nodes, self.with_alike(plan.covers))

    def of_selectors(self, rows):
        """The rows, or those of one selector."""
        left = self.one(SELECTORS) if self.chance(0.15) else None
        return [row for row in rows if left in (None, row.selector)]

    def with_shadows(self, rows):
        """The rows, and perhaps some that take titles from them: for one subsystem number, or for ten longer prefixes; or never any."""
        more = {(row.selector, row.ssn, row.prefix): row for row in rows}
        for row in rows:
            digits = "0123456789" if self.chance(0.08) else "A" if self.chance(0.05) else ""
            prefixes = [row.prefix + digit for digit in digits]
            numbers = [6] if self.chance(0.1) and row.ssn is None else []
            for prefix in prefixes:
                more.setdefault((row.selector, row.ssn, prefix), Row(row.selector, row.ssn, prefix, [self.final(0)]))
            for ssn in numbers:
                more.setdefault((row.selector, ssn, row.prefix), Row(row.selector, ssn, row.prefix, [self.final(0)]))
        return [row._replace(targets=self.with_hidden(row.targets)) for row in more.values()]

    def with_hidden(self, targets):
        """The targets, and perhaps one more that the marks of an earlier one close too."""
        if not self.chance(0.15):
            return targets
        hiding = self.one(targets)
        return list(targets) + [hiding if isinstance(hiding, Final) or self.chance(0.5) else hiding._replace(put="", strip=0)]

    def with_alike(self, covers):
        """The covers, and perhaps some with the same titles or fewer, and as many places or others."""
        made = list(covers)
        for cover in covers:
            for _ in range(self.one([0, 0, 1, 2])):
                least = self.one([cover.least, len(cover.prefix), cover.most])
                prefix = cover.prefix if len(cover.prefix) == cover.most or self.chance(0.7) else cover.prefix + self.one("012")
                allowed = cover.allowed if self.chance(0.6) else cover.allowed[1:] if self.chance(0.5) else [*cover.allowed, ("2-0-3", 6)]
                made.append(cover._replace(least=min(least, cover.most), prefix=prefix, allowed=allowed))
        self.random.shuffle(made)
        return made

    def grown(self):
        """Relays that put many digits in front of titles of fifteen to seventeen, so that some titles of a cover pass 32 digits."""
        names = ["a", "b", "c"][:self.one([2, 3])]
        digits = "".join(self.one("012") for _ in range(15))

        def row(place, prefix):
            others = [name for name in names if name != names[place]]
            put = "".join(self.one("012") for _ in range(self.one([0, 1, 14, 15])))
            targets = [Relay(self.one(others), 0, put, None, None)] + ([Final("2-0-1", 6)] if self.chance(0.5) else [])
            return Row(SELECTORS[0], None, prefix, targets if self.chance(0.8) else targets[::-1])
        nodes = []
        for place, name in enumerate(names):
            prefixes = {""} | {digits[:self.one([1, 2, 15])]} | {self.digits(2) for _ in range(self.one([0, 1, 2]))}
            nodes.append(Node(name, f"1-0-{place + 1}", [], [], [row(place, prefix) for prefix in sorted(prefixes)]))
        least = self.one([15, 16, 17])
        return Plan(nodes, [Cover(0, SELECTORS[0], 6, digits, least, max(least, self.one([16, 17])), [("2-0-1", 6)])])

    def circle(self):
        """Two relays that hand titles to each other with one more digit in front, and a row that counts at one hop alone."""
        hop = self.one([11, 12, 13, 14, 15])
        rows = [[Row(SELECTORS[0], None, "1", [Relay(other, 0, "1", None, None)])] for other in "ba"]
        rows[hop % 2].append(Row(SELECTORS[0], None, "1" * hop, [Final("2-0-1", 6)]))
        rows[0].append(Row(SELECTORS[0], None, "0", [Relay("b", 0, "1", None, None)]))
        for row in rows:
            self.random.shuffle(row)
        nodes = [Node("a", "1-0-1", [], [], rows[0]), Node("b", "1-0-2", [], [], rows[1])]
        return Plan(nodes, [Cover(0, SELECTORS[0], 6, "0", 1, self.one([1, 2]), [("2-0-1", 6)])])

    def drawn(self):
        return self.one([self.small] * 5 + [self.grown] * 3 + [self.circle])()


# ---- the words of the call

def main():
    parser = argparse.ArgumentParser(description=__doc__, formatter_class=argparse.RawDescriptionHelpFormatter)
    parser.add_argument("--plans", metavar="N", type=int, default=200, help="how many plans are drawn")
    parser.add_argument("--seed", metavar="N", type=int, default=1, help="what they are drawn from")
    parser.add_argument("--program", metavar="FILE", default=os.path.join(TOP, "sccp"), help="the program to run")
    words = parser.parse_args()
    draw, counts, different = Draw(words.seed), collections.Counter(), 0
    with tempfile.TemporaryDirectory() as folder:
        name = os.path.join(folder, "plan.toml")
        for number in range(words.plans):
            plan = draw.drawn()
            with open(name, "w", encoding="utf-8") as file:
                file.write(plan_text(plan))
            status, printed = answer_of(os.path.abspath(words.program), folder, "unused", "plan.toml")
            faults, found = differences(plan, status, printed)
            counts.update(found)
            if faults:
                different += 1
                print(f"plan {number} of seed {words.seed}:", *faults, plan_text(plan), *printed, sep="\n")
    told = ", ".join(f"{count} {what}" for what, count in counts.items())
    print(f"{words.plans} plans, {different} with differences. Unused, or gaps: {told}")
    return 1 if different else 0


if __name__ == "__main__":
    sys.exit(main())
