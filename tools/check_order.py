#!/usr/bin/env python3
"""Compares what `order` prints with brute force, on pairs of small plans that are drawn.

Each title that a cover has is followed by itself (small_plans.py), under each plan that a relay on its way may hold and each set of the
marks that a row's targets have. So it is known of each set of relays with the new plan which relays can be next, and by that whether
there is an order at all. What is printed is held against it: that each step is safe, with its bound exactly; that the steps lead to
the new plan, each relay once; or that there is no order, that the steps before are safe, and that exactly the relays that are left are
shown. Of each of these the bad mixed route is followed hop by hop, and each of its relays may hold what it is shown to hold.

  tools/check_order.py [--pairs N] [--seed N] [--program FILE]

40 pairs are drawn. Of every second one, titles of each first digit go over the relays in another order under each plan. The program is
./sccp of this repository if none is named. The last line counts the pairs by their answers. At the first answer that is not lawful the
pair is printed, and the status is 1.
"""
import argparse
import collections
import os
import sys
import tempfile

sys.dont_write_bytecode = True
sys.path.insert(0, os.path.dirname(os.path.realpath(__file__)))
from plan_pairs import Draw, check_bad_route, check_plans  # noqa: E402
from small_plans import answer_of, is_safe, place_of, plan_text  # noqa: E402

TOP = os.path.dirname(os.path.dirname(os.path.abspath(__file__)))


# ---- brute force

class Changeover:
    """What becomes of titles while the relays of a pair are given the new plan."""

    def __init__(self, pair):
        self.old, self.new = pair["old"], pair["new"]
        self.differ = frozenset(n for n in range(len(self.old.nodes)) if self.old.nodes[n].rows != self.new.nodes[n].rows)
        self.ends = {}

    def bound(self, done, these):
        """The bound of a step of these relays after those that are done, or None if it is not safe."""
        may = [[self.new] if n in done else [self.old, self.new] if n in these else [self.old] for n in range(len(self.old.nodes))]
        return is_safe([self.old, self.new], may)

    def goes_on(self, done):
        """Whether an order goes on after these relays. If one does, one of single relays does."""
        if done not in self.ends:
            self.ends[done] = done == self.differ or any(
                self.bound(done, {n}) is not None and self.goes_on(done | {n}) for n in sorted(self.differ - done))
        return self.ends[done]


# ---- what the program prints

def check_steps(pair, changeover, lines):
    """The relays of the printed steps, which are taken from the list. Each step is safe for its bound, and no relay is in two."""
    done, number = frozenset(), 0
    while lines and lines[0].startswith("step "):
        number += 1
        word, place, names, bound_word, bound = lines.pop(0).split(" ")
        assert (word, place, bound_word) == ("step", str(number), "bound"), f"not step {number}"
        places = [place_of(pair["old"], name) for name in names.split(",")]
        assert places == sorted(set(places)) and changeover.differ.issuperset(places) and not done & set(places), f"relays of step {number}"
        assert changeover.bound(done, places) == int(bound), f"the bound of step {number}"
        done |= set(places)
    return done, number


def check_stuck(pair, changeover, done, lines):
    """The relays that cannot be next, each with its bad mixed route. All lines are taken from the list."""
    shown = []
    while lines:
        words = lines.pop(0).split(" ")
        assert words[0] == "stuck", "no line of a relay"
        place = place_of(pair["old"], words[1])
        hops = []
        while lines and not lines[0].startswith("stuck "):
            hops.append(lines.pop(0))
        held, spots = check_bad_route(pair, words[2:], hops)
        for which, spot in zip(held, spots):
            may = {"new"} if spot.node in done else {"old", "new"} if spot.node == place else {"old"}
            assert which in may or spot.node not in changeover.differ, f"{words[1]}: a relay holds what it may not"
        assert changeover.bound(done, {place}) is None, f"{words[1]} can be next"
        shown.append(place)
    assert shown == sorted(changeover.differ - done), "not exactly the relays that are left"
    return len(shown)


def check_answer(pair, status, lines):
    """The kind of an answer, if it is lawful."""
    decided = check_plans(pair, status, lines)
    if decided:
        return decided
    changeover = Changeover(pair)
    first = lines.pop(0)
    if first.startswith("order "):
        assert status == 0
        done, number = check_steps(pair, changeover, lines)
        assert first == f"order {number}" and done == changeover.differ and not lines, "the steps are not the whole order"
        return f"order of {number if number < 3 else '3 or more'}"
    assert first == "no order" and status == 1, "no answer on an order"
    assert not changeover.goes_on(frozenset()), "there is an order"
    done, number = check_steps(pair, changeover, lines)
    check_stuck(pair, changeover, done, lines)
    return "no order" + (" after steps" if number else "")


def main():
    words = argparse.ArgumentParser(description="Compares what order prints with brute force.")
    words.add_argument("--pairs", type=int, default=40)
    words.add_argument("--seed", type=int, default=1)
    words.add_argument("--program", default=os.path.join(TOP, "sccp"))
    given = words.parse_args()
    draw, counts = Draw(given.seed), collections.Counter()
    with tempfile.TemporaryDirectory() as folder:
        for number in range(given.pairs):
            pair = draw.crossing_pair() if number % 2 else draw.pair()
            for which, plan in pair.items():
                with open(os.path.join(folder, which), "w", encoding="utf-8") as file:
                    file.write(plan_text(plan))
            status, printed = answer_of(os.path.abspath(given.program), folder, "order", "old", "new")
            try:
                counts[check_answer(pair, status, list(printed))] += 1
            except (AssertionError, IndexError, ValueError) as fault:
                print(f"pair {number}: {fault}")
                print(plan_text(pair["old"]), plan_text(pair["new"]), *printed, status, sep="\n----\n")
                sys.exit(1)
    print(f"{given.pairs} pairs, all answers lawful:", ", ".join(f"{kind} {count}" for kind, count in sorted(counts.items())))


if __name__ == "__main__":
    main()
