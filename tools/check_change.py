#!/usr/bin/env python3
"""Compares the answers of `change` with those of brute force, on pairs of small plans that are drawn.

What a relay does with a title is written anew in small_plans.py, from its definition: row, targets, marks, rewriting. For each title
that a cover has (all its decimal digits are gone through), each plan and each set of the marks that a row's targets have, the step
is made; so it is known of each title what it can become at its next hop, and where it can end. From that follows whether each
plan is safe, with which bound, and whether the mixture of both is. What the program prints is then held against it: the
bounds exactly, and each route hop by hop, whichever lawful one was chosen.

Run it from anywhere: tools/check_change.py [PAIRS [SEED [PROGRAM]]]. It builds nothing: run ./sccp --prove before. The last line
counts the pairs by their answers; at the first answer that is not lawful the pair is printed, and the status is 1.
"""
import collections
import os
import sys
import tempfile

sys.dont_write_bytecode = True
sys.path.insert(0, os.path.dirname(os.path.realpath(__file__)))
from plan_pairs import Draw, check_bad_route, check_plans, held_and_route  # noqa: E402
from small_plans import answer_of, has, is_safe, plan_text  # noqa: E402

TOP = os.path.dirname(os.path.dirname(os.path.abspath(__file__)))
PAIRS = int(sys.argv[1]) if len(sys.argv) > 1 else 2000
SEED = int(sys.argv[2]) if len(sys.argv) > 2 else 1
PROGRAM = os.path.abspath(sys.argv[3]) if len(sys.argv) > 3 else os.path.join(TOP, "crates/sccp/out/sccp")


# ---- what the program prints

def check_answer(plans, status, lines):
    """The kind of an answer, if it is lawful."""
    decided = check_plans(plans, status, lines)
    if decided:
        return decided
    bound = is_safe([plans["old"], plans["new"]])
    first = lines.pop(0).split(" ")
    if bound is not None:
        assert first == ["change", "accepted", "bound", str(bound)] and status == 0, f"the mixture is safe for {bound}"
        if bound == 0:
            assert not lines
            return "kept 0"
        _, spots, _ = held_and_route(plans, lines)
        assert len(spots) == bound
        assert all(any(has(c, spots[0]) for c in plan.covers) for plan in plans.values())
        return "kept"
    assert first[:2] == ["change", "refused"] and status == 1, "the mixture isn't safe"
    check_bad_route(plans, first[2:], lines)
    return "broken by " + (first[2] if first[2] != "no" else "no row")


def main():
    draw = Draw(SEED)
    counts = collections.Counter()
    with tempfile.TemporaryDirectory() as folder:
        for number in range(PAIRS):
            plans = draw.pair()
            for which, plan in plans.items():
                with open(os.path.join(folder, which), "w") as file:
                    file.write(plan_text(plan))
            status, printed = answer_of(PROGRAM, folder, "change", "old", "new")
            try:
                counts[check_answer(plans, status, list(printed))] += 1
            except (AssertionError, IndexError, ValueError) as fault:
                print(f"pair {number}: {fault}")
                print(plan_text(plans["old"]), plan_text(plans["new"]), *printed, status, sep="\n----\n")
                sys.exit(1)
    print(f"{PAIRS} pairs, all answers lawful:", ", ".join(f"{kind} {count}" for kind, count in sorted(counts.items())))


main()
