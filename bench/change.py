#!/usr/bin/env python3
"""Measures what decides whether relays may hold either of two plans: time and peak memory of `change`, and of `verify` on each
of the two plans beside it.

The plans are made so: fourteen relays n0, n1 and so on, each with a hundred rows of two decimal digits; covers at n0 of
exactly two digits, each for a subsystem number of its own, so that each meets one of the other plan. In the old plan each row
relays to the next relay. In the new one, one row in ten relays to the one after the next. The last relay has the destination.
A cover has 1,411 classes in the old plan: 111 at n0, with no, one or two known digits, and 100 at each relay after it. A
second pair is the old plan with itself. The time has to grow as the number of classes does.

Run it from anywhere: bench/change.py [PROGRAM]. It builds nothing: run ./sccp --prove before.
"""
import os
import subprocess
import sys
import tempfile

TOP = os.path.dirname(os.path.dirname(os.path.abspath(__file__)))
PROGRAM = os.path.abspath(sys.argv[1]) if len(sys.argv) > 1 else os.path.join(TOP, "crates/sccp/out/sccp")
NODES = 14
CHILD = ("import resource, subprocess, sys, time; start = time.monotonic(); "
         "done = subprocess.run(sys.argv[1:], capture_output=True); seconds = time.monotonic() - start; "
         "lines = [line for line in done.stdout.decode().split(chr(10)) if ' at ' not in line and not line.startswith('at ')]; "
         "print(done.returncode, seconds, resource.getrusage(resource.RUSAGE_CHILDREN).ru_maxrss, ', '.join(lines[:-1]))")


def target(relay, row, new):
    """What a row leads to: to the next relay, or in the new plan in one row of ten to the one after."""
    to = relay + (2 if new and row % 10 == 0 else 1)
    return f'{{ relay = "n{to}" }}' if to < NODES else '{ final = "2-0-1", ssn = 6 }'


def plan(covers, new):
    lines = ["version = 1"]
    for i in range(NODES):
        lines += ["[[node]]", f'name = "n{i}"', f'point = "{i + 1}"']
        for j in range(100):
            lines += ["[[node.row]]", 'selector = "4:0:1:4"', f'prefix = "{j:02}"', f"first = {target(i, j, new)}"]
    for k in range(covers):
        lines += ["[[cover]]", 'node = "n0"', 'selector = "4:0:1:4"', f"ssn = {2 + k}", 'prefix = ""', "least = 2", "most = 2",
                  'allowed = ["2-0-1/6"]']
    return "\n".join(lines) + "\n"


def measure(folder, *words):
    def once():
        done = subprocess.run([sys.executable, "-c", CHILD, PROGRAM, *words], cwd=folder, capture_output=True)
        status, seconds, peak, told = done.stdout.decode().rstrip("\n").split(" ", 3)
        return float(seconds), int(peak) / 1024, f"status {status}, {told}"
    seconds, peak, told = min(once() for _ in range(3))
    return f"{' '.join(words)}: {told}, {seconds * 1000:.1f} ms, peak {peak:.1f} MB"


def main():
    with tempfile.TemporaryDirectory() as folder:
        for covers in (23, 46, 92, 185):
            for name, new in (("old", False), ("new", True)):
                with open(os.path.join(folder, name), "w") as made:
                    made.write(plan(covers, new))
            print(f"{covers * (111 + 100 * (NODES - 1))} classes in the old plan")
            for words in (("verify", "old"), ("verify", "new"), ("change", "old", "new"), ("change", "old", "old")):
                print("  " + measure(folder, *words))


if __name__ == "__main__":
    main()
