#!/usr/bin/env python3
"""Measures the verdict on plans like those of an international gateway: time, memory and instructions of `wide verify` and of the other
commands that judge a plan, and whether planted mistakes are found.

  bench/gateway.py [--program FILE] [--sizes N] [--mistakes N]

The plans are made by tools/gateway_plan.py. The sizes are 4,000, 50,000, 400,000 and 1,048,576 rows; the first three are taken, or as
many as --sizes says. Of each call the status and the first line are compared with what they have to be. Of three runs, of one from
400,000 rows on, the table has the least time of the processor, and the most memory. `route` at a relay that no plan has is reading
alone. Instructions are counted by callgrind up to 50,000 rows, and left out if valgrind is missing.

Then mistakes are planted, five of them or as many as --mistakes says. Each by itself has to make `wide verify` refuse the plan for the
reason that its kind has, with a route of a title of its country. All of them together have to be found by one call of `wide covers`:
the covers that it refuses are covers of their countries, at least one of each.

The status is 1 if anything is not as it has to be. It builds nothing: run ./sccp --prove before.
"""
import argparse
import collections
import os
import re
import shutil
import subprocess
import sys
import tempfile

sys.dont_write_bytecode = True
TOP = os.path.dirname(os.path.dirname(os.path.abspath(__file__)))
sys.path.insert(0, os.path.join(TOP, "tools"))
import gateway_plan  # noqa: E402
from check_gateway import REASONS, codes_of, country_of, covers_of  # noqa: E402

Sizes = collections.namedtuple("Sizes", "rows covers relays seed")
SIZES = [Sizes(4000, 240, 6, 1), Sizes(50_000, 2000, 8, 1), Sizes(400_000, 4000, 8, 1), Sizes(1_048_576, 10_000, 8, 1)]
FOR_MISTAKES = Sizes(20_000, 1000, 8, 2)
SMALL = 50_000
TURNED = 20
CHILD = ("import resource, subprocess, sys, time; out = open('out', 'wb'); start = time.monotonic(); "
         "done = subprocess.run(sys.argv[1:], stdout=out); seconds = time.monotonic() - start; "
         "used = resource.getrusage(resource.RUSAGE_CHILDREN); "
         "print(done.returncode, used.ru_utime + used.ru_stime, seconds, used.ru_maxrss / 1024)")

faults = []


def expect(is_so, what):
    if not is_so:
        faults.append(what)
        print(f"NOT AS IT HAS TO BE: {what}", file=sys.stderr, flush=True)


class Folder:
    """A folder with plans, in which the program is called."""

    def __init__(self, path, program):
        self.path, self.program = path, program

    def write(self, name, text):
        with open(os.path.join(self.path, name), "w", encoding="ascii") as made:
            made.write(text)

    def lines(self):
        """What the last call printed."""
        with open(os.path.join(self.path, "out"), encoding="ascii") as out:
            return out.read().splitlines()

    def once(self, words):
        """The status, the seconds of the processor and by the clock, and the peak in MB of a call."""
        done = subprocess.run([sys.executable, "-c", CHILD, self.program, *words], cwd=self.path, capture_output=True, check=True)
        status, *numbers = done.stdout.split()
        return int(status), *(float(number) for number in numbers)

    def instructions(self, words):
        """Millions of instructions of a call, or none."""
        if not shutil.which("valgrind"):
            return None
        done = subprocess.run(["valgrind", "--tool=callgrind", "--callgrind-out-file=/dev/null", self.program, *words], cwd=self.path,
                              stdout=subprocess.DEVNULL, stderr=subprocess.PIPE, text=True, check=False)
        found = re.search(r"Collected : (\d+)", done.stderr)
        return int(found[1]) / 1e6 if found else None


def calls(sizes):
    """The calls for a plan of these sizes: their words, their status, and how the first line begins."""
    calls = [(["verify", "plan"], 0, "accepted bound "), (["route", "plan", "none", "4:0:1:4", "6", "49"], 0, "unknown node")]
    found = [(["wide", *words], status, first) for words, status, first in calls]
    if sizes.rows <= 4096:
        found = calls + found
    if sizes.rows <= SMALL:
        found += [(["wide", "covers", "plan"], 0, "cover 0 accepted bound "), (["wide", "unused", "plan"], 0, "unused "),
                  (["wide", "margin", "plan", "1"], 0, "accepted bound "), (["wide", "change", "plan", "new"], 0, "old accepted bound ")]
    return found


def measure(folder, sizes):
    """Prints the rows of the table for one plan."""
    folder.write("plan", gateway_plan.made(sizes))
    if sizes.rows <= SMALL:
        folder.write("new", gateway_plan.made(sizes, turned=TURNED))
    octets = os.path.getsize(os.path.join(folder.path, "plan"))
    plan = f"{sizes.rows:,} rows, {sizes.covers:,} covers, {sizes.relays} relays, {octets / 1e6:.1f} MB"
    for words, status, first in calls(sizes):
        runs = [folder.once(words) for _ in range(3 if sizes.rows <= SMALL else 1)]
        lines = folder.lines()
        expect({run[0] for run in runs} == {status} and lines[0].startswith(first), f"{' '.join(words)} of {plan}: {runs[0][0]}, {lines[0]}")
        count = folder.instructions(words) if sizes.rows <= SMALL else None
        used, clock, peak = min(run[1] for run in runs), min(run[2] for run in runs), max(run[3] for run in runs)
        name = " ".join(word for word in words[:2 if words[0] == "wide" else 1])
        print(f"| {plan} | `{name}` | {used:.2f} s | {clock:.2f} s | {peak:.0f} MB | {f'{count:,.0f} million' if count else ''} |", flush=True)


def find_one(folder, number, count):
    """One mistake by itself, which `wide verify` has to show."""
    text = gateway_plan.made(FOR_MISTAKES, count, number)
    folder.write("plan", text)
    (kind, country), = codes_of(text)
    status, *_ = folder.once(["wide", "verify", "plan"])
    lines = folder.lines()
    digits = lines[1].split()[4]
    expect(status == 1 and lines[0].startswith(f"refused {REASONS[kind]}") and digits.startswith(country), f"mistake {number}, {kind}: {lines[:2]}")
    print(f"mistake {number}, {kind}, country {country}: {lines[0]}")


def find_all(folder, count):
    """All mistakes together, which `wide covers` has to show."""
    text = gateway_plan.made(FOR_MISTAKES, count)
    folder.write("plan", text)
    prefixes, wanted = covers_of(text), {country for _, country in codes_of(text)}
    status, used, _, peak = folder.once(["wide", "covers", "plan"])
    refused = [int(line.split()[1]) for line in folder.lines() if re.match(r"cover \d+ refused ", line)]
    found = {country_of(prefixes[cover]) for cover in refused}
    expect(status == 1 and found == wanted, f"covers: status {status}, refused covers of {sorted(found)}, mistakes in {sorted(wanted)}")
    print(f"all {len(wanted)} together: {len(refused)} of {len(prefixes):,} covers refused, those of {len(found)} countries, {used:.2f} s, {peak:.0f} MB")


def main():
    parser = argparse.ArgumentParser(description=__doc__, formatter_class=argparse.RawDescriptionHelpFormatter)
    parser.add_argument("--program", default=os.path.join(TOP, "crates/sccp/out/sccp"))
    parser.add_argument("--sizes", type=int, default=3, choices=range(len(SIZES) + 1))
    parser.add_argument("--mistakes", type=int, default=5)
    words = parser.parse_args()
    with tempfile.TemporaryDirectory() as path:
        folder = Folder(path, os.path.abspath(words.program))
        print("| Plan | Command | Processor | Clock | Peak | Instructions |\n|---|---|---|---|---|---|", flush=True)
        for sizes in SIZES[:words.sizes]:
            measure(folder, sizes)
        for number in range(1, words.mistakes + 1):
            find_one(folder, number, words.mistakes)
        if words.mistakes:
            find_all(folder, words.mistakes)
    return 1 if faults else 0


if __name__ == "__main__":
    sys.exit(main())
