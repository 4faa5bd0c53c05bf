#!/usr/bin/env python3
"""Measures how fast the built program reads and tests a plan file: `route` of one title over a plan of 4,096 rows.

The plans are made so: one relay with all rows, or sixty-four relays with sixty-four rows each; every row has a prefix of its
own of five digits and is followed by a comment that brings the file to half a million or a million octets. A third pair has
half as many rows, too. The time for the longer file has to be about twice that for the shorter one.

Two more kinds are of version 2, written in no order. Nested: 315 numbers of three digits, each followed by up to twelve times
the digit 1, so that a prefix begins up to twelve others. Named: every prefix of five digits is in a row for subsystem 6
and in a row for any.

Run it from anywhere: bench/route.py [PROGRAM]. It builds nothing: run ./sccp --prove before.
"""
import math
import os
import resource
import subprocess
import sys
import tempfile
import time

TOP = os.path.dirname(os.path.dirname(os.path.abspath(__file__)))
PROGRAM = os.path.abspath(sys.argv[1]) if len(sys.argv) > 1 else os.path.join(TOP, "crates/sccp/out/sccp")


def plan(nodes, rows, size):
    """A plan of this number of nodes and of rows in each, as near to the size as whole comments bring it."""
    lines = ["version = 1"]
    for i in range(nodes):
        lines += ["[[node]]", f'name = "n{i}"', f'point = "{i + 1}"']
        for j in range(rows):
            lines += ["[[node.row]]", 'selector = "4:0:1:4"', f'prefix = "{j:05}"', 'first = { final = "2-0-1", ssn = 6 }', "#"]
    lines += ["[[cover]]", 'node = "n0"', 'selector = "4:0:1:4"', "ssn = 6", 'prefix = "00000"', "least = 12", "most = 12",
              'allowed = ["2-0-1/6"]', ""]
    missing = size - len("\n".join(lines))
    filler = missing // (nodes * rows)
    return "\n".join("#" + "x" * filler if line == "#" else line for line in lines)


def second_version(rows):
    """A plan of version 2 with these rows, a prefix and a subsystem number or none each, at one relay, shuffled."""
    lines = ["version = 2", "[[node]]", 'name = "n0"', 'point = "1"']
    step = 1 + 2 * (len(rows) // 3)
    while math.gcd(step, len(rows)) > 1:
        step += 1
    for k in range(len(rows)):
        prefix, ssn = rows[k * step % len(rows)]
        lines += ["[[node.row]]", 'selector = "4:0:1:4"', f'prefix = "{prefix}"']
        lines += [f"ssn = {ssn}"] if ssn else []
        lines += ['targets = [{ final = "2-0-1", ssn = 6 }]']
    lines += ["[[cover]]", 'node = "n0"', 'selector = "4:0:1:4"', "ssn = 6", 'prefix = "00000"', "least = 12", "most = 12",
              'allowed = ["2-0-1/6"]', ""]
    return "\n".join(lines)


def nested(stems):
    return second_version([(f"{stem:03}" + "1" * ones, None) for stem in range(stems) for ones in range(13)])


def named(prefixes):
    return second_version([(f"{prefix:05}", ssn) for prefix in range(prefixes) for ssn in (6, None)])


def measure(folder):
    start = time.monotonic()
    done = subprocess.run([PROGRAM, "route", "plan.toml", "n0", "4:0:1:4", "6", "000000000000"], cwd=folder, capture_output=True)
    return time.monotonic() - start, done


def main():
    plans = [(f"{nodes} nodes of {rows} rows", plan(nodes, rows, size))
             for nodes, rows, size in ((1, 4096, 500_000), (1, 4096, 1_000_000), (64, 64, 500_000), (64, 64, 1_000_000),
                                       (1, 2048, 250_000), (1, 2048, 500_000))]
    plans += [(f"{13 * stems} rows of nested prefixes", nested(stems)) for stems in (157, 315)]
    plans += [(f"{2 * prefixes} rows in pairs, with a subsystem and without", named(prefixes)) for prefixes in (1024, 2048)]
    with tempfile.TemporaryDirectory() as folder:
        for what, text in plans:
            with open(os.path.join(folder, "plan.toml"), "w") as made:
                made.write(text)
            seconds, done = min((measure(folder) for _ in range(5)), key=lambda run: run[0])
            peak = resource.getrusage(resource.RUSAGE_CHILDREN).ru_maxrss / 1024
            print(f"{what}, {len(text)} octets: status {done.returncode}, {seconds * 1000:.1f} ms, "
                  f"peak so far {peak:.1f} MB, {done.stdout.decode().strip()}")


if __name__ == "__main__":
    main()
