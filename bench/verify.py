#!/usr/bin/env python3
"""Measures the verdict: time and peak memory of `verify` on plans of growing width and of growing number of relays.

The plans are made so: relays n0, n1 and so on in a chain, each with a hundred rows of two decimal digits that relay to the
next, the last with a hundred destinations; covers at n0, equal to each other, of exactly two digits. Each cover has 111
classes at n0, with no, one or two known digits, and 100 at each relay after it. The time has to grow as their number does;
the last plan has more than 262,144 and is too wide.

A second series is the same in version 2: each relay has a row for subsystem 6 beside each of the hundred, and nested
rows of no digit and of one: each look-up has to choose among them, and the classes are as many.

Run it from anywhere: bench/verify.py [PROGRAM]. It builds nothing: run ./sccp --prove before.
"""
import os
import resource
import subprocess
import sys
import tempfile
import time

TOP = os.path.dirname(os.path.dirname(os.path.abspath(__file__)))
PROGRAM = os.path.abspath(sys.argv[1]) if len(sys.argv) > 1 else os.path.join(TOP, "crates/sccp/out/sccp")
CHILD = ("import resource, subprocess, sys, time; start = time.monotonic(); "
         "done = subprocess.run(sys.argv[1:], capture_output=True); seconds = time.monotonic() - start; "
         "print(done.returncode, seconds, resource.getrusage(resource.RUSAGE_CHILDREN).ru_maxrss, "
         "done.stdout.decode().split(chr(10))[0])")


def rows_of(version, target):
    """The rows of a relay: of version 1 a hundred prefixes; of version 2 these twice, and eleven prefixes that begin them."""
    if version == 1:
        return [f'prefix = "{j:02}"\nfirst = {target}' for j in range(100)]
    numbered = [f'prefix = "{j:02}"\nssn = 6\ntargets = [{target}]' for j in range(100)]
    plain = [f'prefix = "{j:02}"\ntargets = [{target}]' for j in range(100)]
    shorter = [f'prefix = "{digits}"\ntargets = [{target}]' for digits in ["", *range(10)]]
    return shorter + plain + numbered


def plan(nodes, covers, version):
    lines = [f"version = {version}"]
    for i in range(nodes):
        lines += ["[[node]]", f'name = "n{i}"', f'point = "{i + 1}"']
        target = f'{{ relay = "n{i + 1}" }}' if i + 1 < nodes else '{ final = "2-0-1", ssn = 6 }'
        for row in rows_of(version, target):
            lines += ["[[node.row]]", 'selector = "4:0:1:4"', row]
    for _ in range(covers):
        lines += ["[[cover]]", 'node = "n0"', 'selector = "4:0:1:4"', "ssn = 6", 'prefix = ""', "least = 2", "most = 2",
                  'allowed = ["2-0-1/6"]']
    return "\n".join(lines) + "\n"


def measure(folder):
    done = subprocess.run([sys.executable, "-c", CHILD, PROGRAM, "verify", "plan.toml"], cwd=folder, capture_output=True)
    status, seconds, peak, first = done.stdout.decode().strip().split(" ", 3)
    return float(seconds), int(status), int(peak) / 1024, first


def main():
    with tempfile.TemporaryDirectory() as folder:
        sizes = ((2, 1), (2, 16), (2, 64), (2, 256), (4, 256), (7, 256), (14, 23), (14, 46), (14, 92), (14, 185), (14, 256))
        for version, nodes, covers in [(1, *size) for size in sizes] + [(2, 14, 23), (2, 14, 92), (2, 14, 185)]:
            with open(os.path.join(folder, "plan.toml"), "w") as made:
                made.write(plan(nodes, covers, version))
            seconds, status, peak, first = min(measure(folder) for _ in range(3))
            classes = covers * (111 + 100 * (nodes - 1))
            print(f"version {version}, {nodes} relays, {covers} covers, {classes} classes: status {status}, {first}, "
                  f"{seconds * 1000:.1f} ms, peak {peak:.1f} MB")


if __name__ == "__main__":
    main()
