#!/usr/bin/env python3
"""Hands captures that are changed at random to `capture` and `conform`, all in one process.

The program of the cases (crates/worked_cases) makes the calls over files in memory: its lines that begins with `*` say which. Here
each capture of the cases is changed COUNT times in all, by numbers from FIRST on. Each call has to end with a status that its command
documents, and what `capture` prints has to be lines of a trace. The status is 0 if all do. As many processes as JOBS run side by side.

Run it from anywhere: bench/changed.py [--program PROGRAM] [--count COUNT] [--first FIRST] [--jobs JOBS]. It builds nothing: run rt ci
before, or give a program that tools/build_program.py has built.
"""
import argparse
import concurrent.futures
import os
import subprocess
import sys
import tempfile
import time

TOP = os.path.dirname(os.path.dirname(os.path.abspath(__file__)))
CASES = os.path.join(TOP, "crates/worked_cases")


def lines_of(count, first):
    """The lines of the cases, each with this number of calls for each of its files."""
    with open(os.path.join(CASES, "data/calls"), encoding="utf-8") as file:
        lines = [line.split() for line in file if line.startswith("* ")]
    files = sum(len(words) - 5 for words in lines)
    for words in lines:
        for name in words[5:]:
            yield ["*", str(-(-count // files)), str(first), *words[3:5], name]


def run(program, lines, folder):
    """Makes the calls of these lines in a folder of their own, and gives those of which a call ends in another way."""
    os.mkdir(folder)
    for name in ("plans", "captures", "conform"):
        os.symlink(os.path.join(CASES, "data", name), os.path.join(folder, name))
    with open(os.path.join(folder, "calls"), "w", encoding="utf-8") as file:
        file.writelines(" ".join(words) + "\n" for words in lines)
    done = subprocess.run([program], cwd=folder, stdin=subprocess.DEVNULL, capture_output=True, encoding="utf-8", errors="replace")
    told = done.stdout.splitlines()
    if done.returncode or done.stderr or len(told) != 2 * len(lines):
        return [f"status {done.returncode} after {told[-1:]}: {done.stderr[-300:]}"]
    return [f"{call}: {end}" for call, end in zip(told[::2], told[1::2]) if end != "documented"]


def main():
    words = argparse.ArgumentParser(usage=__doc__)
    words.add_argument("--program", default=os.path.join(CASES, "out/worked_cases"))
    words.add_argument("--count", type=int, default=1_000_000)
    words.add_argument("--first", type=int, default=1)
    words.add_argument("--jobs", type=int, default=os.cpu_count())
    given = words.parse_args()
    program, lines = os.path.abspath(given.program), list(lines_of(given.count, given.first))
    start = time.monotonic()
    with tempfile.TemporaryDirectory() as room, concurrent.futures.ThreadPoolExecutor(given.jobs) as pool:
        parts = [lines[job :: given.jobs] for job in range(given.jobs)]
        others = sum(pool.map(lambda job: run(program, parts[job], os.path.join(room, str(job))), range(given.jobs)), [])
    for it in others:
        print(it)
    calls = sum(int(words[1]) for words in lines)
    print(f"{calls} calls over {len(lines)} captures in {time.monotonic() - start:.0f} s: {'all' if not others else 'not all'} end in a documented way")
    return 1 if others else 0


sys.exit(main())
