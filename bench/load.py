#!/usr/bin/env python3
"""A second maker of what `load` has to print, written from the rules of the generator alone, and how fast the built program is.

Run from anywhere:
  bench/load.py NUMBER SIZE             prints the four lines that `load NUMBER SIZE WORKERS` has to print
  bench/load.py --trace NUMBER SIZE PLAN TRACE    writes the plan and the trace that is the same as the load, to be replayed
  bench/load.py [PROGRAM]               compares the program's lines with these, for drawn numbers, by one worker and by a
                                        drawn number of workers, and measures it

It builds nothing: run ./sccp --prove before. Walks are made over the written targets, with what each relay has lost.
"""
import os
import random
import subprocess
import sys
import time

TOP = os.path.dirname(os.path.dirname(os.path.abspath(__file__)))
LAST = 7


def relay(i):
    return f"1-{i}-1"


def destination(d):
    return f"2-{d}-0"


def targets(number, i, d):
    """Where relay i sends titles that begin with d, in order: a relay's place, or the text of the destination."""
    onward = [] if i == LAST else [min(LAST, i + 1 + (number + i + d) % 3)]
    return onward + [destination(d)]


class Draws:
    def __init__(self, number):
        self.x = number

    def next(self):
        self.x = (1664525 * self.x + 1013904223) % 2 ** 32
        return self.x // 65536


def happenings(number, size):
    """In turn (relay, destination) for a point that is lost or found, and (place, digits) for a message."""
    draws = Draws(number)
    for i in range(size):
        if i % 64 == 63:
            value = draws.next()
            yield "turn", value // 10 % 8, value % 10
        yield "message", i, [draws.next() % 10 for _ in range(10)]


def counts(number, size):
    lost = [set() for _ in range(LAST + 1)]
    ended = returned = translations = 0
    for kind, place, what in happenings(number, size):
        if kind == "turn":
            lost[place] ^= {destination(what)}
            continue
        at, over = 0, False
        while not over:
            translations += 1
            here = [t for t in targets(number, at, what[0]) if (relay(t) if isinstance(t, int) else t) not in lost[at]]
            if not here:
                returned, over = returned + 1, True
            elif isinstance(here[0], int):
                at = here[0]
            else:
                ended, over = ended + 1, True
    return f"messages {size}\nended {ended}\nreturned {returned}\ntranslations {translations}\n"


def write_trace(number, size, plan, trace):
    with open(plan, "w") as made:
        made.write("version = 2\n")
        for i in range(LAST + 1):
            made.write(f'[[node]]\nname = "n{i}"\npoint = "{relay(i)}"\n')
            for d in range(10):
                listed = [f'{{ relay = "n{t}" }}' if isinstance(t, int) else f'{{ final = "{t}", ssn = 6 }}' for t in targets(number, i, d)]
                made.write(f'[[node.row]]\nselector = "4:0:1:4"\nprefix = "{d}"\ntargets = [{", ".join(listed)}]\n')
        allowed = ", ".join(f'"{destination(d)}/6"' for d in range(10))
        made.write(f'[[cover]]\nnode = "n0"\nselector = "4:0:1:4"\nssn = 6\nprefix = ""\nleast = 10\nmost = 10\nallowed = [{allowed}]\n')
    lost = set()
    with open(trace, "w") as made:
        for kind, place, what in happenings(number, size):
            if kind == "turn":
                lost ^= {(place, what)}
                made.write(f"{'pause' if (place, what) in lost else 'resume'} n{place} {destination(what)}\n")
                continue
            title = bytes(low + 16 * high for low, high in zip(what[::2], what[1::2]))
            called = b"\x12\x06\x00\x12\x04" + title
            octets = b"\x09\x80\x03\x0d\x11" + bytes([len(called)]) + called + b"\x04\x43\x01\x18\x08\x04" + place.to_bytes(4, "big")
            made.write(f"msg n0 3-0-1 {octets.hex().upper()}\n")


def load(program, number, size, workers):
    return subprocess.run([program, "load", str(number), str(size), str(workers)], capture_output=True, text=True, check=True).stdout


def measure(program):
    draw = random.Random(1)
    for number, size in [(0, 0), (0, 1), (7, 63), (7, 64), (7, 65)] + [(draw.randrange(2 ** 32), draw.randrange(20_000)) for _ in range(20)]:
        made = counts(number, size)
        for workers in (1, draw.randint(2, 16)):
            assert load(program, number, size, workers) == made, (number, size, workers)
    print("25 loads print what the second maker makes, by one worker and by several")
    for size, workers in [(1_000, 1), (10_000, 1)] + [(100_000, workers) for workers in (1, 2, 4, 16)]:
        times = []
        for _ in range(9):
            start = time.monotonic()
            load(program, 7, size, workers)
            times.append(time.monotonic() - start)
        print(f"load 7 {size} {workers}: best {min(times) * 1000:.0f} ms of nine, worst {max(times) * 1000:.0f} ms")


if __name__ == "__main__":
    words = sys.argv[1:]
    if words[:1] == ["--trace"]:
        write_trace(int(words[1]), int(words[2]), words[3], words[4])
    elif len(words) == 2:
        print(counts(int(words[0]), int(words[1])), end="")
    else:
        measure(os.path.abspath(words[0]) if words else os.path.join(TOP, "crates/sccp/out/sccp"))
