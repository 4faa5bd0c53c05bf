#!/usr/bin/env python3
"""Measures how fast the built program replays a trace, by one thread: lines a second, and the peak memory.

The plan has two relays: a hands titles that begin with 49 to b, which brings them to 2-0-1, or to 2-0-2 if that is closed.
Every line of a trace is a message of 40 octets (UDT with 17 octets of data) for a title that is drawn, which reaches a from
1-0-1; but each hundredth line is `pause b 2-0-1` or `resume b 2-0-1` in turn. A second kind has events on every second line,
so that each batch is one message. The output goes to a file, whose lines are counted by their kinds. The time has to grow as
the number of lines does, and the memory not at all.

Run it from anywhere: bench/replay.py [PROGRAM]. It builds nothing: run ./sccp --prove before.
"""
import os
import random
import subprocess
import sys
import tempfile

TOP = os.path.dirname(os.path.dirname(os.path.abspath(__file__)))
PROGRAM = os.path.abspath(sys.argv[1]) if len(sys.argv) > 1 else os.path.join(TOP, "crates/sccp/out/sccp")
CHILD = ("import resource, subprocess, sys, time; out = open(sys.argv[1], 'wb'); start = time.monotonic(); "
         "done = subprocess.run(sys.argv[2:], stdout=out); seconds = time.monotonic() - start; "
         "used = resource.getrusage(resource.RUSAGE_CHILDREN); "
         "print(done.returncode, seconds, used.ru_utime + used.ru_stime, used.ru_maxrss)")
PLAN = """version = 2
[[node]]
name = "a"
point = "1-0-2"
[[node.row]]
selector = "4:0:1:4"
prefix = "49"
targets = [{ relay = "b" }]
[[node]]
name = "b"
point = "1-0-3"
[[node.row]]
selector = "4:0:1:4"
prefix = "49"
targets = [{ final = "2-0-1", ssn = 6 }, { final = "2-0-2", ssn = 6 }]
[[cover]]
node = "a"
selector = "4:0:1:4"
ssn = 6
prefix = "49"
least = 12
most = 12
allowed = ["2-0-1/6", "2-0-2/6"]
"""


def message(draw, number):
    """A UDT of 40 octets for a title of twelve digits, of which ten are drawn; the line's number is in its data."""
    title = bytes([0x94] + [draw.randrange(10) + 16 * draw.randrange(10) for _ in range(5)])
    called = b"\x12\x06\x00\x12\x04" + title
    octets = b"\x09\x80\x03\x0e\x12\x0b" + called + b"\x04\x43\x01\x08\x08\x11" + number.to_bytes(17, "big")
    assert len(octets) == 40
    return octets.hex().upper()


def write_trace(path, lines, between):
    """A trace of `count` lines, of which one in `each` is an event."""
    draw = random.Random(1)
    with open(path, "w") as made:
        for i in range(1, lines + 1):
            if i % between:
                made.write(f"msg a 1-0-1 {message(draw, i)}\n")
            else:
                made.write(("pause" if i // between % 2 else "resume") + " b 2-0-1\n")


def kinds(path):
    """How many messages left for each of the two points, how many other lines there are, and the last line."""
    first = second = others = 0
    line = ""
    with open(path) as out:
        for line in out:
            if " via a,b ended 2-0-1/6 " in line:
                first += 1
            elif " via a,b ended 2-0-2/6 " in line:
                second += 1
            else:
                others += 1
    return f"{first} to 2-0-1, {second} to 2-0-2, {others} other lines, {line.strip()}"


def measure(folder, lines):
    def once():
        done = subprocess.run([sys.executable, "-c", CHILD, "out", PROGRAM, "replay", "plan", "trace", "1"], cwd=folder,
                              capture_output=True)
        status, seconds, used, peak = done.stdout.split()
        return float(seconds), float(used), int(peak) / 1024, int(status)
    seconds, used, peak, status = min(once() for _ in range(3))
    return (f"status {status}, {seconds:.2f} s, {lines / seconds:,.0f} lines a second, {lines / used:,.0f} in a second of the "
            f"processor, peak {peak:.1f} MB")


def main():
    with tempfile.TemporaryDirectory() as folder:
        trace = os.path.join(folder, "trace")
        with open(os.path.join(folder, "plan"), "w") as made:
            made.write(PLAN)
        for between, numbers in ((100, (250_000, 500_000, 1_000_000)), (2, (500_000,))):
            for lines in numbers:
                write_trace(trace, lines, between)
                print(f"{lines} lines, an event each {between}: {measure(folder, lines)}; {kinds(os.path.join(folder, 'out'))}",
                      flush=True)


if __name__ == "__main__":
    main()
