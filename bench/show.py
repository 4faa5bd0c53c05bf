#!/usr/bin/env python3
"""Measures `show` of the built program: messages a second and peak memory.

The file is made so: messages are drawn by a linear congruential generator from a fixed number, in turn a UDT, an XUDT with
an optional part, a DT1 and a CR, with called titles of kind 4 of 1 to 15 digits and 1 to 60 octets of data, each in the
canonical form, one a line in hexadecimal digits. It is filled up to a tenth of the limit of 1,048,576 octets, and then up
to the limit. The time has to grow in proportion.

Run it from anywhere: bench/show.py [PROGRAM]. It builds nothing: run ./sccp --prove before.
"""
import os
import resource
import subprocess
import sys
import tempfile
import time

TOP = os.path.dirname(os.path.dirname(os.path.abspath(__file__)))
PROGRAM = os.path.abspath(sys.argv[1]) if len(sys.argv) > 1 else os.path.join(TOP, "crates/sccp/out/sccp")
LIMIT = 1_048_576


class Draw:
    def __init__(self, x):
        self.x = x

    def below(self, n):
        self.x = (1664525 * self.x + 1013904223) % 2**32
        return (self.x >> 16) % n


def title(draw):
    digits = [draw.below(10) for _ in range(1 + draw.below(15))]
    odd = len(digits) % 2
    padded = digits + [0] * odd
    packed = [padded[i] + 16 * padded[i + 1] for i in range(0, len(padded), 2)]
    return [0x12, 6, 0, 0x10 | (1 if odd else 2), 4] + packed


def with_pointers(head, variable, optional):
    count = len(variable) + (optional is not None)
    pointers, parts, at = [], [], count
    for i, part in enumerate(variable):
        pointers.append(at - i)
        parts += [len(part)] + part
        at += 1 + len(part)
    if optional is not None:
        pointers.append(at - len(variable) if optional else 0)
        parts += optional
    return head + pointers + parts


def message(draw, turn):
    calling = [0x43, 1 + draw.below(200), 8, 8]
    data = [draw.below(256) for _ in range(1 + draw.below(60))]
    if turn == 0:
        return with_pointers([0x09, 0x80], [title(draw), calling, data], None)
    if turn == 1:
        listed = [0x10, 4, 0x81, draw.below(256), 0, 0, 0x12, 1, 3, 0]
        return with_pointers([0x11, 0x80, 15], [title(draw), calling, data], listed)
    if turn == 2:
        return with_pointers([0x06, draw.below(256), 0, 0, draw.below(2)], [data], None)
    return with_pointers([0x01, draw.below(256), 1, 0, 2], [title(draw)], [0x0F, len(data)] + data + [0])


def file_of(size):
    draw, lines, total, turn = Draw(7), [], 0, 0
    while True:
        line = bytes(message(draw, turn % 4)).hex().upper() + "\n"
        if total + len(line) > size:
            return "".join(lines), turn
        lines.append(line)
        total += len(line)
        turn += 1


def measure(name, folder):
    start = time.monotonic()
    with open(os.path.join(folder, "out"), "wb") as out:
        status = subprocess.run([PROGRAM, "show", name], cwd=folder, stdout=out).returncode
    return status, time.monotonic() - start


def main():
    with tempfile.TemporaryDirectory() as folder:
        for part in (10, 1):
            text, messages = file_of(LIMIT // part)
            with open(os.path.join(folder, "messages.txt"), "w") as made:
                made.write(text)
            runs = [measure("messages.txt", folder) for _ in range(5)]
            status, seconds = min(runs, key=lambda run: run[1])
            bad = sum(line.startswith("undecodable") for line in open(os.path.join(folder, "out")))
            peak = resource.getrusage(resource.RUSAGE_CHILDREN).ru_maxrss / 1024
            print(f"{len(text)} octets, {messages} messages: status {status}, undecodable {bad}, "
                  f"{seconds * 1000:.1f} ms, {messages / seconds:,.0f} messages a second, peak {peak:.1f} MB")


if __name__ == "__main__":
    main()
