#!/usr/bin/env python3
"""Measures how fast the built program judges captured messages: messages a second, and the peak memory.

Each text has DATA messages of M3UA with a UDT of 21 octets, as many as fit into a text that `conform` takes, and half and a quarter of
them. In the first text each message for relay a is followed by what a sends because of it. In the others that is not so: nothing is
sent, so all arrivals wait; the other relay of the plan got many messages before and sends nothing; no arrival has the data of what is
sent; or all have the same data, and what is sent is none of theirs. The time for a message should not grow in the first text. In the
others it may, with the number of arrivals that wait, of which there are at most 16,384. Last, messages as those of the first text are
the packets of a capture, up to 200,000 of them. The last line is compared with what it has to be.

Run it from anywhere: bench/conform.py [PROGRAM]. It builds nothing: run ./sccp --prove before.
"""
import os
import struct
import subprocess
import sys
import tempfile

TOP = os.path.dirname(os.path.dirname(os.path.abspath(__file__)))
PROGRAM = os.path.abspath(sys.argv[1]) if len(sys.argv) > 1 else os.path.join(TOP, "crates/sccp/out/sccp")
CHILD = ("import resource, subprocess, sys; out = open('out', 'wb'); done = subprocess.run(sys.argv[1:], stdout=out); "
         "used = resource.getrusage(resource.RUSAGE_CHILDREN); print(done.returncode, used.ru_utime + used.ru_stime, used.ru_maxrss / 1024)")
PLAN = """version = 2
[[node]]
name = "a"
point = "1-0-2"
[[node.row]]
selector = "4:0:1:4"
prefix = "49"
targets = [{ final = "2-0-1", ssn = 6 }, { final = "2-0-2", ssn = 6 }]
[[node]]
name = "b"
point = "1-0-3"
[[node.row]]
selector = "4:0:1:4"
prefix = "49"
targets = [{ final = "2-0-1", ssn = 6 }]
[[cover]]
node = "a"
selector = "4:0:1:4"
ssn = 6
prefix = "49"
least = 4
most = 4
allowed = ["2-0-1/6", "2-0-2/6"]
"""
USER, A, B, ONE = 2049, 2050, 2051, 4097
TITLE, SUBSYSTEM, OTHER = "12060011049443", "52060011049443", "52070011049443"
MOST_OCTETS = 1_048_576


def line(origin, to, called, number):
    """A line with a UDT to a called address of seven octets, whose data are the number in four."""
    address = bytes.fromhex(called)
    user = bytes([9, 0, 3, 3 + len(address), 5 + len(address), len(address)]) + address + bytes.fromhex("024208")
    user += b"\4" + struct.pack(">I", number)
    body = struct.pack(">HHIIBBBB", 0x0210, 16 + len(user), origin, to, 3, 2, 0, 5) + user
    body += bytes(-len(body) % 4)
    return (struct.pack(">BBBBI", 1, 0, 1, 1, 8 + len(body)) + body).hex() + "\n"


def arrivals(to, numbers):
    return [line(USER, to, TITLE, number) for number in numbers]


def answers(called, numbers):
    return [line(A, ONE, called, number) for number in numbers]


def answered(count):
    """Relay a sends what arrives, one message after the other."""
    numbers = range(count // 2)
    return [one for pair in zip(arrivals(A, numbers), answers(SUBSYSTEM, numbers)) for one in pair], 0


def waiting(count):
    """Relay a sends nothing."""
    return arrivals(A, range(count)), 0


def elsewhere(count):
    """Half of the messages wait at relay b, before relay a sends what arrives."""
    half = count // 2
    return arrivals(B, range(half)) + answered(count - half)[0], 0


def strange(count):
    """Half of the messages wait at relay a, and then it sends others."""
    half = count // 2
    return arrivals(A, range(half)) + answers(SUBSYSTEM, range(half, 2 * half)), half


def alike(count):
    """Relay a sends each message to another subsystem, and all have the same data."""
    return [one for _ in range(count // 2) for one in (line(USER, A, TITLE, 1), line(A, ONE, OTHER, 1))], count // 2


def capture(lines):
    """A pcap file of MTP3 (link 141) with the message of each line."""
    records = [struct.pack("<IHHIIII", 0xA1B2C3D4, 2, 4, 0, 0, 262_144, 141)]
    for text in lines:
        octets = bytes.fromhex(text)
        length, origin, to = struct.unpack(">HII", octets[10:20])
        packet = b"\x83" + struct.pack("<I", to | origin << 14) + octets[24:8 + length]
        records.append(struct.pack("<IIII", 0, 0, len(packet), len(packet)) + packet)
    return b"".join(records)


def measure(folder, lines, unexplained, runs=3, form=lambda lines: "".join(lines).encode()):
    """Seconds of the processor and the peak in MB, of the run that used the processor least."""
    with open(os.path.join(folder, "seen"), "wb") as made:
        made.write(form(lines))
    found = []
    for _ in range(runs):
        words = [sys.executable, "-c", CHILD, PROGRAM, "conform", "plan.toml", "seen"]
        done = subprocess.run(words, cwd=folder, capture_output=True, check=True)
        status, used, peak = done.stdout.split()
        with open(os.path.join(folder, "out")) as out:
            last = out.read().splitlines()[-1]
        if (last, int(status)) != (f"end {len(lines)} unexplained {unexplained}", 2 if unexplained else 0):
            sys.exit(f"status {int(status)}: {last}")
        found.append((float(used), float(peak)))
    return min(found)


def show(what, size, used, peak):
    print(f"{what}, {size:,} messages: processor {used:.2f} s, {1e6 * used / size:.0f} us a message, peak {peak:.1f} MB", flush=True)


def main():
    most = MOST_OCTETS // len(line(USER, A, TITLE, 0)) // 4 * 4
    few = most // 8 // 4 * 4
    texts = [("each is answered", answered, most, 3), ("all wait", waiting, most, 3), ("half wait at another relay", elsewhere, most, 3),
             ("half wait, and others are sent", strange, most, 3), ("all have the same data, and none explains another", alike, few, 1)]
    with tempfile.TemporaryDirectory() as folder:
        with open(os.path.join(folder, "plan.toml"), "w") as made:
            made.write(PLAN)
        for what, maker, count, runs in texts:
            for size in (count // 4, count // 2, count):
                show(what, size, *measure(folder, *maker(size), runs))
        for size in (50_000, 100_000, 200_000):
            show("each is answered, in a capture", size, *measure(folder, *answered(size), 3, capture))


if __name__ == "__main__":
    main()
