#!/usr/bin/env python3
"""Measures every command of the built program, each on an input that is made here, and prints one table in Markdown.

  bench/commands.py [--only COMMAND] [PROGRAM [OLDER..]]

Each row has the millions of instructions that callgrind counts, which do not depend on what else the machine does; the least seconds
of the processor in three runs; and the most memory. For each further program, built in the same way of older sources, a row has its
instructions as well, and how many times as many the first one takes. The status and the beginning of the text of each call are compared
with what they have to be, and the texts of the programs with each other. It needs valgrind and GNU time.

It builds nothing: run ./sccp --prove before.
"""
import argparse
import filecmp
import os
import re
import resource
import subprocess
import sys
import tempfile

sys.dont_write_bytecode = True
import capture
import change
import conform
import gateway
import route
import send_on
import show
import verify
import workers

TOP = os.path.dirname(os.path.dirname(os.path.abspath(__file__)))
UDT = "0900030E120B1206001204947101000021044301080802AABB"
TITLE = ["4:0:1:4", "6", "491710000012"]
CHAIN = 14
WRONG_WORDS = 64


def long_message(octets):
    """An LUDT for the title of workers.plan, with so many octets of data."""
    called = False, False, None, 6, ("4:0:1:4", [4, 9, 1, 7, 1, 0, 0, 0])
    calling = False, True, 2057, 8, None
    return send_on.joined(0x13, [0x80, 15], [called, calling], bytes(octets), []).hex()


def chain(turned):
    """Relays with a hundred rows each, of which each hands all titles to the next one, or turned to the one before, and a cover each."""
    lines = ["version = 1"]
    for i in range(CHAIN):
        to = i - 1 if turned else i + 1
        target = f'{{ relay = "n{to}" }}' if 0 <= to < CHAIN else '{ final = "2-0-1", ssn = 6 }'
        lines += ["[[node]]", f'name = "n{i}"', f'point = "{i + 1}"']
        for j in range(100):
            lines += ["[[node.row]]", 'selector = "4:0:1:4"', f'prefix = "{j:02}"', f"first = {target}"]
    for i in range(CHAIN):
        lines += ["[[cover]]", f'node = "n{i}"', 'selector = "4:0:1:4"', "ssn = 6", 'prefix = ""', "least = 2", "most = 2",
                  'allowed = ["2-0-1/6"]']
    return "\n".join(lines) + "\n"


def calls(write):
    """The words of each call, what its input is, its status, and how its first line begins. Their files are written before each."""
    yield ["show-hex", UDT], "a UDT of 25 octets", 0, "UDT"
    text, count = show.file_of(show.LIMIT)
    write("messages", text)
    yield ["show", "messages"], f"{count:,} messages, 1 MB", 0, "UDT"
    octets = long_message(3_000)
    yield ["cuts", octets], f"an LUDT of {len(octets) // 2:,} octets", 0, "0 undecodable"
    write("plan", route.plan(1, 4096, 1_000_000))
    yield ["route", "plan", "n0", *TITLE], "4,096 rows, 1 MB", 0, "at n0 "
    for version in (2, 1):
        write("plan", verify.plan(14, 185, version))
        yield ["verify", "plan"], f"14 relays, 261,035 classes, version {version}", 0, "accepted bound 14"
    yield ["covers", "plan"], "the same plan of version 1", 0, "cover 0 accepted bound 14"
    yield ["unused", "plan"], "the same plan of version 1", 0, "unused "
    write("plan", gateway.gateway_plan.made(gateway.Sizes(1_400, 100, 14, 1)))
    yield ["margin", "plan", "1"], "14 relays, 1,400 rows, 100 covers of a gateway", 0, "accepted bound "
    write("plan", change.plan(185, False))
    write("new", change.plan(185, True))
    yield ["change", "plan", "new"], "14 relays, 261,035 classes in the old plan", 0, "old accepted bound 14"
    write("plan", chain(False))
    write("new", chain(True))
    yield ["order", "plan", "new"], "a chain of 14 relays, 1,400 rows, turned round in 14 steps", 0, "old accepted bound 14"
    write("plan", workers.plan())
    write("trace", (workers.MESSAGE + "\n") * 100_000)
    yield ["replay", "plan", "trace", "1"], "100,000 messages over six relays", 0, "plan 1 plan accepted bound 6"
    yield ["load", "7", "100000", "1"], "100,000 messages over 5.4 relays each", 0, "messages 100000"
    yield ["send-on", "plan", "n0", "1-0-1", "200", long_message(3_200)], "an LUDT with 3,200 octets of data, 16 segments", 0, "to "
    yield ["connect", "plan", "n0", "1-0-1", "4:0:1:4", "6", "49170000", "41" * 255], "255 octets each way over six relays", 0, "opened "
    write("plan", conform.PLAN)
    write("lines", "".join(conform.arrivals(conform.A, range(10_808))))
    yield ["import", "plan", "lines"], "10,808 messages, 1 MB", 0, "msg a 1-0-1 "
    lines, _ = conform.answered(10_808)
    write("lines", "".join(lines))
    yield ["conform", "plan", "lines"], "10,808 messages, each answered by the next", 0, "1 from "
    write("plan", capture.PLAN)
    capture.write("it.pcap", capture.HEADING, capture.whole(1_000_000))
    yield ["capture", "plan", "it.pcap"], "1,000,000 packets, 134 MB", 0, "msg a 1-0-1 0900"
    os.remove("it.pcap")
    write("plan", gateway.gateway_plan.made(gateway.Sizes(50_000, 2_000, 8, 1)))
    yield ["wide", "verify", "plan"], "8 relays, 50,000 rows, 2,000 covers of a gateway, 6.6 MB", 0, "accepted bound "


def write(name, text):
    with open(name, "w", encoding="ascii") as made:
        made.write(text)


def counted(program, words):
    """How a call ends, its instructions, and the file of what it prints."""
    told = f"told-{os.path.basename(program)}"
    with open(told, "wb") as out:
        done = subprocess.run(["valgrind", "--tool=callgrind", "--callgrind-out-file=/dev/null", program, *words], stdout=out,
                              stderr=subprocess.PIPE, check=False)
    found = re.search(rb"Collected : (\d+)", done.stderr)
    if not found:
        sys.exit(f"{words[0]}: {done.stderr.decode()}")
    return done.returncode, int(found[1]), told


def once(program, words):
    """The seconds of the processor, and the peak in MB, of one run."""
    before = resource.getrusage(resource.RUSAGE_CHILDREN)
    subprocess.run(["time", "-q", "-f", "%M", "-o", "peak", program, *words], stdout=subprocess.DEVNULL, check=False)
    after = resource.getrusage(resource.RUSAGE_CHILDREN)
    with open("peak", encoding="ascii") as it:
        return after.ru_utime + after.ru_stime - before.ru_utime - before.ru_stime, int(it.read()) / 1024


def millions(count):
    return f"{count / 1e6:,.0f}" if count >= 1e8 else f"{count / 1e6:,.1f}" if count >= 1e6 else f"{count / 1e6:,.2f}"


def cells_of_older(program, words, count, told):
    """The instructions of the second program, and how many times as many the first one takes."""
    status, older, other = counted(program, words)
    if status == WRONG_WORDS:
        return ["", "new"]
    is_same = filecmp.cmp(told, other, shallow=False)
    return [millions(older), f"{count / older:.3f}" + ("" if is_same else ", other text")]


def row(programs, words, status, first):
    """The cells of one call, after its name and its input."""
    ended, count, told = counted(programs[0], words)
    with open(told, "rb") as it:
        begins = it.read(len(first)).decode()
    if (ended, begins) != (status, first):
        sys.exit(f"{words[0]}: status {ended}, {begins!r}")
    used, peaks = zip(*(once(programs[0], words) for _ in range(3)))
    cells = [millions(count), f"{min(used):.3f} s", f"{max(peaks):.1f} MB"]
    for program in programs[1:]:
        cells += cells_of_older(program, words, count, told)
    return cells


def main():
    parser = argparse.ArgumentParser(description=__doc__, formatter_class=argparse.RawDescriptionHelpFormatter)
    parser.add_argument("--only")
    parser.add_argument("programs", nargs="*", default=[f"{TOP}/crates/sccp/out/sccp"])
    given = parser.parse_args()
    programs = [os.path.abspath(it) for it in given.programs]
    heading = ["Command", "Input", "Millions of instructions", "Processor", "Peak", *["Before", "Times as many"] * len(programs[1:])]
    print(f"| {' | '.join(heading)} |\n|{'---|' * len(heading)}", flush=True)
    with tempfile.TemporaryDirectory() as folder:
        os.chdir(folder)
        for words, what, status, first in calls(write):
            name = " ".join(words[:2 if words[0] == "wide" else 1])
            if given.only in (None, name):
                print("| " + " | ".join([f"`{name}`", what, *row(programs, words, status, first)]) + " |", flush=True)


if __name__ == "__main__":
    main()
