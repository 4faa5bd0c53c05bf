#!/usr/bin/env python3
"""Measures how long a replay takes to serve each batch of 1,024 messages over six relays, by 1, 2, 4 and 16 workers.

The kernel notes the times (uprobes) at functions of the program. Several workers serve a batch from the call that gets how many
threads there may be until the octets of its first message are put into the output: the threads are made, the messages take
their journeys, and the answers are put in order. One worker serves it from its first journey until the same. A probe there
would take longer than some journeys, so that time is the one from the taking up of the batch, less the middle of what passes
before the first journey, which other runs measure. Neither the reading of the trace nor the copying of messages is in it, and of
the printing one line.

So each run gives a time for each of its 97 whole batches, while bench/workers.py has one for all, and those that the host
disturbs do not hide the others. It reports the time in the middle of all batches and the quartiles, and how many times as fast as
one worker that is, middle by middle and quartile by quartile. Replays with one worker and with several are made in turn.

Run it as root from anywhere: bench/batches.py [--awake] [PROGRAM]. It wants tracefs and nm, and builds nothing: run ./sccp --prove
before. `--awake` is that of bench/workers.py: a processor of a shared host that sleeps is woken by the host, which may take
longer than a batch.
"""
import os
import re
import shutil
import statistics
import struct
import subprocess
import sys
import tempfile

import workers

TRACING = "/sys/kernel/tracing"
TURNS = 5
PROBES = {
    "taken_up": r"sccp_replay::batch::batch_text\b",
    "threads_told": r"live_plan::teller::Teller::processors\b",
    "journey_begins": r"relay_net::travelling::journey\b",
    "octets_are_put": r"sccp_report::text::Text::put_hexadecimal$",
}


def write(name, text, flag=os.O_TRUNC):
    file = os.open(os.path.join(TRACING, name), os.O_WRONLY | flag)
    try:
        os.write(file, text.encode())
    finally:
        os.close(file)


def places(program):
    """The place of the code of each probe in the program's file."""
    with open(program, "rb") as file:
        octets = file.read()
    start, size, count = struct.unpack_from("<Q", octets, 32)[0], *struct.unpack_from("<HH", octets, 54)
    parts = [struct.unpack_from("<IIQQQQ", octets, start + size * i) for i in range(count)]
    names = subprocess.run(["nm", program], capture_output=True, text=True).stdout.splitlines()
    found = {}
    for probe, name in PROBES.items():
        at = next((int(line.split()[0], 16) for line in names if re.search(r" [tT] " + name, line)), None)
        if at is None:
            sys.exit(f"the program has no function {name}")
        found[probe] = next(at - address + offset for kind, _, offset, address, _, octets in parts
                            if kind == 1 and address <= at < address + octets)
    return found


def times(program, folder, count, begin, end):
    """The microseconds of each whole batch from one probe to the first hit of the other, in a replay by this number of workers."""
    write("trace", "")
    for probe in (begin, end):
        write(f"events/uprobes/{probe}/enable", "1")
    words = [program, "replay", "plan", "batches", str(count)]
    subprocess.run(words, cwd=folder, stdout=subprocess.DEVNULL, check=True)
    write("events/uprobes/enable", "0")
    found, begun = [], None
    with open(os.path.join(TRACING, "trace")) as told:
        for line in told:
            event = re.search(r" (\d+\.\d+): (\w+): ", line)
            if event and event[2] == begin:
                begun = float(event[1])
            elif event and begun is not None:
                found.append((float(event[1]) - begun) * 1e6)
                begun = None
    return found[:97]


def measure(program, folder):
    found = {count: [] for count in workers.WORKERS}
    before = []
    for _ in range(TURNS):
        before += times(program, folder, 1, "taken_up", "journey_begins")
        for count in workers.WORKERS[1:]:
            found[1] += times(program, folder, 1, "taken_up", "octets_are_put")
            found[count] += times(program, folder, count, "threads_told", "octets_are_put")
    found[1] = [time - statistics.median(before) for time in found[1]]
    one = statistics.quantiles(found[1], n=4)
    for count, all_of_them in found.items():
        some = statistics.quantiles(all_of_them, n=4)
        print(f"{count} workers: {len(all_of_them)} batches, middle {some[1]:.0f} us (quartiles {some[0]:.0f} and {some[2]:.0f}), "
              f"{one[1] / some[1]:.2f} times as fast as one (quartiles {one[0] / some[0]:.2f} and {one[2] / some[2]:.2f})")
    print(f"with one worker {statistics.median(before):.0f} us come before a batch's first journey")


def main():
    if not os.access(os.path.join(TRACING, "uprobe_events"), os.W_OK):
        sys.exit(f"no probes: run it as root, with tracefs at {TRACING}")
    loops = workers.keep_awake() if workers.AWAKE else []
    with tempfile.TemporaryDirectory() as folder:
        program = shutil.copy(workers.PROGRAM, os.path.join(folder, "program"))
        for name, text in {"plan": workers.plan(), "batches": (workers.MESSAGE + "\n") * 100_000}.items():
            with open(os.path.join(folder, name), "w") as made:
                made.write(text)
        try:
            for name, place in places(program).items():
                write("uprobe_events", f"p:{name} {program}:{place:#x}\n", os.O_APPEND)
            write("buffer_size_kb", "65536")
            write("tracing_on", "1")
            measure(program, folder)
        finally:
            write("events/uprobes/enable", "0")
            write("uprobe_events", "")
            write("buffer_size_kb", "1408")
            workers.stop(loops)


if __name__ == "__main__":
    main()
