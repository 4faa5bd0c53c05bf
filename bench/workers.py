#!/usr/bin/env python3
"""Measures what several workers gain in a replay: the whole command with 1, 2, 4 and 16 workers, and serving by itself.

The plan has six relays, each with 101 rows; a message for 491710000012 goes over all of them. One trace has batches of 1,024
messages; in the other each message is a batch of its own, with a fence after it, so that workers can gain nothing. The replays
with their numbers of workers are made in turn, and of each the least time and the one in the middle are reported, less that of an
empty trace. On a shared host one run takes up to twice as long as the next, so the times in the middle are compared.

Reading, settling and printing are one thread's work. Which share of one worker's time is serving, the journeys of the
messages, is reckoned by the instructions that callgrind counts below them; what is left is taken from the time of each number
of workers, so that all that several workers cost counts as serving. Without valgrind only the whole command is reported.

The same is reported in instructions, which do not depend on the host: how many times as many of them serving takes all threads
together as it takes one worker. What a thread waits for, a processor or memory that another one wrote, is not in that count, nor
how the threads share the work: valgrind runs one at a time. Of batches of one message all instructions are reported: no thread is
made for them.

What a machine gives to several threads is not known from the number of its processors, of which two may be one core: so it is
measured how much more is done in a time by two and by four replays with one worker, at once.

Run it from anywhere: bench/workers.py [--awake] [PROGRAM]. It builds nothing: run ./sccp --prove before. On a machine that has
other work threads wait for each other: `chrt -f 10 bench/workers.py` as root puts that work aside for some two minutes.

Between two batches the processors of the other threads have nothing to do. One of a shared host then has to be woken by the
host, which may take as long as serving a tenth of a batch. `--awake` runs a loop of the lowest class on each processor, which
gives way at once, so that none falls asleep.
"""
import os
import re
import shutil
import signal
import statistics
import subprocess
import sys
import tempfile
import time

TOP = os.path.dirname(os.path.dirname(os.path.abspath(__file__)))
WORDS = [word for word in sys.argv[1:] if word != "--awake"]
AWAKE = "--awake" in sys.argv
PROGRAM = os.path.abspath(WORDS[0]) if WORDS else os.path.join(TOP, "crates/sccp/out/sccp")
RELAYS = 6
MESSAGE = "msg n0 1-0-1 0980030E120B1206001204947101000021044301080802AABB"
WORKERS = (1, 2, 4, 16)
TURNS = 15
SERVING = "relay_net::travelling::journey*"
COUNTED = 6_000


def plan():
    lines = ["version = 1"]
    for i in range(RELAYS):
        lines += ["[[node]]", f'name = "n{i}"', f'point = "3-0-{i + 1}"']
        target = f'{{ relay = "n{i + 1}" }}' if i + 1 < RELAYS else '{ final = "2-0-1", ssn = 6 }'
        for prefix in ["4917", *(f"{j:03}" for j in range(100))]:
            lines += ["[[node.row]]", 'selector = "4:0:1:4"', f'prefix = "{prefix}"', f"first = {target}"]
    lines += ["[[cover]]", 'node = "n0"', 'selector = "4:0:1:4"', "ssn = 6", 'prefix = "4917"', "least = 8", "most = 8",
              'allowed = ["2-0-1/6"]']
    return "\n".join(lines) + "\n"


def replay(folder, trace, workers):
    start = time.monotonic()
    done = subprocess.run([PROGRAM, "replay", "plan", trace, str(workers)], cwd=folder, capture_output=True)
    seconds = time.monotonic() - start
    last = done.stdout.decode().rstrip("\n").rsplit("\n", 1)[-1]
    if done.returncode != 0:
        sys.exit(f"{workers} workers: status {done.returncode}, {last}")
    return seconds, done.stdout


def together(folder, count):
    """How long this number of replays of batches with one worker takes at once."""
    start = time.monotonic()
    words = [PROGRAM, "replay", "plan", "batches", "1"]
    runs = [subprocess.Popen(words, cwd=folder, stdout=subprocess.DEVNULL) for _ in range(count)]
    if any(run.wait() for run in runs):
        sys.exit("a replay of several at once failed")
    return time.monotonic() - start


def instructions(folder, trace, flags=(), workers=1):
    count = ["--tool=callgrind", "--callgrind-out-file=/dev/null", *flags]
    words = ["valgrind", *count, PROGRAM, "replay", "plan", trace, str(workers)]
    done = subprocess.run(words, cwd=folder, capture_output=True, text=True)
    found = re.search(r"Collected : (\d+)", done.stderr)
    return int(found.group(1)) if found else 0


def serving(folder):
    """How many instructions a trace takes, and how many of them are serving, or none."""
    if not shutil.which("valgrind"):
        return None
    below = instructions(folder, "counted", [f"--toggle-collect={SERVING}"])
    all_of_it = instructions(folder, "counted") - instructions(folder, "empty")
    return (all_of_it, below) if below and all_of_it > below else None


def tell_instructions(folder, below):
    """Reports serving by each number of workers in instructions, of all threads."""
    rest = instructions(folder, "counted") - below
    for workers in WORKERS[1:]:
        some = instructions(folder, "counted", workers=workers) - rest
        print(f"batches, {workers} workers, in instructions: serving takes {some / below:.3f} times as many as by one")
    empty = instructions(folder, "empty")
    one = instructions(folder, "alone") - empty
    for workers in WORKERS[1:]:
        some = instructions(folder, "alone", workers=workers) - empty
        print(f"single, {workers} workers, in instructions: {some / one:.3f} times as many as one")


def keep_awake():
    """A loop of the lowest class on each processor; their processes."""
    parent = os.getpid()
    loops = []
    for processor in sorted(os.sched_getaffinity(0)):
        loop = os.fork()
        if not loop:
            os.sched_setaffinity(0, {processor})
            os.sched_setscheduler(0, os.SCHED_IDLE, os.sched_param(0))
            while os.getppid() == parent:
                pass
            os._exit(0)
        loops.append(loop)
    return loops


def stop(loops):
    for loop in loops:
        os.kill(loop, signal.SIGKILL)


def main():
    loops = keep_awake() if AWAKE else []
    try:
        measure()
    finally:
        stop(loops)


def measure():
    with tempfile.TemporaryDirectory() as folder:
        traces = {"batches": (MESSAGE + "\n") * 100_000, "single": (MESSAGE + "\nfence\n") * 50_000}
        others = {"empty": "", "counted": (MESSAGE + "\n") * COUNTED, "alone": (MESSAGE + "\nfence\n") * COUNTED}
        for name, text in {"plan": plan(), **traces, **others}.items():
            with open(os.path.join(folder, name), "w") as made:
                made.write(text)
        empty = min(replay(folder, "empty", 1)[0] for _ in range(TURNS))
        times = {}
        texts = {trace: set() for trace in traces}
        for _ in range(TURNS):
            for trace in traces:
                for workers in WORKERS:
                    seconds, text = replay(folder, trace, workers)
                    times.setdefault((trace, workers), []).append(seconds - empty)
                    texts[trace].add(text)
        for trace in traces:
            if len(texts[trace]) != 1:
                sys.exit(f"{trace}: the texts differ")
        counts = serving(folder)
        share = counts and counts[1] / counts[0]
        for trace in traces:
            one = statistics.median(times[trace, 1])
            for workers in WORKERS:
                some = statistics.median(times[trace, workers])
                line = f"{trace}, {workers} workers: least {min(times[trace, workers]):.3f} s, middle {some:.3f} s, {one / some:.2f} times as fast as one"
                if trace == "batches" and share:
                    rest = (1 - share) * one
                    line += f"; serving {some - rest:.3f} s, {share * one / (some - rest):.2f} times as fast"
                print(line)
        if share:
            print(f"serving is {share:.0%} of one worker's instructions")
            tell_instructions(folder, counts[1])
        for count in (2, 4):
            at_once = statistics.median(together(folder, count) for _ in range(TURNS))
            alone = statistics.median(together(folder, 1) for _ in range(TURNS))
            print(f"{count} replays at once do {count * alone / at_once:.2f} times as much as one")


if __name__ == "__main__":
    main()
