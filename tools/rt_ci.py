#!/usr/bin/env python3
"""Runs `rt ci` in this folder, with two jobs at least for the proof of each crate that is named, if memory allows.

  rt_ci.py CRATE ..

rt ci proves crates side by side, most of them by one job. When it is done depends on the longest chain of crates, each of which
waits for the one before it: tools/build_program.py names those. At the end of it two compilers take what was proved, here both at
the same time. What is proved, compiled and printed is the same. What the kit does in another way than is expected here is left as
plain rt ci does it.
"""
import contextlib
import os
import sys
from concurrent.futures import ThreadPoolExecutor

from build_program import kit


def with_jobs(tasks, names, free):
    """The tasks, each of which is what it waits for, its lines, the octets of memory that it needs, and a call that is given a number of jobs."""

    def changed(task):
        waits, lines, needs, call = task
        return waits, lines, needs, lambda given, jobs: call(given, max(jobs, 2 if 2 * needs < free() else 1))

    return {key: changed(task) if key[0] in names and key[1] == "proof" else task for key, task in tasks.items()}


def both_at_once(compile_by, has_room):
    """The call that compiles a proved program, which rt makes for LLVM and then for Rattle's own compiler: the first begins both."""
    begun = {}

    def compiled(crate, compiler, *given):
        if compiler == "rattle" and crate.name in begun:
            return begun.pop(crate.name).result()
        if compiler != "llvm" or not has_room(crate):
            return compile_by(crate, compiler, *given)
        with ThreadPoolExecutor(1) as other:
            begun[crate.name] = other.submit(compile_by, crate, "rattle", *given)
            return compile_by(crate, compiler, *given)

    return compiled


def main(names):
    rt = kit()
    try:
        in_lanes, free, run = rt.in_lanes, rt.free, rt.main
    except AttributeError:
        os.execvp("rt", ["rt", "ci"])

    def in_lanes_with_jobs(tasks):
        try:
            changed = with_jobs(tasks, names, free)
        except (TypeError, ValueError):
            changed = tasks
        return in_lanes(changed)

    rt.in_lanes = in_lanes_with_jobs
    with contextlib.suppress(AttributeError):
        rt.Crate.compile_by = both_at_once(rt.Crate.compile_by, lambda crate: 2 * rt.need(crate) < free())
    return run(["ci"])


if __name__ == "__main__":
    sys.exit(main(sys.argv[1:]))
