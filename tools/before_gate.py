#!/usr/bin/env python3
"""Looks, in seconds, for what the gate would report only after an hour: run it before `rt ci`.

It lays out the files of every crate (`rt fmt`) and names those that were not, and looks whether each old text of each edit in
must-fail/ and of each wrong body in wrong_bodies/ is just once in its file after those before it were applied. It names lines of
more than 140 columns, except those with a text that no line break may part. It proves nothing. Status 1 says that a file was laid
out anew, that a line is too long, that an edit fits no more, or that wrong bodies have lost their crate.

Run it from anywhere: tools/before_gate.py. Nothing else may write in crates/ meanwhile.
"""
import os
import re
import subprocess
import sys

sys.dont_write_bytecode = True

from wrap_lines import LONGEST, sources

TOP = os.path.dirname(os.path.dirname(os.path.abspath(__file__)))
CRATES = os.path.join(TOP, "crates")
BODIES = os.path.join(TOP, "wrong_bodies")


def laid_out(crate):
    """What `rt fmt` says of the files that it changed."""
    done = subprocess.run(["rt", "fmt"], cwd=os.path.join(CRATES, crate), capture_output=True, text=True)
    if done.returncode:
        return [f"{crate}: {line}" for line in (done.stdout + done.stderr).splitlines()]
    return [f"{crate}: {line}" for line in done.stdout.splitlines() if line.startswith("rt: formatted")]


def misfits(crate):
    """The old texts of a crate's edits and wrong bodies that are not there just once."""
    return misfits_in(crate, f"crates/{crate}/must-fail") + misfits_in(crate, f"wrong_bodies/{crate}")


def misfits_in(crate, place):
    """Those of one folder."""
    folder = os.path.join(TOP, place)
    if not os.path.isdir(folder):
        return []
    found = []
    for name in sorted(os.listdir(folder)):
        text = old = ""
        with open(os.path.join(folder, name), encoding="utf-8") as edit:
            for line in edit:
                word, _, rest = line.rstrip("\n").partition(": ")
                if word == "file":
                    with open(os.path.join(CRATES, crate, rest), encoding="utf-8") as source:
                        text = source.read()
                elif word == "old":
                    old = rest
                    if text.count(old) != 1:
                        found.append(f"{place}/{name}: its old text stands {text.count(old)} times: {old}")
                elif word == "new":
                    text = text.replace(old, rest)
    return found


def long_lines():
    """The lines of code that are too long."""
    found = []
    for name in sources():
        with open(name, encoding="utf-8") as source:
            for number, line in enumerate(source, 1):
                if len(line.rstrip("\n")) > LONGEST and not re.search(r'"[^"]{100,}"', line):
                    found.append(f"{os.path.relpath(name, TOP)}:{number}: more than {LONGEST} columns (tools/wrap_lines.py)")
    return found


def main():
    crates = sorted(os.listdir(CRATES))
    folders = sorted(name for name in os.listdir(BODIES) if os.path.isdir(os.path.join(BODIES, name)))
    told = [f"wrong_bodies/{name}: there is no such crate" for name in folders if name not in crates]
    told += [line for crate in crates for line in laid_out(crate) + misfits(crate)]
    told += long_lines()
    print("\n".join(told) if told else "all files are laid out, and all edits fit")
    return 1 if told else 0


if __name__ == "__main__":
    sys.exit(main())
