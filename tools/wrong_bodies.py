#!/usr/bin/env python3
"""Tries the wrong bodies of wrong_bodies/: the prover must refuse each.

The gate tries those of crates/CRATE/must-fail/, the few of each crate that a reader would fear most: each costs it a load of
all that was proved, whatever line it turns. The others are in wrong_bodies/CRATE/, in the same form, and are tried if
their crate, its proofs or its contracts change.

Run it from anywhere: tools/wrong_bodies.py CRATE [NAME ..] .., or without a word for all. The names after a crate are some of
its bodies, with or without `.edit`; without one all of them are tried. It works in a copy of the crates with the libraries
that are in out/, and first proves each of these crates anew, and the libraries that are missing. Status 1 says that one
was not refused, or only because a proof names what it takes away, or could not be tried.
"""
import os
import shutil
import subprocess
import sys
import tempfile

TOP = os.path.dirname(os.path.dirname(os.path.abspath(__file__)))
BODIES = os.path.join(TOP, "wrong_bodies")


def left_out(folder, names):
    """What is not copied: the gate's own edits, and of what was made all but the libraries."""
    return set(names) - {"rlib"} if os.path.basename(folder) == "out" else set(names) & {"must-fail"}


def copy(folder, chosen):
    """A copy of the repository in which these crates have these wrong bodies as their edits."""
    for name in ("crates.txt", "HANDLES"):
        shutil.copy(os.path.join(TOP, name), folder)
    shutil.copytree(os.path.join(TOP, "crates"), os.path.join(folder, "crates"), ignore=left_out)
    for name, bodies in chosen.items():
        to = os.path.join(folder, "crates", name, "must-fail")
        os.mkdir(to)
        for body in bodies:
            shutil.copy(os.path.join(BODIES, name, body), to)


def bodies_of(name):
    return sorted(body for body in os.listdir(os.path.join(BODIES, name)) if body.endswith(".edit"))


def chosen_by(words):
    """The bodies of each crate that the words name."""
    crates = sorted(name for name in os.listdir(BODIES) if os.path.isdir(os.path.join(BODIES, name)))
    chosen, crate = {name: [] for name in ([] if words else crates)}, None
    for word in words:
        body = word if word.endswith(".edit") else f"{word}.edit"
        if word in crates:
            crate = word
            chosen.setdefault(crate, [])
        elif crate and body in bodies_of(crate):
            chosen[crate].append(body)
        else:
            sys.exit(f"wrong_bodies/ has no {word}")
    return {name: sorted(set(bodies)) or bodies_of(name) for name, bodies in chosen.items()}


def is_refused(line):
    return ": refused, as it must be" in line and "only because a proof file names" not in line


def tried(folder, names):
    """How many were refused, and whether the command ended well. What it says is reported at once."""
    words = ["rt", "must-fail", *names]
    refused = 0
    with subprocess.Popen(words, cwd=folder, stdout=subprocess.PIPE, stderr=subprocess.STDOUT, text=True) as run:
        for line in run.stdout:
            refused += is_refused(line)
            print(line, end="", flush=True)
    return refused, run.returncode == 0


def main():
    chosen = chosen_by(sys.argv[1:])
    wanted = sum(len(bodies) for bodies in chosen.values())
    with tempfile.TemporaryDirectory() as folder:
        copy(folder, chosen)
        refused, well = tried(folder, sorted(chosen))
    print(f"{refused} of {wanted} refused")
    return 0 if well and refused == wanted else 1


if __name__ == "__main__":
    sys.exit(main())
