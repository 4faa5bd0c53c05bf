#!/usr/bin/env python3
"""Takes over the libraries that earlier gates on this machine have kept, so that a check here need not prove them again.

  tools/take_kept.py [CRATE ..]

A library is taken if the gate would take it: if its crate and all crates below are as they were when they were proved. Without names
it goes over all crates, and otherwise over these and all below them. Do not run it beside a check of this checkout. The last line
counts. tools/take_libraries.py takes what a gate has just built in another checkout.
"""
import importlib.machinery
import importlib.util
import os
import shutil
import sys

TOP = os.path.dirname(os.path.dirname(os.path.abspath(__file__)))
sys.dont_write_bytecode = True
RT = os.path.realpath(shutil.which("rt") or sys.exit("there is no rt on the path"))
sys.path.insert(0, os.path.dirname(RT))


def loaded():
    """The kit's tool as a module."""
    loader = importlib.machinery.SourceFileLoader("rt", RT)
    tool = importlib.util.module_from_spec(importlib.util.spec_from_loader("rt", loader))
    loader.exec_module(tool)
    return tool


def take(tool, names):
    """Lays the kept libraries of these crates, and of all below, into the checkout. Returns the names of those that are there now."""
    tool.Crate.allowed = tool.handles_of(TOP)
    crates = tool.crates_of(TOP)
    unknown = set(names) - {it.name for it in crates}
    if unknown:
        sys.exit(f"crates.txt has no {' '.join(sorted(unknown))}")
    wanted = {below.name for it in crates if not names or it.name in names for below in [it, *it.below()]}
    kept, have = tool.Kept(crates), []
    for crate in sorted((it for it in crates if it.name in wanted and it.makes_rlib()), key=lambda it: len(it.below())):
        if not {it.name for it in crate.below()} <= set(have):
            continue
        if not (crate.is_built() and os.path.isfile(f"{crate.rlib}/format")):
            # What is there has to go: the kit's tool takes a library that it cannot lay out for a damaged one, and drops it.
            shutil.rmtree(os.path.dirname(crate.rlib), ignore_errors=True)
            os.makedirs(f"{crate.folder}/out", exist_ok=True)
            if not kept.give(crate, False, kept.key(crate)):
                continue
            with open(f"{os.path.dirname(crate.rlib)}/stamp", "w", encoding="utf-8") as file:
                file.write(crate.stamp())
        kept.is_built(crate)
        have.append(crate.name)
    return have


os.chdir(TOP)
taken = take(loaded(), sys.argv[1:])
print(f"{len(taken)} libraries are here: {' '.join(sorted(taken))}")
