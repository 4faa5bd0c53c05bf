#!/usr/bin/env python3
"""Takes over the libraries that a gate proved in another checkout, so that a check here need not prove them again.

  tools/take_libraries.py CHECKOUT

A library is taken if its crate and all crates below are the same in both checkouts, if it has a stamp or is newer than
their files, and if all libraries below it were taken. One that this checkout has stays. So it may run while the gate does:
it takes what is done, by hard links. Do not run it beside a check of this checkout. The last line counts.
"""
import functools
import os
import shutil
import sys
import time

TOP = os.path.dirname(os.path.dirname(os.path.abspath(__file__)))
sys.dont_write_bytecode = True
sys.path.insert(0, os.path.dirname(os.path.realpath(shutil.which("rt") or sys.exit("there is no rt on the path"))))
import rtlib

rtlib.Crate.stamp = functools.lru_cache(None)(rtlib.Crate.stamp)  # it reads all files below, and is asked for often


def taken(at, crate):
    """Whether a library of the other checkout is here now."""
    if crate.is_built():  # libraries above fit only over the very same
        return rtlib.sum_of(f"{at.rlib}/format") == rtlib.sum_of(f"{crate.rlib}/format")
    made, files = os.stat(f"{at.rlib}/format").st_mtime, [file for it in [at, *at.below()] for file in rtlib.files_of(it.folder)]
    if not at.is_built() and not max(os.stat(file).st_mtime for file in files) < made < time.time() - 20:  # of other files, or not whole yet
        return False
    shutil.rmtree(os.path.dirname(crate.rlib), ignore_errors=True)
    shutil.copytree(at.rlib, crate.rlib, copy_function=os.link)
    if os.stat(f"{at.rlib}/format").st_mtime == made:
        with open(f"{os.path.dirname(crate.rlib)}/stamp", "w", encoding="utf-8") as file:
            file.write(crate.stamp())
    return crate.is_built()


old, new = ({c.name: c for c in rtlib.crates_below(f"{top}/crates")} for top in (os.path.abspath(" ".join(sys.argv[1:]) or sys.exit(__doc__)), TOP))
have = set()
for one in filter(rtlib.Crate.makes_rlib, new.values()):
    is_same = one.name in old and {it.name for it in one.below()} <= have and old[one.name].stamp() == one.stamp()
    if is_same and os.path.isfile(f"{old[one.name].rlib}/format") and taken(old[one.name], one):
        have.add(one.name)
print(f"{len(have)} libraries are those of {sys.argv[1]}: {' '.join(sorted(have))}")
