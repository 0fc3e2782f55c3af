#!/usr/bin/env python3
"""Gives this checkout the libraries that `rt ci` proved on this machine and kept, where the sources here are the same.

Usage: libraries.py

A first `rt check` proves all crates below its own before it, which takes an hour for those at the top. Behind this it takes what the gate
made of them, and proves its own. A library counts only by the sum that the gate itself keeps it under: of its sources, of the libraries
below it and of the kit. So nothing is proved by this, and `rt ci` is the only verdict, as before.

Told are how many libraries stand here now, and those that the gate has to prove before more can be given. While something is checked in
this checkout, don't run it.
"""
import json
import os
import pathlib
import shutil
import sys

from crates import ROOT, inside_of_rt


def stands(out, kept, sum_of):
    """Whether the files of a library that is kept stand in a crate's out/ already."""
    files = json.loads((kept / "made.json").read_text())["files"]
    return all((out / path).is_file() and sum_of(str(out / path)) == sum for path, sum in files)


def give(crate, gate, rtlib, kept):
    """Gives a crate its library, if the gate kept it; whether it stands."""
    key, out = kept.key(crate), pathlib.Path(crate.folder, "out")
    at = pathlib.Path(kept.place(crate, False, key))
    if not at.is_dir():
        return False
    if not stands(out, at, rtlib.sum_of):
        shutil.rmtree(out / "rlib", ignore_errors=True)
        if not kept.give(crate, False, key):
            return False
    kept.is_built(crate)
    os.chdir(crate.folder)
    # `rt check` builds a library anew where this sum is another
    (out / "rlib" / "stamp").write_text(rtlib.Crate(crate.folder, str(ROOT), {}).stamp())
    return True


def main():
    """Gives what there is, from the lowest crate on."""
    gate, rtlib = inside_of_rt("rt"), sys.modules["rtlib"]
    os.chdir(ROOT)
    gate.Crate.cuts_libraries, gate.Crate.allowed = True, gate.handles_of(str(ROOT))
    crates = [it for it in sorted(gate.crates_of(str(ROOT)), key=lambda it: len(it.below())) if not it.is_program]
    kept, given, lacking = gate.Kept(crates), set(), []
    for crate in crates:
        if all(it.name in given for it in crate.below()):
            (given.add if give(crate, gate, rtlib, kept) else lacking.append)(crate.name)
    print(f"{len(given)} libraries of {len(crates)} stand", *([f"to be proved next: {' '.join(lacking)}"] if lacking else []), sep="\n")


if __name__ == "__main__":
    main()
