#!/usr/bin/env python3
"""Gives this checkout the libraries that a gate has proved in another clone, so that the crates above them can be checked at once.

    bench/borrow.py CLONE LOG

CLONE is where `.ci/run` or `rt ci NAME` works or has worked (the second on a copy of its own, /tmp/rt-copy-..../repo), and LOG what it has printed so far. A library
is taken where the gate says that it is proved or kept, and where its sources and those of all below it are the same in both. Every other library here is removed,
and is then built again over what `rt check` has kept: two libraries that stand on different builds of a third don't go together, though its sources be the same
("unusable-built-library"). So let no rt work in this checkout meanwhile. On a machine with nothing kept: begin with the gate in a clone, borrow while it
goes on, and begin it anew, in a new clone, once the work is done. What is checked over borrowed libraries is no verdict: that is the gate's, which proves all from nothing.
It goes by parts of the kit that no page describes (rtlib.py of 13b and 13f): with another kit it may do nothing, or stop.
"""
import importlib.machinery
import importlib.util
import os
import pathlib
import re
import shutil
import sys

ROOT = pathlib.Path(__file__).resolve().parent.parent


def kit():
    """The module of the kit's command that knows how crates stand on one another, and the sum of what each is made from."""
    sys.dont_write_bytecode = True
    file = pathlib.Path(os.path.realpath(shutil.which("rt"))).parent / "rtlib.py"
    loader = importlib.machinery.SourceFileLoader("rtlib", str(file))
    module = importlib.util.module_from_spec(importlib.util.spec_from_loader("rtlib", loader))
    sys.modules["rtlib"] = module
    loader.exec_module(module)
    return module


def main():
    if len(sys.argv) != 3:
        sys.exit(__doc__)
    clone, log = pathlib.Path(sys.argv[1]).resolve(), pathlib.Path(sys.argv[2]).read_text(errors="replace")
    proved = set(re.findall(r"^rt: (\w+) (?:proved$|is kept: an earlier run on this machine proved)", log, re.M))
    crates_below = kit().crates_below
    theirs = {crate.name: crate for crate in crates_below(str(clone))}
    os.chdir(ROOT)
    for crate in sorted(crates_below(str(ROOT)), key=lambda crate: len(crate.below())):
        library = pathlib.Path(crate.folder) / "out" / "rlib"
        other = theirs.get(crate.name)
        shutil.rmtree(library, ignore_errors=True)
        if crate.name not in proved or other is None or crate.stamp() != other.stamp():
            continue
        shutil.copytree(clone / "crates" / crate.name / "out" / "rlib", library, symlinks=True)
        (library / "stamp").write_text(crate.stamp())
        print(f"borrowed {crate.name}")


if __name__ == "__main__":
    main()
