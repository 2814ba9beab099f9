#!/usr/bin/env python3
"""Tries the planted bugs of bench/planted, which the gate doesn't try: each must be refused by the prover.

    bench/planted.py [NAME..]

Each file bench/planted/NAME/BUG.edit is a wrong body of the crate NAME, in the form of its must-fail edits, and says in its first line what it would
spoil. They are tried in a copy of this checkout in which they stand in the place of the must-fail edits, with what `rt check` has kept here: so check
the crates first, or else each is checked from nothing. Without names all crates are tried. The status is 1 where a bug is let through, or can't be tried.
"""
import pathlib
import shutil
import subprocess
import sys
import tempfile

ROOT = pathlib.Path(__file__).resolve().parent.parent
PLANTED = ROOT / "bench" / "planted"


def plant(copy, name):
    """Puts the bugs of a crate in the place of its must-fail edits."""
    folder = copy / "crates" / name / "must-fail"
    shutil.rmtree(folder, ignore_errors=True)
    shutil.copytree(PLANTED / name, folder)


def main():
    names = sys.argv[1:] or sorted(it.name for it in PLANTED.iterdir())
    with tempfile.TemporaryDirectory() as folder:
        copy = pathlib.Path(folder) / ROOT.name
        shutil.copytree(ROOT, copy, symlinks=True)
        for name in names:
            plant(copy, name)
        sys.exit(subprocess.run(["rt", "must-fail", *names], cwd=copy, check=False).returncode)


if __name__ == "__main__":
    main()
