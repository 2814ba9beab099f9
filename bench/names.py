#!/usr/bin/env python3
"""Whether one name has one meaning: prints each name that two crates give to a public definition, and each that two give to an exported type.

    bench/names.py

A definition is a record, a datum or a function of `specs/`; a type is a `pub` struct, enum or trait of `src/`. A type and a definition may share a name, as
`Topology` does: the one represents the other. Crates of tests have names of their own. It ends with 1 if there is such a name.
"""
import collections
import pathlib
import re
import sys

ROOT = pathlib.Path(__file__).resolve().parent.parent
DEFINED = re.compile(r"^(?:(?:abbrev|unfoldable|opaque) )*pub (?!mod\b)(?:(?:abbrev|unfoldable|record|data) )*([A-Za-z_][\w']*)", re.M)
EXPORTED = re.compile(r"^pub (?:struct|enum|trait) (\w+)", re.M)


def named(ending, pattern):
    """The names that the pattern finds in files of this ending, each with its crates."""
    places = collections.defaultdict(set)
    for crate in (ROOT / "crates").iterdir():
        if not crate.name.startswith("cb_test"):
            for path in crate.glob(ending):
                for name in pattern.findall(path.read_text()):
                    places[name].add(crate.name)
    return places


def main():
    wrong = 0
    for what, ending, pattern in (("definitions", "specs/**/*.antt", DEFINED), ("types", "src/**/*.rt", EXPORTED)):
        places = named(ending, pattern)
        twice = {name: crates for name, crates in places.items() if len(crates) > 1}
        for name, crates in sorted(twice.items()):
            print(name, *sorted(crates))
        print(f"{len(places)} names of {what}, {len(twice)} of them in two crates")
        wrong += len(twice)
    return 1 if wrong else 0


if __name__ == "__main__":
    sys.exit(main())
