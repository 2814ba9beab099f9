#!/usr/bin/env python3
"""Measures `model` on large generated texts, beside another program with the same command line where one is given.

    bench/model.py [--peer PROGRAM] [--program PROGRAM]

The texts are a model of 1,024 classes in lines of inheritance 64 deep, with relations, rules along them, blocks and
hides; one of nearly 16 MiB that keeps every rule but the limit on classes; and one of as many classes in one line, which
is too deep. It prints processor seconds and peak memory, and for two programs the ratios and whether they answer alike.
"""
import pathlib
import tempfile

import measure

MOST_BYTES = 16 << 20


def class_text(i, parent, events):
    """A class with a relation to itself, and rules at home and along it."""
    lines = [f"class C{i}" + (f" extends C{parent}" if parent is not None else "") + " {"]
    for k in range(events):
        lines.append(f"  problem p{i}-{k};")
        lines.append(f"  symptom s{i}-{k};")
        lines.append(f"  rule h{i}-{k}: p{i}-{k} => s{i}-{k};")
    lines.append(f"  relation next{i} to C{i} many inverse next{i};")
    lines.append(f"  rule far{i}: p{i}-0 => next{i}.s{i}-0;")
    if parent is not None:
        lines.append(f"  block h{parent}-0;")
        lines.append(f"  hide s{parent}-0;")
    return "\n".join(lines) + "\n}\n"


def full_model():
    return "".join(class_text(i, i - 1 if i % 64 else None, 2) for i in range(1024))


def long_model(deep):
    """Classes until the text is nearly as long as it may be."""
    parts, size, i = [], 0, 0
    while True:
        part = f"class C{i}" + (f" extends C{i - 1}" if deep and i else "") + f" {{ problem p{i}; symptom s{i}; rule r{i}: p{i} => s{i}; }}\n"
        if size + len(part) > MOST_BYTES:
            return "".join(parts)
        parts.append(part)
        size += len(part)
        i += 1


def main():
    words = measure.programs(__doc__)
    texts = {"1,024 classes": full_model(), "16 MiB of classes": long_model(False), "16 MiB in one line": long_model(True)}
    for what, text in texts.items():
        with tempfile.TemporaryDirectory() as name:
            folder = pathlib.Path(name)
            (folder / "m").write_text(text)
            measure.compare(f"{what:>18}", ["model", "m"], words, folder)


if __name__ == "__main__":
    main()
