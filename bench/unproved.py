#!/usr/bin/env python3
"""Builds the program of this checkout as it stands, with no proof, so that a change can be measured before it is proved.

    bench/unproved.py [--checked] OUT

`rt try` compiles a program with no proof, runs it and removes it. This keeps the module that it hands to the kit's clang, takes the checks out of it (each index and each
overflow is tested, and ends in a trap: without the trap clang knows that it doesn't come to that, as a proof would have told), compiles it at -O3 as the kit does a proved
program, and links it as OUT: a program to be timed, compared, and looked at with callgrind, in three minutes. It takes a seventh more instructions than the proved one
and a third more time: take the shares of functions, and ratios between two such builds. --checked leaves the checks in and the time of compiling them without out: a minute
and a half less, twice the instructions. A wrong index has no trap in the other build: try a new body with --checked first. Nothing of either is a verdict. It goes by parts of the
kit that no page describes (13b and 13f): a folder of links to the kit, but for its clang, and the names of the calls that stand before a trap.
"""
import argparse
import os
import pathlib
import re
import shutil
import subprocess
import sys
import tempfile

TRAPS = ("  call void @llvm.trap()", '  call void @"rattle-llvm-checks::Unreachable"')
ONLY_CHECKED = re.compile(r' sanitize_address| "frame-pointer"="all"| "probe-stack"="inline-asm"| "stack-probe-size"="\d+"')
ROOT = pathlib.Path(__file__).resolve().parent.parent
KEEPING_CLANG = """#!/bin/sh
for word in "$@"; do case "$word" in *.bc) cp "$word" {kept}/$$.bc;; esac; done
exec {clang} "$@"
"""


def linked(folder, target, own):
    """A folder of links to all that the other has, but for these."""
    folder.mkdir()
    for entry in target.iterdir():
        if entry.name not in own:
            (folder / entry.name).symlink_to(entry)
    return folder


def keeping_kit(kit, place, kept):
    """The kit with a clang that keeps what it compiles."""
    copy = linked(place / "kit", kit, ["bin", "toolchain"])
    tools = linked(copy / "bin", kit / "bin", ["rt", "rtlib.py"])
    for name in ("rt", "rtlib.py"):
        shutil.copy(kit / "bin" / name, tools / name)
    toolchain = linked(copy / "toolchain", kit / "toolchain", ["bin"])
    clang = linked(toolchain / "bin", kit / "toolchain" / "bin", ["clang"]) / "clang"
    clang.write_text(KEEPING_CLANG.format(kept=kept, clang=kit / "toolchain" / "bin" / "clang"))
    clang.chmod(0o755)
    return copy


def without_checks(clang, module):
    """The module as a text in which what a failing check would come to is called unreachable."""
    text = module.with_suffix(".ll")
    subprocess.run([clang, "-S", "-emit-llvm", "-O0", "-x", "ir", module, "-o", text], check=True, stderr=subprocess.DEVNULL)
    lines = [line for line in text.read_text().splitlines() if not line.startswith(TRAPS)]
    lines = [re.sub(r"\{ \}", "{ nounwind }", ONLY_CHECKED.sub("", line)) if line.startswith("attributes") else line for line in lines]
    text.write_text("\n".join(lines) + "\n")
    return text


def module_of(kit, place):
    """The module of the program, as `rt try` hands it to clang."""
    kept = place / "kept"
    kept.mkdir()
    copy = keeping_kit(kit, place, kept)
    tried = subprocess.run(
        [sys.executable, copy / "bin" / "rt", "try", "--", "model"],
        cwd=ROOT / "crates" / "cb_cli",
        capture_output=True,
        text=True,
    )
    modules = sorted(kept.glob("*.bc"), key=lambda file: file.stat().st_size)
    if not modules:
        sys.exit(tried.stdout + tried.stderr)
    return modules[-1]


def main():
    words = argparse.ArgumentParser(description=__doc__, formatter_class=argparse.RawDescriptionHelpFormatter)
    words.add_argument("--checked", action="store_true")
    words.add_argument("out", type=pathlib.Path)
    given = words.parse_args()
    given.out.resolve().parent.mkdir(parents=True, exist_ok=True)
    kit = pathlib.Path(os.path.realpath(shutil.which("rt"))).parent.parent
    clang = kit / "toolchain" / "bin" / "clang"
    with tempfile.TemporaryDirectory() as name:
        place = pathlib.Path(name)
        module = module_of(kit, place)
        level = "-O2" if given.checked else "-O3"
        if not given.checked:
            module = without_checks(clang, module)
        target = ["--target=x86_64-unknown-linux-gnu", "-ffunction-sections", "-fdata-sections", "-fPIE", level]
        subprocess.run([clang, *target, "-c", "-x", "ir", module, "-o", place / "program.o"], check=True)
        libraries = [kit / "c" / "libos_c.a", kit / "c" / "liblibc_c.a", "-lm", "-lpthread", "-ldl"]
        subprocess.run(["gcc", "-pie", "-o", given.out.resolve(), place / "program.o", *libraries, "-Wl,--gc-sections"], check=True)


if __name__ == "__main__":
    main()
