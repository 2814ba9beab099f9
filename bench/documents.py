#!/usr/bin/env python3
"""Runs every command that the documents show, and compares what is printed with what stands there.

    bench/documents.py [--program PROGRAM] [DOCUMENT ..]

A block that begins with ```console has commands and what they print, standard error among it:

    $ a command
    > that goes on in a second line
    a line that is printed

A block whose first line names a file, as ```csv inventory.csv, is written under that name, which the text before it must tell too. The
blocks of a document run in order, in one shell, in a copy of the repository without its crates, which is $R: at the top, for an
example's page in its folder, and for the tutorial and the recipes in an empty folder. `jeknaule` is the program that `.ci/run` or
`rt run` left in crates/cb_cli/out. Other blocks and indented lines aren't run; blocks of shell among them (```sh) are counted. The
status is 1 where something else is printed.
"""
import argparse
import difflib
import os
import pathlib
import re
import shutil
import subprocess
import sys
import tempfile

ROOT = pathlib.Path(__file__).resolve().parent.parent
BLOCK = re.compile(r"^```(\w+)(?: +(\S+))?\n(.*?)^```$", re.MULTILINE | re.DOTALL)
PAGES = ["README.md", "docs/tutorial.md", "docs/troubles.md", "docs/recipes.md", "docs/live.md", "docs/scale.md", "docs/report.md", "docs/limits.md"]
MARK = "-- end of a command --"


def steps_of(block):
    """The commands of a console block, each with the lines that it is to print."""
    steps = []
    for line in block.splitlines():
        if line.startswith("$ "):
            steps.append(([line[2:]], []))
        elif line.startswith("> ") and not steps[-1][1]:
            steps[-1][0].append(line[2:])
        else:
            steps[-1][1].append(line)
    return steps


def script_of(text):
    """What the shell is given for a document, its commands with the lines wanted, and how many blocks of shell aren't run."""
    script, steps, unrun = ["exec 2>&1"], [], 0
    for match in BLOCK.finditer(text):
        kind, file, block = match.groups()
        if file and f"`{file}`" not in text[: match.start()]:
            sys.exit(f"`{file}` isn't told before its block, whose first line a reader doesn't see")
        if file:
            script.append(f"cat > {file} <<'END OF FILE'\n{block}END OF FILE")
        elif kind == "console":
            for lines, wanted in steps_of(block):
                command = "\n".join(lines)
                script.append(f"{command}\nlast=$?; printf '\\n%s\\n' '{MARK}'; (exit $last)")
                steps.append((command, wanted))
        else:
            unrun += kind == "sh"
    return "\n".join(script) + "\n", steps, unrun


def copy(program, room):
    """A copy of the repository without its crates, and a folder with the program under its name."""
    shutil.copytree(ROOT, room / "top", ignore=shutil.ignore_patterns("crates", ".git"))
    for folder in ("bin", "empty"):
        (room / folder).mkdir()
    shutil.copyfile(program, room / "bin" / "jeknaule")
    (room / "bin" / "jeknaule").chmod(0o755)


def place_of(page, room):
    """The folder in which the commands of a page are typed."""
    if page.name in ("tutorial.md", "recipes.md", "live.md", "scale.md", "report.md"):
        return room / "empty"
    return room / "top" / (page.parent if page.parts[0] == "examples" else "")


def tell(command, folder, found):
    """What a command prints."""
    outside = {"stdin": subprocess.DEVNULL, "stdout": subprocess.PIPE}
    return subprocess.run(command, cwd=folder, env=found, text=True, timeout=300, check=False, **outside).stdout


def try_page(page, program):
    """Prints what differs on a page, and returns how many commands do."""
    script, steps, unrun = script_of((ROOT / page).read_text())
    with tempfile.TemporaryDirectory() as name:
        room = pathlib.Path(name)
        copy(program, room)
        (room / "commands").write_text(script)
        found = {"PATH": f"{room / 'bin'}:{os.environ['PATH']}", "R": str(room / "top"), "LC_ALL": "C.UTF-8"}
        told = tell(["bash", room / "commands"], place_of(page, room), found).split(f"\n{MARK}\n")[: len(steps)]
    told += ["-- the shell ended before --"] * (len(steps) - len(told))
    wrong = 0
    for (command, wanted), printed in zip(steps, told):
        if wanted != printed.splitlines():
            wrong += 1
            differs = difflib.unified_diff(wanted, printed.splitlines(), "stands there", "is printed", lineterm="")
            print(f"{page}: $ {command}", *differs, sep="\n")
    print(f"{page}: {len(steps)} commands, {wrong} wrong" + (f", {unrun} blocks of shell not run" if unrun else ""))
    return wrong


def main():
    parser = argparse.ArgumentParser(description=__doc__, formatter_class=argparse.RawDescriptionHelpFormatter)
    parser.add_argument("--program", type=pathlib.Path, default=ROOT / "crates" / "cb_cli" / "out" / "cb_cli")
    parser.add_argument("documents", nargs="*", type=pathlib.Path)
    said = parser.parse_args()
    if not said.program.exists():
        sys.exit(f"{said.program} isn't there: run `.ci/run`, or `rt run` in crates/cb_cli, first")
    examples = sorted(page.relative_to(ROOT) for page in ROOT.glob("examples/*/README.md"))
    pages = [page.resolve().relative_to(ROOT) for page in said.documents] or [*map(pathlib.Path, PAGES), *examples]
    sys.exit(1 if sum(try_page(page, said.program.resolve()) for page in pages) else 0)


if __name__ == "__main__":
    main()
