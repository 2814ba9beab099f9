#!/usr/bin/env python3
"""Runs each script of `tools` on small inputs, and compares what is printed with stored answers.

    bench/tools.py [--program PROGRAM] [--with NAME=COMMAND ..] [--write] [--unspoilt] [CASE ..]

A case is a shell script `bench/tools/CASE.sh`, and `bench/tools/CASE.answer` is what it prints, standard error among it. It runs in an empty
folder, which is $W. $R is the clone, $T the folder `tools`, which is on the PATH with `jeknaule`, and $PORT a port that is free. A tool
without a case is a fault. `report` has a script of its own, `bench/report.py`.

Then each tool whose cases all ran is spoilt in one place, and they must print something else; `--unspoilt` leaves that out. `--with` says what
is run under a name, as `--with awk=gawk` or `--with 'sh=busybox sh'`. `--write` stores what is printed as the answers, to be read before they
are kept. `jq` must be on the PATH. The program is the one that `.ci/run` or `rt run` left in crates/cb_cli/out. The status is 1 if anything
differs. It takes a minute, most of which is waiting.
"""
import argparse
import difflib
import os
import pathlib
import re
import shutil
import signal
import socket
import subprocess
import sys
import tempfile

ROOT = pathlib.Path(__file__).resolve().parent.parent
CASES = ROOT / "bench" / "tools"
ELSEWHERE = {"report", "report.html"}

# A fault for each tool: a text that stands in it once, and what comes instead.
SPOILT = {
    "act-on-events": ("0.sure.quiet)", "0.unsure.quiet)"),
    "all-columns": ('print "column", place[column[i]]', 'print "column", i'),
    "changes": ("up,*\" $alarm \"*) continue ;;", "up,none) continue ;;"),
    "close-pairs": ("if (x < wanted) print", "if (x <= wanted) print"),
    "divide": ("zlib.crc32(source) % parts", "len(source) % parts"),
    "edits": ('!(w[2] in gone) && !(w[4] in gone)', '!(w[2] in gone)'),
    "follow": ("sh \"$here/act-on-events\"", "cat"),
    "join": ("min(diagnoses)", "max(diagnoses)"),
    "journal.jq": ("/ 1000000 | floor", "/ 1000000 | ceil"),
    "known": ("|| exit", "|| true"),
    "missing": ("if (!caused &&", "if (caused &&"),
    "one-by-one": ('cp "$3" "$rest" || exit', 'cp "$3" "$rest" || true'),
    "poll": ('if "$@" > "$raw"; then', 'if "$@" > "$raw" || true; then'),
    "receive.py": ("self.send_error(400)", "self.send_error(500)"),
    "restate.jq": ("$now - .opened[$from] >= $window", "$now - .opened[$from] > $window"),
    "syslog": ("'meterd['*,'no light')", "*,'no light')"),
    "topology-now": ("$1 == \"refused\" || ", ""),
    "traps": ("1.1.5.4')", "1.1.5.[14]')"),
    "uncaused": ("if (!(c in caused))", "if (c in caused)"),
    "unlinked": ("linked[$4, inverse($2, $3)]", ""),
    "webhook.jq": ("and $was[$alert.label] != $alert.since", ""),
    "why": ("if (!($NF in up)) print", "if ($NF in up) print"),
    "window-alarms": (".at < $opened + $length", ".at <= $opened + $length"),
}


def free_port():
    """A port of this machine that nothing listens at."""
    with socket.socket() as one:
        one.bind(("127.0.0.1", 0))
        return one.getsockname()[1]


def printed(case, tools, room):
    """What a case prints, with the tools of a folder. What it has started is ended with it."""
    with tempfile.TemporaryDirectory(dir=room) as empty:
        found = {"R": str(ROOT), "T": str(tools), "W": empty, "PORT": str(free_port()), "LC_ALL": "C.UTF-8"}
        found["PATH"] = f"{tools}:{room / 'bin'}:{os.environ['PATH']}"
        outside = {"stdin": subprocess.DEVNULL, "stdout": subprocess.PIPE, "stderr": subprocess.STDOUT}
        run = subprocess.Popen(["sh", CASES / f"{case}.sh"], cwd=empty, env=found, start_new_session=True, **outside)
        try:
            text = run.communicate(timeout=120)[0].decode(errors="replace")
        except subprocess.TimeoutExpired:
            text = "-- no end after 120 seconds --\n"
        try:
            os.killpg(run.pid, signal.SIGKILL)
            text += "-- a process is left --\n"
        except ProcessLookupError:
            pass
        run.wait()
        return text.replace(empty, "$W").replace(str(tools), "$T")


def tools_in(room):
    """A copy of the tools, with the shell of the room, if there is one."""
    tools = room / "tools"
    if not tools.exists():
        shutil.copytree(ROOT / "tools", tools)
        shell = room / "bin" / "sh"
        for file in tools.iterdir() if shell.exists() else ():
            file.write_text(file.read_text().replace("#!/bin/sh\n", f"#!{shell}\n", 1))
    return tools


def cases_of(tool, cases):
    """The cases that run a tool by its name."""
    word = re.compile(rf"(?<![\w./-]){re.escape(tool)}(?![\w.-])|\$T/{re.escape(tool)}(?![\w.-])")
    return [case for case in cases if word.search((CASES / f"{case}.sh").read_text())]


def try_case(case, room, write):
    """Runs a case, and returns whether it prints something else than its answer."""
    text = printed(case, tools_in(room), room)
    answer = CASES / f"{case}.answer"
    if write:
        answer.write_text(text)
    stored = answer.read_text() if answer.exists() else ""
    print(f"{'FAILED' if text != stored else 'ok    '} {case}: {len(stored.splitlines())} lines")
    sys.stdout.writelines(difflib.unified_diff(stored.splitlines(True), text.splitlines(True), "stored", "printed"))
    return text != stored


def try_spoilt(tool, cases, room):
    """Spoils a tool, and returns whether no case prints something else."""
    old, new = SPOILT[tool]
    tools = room / f"spoilt-{tool}"
    shutil.copytree(tools_in(room), tools)
    text = (tools / tool).read_text()
    if text.count(old) != 1:
        print(f"FAILED {tool}: what is to be spoilt stands there {text.count(old)} times")
        return True
    (tools / tool).write_text(text.replace(old, new))
    found = any(printed(case, tools, room) != (CASES / f"{case}.answer").read_text() for case in cases)
    print(f"{'ok    ' if found else 'FAILED'} {tool} spoilt: {'found out' if found else 'not found out'}")
    return not found


def main():
    parser = argparse.ArgumentParser(description=__doc__, formatter_class=argparse.RawDescriptionHelpFormatter)
    parser.add_argument("--program", type=pathlib.Path, default=ROOT / "crates/cb_cli/out/cb_cli")
    parser.add_argument("--with", action="append", default=[], dest="others", metavar="NAME=COMMAND")
    parser.add_argument("--write", action="store_true")
    parser.add_argument("--unspoilt", action="store_true")
    parser.add_argument("cases", nargs="*")
    words = parser.parse_args()
    every = sorted(file.stem for file in CASES.glob("*.sh"))
    cases = words.cases or every
    wrong = 0
    with tempfile.TemporaryDirectory() as name:
        room = pathlib.Path(name)
        (room / "bin").mkdir()
        (room / "bin" / "jeknaule").symlink_to(words.program.resolve())
        for name, command in (pair.split("=", 1) for pair in words.others):
            (room / "bin" / name).write_text(f'#!/bin/sh\nexec {command} "$@"\n')
            (room / "bin" / name).chmod(0o755)
        wrong += sum([try_case(case, room, words.write) for case in cases])
        for tool in sorted(file.name for file in (ROOT / "tools").iterdir() if file.name not in ELSEWHERE):
            its = cases_of(tool, every)
            if not its or tool not in SPOILT:
                print(f"FAILED {tool}: no case, or nothing to spoil")
                wrong += 1
            elif not words.unspoilt and set(its) <= set(cases):
                wrong += try_spoilt(tool, its, room)
    sys.exit(1 if wrong else 0)


if __name__ == "__main__":
    main()
