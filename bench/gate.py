#!/usr/bin/env python3
"""Runs the gate, and prints what each crate's proof, tests and must-fail edits take, in processor minutes, in the form of docs/gate.md.

    bench/gate.py [FOLDER]

FOLDER is a clone at its top, this checkout if none is named. The gate's own lines go to the file gate.log beside the clone. Every second or two it looks at the
prover's processes and keeps the processor time that each has taken, so that the last second of each is missing, and edits that several runs try at a time are
counted together: let no other run of rt stand beside it. Ended by `kill`, it ends the gate, whose processes may want a `pkill -f "rt ci"`, and prints what was seen so far.
"""
import collections
import os
import pathlib
import signal
import subprocess
import sys
import time

ROOT = pathlib.Path(__file__).resolve().parent.parent
TICKS = os.sysconf("SC_CLK_TCK")


def prover(pid, top):
    """The crate that a process of the prover works on, for its proof, its tests or an edit, with its start and the seconds that it took; or none."""
    try:
        words = pathlib.Path(f"/proc/{pid}/cmdline").read_text().split("\0")
        if not words[0].endswith("/rattle") or "--crate-name" not in words:
            return None
        numbers = pathlib.Path(f"/proc/{pid}/stat").read_text().rsplit(")", 1)[1].split()
        folder = os.readlink(f"/proc/{pid}/cwd")
    except OSError:
        return None
    is_edit = "rt-edit" in folder
    if not is_edit and not folder.startswith(f"{top}/"):
        return None
    part = "edits" if is_edit else "tests" if "--test" in words else "proof"
    return words[words.index("--crate-name") + 1], part, folder, numbers[19], (int(numbers[11]) + int(numbers[12])) / TICKS


def watched(gate, top):
    """The processor seconds of each process of the prover until the gate ends, or this program is told to: then it ends the gate."""
    signal.signal(signal.SIGTERM, lambda number, frame: gate.terminate())
    taken = {}
    while gate.poll() is None:
        for pid in filter(str.isdigit, os.listdir("/proc")):
            found = prover(pid, top)
            if found:
                crate, part, folder, start, seconds = found
                taken[pid, start] = crate, part, folder, seconds
        time.sleep(1.5)
    return taken.values()


def crates_of(top):
    lines = (top / "crates.txt").read_text().splitlines()
    return [line.split(":")[0].split()[0] for line in lines if ":" in line and not line.startswith("#")]


def table(top, taken):
    """A line for each crate, and the sums in minutes."""
    whole, edits, sums = collections.Counter(), collections.defaultdict(collections.Counter), collections.Counter()
    for crate, part, folder, seconds in taken:
        whole[crate, part] += seconds / 60
        sums[part] += seconds / 60
        if part == "edits":
            edits[crate][folder] += seconds / 60
    print("| Crate | Proof | Tests | Edits | An edit, mean | An edit, slowest |\n|---|---|---|---|---|---|")
    for crate in crates_of(top):
        each = [*edits[crate].values()]
        cells = [f"{whole[crate, part]:.1f}" if whole[crate, part] else "" for part in ("proof", "tests")]
        count = len([*(top / "crates" / crate / "must-fail").glob("*.edit")])
        cells += [str(count), f"{sum(each) / len(each):.1f}" if each else "", f"{max(each):.1f}" if each else ""]
        print(f"| {crate} | " + " | ".join(cells) + " |")
    print(", ".join(f"{part} {minutes:.0f}" for part, minutes in sums.items()))


def main():
    top = pathlib.Path(sys.argv[1] if len(sys.argv) > 1 else ROOT).resolve()
    began = time.time()
    with open(top.parent / "gate.log", "wb") as log:
        gate = subprocess.Popen([str(top / ".ci" / "run")], cwd=top, stdin=subprocess.DEVNULL, stdout=log, stderr=subprocess.STDOUT)
        taken = watched(gate, top)
    table(top, taken)
    print(f"status {gate.returncode}, {(time.time() - began) / 60:.0f} minutes, load {os.getloadavg()[2]:.1f}")
    sys.exit(gate.returncode)


if __name__ == "__main__":
    main()
