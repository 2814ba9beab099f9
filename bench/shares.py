#!/usr/bin/env python3
"""Says where the instructions of a command go: of each function the share of all, with what it calls, by callgrind, which no other work on the machine moves.

    bench/shares.py [--program PROGRAM] [--least N] WORKLOAD

WORKLOAD is the script that writes networks, as for bench/commands.py. For each of the commands below it prints how many millions of instructions there are in all,
and the functions that take at least N in 100 (4, if nothing is said), the greatest first. What the compiler has put into its caller isn't told apart, and
the system's work (pages given and taken) is in no count.
"""
import argparse
import pathlib
import re
import subprocess
import sys
import tempfile

ROOT = pathlib.Path(__file__).resolve().parent.parent

# The networks, with the lines of a log and how often one is an edit, and the commands on each.
ASKED = (
    (("ring", 2048), (("burst", "m", "t", "s"), ("matrix", "m", "t"), ("codebook", "m", "t", "1"), ("verify", "m", "t", "c"))),
    (("random", 4000), (("codebook", "m", "t", "1"),)),
    (("chain", 8192), (("burst", "m", "t", "s"),)),
    (("chain", 1000), (("codebook", "m", "t", "1"),)),
    (("dense", 4000), (("codebook", "m", "t", "4"),)),
    (("ring", 200, 50_000, 10_000), (("correlate", "m", "t", "log", "1", "30"),)),
    (("ring", 500, 4_000, 5), (("correlate", "m", "t", "log", "1", "30"),)),
    ((), (("grow", "200", "7"),)),
)


def counted(program, command, folder):
    """The instructions of each function with what it calls, and of all."""
    file = folder / "callgrind.out"
    subprocess.run(["valgrind", "--tool=callgrind", f"--callgrind-out-file={file}", str(program), *command], cwd=folder, capture_output=True, check=False)
    told = subprocess.run(["callgrind_annotate", "--inclusive=yes", "--threshold=100", str(file)], capture_output=True, text=True, check=True).stdout
    whole = int(re.search(r"([\d,]+) \(100\.0%\)\s+PROGRAM TOTALS", told)[1].replace(",", ""))
    each = {}
    for count, name in re.findall(r"^\s*([\d,]+) \([ \d.]+%\)\s+\S*?:(.*?)(?: \[.*)?$", told, re.M):
        each[name] = max(each.get(name, 0), int(count.replace(",", "")))
    return whole, each


def shown(program, command, folder, network, least):
    whole, each = counted(program, command, folder)
    print(f"{command[0]} {network}: {whole / 1e6:.0f} million")
    for name, count in sorted(each.items(), key=lambda item: -item[1]):
        if 100 * count >= least * whole:
            print(f"  {100 * count / whole:5.1f}  {name[:140]}")
    sys.stdout.flush()


def main():
    parser = argparse.ArgumentParser(description=__doc__, formatter_class=argparse.RawDescriptionHelpFormatter)
    parser.add_argument("--program", type=pathlib.Path, default=ROOT / "crates" / "cb_cli" / "out" / "cb_cli")
    parser.add_argument("--least", type=float, default=4)
    parser.add_argument("workload", type=pathlib.Path)
    words = parser.parse_args()
    program, workload = words.program.resolve(), words.workload.resolve()
    for network, commands in ASKED:
        with tempfile.TemporaryDirectory() as name:
            folder = pathlib.Path(name)
            if network:
                subprocess.run([sys.executable, str(workload), network[0], str(network[1]), name, *map(str, network[2:])], check=True, stdout=subprocess.DEVNULL)
            for command in commands:
                if "c" in command:
                    made = subprocess.run([str(program), "codebook", "m", "t", "1"], cwd=folder, capture_output=True, check=False)
                    (folder / "c").write_bytes(made.stdout)
                shown(program, command, folder, " ".join(map(str, network)), words.least)


if __name__ == "__main__":
    main()
