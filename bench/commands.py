#!/usr/bin/env python3
"""Measures the commands on networks of another program's generator, beside that program.

    bench/commands.py --peer PROGRAM [--program PROGRAM] WORKLOAD

WORKLOAD is the script that writes a network (files m, t and s, and a log) into a folder; those whose rule has a place with a plus are made here. Each command is run three times by both programs, and the least
time is taken; a table is printed, in the form of docs/speed.md. Where valgrind is there, each is run once more by it, and the instructions are counted, in
millions, which no other work on the machine moves; of logs with many edits a shorter one is counted. Nothing here is a test: read ratios out of one run.
"""
import pathlib
import random
import re
import shutil
import subprocess
import sys
import tempfile

import measure
from model import full_model, long_model

# Which commands are measured on which networks. A codebook is asked for at the distance that stands with it, and its certificate is verified. What is explained are the
# alarms of the problem that stands with the network, so that few problems are listed; and the levels of that problem are written and proved.
ANSWERED = (("ring", 2048), ("limits", 2048), ("random", 8192), ("dense", 8192), ("chain", 8192), ("mesh", 8192))
EXPLAINED = (("ring", 2048, "Dead@b0"), ("random", 8192, "P@c0"), ("chain", 8192, "Power@s8000"))
LEVELLED = (("ring", 2048, "Dead@b0"), ("random", 8192, "P@c0"), ("chain", 8192, "Power@s0"), ("mesh", 8192, "Sick@n0"))
CERTIFIED = (("ring", 2048, 1), ("random", 4000, 1), ("dense", 2000, 4), ("dense", 4000, 4), ("chain", 1000, 1), ("mesh", 1024, 1))

# Sites that feed one another, in a row or in a cycle, the first of which alone has a problem, by a rule with a plus. Reading taken off, twice the sites are to take twice
# the instructions.
RUNS = (("row", 4096), ("row", 8192), ("cycle", 4096), ("cycle", 8192))

SITES = """class Site {
  symptom Dark;
  relation feeds to Site many inverse fed;
  relation fed to Site one inverse feeds;
}
class Source extends Site {
  problem Power;
  rule all: Power => feeds+.Dark;
}
"""

# Problems of which each two are taken at once: how many, over how many symptoms, and of a thousand symptoms how many each one causes. At 1 they cause as
# many that no other causes.
PAIRED = ((127, 8065, 500), (127, 8065, 100), (127, 8065, 5), (127, 8065, 1))

CAUSES = """class Cause {
  problem Down;
  relation shows to Sign many inverse of;
  rule r: Down => shows.Up;
}
class Sign {
  symptom Up;
  relation of to Cause many inverse shows;
}
"""

# Networks with a log: how many lines it has, of how many the instructions are counted, and that each so many of them one is an edit.
LOGS = (
    ("ring", 200, 1_000_000, 100_000, 10_000),
    ("ring", 500, 50_000, 4_000, 5),
    ("random", 1000, 50_000, 4_000, 5),
    ("mesh", 1000, 50_000, 4_000, 5),
)

# Networks of which one alarm is followed at a distance or a cap: of chains each problem causes all that follows, so with a cap past the distances each column is kept.
CAPPED = (("chain", 8192, "1"), ("chain", 8192, "cap500"), ("chain", 8192, "cap9999"), ("ring", 2048, "3"), ("ring", 2048, "cap3"), ("ring", 2048, "cap9999"))

# How many sites a ring has, and how many lines a script over it, at which depth.
REWOUND = ((500, 100_000, 1_024),)

# How many sites `grow` makes up, and from which number on its numbers are drawn.
GROWN = ((200, 7), (256, 1))

VALGRIND = ("valgrind", "--tool=cachegrind", "--cache-sim=no", "--cachegrind-out-file=/dev/null")


def least(program, command, folder):
    """The status and what was printed, with the least time of three runs and its memory."""
    runs = [measure.run(program, command, folder) for _ in range(3)]
    return min(runs, key=lambda run: run[2])


def instructions(program, command, folder):
    """How many millions of instructions a run takes, or none where nothing counts them."""
    if shutil.which(VALGRIND[0]) is None:
        return None
    ran = subprocess.run([*VALGRIND, str(program), *command], cwd=folder, capture_output=True, check=False)
    found = re.search(rb"I\s+refs:\s+([\d,]+)", ran.stderr)
    return int(found[1].replace(b",", b"")) / 1e6 if found else None


def cells(ours, theirs, digits):
    """Both numbers and their ratio, or three blanks."""
    if ours is None or theirs is None:
        return "| | | |"
    return f"| {ours:.{digits}f} | {theirs:.{digits}f} | {ours / max(theirs, 0.001):.1f} |"


def line(words, command, network, folder, counted=None):
    """Prints a line of the table, and gives what the other program printed. `counted` is the command whose instructions are counted, where it is another."""
    ours, theirs = least(words.program, command, folder), least(words.peer, command, folder)
    alike = "" if ours[:2] == theirs[:2] else " DIFFERENT"
    counts = [instructions(program, counted or command, folder) for program in (words.program, words.peer)]
    parts = [cells(ours[2], theirs[2], 3), cells(ours[3], theirs[3], 0), cells(*counts, 0)]
    print(f"| `{command[0]}` | {network} " + "".join(part[:-1] for part in parts) + "|" + alike, flush=True)
    return theirs[1]


def make(words, folder, *asked):
    subprocess.run([sys.executable, words.sizes[0], asked[0], str(asked[1]), str(folder), *map(str, asked[2:])], check=True, stdout=subprocess.DEVNULL)


def answered(words, folder, kind, sites):
    make(words, folder, kind, sites)
    line(words, ["burst", "m", "t", "s"], f"{kind} {sites:,}", folder)
    line(words, ["matrix", "m", "t"], f"{kind} {sites:,}", folder)


def paired(words, folder, causes, signs, share):
    rng = random.Random(causes * signs + share)
    shown = [[k for k in range(signs) if (k % causes == c if share == 1 else rng.randrange(1000) < share)] for c in range(causes)]
    made = [f"create c{c} Cause\n" for c in range(causes)] + [f"create s{k} Sign\n" for k in range(signs)]
    made += [f"link c{c} shows s{k}\n" for c, signs_of in enumerate(shown) for k in signs_of]
    (folder / "m").write_text(CAUSES)
    (folder / "t").write_text("".join(made))
    (folder / "s").write_text("".join(f"Up@s{k}\n" for k in sorted({*shown[3], *shown[5]})))
    line(words, ["pairs", "m", "t", "s"], f"{causes} problems, {share} of 1,000 of {signs:,} symptoms", folder)


def rewound(words, folder, sites, lines, depth):
    """A script over a ring: edits of every kind, each taken back."""
    make(words, folder, "ring", sites)
    rng = random.Random(sites + lines)
    names = [text.split()[1] for text in (folder / "t").read_text().splitlines() if text.startswith("create ")]
    links = [text.split() for text in (folder / "t").read_text().splitlines() if text.startswith("link ")]
    script = []
    for k in range(lines // 2):
        script += [rng.choice((f"delete {rng.choice(names)}", "unlink " + " ".join(rng.choice(links)[1:]), f"create x{k} {first_class(folder)}")), "undo"]
    (folder / "r").write_text("".join(f"{text}\n" for text in script))
    line(words, ["rewind", "m", "t", "r", str(depth)], f"ring {sites:,}, {lines:,} lines, depth {depth:,}", folder)


def first_class(folder):
    """The name of the first class of the model."""
    return (folder / "m").read_text().split()[1]


def problem_levels(words, folder, node):
    return least(words.peer, ["levels", "m", "t", node], folder)[1]


def explained(words, folder, kind, sites, node):
    make(words, folder, kind, sites)
    (folder / "s").write_text("".join(f"{text.split()[1]}\n" for text in problem_levels(words, folder, node).decode().splitlines() if text.startswith("node ")))
    line(words, ["explain", "m", "t", "s"], f"{kind} {sites:,}, the alarms of {node}", folder)


def levelled(words, folder, kind, sites, node):
    make(words, folder, kind, sites)
    (folder / "v").write_bytes(line(words, ["levels", "m", "t", node], f"{kind} {sites:,}, {node}", folder))
    line(words, ["prove", "m", "t", "v"], f"{kind} {sites:,}, {node}", folder)


def repeated(words, folder, kind, sites):
    links = sites if kind == "cycle" else sites - 1
    made = ["create s0 Source\n", *(f"create s{k} Site\n" for k in range(1, sites))]
    made += [f"link s{k} feeds s{(k + 1) % sites}\n" for k in range(links)]
    (folder / "m").write_text(SITES)
    (folder / "t").write_text("".join(made))
    (folder / "s").write_text("".join(f"Dark@s{k}\n" for k in range(sites - links, sites)))
    line(words, ["burst", "m", "t", "s"], f"{kind} of {sites:,} by a plus", folder)


def certified(words, folder, kind, sites, distance):
    make(words, folder, kind, sites)
    network = f"{kind} {sites:,} at {distance}"
    (folder / "c").write_bytes(line(words, ["codebook", "m", "t", str(distance)], network, folder))
    line(words, ["verify", "m", "t", "c"], network, folder)


def followed(words, folder, kind, sites, lines, counted, every):
    make(words, folder, kind, sites, lines, every)
    with open(folder / "log", encoding="utf-8") as log, open(folder / "short", "w", encoding="utf-8") as short:
        short.writelines(text for _, text in zip(range(counted), log))
    network = f"{kind} {sites:,}, {lines:,} lines, an edit in {every:,} (instructions: of {counted:,} lines)"
    line(words, ["correlate", "m", "t", "log", "1", "30"], network, folder, ["correlate", "m", "t", "short", "1", "30"])


def capped(words, folder, kind, sites, distance):
    make(words, folder, kind, sites)
    alarm = (folder / "s").read_text().splitlines()[0]
    (folder / "log").write_text(f'{{"at":1,"from":"c1","raise":"{alarm}"}}\n')
    line(words, ["correlate", "m", "t", "log", distance, "30"], f"{kind} {sites:,}, one alarm at {distance}", folder)


def grown(words, folder, sites, start):
    line(words, ["grow", str(sites), str(start)], f"{sites} sites from {start}", folder)


def checked(words, folder, what, text):
    (folder / "m").write_text(text)
    line(words, ["model", "m"], what, folder)


def main():
    words = measure.programs(__doc__, nargs=1, metavar="WORKLOAD")
    if words.peer is None:
        print("skipped: no other program is there")
        return
    models = (("1,024 classes", full_model()), ("16 MiB of classes", long_model(False)))
    print("| Command | Network | Seconds | Other | Ratio | MiB | Other | Ratio | Million instructions | Other | Ratio |\n|---|---|---|---|---|---|---|---|---|---|---|")
    for measured, inputs in ((answered, ANSWERED), (paired, PAIRED), (explained, EXPLAINED), (levelled, LEVELLED), (rewound, REWOUND), (repeated, RUNS), (certified, CERTIFIED), (followed, LOGS), (capped, CAPPED), (grown, GROWN), (checked, models)):
        for asked in inputs:
            with tempfile.TemporaryDirectory() as name:
                measured(words, pathlib.Path(name), *asked)


if __name__ == "__main__":
    main()
