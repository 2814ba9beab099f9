#!/usr/bin/env python3
"""Runs the program under a limit on its address space that rises by 1 MB a run, and looks at what it answers.

    bench/memory.py [--program PROGRAM] [--size N] [--whole N] [--step KIB]

Each command is run on a network of --size links with their ports, which is made here, first without a limit and then under each limit (`ulimit -v`), until
the whole answer came several times in a row (--whole). Wanted is the whole answer; or status 10 with its line (or none, if memory ran out for the words of
the command line) and a prefix of the whole output, which is empty unless the command follows a log; and never a signal. An answer that differs is printed,
and the status is 1.

Under a very small limit the program isn't reached: the kernel ends the process by a signal, or the loader of shared libraries by status 127, each before
the first instruction of the program. So the least limit under which the program runs is looked for first, by calls with no words, which it answers with
status 2 or 10. What came under smaller limits is printed, and it counts for nothing. The commands are tried from that limit on. A MB is 2^20 bytes, and
--step is the step in KiB. It needs Linux.
"""
import argparse
import collections
import pathlib
import resource
import signal
import subprocess
import sys
import tempfile

from failing import LINK, record

ROOT = pathlib.Path(__file__).resolve().parent.parent
MEBI = 1 << 20
LEAST_STEP = 64 << 10

Answer = collections.namedtuple("Answer", "status out err")

COMMANDS = [
    ["model", "m"],
    ["burst", "m", "t", "s"],
    ["matrix", "m", "t"],
    ["pairs", "m", "t", "s"],
    ["explain", "m", "t", "s"],
    ["levels", "m", "t", "Cut@L0"],
    ["prove", "m", "t", "v"],
    ["rewind", "m", "t", "r", "64"],
    ["codebook", "m", "t", "1"],
    ["codebook", "m", "t", "2"],
    ["codebook", "m", "t", "cap9999"],
    ["verify", "m", "t", "c"],
    ["correlate", "m", "t", "l", "1", "30"],
    ["correlate", "m", "t", "l", "cap9999", "30"],
    ["decode", "m", "t", "c", "l", "30"],
    ["grow", "100", "7"],
]

FOLLOWS_A_LOG = ("correlate", "decode")


def topology(links):
    """So many links in a ring, with a port at each end."""
    lines = [f"create L{k} Link" for k in range(links)]
    lines += [f"create {side}{k} Port" for k in range(links) for side in "ab"]
    lines += [f"link L{k} ends {side}{k}" for k in range(links) for side in "ab"]
    return lines


def log(links):
    """Alarms of all links, each in a window of its own, with edits among them."""
    lines = []
    for k in range(links):
        at = 40 * k
        lines += [record(at, "c1", f"NoSignal@a{k}"), record(at + 1, "c1", f"NoSignal@b{k}")]
        if k % (links // 10) == 0:
            lines += [record(at + 2, f"create n{k} Link"), record(at + 3, f"delete L{k}"), record(at + 4, f"link n{k} ends a{k}")]
    return lines


def script(links):
    """Edits of all links, each taken back but every tenth."""
    lines = []
    for k in range(links):
        lines.append((f"unlink L{k} ends a{k}", f"mute Loss@L{k}", f"delete L{k}", f"create n{k} Link")[k % 4])
        lines += ["undo"] * (k % 10 > 0)
    return lines


def write(folder, name, lines):
    (folder / name).write_text("".join(f"{line}\n" for line in lines))


def run(program, words, folder, limit=None):
    """What the program answers under that limit, or without one."""
    limited = None if limit is None else lambda: resource.setrlimit(resource.RLIMIT_AS, (limit, limit))
    made = subprocess.run([program, *words], cwd=folder, preexec_fn=limited, stdin=subprocess.DEVNULL, capture_output=True, check=False)
    return Answer(made.returncode, made.stdout, made.stderr)


def shown(answer):
    """The answer in a few words."""
    how = f"signal {signal.Signals(-answer.status).name}" if answer.status < 0 else f"status {answer.status}"
    return f"{how}, {len(answer.out)} bytes of output, {answer.err[:120]!r}"


def is_reached(answer):
    """Whether a call with no words was answered by the program itself: that it is none of a command, or that there is no memory for the words."""
    return answer in (Answer(2, b"", b"error 2 usage\n"), Answer(10, b"", b""))


def least_limit(program, folder):
    """The limit from which on the program ran three times in a row. What came under smaller ones is printed."""
    limit, good, seen = LEAST_STEP, 0, {}
    while good < 3:
        answer = run(program, [], folder, limit)
        good = good + 1 if is_reached(answer) else 0
        if not is_reached(answer):
            seen.setdefault(shown(answer), []).append(limit)
        limit += LEAST_STEP
    for what, limits in seen.items():
        print(f"not reached from {min(limits) >> 10:,} to {max(limits) >> 10:,} KiB: {what}")
    return limit - 3 * LEAST_STEP


def is_right(words, whole, answer):
    """Whether the answer may be given when memory runs out."""
    may_be = answer.out == b"" or (words[0] in FOLLOWS_A_LOG and whole.out.startswith(answer.out))
    return answer.status == 10 and answer.err in (b"", b"error 10 memory\n") and may_be


def tried(asked, words, folder, start):
    """Runs the command under rising limits. How many answers were the whole one, right refusals, and wrong."""
    program, step = asked.program.resolve(), asked.step << 10
    whole = run(program, words, folder)
    counts, in_a_row, limit, wholly = collections.Counter(), 0, start, start
    while in_a_row < asked.whole:
        answer = run(program, words, folder, limit)
        kind = "whole" if answer == whole else "refused" if is_right(words, whole, answer) else "wrong"
        counts[kind] += 1
        in_a_row = in_a_row + 1 if kind == "whole" else 0
        if kind == "wrong":
            print(f"WRONG: {' '.join(words)} under {limit / MEBI:.1f} MB: {shown(answer)}")
        limit += step
        wholly = limit if in_a_row == 0 else wholly
    print(f"{' '.join(words)}: status {whole.status}; refused {counts['refused']}, wrong {counts['wrong']}, whole from {wholly / MEBI:.1f} MB on", flush=True)
    return counts


def main():
    parser = argparse.ArgumentParser(description=__doc__, formatter_class=argparse.RawDescriptionHelpFormatter)
    parser.add_argument("--program", type=pathlib.Path, default=ROOT / "crates" / "cb_cli" / "out" / "cb_cli")
    parser.add_argument("--size", type=int, default=1500, help="how many links the network has")
    parser.add_argument("--whole", type=int, default=3, help="how many whole answers in a row end the runs of a command")
    parser.add_argument("--step", type=int, default=1024, help="by how many KiB the limit rises")
    words = parser.parse_args()
    program = words.program.resolve()
    if not program.exists():
        sys.exit(f"{program} isn't there: run `rt run` in crates/cb_cli first")
    resource.setrlimit(resource.RLIMIT_CORE, (0, 0))
    with tempfile.TemporaryDirectory() as name:
        folder = pathlib.Path(name)
        write(folder, "m", LINK.splitlines())
        write(folder, "t", topology(words.size))
        write(folder, "s", [f"NoSignal@a{k}" for k in range(0, words.size, 3)])
        write(folder, "l", log(words.size))
        write(folder, "r", script(words.size))
        (folder / "c").write_bytes(run(program, ["codebook", "m", "t", "1"], folder).out)
        (folder / "v").write_bytes(run(program, ["levels", "m", "t", "Cut@L0"], folder).out)
        least = least_limit(program, folder)
        print(f"the program is reached from {least >> 10:,} KiB on")
        counts = sum((tried(words, command, folder, least) for command in COMMANDS), collections.Counter())
    print(f"{counts.total()} runs from {least >> 10:,} KiB on: {counts['whole']} whole, {counts['refused']} refused, {counts['wrong']} wrong")
    sys.exit(1 if counts["wrong"] else 0)


if __name__ == "__main__":
    main()
