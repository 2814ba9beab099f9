#!/usr/bin/env python3
"""Ends `correlate` by SIGKILL at random moments: what it has written by then is a prefix of its whole output.

    bench/killed.py [--program PROGRAM] [--runs N] [--seed N] [--size N]

The log comes by a pipe, in pieces of random sizes, and the output goes into another one. The first run goes to its end. Each further one is killed when
a random number of bytes of its output has come, and up to two milliseconds after that. Wanted is the signal with a prefix of the whole output and nothing
on standard error, or the whole answer, if the run was over before. It prints how many runs were cut off with nothing, with a part and with all of the
output written, and it ends with status 1 if an answer is wrong or no run was cut off amid its output.
"""
import argparse
import collections
import contextlib
import os
import pathlib
import random
import signal
import subprocess
import sys
import tempfile
import threading
import time

import memory
from failing import LINK

ROOT = pathlib.Path(__file__).resolve().parent.parent
WORDS = ["correlate", "m", "t", "-", "1", "30"]
LONGEST_WAIT = 0.002


def feed(pipe, text, rng):
    """Writes the text into the pipe, in pieces, until it is all written or nobody reads it any more."""
    at = 0
    with contextlib.suppress(BrokenPipeError), pipe:
        while at < len(text):
            size = rng.choice((1, 7, 100, 4096))
            pipe.write(text[at : at + size])
            pipe.flush()
            at += size


def run(program, folder, log, rng, count=None):
    """The answer of a run, which is killed when so many bytes of its output have come, if a number is given."""
    process = subprocess.Popen([program, *WORDS], cwd=folder, stdin=subprocess.PIPE, stdout=subprocess.PIPE, stderr=subprocess.PIPE)
    feeder = threading.Thread(target=feed, args=(process.stdin, log, random.Random(rng.random())))
    feeder.start()
    out = b""
    if count is not None:
        while len(out) < count and (piece := os.read(process.stdout.fileno(), count - len(out))):
            out += piece
        time.sleep(rng.random() * LONGEST_WAIT)
        process.kill()
    out += process.stdout.read()
    err = process.stderr.read()
    status = process.wait()
    feeder.join()
    return memory.Answer(status, out, err)


def kind_of(whole, answer):
    """What the run was cut off with, or that it was over, or that its answer is wrong."""
    if answer == whole:
        return "over"
    if answer.status != -signal.SIGKILL or answer.err != b"" or not whole.out.startswith(answer.out):
        return "wrong"
    return "nothing" if answer.out == b"" else "all" if answer.out == whole.out else "part"


def main():
    parser = argparse.ArgumentParser(description=__doc__, formatter_class=argparse.RawDescriptionHelpFormatter)
    parser.add_argument("--program", type=pathlib.Path, default=ROOT / "crates" / "cb_cli" / "out" / "cb_cli")
    parser.add_argument("--runs", type=int, default=200)
    parser.add_argument("--seed", type=int, default=1)
    parser.add_argument("--size", type=int, default=1500, help="how many links the network has")
    words = parser.parse_args()
    program = words.program.resolve()
    if not program.exists():
        sys.exit(f"{program} isn't there: run .ci/run first, or `rt run` in crates/cb_cli")
    rng = random.Random(words.seed)
    counts = collections.Counter()
    with tempfile.TemporaryDirectory() as name:
        folder = pathlib.Path(name)
        memory.write(folder, "m", LINK.splitlines())
        memory.write(folder, "t", memory.topology(words.size))
        log = "".join(f"{line}\n" for line in memory.log(words.size)).encode()
        whole = run(program, folder, log, rng)
        if whole.status != 0:
            sys.exit(f"the undisturbed run: {memory.shown(whole)}")
        for _ in range(words.runs):
            count = rng.randrange(len(whole.out))
            answer = run(program, folder, log, rng, count)
            kind = kind_of(whole, answer)
            counts[kind] += 1
            if kind == "wrong":
                print(f"WRONG: after {count} bytes: {memory.shown(answer)}")
    cut = ", ".join(f"{counts[kind]} with {kind}" for kind in ("nothing", "part", "all"))
    print(f"{words.runs} runs, a whole output of {len(whole.out)} bytes: cut off {cut} written; {counts['over']} over before, {counts['wrong']} wrong")
    sys.exit(1 if counts["wrong"] or not counts["part"] else 0)


if __name__ == "__main__":
    main()
