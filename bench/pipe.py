#!/usr/bin/env python3
"""Shows that `correlate` answers a pipe line by line.

    bench/pipe.py [--program PROGRAM]

The log is a pipe, into which one line is put at a time. What is to come of it has to come before the next line is put there: a line without
events brings nothing, one that closes a window its diagnosis, a skipped one its event. Then the reader of the output goes away, and the
program has to end by itself with status 9 (or by the signal that a closed pipe sends), though the log is still open. It ends with status 1
where something is late.
"""
import argparse
import contextlib
import os
import pathlib
import select
import subprocess
import sys
import time

ROOT = pathlib.Path(__file__).resolve().parent.parent
RING = ROOT / "examples" / "ring"
LINES = (
    ('{"at":100,"from":"snmp","raise":"LossOfSignal@bergen/east"}', 0),
    ('{"at":101,"from":"snmp","raise":"NoLight@bergen-narvik"}', 0),
    ("no record", 1),
    ('{"at":200,"tick":true}', 3),
    ('{"at":201,"edit":"delete molde"}', 1),
    ('{"at":202,"from":"snmp","raise":"LossOfSignal@oslo/west"}', 0),
    ('{"at":300,"tick":true}', 2),
)


def taken(pipe, wanted, seconds):
    """The lines that come, at most so many, within so many seconds."""
    lines, rest, end = [], b"", time.monotonic() + seconds
    while len(lines) < wanted or wanted == 0:
        ready, _, _ = select.select([pipe], [], [], max(0, end - time.monotonic()))
        if not ready:
            break
        rest += os.read(pipe.fileno(), 65536)
        *more, rest = rest.split(b"\n")
        lines += more
    return lines


def main():
    parser = argparse.ArgumentParser(description=__doc__, formatter_class=argparse.RawDescriptionHelpFormatter)
    parser.add_argument("--program", type=pathlib.Path, default=ROOT / "crates" / "cb_cli" / "out" / "cb_cli")
    program = parser.parse_args().program
    if not program.exists():
        sys.exit(f"{program} isn't there: run .ci/run first, or `rt run` in crates/cb_cli")
    words = [str(program.resolve()), "correlate", "ring.model", "ring.topology", "-", "3", "60"]
    run = subprocess.Popen(words, cwd=RING, stdin=subprocess.PIPE, stdout=subprocess.PIPE, stderr=subprocess.PIPE)
    for line, wanted in LINES:
        os.write(run.stdin.fileno(), line.encode() + b"\n")
        came = taken(run.stdout, wanted, 5 if wanted else 0.3)
        if len(came) != wanted:
            run.kill()
            sys.exit(f"behind {line} came {came}, and {wanted} lines were to come")
    run.stdout.close()
    with contextlib.suppress(BrokenPipeError):
        os.write(run.stdin.fileno(), b"no record\n")
    try:
        status = run.wait(5)
    except subprocess.TimeoutExpired:
        run.kill()
        sys.exit("the output is closed, and the program still runs")
    print(f"each line is answered before the next one; with the output closed the status is {status}: {run.stderr.read().decode().strip()}")


if __name__ == "__main__":
    main()
