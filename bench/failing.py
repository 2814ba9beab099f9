#!/usr/bin/env python3
"""Makes each allocation, each read and each write of the program fail in turn, and looks at what it answers.

    bench/failing.py [--program PROGRAM] [--most N]

Over all commands, on networks of examples/, on small ones of its own and on some faulty inputs, it runs the program once undisturbed, and then
again for the n-th allocation, read and write of the run, with that one call failing, and with all calls from it on failing. Of a command that makes
more than --most calls of a kind only some are tried, evenly spread (`grow`). Among the commands are logs that change their network: one that creates
an instance and has a link refused, one that deletes what the alarms of an open window speak of, one that links the second place of a path, and one
with an edit of each kind; and scripts that take edits back. ANSWERS has what they print undisturbed. With a call failing, wanted is

    allocation   status 10 with the line on memory (or none, where there was none for it), or the undisturbed answer
    read         status 8 with a line that names a file of the command
    write        status 9
    short        each read and write moves one byte: the undisturbed answer

and a prefix of the undisturbed output in each case. At statuses 8 and 10 that prefix is empty, unless the command follows a log; at 8 it is
empty even then if the line names another file. An answer that differs is printed, and the status is 1. The calls are made to fail by
failing.c beside this file, which needs gcc and Linux. The program is built by `rt run` in crates/cb_cli, which leaves it in out/.
"""
import argparse
import itertools
import json
import os
import pathlib
import struct
import subprocess
import sys
import tempfile

ROOT = pathlib.Path(__file__).resolve().parent.parent
EXAMPLES = ROOT / "examples"
PUMPS, FEEDER, TANK = EXAMPLES / "pumps", EXAMPLES / "feeder", EXAMPLES / "tank"

COMMANDS = [
    ["burst", PUMPS / "pump.model", PUMPS / "plant.topology", PUMPS / "night.symptoms"],
    ["burst", FEEDER / "feeder.model", FEEDER / "town.topology", FEEDER / "storm.symptoms"],
    ["burst", FEEDER / "feeder.model", PUMPS / "plant.topology", FEEDER / "storm.symptoms"],
    ["burst", FEEDER / "feeder.model", FEEDER / "town.topology", FEEDER / "feeder.model"],
    ["model", TANK / "tank.model"],
    ["model", PUMPS / "night.symptoms"],
    ["matrix", "nothing.model", "nothing.topology"],
    ["burst"],
    ["matrix", "link.model", "link.topology"],
    ["pairs", "row.model", "row.topology", "row.symptoms"],
    ["explain", "row.model", "row.topology", "row.symptoms"],
    ["explain", PUMPS / "pump.model", PUMPS / "plant.topology", PUMPS / "night.symptoms"],
    ["levels", "link.model", "link.topology", "Cut@L1"],
    ["levels", "link.model", "link.topology", "Loss@L1"],
    ["prove", "link.model", "link.topology", "link.levels"],
    ["prove", "link.model", "link.topology", "fixed.log"],
    ["rewind", "link.model", "link.topology", "deleted.script", "4"],
    ["rewind", "link.model", "link.topology", "forgotten.script", "1"],
    ["rewind", "link.model", "link.topology", "each-edit.script", "8"],
    ["rewind", "link.model", "link.topology", "link.model", "4"],
    ["rewind", "node.model", "node.topology", "near.script", "4"],
    ["codebook", "link.model", "link.topology", "1"],
    ["codebook", "link.model", "link.topology", "2"],
    ["codebook", "link.model", "link.topology", "cap3"],
    ["verify", "link.model", "link.topology", "capped.certificate"],
    ["verify", "link.model", "link.topology", "link.certificate"],
    ["verify", "link.model", "link.topology", "thin.certificate"],
    ["correlate", "link.model", "link.topology", "refused-link.log", "1", "10"],
    ["correlate", "link.model", "link.topology", "deleted-link.log", "1", "10"],
    ["correlate", "link.model", "link.topology", "each-edit.log", "1", "10"],
    ["correlate", "link.model", "link.topology", "cleared.log", "1", "10"],
    ["correlate", "link.model", "link.topology", "cleared.log", "2", "10"],
    ["correlate", "link.model", "link.topology", "cleared.log", "cap3", "10"],
    ["correlate", "path.model", "path.topology", "second-place.log", "1", "5"],
    ["model", "row.model"],
    ["burst", "row.model", "row.topology", "row.symptoms"],
    ["codebook", "row.model", "row.topology", "1"],
    ["correlate", "row.model", "row.topology", "row.log", "1", "5"],
    ["decode", "link.model", "link.topology", "link.certificate", "fixed.log", "10"],
    ["decode", "link.model", "link.topology", "thin.certificate", "fixed.log", "10"],
    ["decode", "link.model", "link.topology", "capped.certificate", "fixed.log", "10"],
    ["grow", "2", "7"],
]

LINK = """class Link {
  problem Cut;
  symptom Loss;
  relation ends to Port many inverse on;
  rule here: Cut => Loss;
  rule far: Cut => ends.NoSignal;
}
class Port {
  problem Fail;
  symptom NoSignal;
  relation on to Link one inverse ends;
  rule down: Fail => NoSignal;
}
"""

PATH = """class A {
  problem P;
  relation mid to B many inverse top;
  rule r: P => mid.low.S;
}
class B {
  relation top to A many inverse mid;
  relation low to C many inverse up;
}
class C {
  symptom S;
  relation up to B many inverse low;
}
"""


ROW = """class Site {
  problem Power;
  symptom Dark;
  relation feeds to Site many inverse fed;
  relation fed to Site one inverse feeds;
  rule all: Power => feeds+.Dark;
}
"""


def record(at, source, node=None, verb="raise"):
    """A line of a log: a node that is raised or cleared, an edit, or the time alone."""
    if node is None:
        return json.dumps({"at": at, "tick": True} if source == "tick" else {"at": at, "edit": source})
    return json.dumps({"at": at, "from": source, verb: node})


FILES = {
    "link.model": LINK.splitlines(),
    "link.topology": ["create L1 Link", "create a Port", "create b Port", "link L1 ends a", "link b on L1"],
    "path.model": PATH.splitlines(),
    "path.topology": ["create a1 A", "create b1 B", "create c1 C", "link a1 mid b1"],
    # A create, and a link that is refused, since the port is on another one.
    "refused-link.log": [record(1, "create L2 Link"), record(2, "link a on L2"), record(3, "c1", "NoSignal@a")],
    # The link whose alarm is raised is deleted before the window closes.
    "deleted-link.log": [record(10, "c1", "Loss@L1"), record(11, "c1", "NoSignal@a"), record(12, "delete L1"), record(20, "tick")],
    "cleared.log": [
        record(5, "c1", "NoSignal@a"),
        record(6, "c1", "NoSignal@b"),
        record(7, "c1", "NoSignal@b", "clear"),
        record(15, "c1", "NoSignal@b"),
    ],
    "each-edit.log": [
        record(1, "create L2 Link"),
        record(2, "create c Port"),
        record(3, "link L2 ends c"),
        record(4, "mute NoSignal@c"),
        record(5, "c1", "NoSignal@a"),
        record(6, "unlink L1 ends a"),
        record(7, "unmute NoSignal@c"),
        record(8, "link a on L2"),
        record(9, "c2", "Loss@L2"),
        record(10, "c2", "NoSignal@c"),
        record(16, "delete L1"),
        record(17, "delete b"),
        record(30, "tick"),
    ],
    # The edit changes what the problem causes by the second place of a path.
    "second-place.log": [record(1, "link b1 low c1"), record(2, "s1", "S@c1")],
    "row.model": ROW.splitlines(),
    "row.topology": ["create s1 Site", "create s2 Site", "create s3 Site", "link s1 feeds s2", "link s2 feeds s3"],
    "row.symptoms": ["Dark@s2", "Dark@s3"],
    # The run of links is closed to a cycle, and cut.
    "row.log": [record(1, "link s3 feeds s1"), record(2, "unlink s2 feeds s3"), record(3, "c1", "Dark@s2"), record(9, "tick")],
    "deleted.script": ["delete L1", "undo"],
    # At depth 1 the first of two edits is forgotten.
    "forgotten.script": ["mute NoSignal@a", "delete a", "undo", "undo"],
    "each-edit.script": ["create L2 Link", "create c Port", "link L2 ends c", "mute NoSignal@c", "link a on L2", "unlink L1 ends a", "unmute NoSignal@c", "delete c"]
    + ["undo"] * 8 + ["delete L1", "delete b"],
    "node.model": ["class Node {", "  problem symptom Sick;", "  relation near to Node many inverse near;", "  rule spread: Sick => near.Sick;", "}"],
    "node.topology": ["create n1 Node", "link n1 near n1"],
    # A link of an instance to itself.
    "near.script": ["delete n1", "undo", "unlink n1 near n1"],
    "fixed.log": [record(1, "mute NoSignal@a"), record(2, "c1", "NoSignal@a"), record(2, "c1", "NoSignal@b")],
}

# Files that the program writes itself before it is disturbed.
WRITTEN = {
    "link.certificate": ("codebook", "1"), "thin.certificate": ("codebook", "2"), "capped.certificate": ("codebook", "cap3"), "link.levels": ("levels", "Cut@L1"),
}

# The matrix of link.topology.
LINK_MATRIX = [
    "columns 3", "  column Loss@L1", "  column NoSignal@a", "  column NoSignal@b",
    "groups 4", "  group 000 quiet", "  group 111 Cut@L1", "  group 010 Fail@a", "  group 001 Fail@b", "distance 1",
]

# What `correlate` is to print for some of the logs, and `rewind` for some of the scripts.
ANSWERS = {
    "refused-link.log": [
        "refused 2 occupied",
        "book columns 3 of 4 distance 1 radius 0 groups 5",
        "diagnosis c1 3 3 raised 1 unknown 0 distance 0 radius 0 sure groups 1",
        "  group Fail@a",
    ],
    "deleted-link.log": [
        "book columns 2 of 2 distance 1 radius 0 groups 3",
        "diagnosis c1 10 20 raised 2 unknown 1 distance 0 radius 0 sure groups 1",
        "  group Fail@a",
    ],
    "each-edit.log": [
        "book columns 4 of 5 distance 1 radius 0 groups 6",
        "diagnosis c1 5 16 raised 1 unknown 0 distance 0 radius 0 sure groups 1",
        "  group Fail@a",
        "book columns 2 of 3 distance 1 radius 0 groups 4",
        "diagnosis c2 9 30 raised 2 unknown 0 distance 0 radius 0 sure groups 1",
        "  group Fail@c",
    ],
    "second-place.log": [
        "book columns 1 of 1 distance 1 radius 0 groups 2",
        "diagnosis s1 2 2 raised 1 unknown 0 distance 0 radius 0 sure groups 1",
        "  group P@a1",
    ],
    "deleted.script": LINK_MATRIX,
    "forgotten.script": [
        "refused 4 nothing", "columns 2", "  column Loss@L1", "  column NoSignal@b",
        "groups 3", "  group 00 quiet Fail@a", "  group 11 Cut@L1", "  group 01 Fail@b", "distance 1",
    ],
    "near.script": ["columns 1", "  column Sick@n1", "groups 2", "  group 0 quiet", "  group 1 Sick@n1", "distance 1"],
}

# Which of a command's words is its log.
LOGS = {"correlate": 3, "decode": 4}


class Runs:
    """Runs of one command, disturbed and not."""

    def __init__(self, program, shim, counter, command, folder):
        self.program, self.shim, self.counter, self.folder = program, shim, counter, folder
        self.command = [str(word) for word in command]
        place = LOGS.get(self.command[0])
        self.log = None if place is None else self.command[place]
        self.status, self.out, self.err = self.run("none", 0, False)

    def run(self, kind, at, on):
        """Status, output and error line, with the call of that number failing, or all from it on."""
        self.counter.write_bytes(bytes(8))
        environment = dict(os.environ, LD_PRELOAD=str(self.shim), FAIL_KIND=kind, FAIL_AT=str(at), FAIL_COUNT=str(self.counter))
        if on:
            environment["FAIL_ON"] = "1"
        made = subprocess.run(
            [self.program, *self.command], cwd=self.folder, env=environment, stdin=subprocess.DEVNULL, capture_output=True, check=False
        )
        return made.returncode, made.stdout, made.stderr

    def count(self, kind):
        """How many calls of that kind the undisturbed run makes."""
        self.run(kind, 0, False)
        return struct.unpack("=Q", self.counter.read_bytes())[0]

    def is_right(self, kind, answer):
        """Whether the answer is one that may be given where such a call failed."""
        status, out, err = answer
        if answer == (self.status, self.out, self.err):
            return kind in ("malloc", "short")
        if kind == "malloc":
            return status == 10 and self.may_be(out, self.log) and err in (b"", b"error 10 memory\n")
        if kind == "read":
            return status == 8 and any(err == f"error 8 read {name}\n".encode() and self.may_be(out, name) for name in self.command[1:])
        return kind == "write" and status == 9 and self.out.startswith(out) and err == b"error 9 write\n"

    def is_wanted(self):
        """Whether the undisturbed output is that of ANSWERS, if it is there."""
        wanted = ANSWERS.get(self.log or next(iter(self.command[-2:]), None))
        return wanted is None or self.out == "".join(f"{line}\n" for line in wanted).encode()

    def may_be(self, out, name):
        """Whether that may have been written: nothing, or a prefix if the log of this name is followed."""
        return out == b"" or (self.log is not None and name == self.log and self.out.startswith(out))


def disturb(runs, most):
    """How many disturbed runs there were, and how many answers were wrong, the undisturbed one among them."""
    tried = wrong = 0
    if not runs.is_wanted():
        wrong += 1
        print(f"WRONG: {' '.join(runs.command)}: undisturbed: {runs.out}")
    for kind, on in itertools.product(("malloc", "read", "write", "short"), (False, True)):
        calls = 1 if kind == "short" else runs.count(kind)
        for at in range(1, calls + 1, max(1, calls // most)):
            answer = runs.run(kind, at, on)
            tried += 1
            if not runs.is_right(kind, answer):
                wrong += 1
                print(f"WRONG: {' '.join(runs.command)}: {kind} {at}{' and on' if on else ''}: {answer}")
    return tried, wrong


def main():
    parser = argparse.ArgumentParser(description=__doc__, formatter_class=argparse.RawDescriptionHelpFormatter)
    parser.add_argument("--program", type=pathlib.Path, default=ROOT / "crates" / "cb_cli" / "out" / "cb_cli")
    parser.add_argument("--most", type=int, default=1000, help="how many calls of a kind are tried of one command")
    words = parser.parse_args()
    program = words.program.resolve()
    if not program.exists():
        sys.exit(f"{program} isn't there: run `rt run` in crates/cb_cli first")
    with tempfile.TemporaryDirectory() as name:
        folder = pathlib.Path(name)
        shim, counter = folder / "failing.so", folder / "count"
        subprocess.run(["gcc", "-shared", "-fPIC", "-O1", "-o", shim, ROOT / "bench" / "failing.c"], check=True)
        for file, lines in FILES.items():
            (folder / file).write_text("".join(f"{line}\n" for line in lines))
        for file, (asked, word) in WRITTEN.items():
            made = subprocess.run([program, asked, "link.model", "link.topology", word], cwd=folder, capture_output=True, check=False)
            (folder / file).write_bytes(made.stdout)
        all_tried = all_wrong = 0
        for command in COMMANDS:
            runs = Runs(program, shim, counter, command, folder)
            tried, wrong = disturb(runs, words.most)
            print(f"{' '.join(pathlib.Path(word).name for word in runs.command)}: status {runs.status}, {tried} disturbed runs, {wrong} wrong")
            all_tried, all_wrong = all_tried + tried, all_wrong + wrong
    print(f"{all_tried} disturbed runs, {all_wrong} wrong")
    sys.exit(1 if all_wrong else 0)


if __name__ == "__main__":
    main()
