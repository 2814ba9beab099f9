#!/usr/bin/env python3
"""Tries the limits of docs/limits.md by the built program: what is as large as it may be passes, and what has one more gets its named refusal.

    bench/limits.py [--program PROGRAM] [--peer PROGRAM]

Each case is a command over files that are made here, with the status and the line on standard error that are due. Where another program is named, it is held
to the same. It prints a line a case, with the processor seconds, and ends with status 1 where one is wrong.
"""
import pathlib
import sys
import tempfile

import measure

NODE = """class Node {
  problem symptom Sick;
  relation near to Node many inverse near;
  rule spread: Sick => near.Sick;
}
"""
PLAIN = "class Plain { event E; }\n"
WIDE = "class Wide { " + " ".join(f"event e{k};" for k in range(256)) + " }\n"
FAULTY = "class Faulty { problem P; }\n"
LOUD = "class Loud { symptom S; }\n"
ALIVE = "class Alive { problem P; symptom S; rule r: P => S; }\n"

SITE = """class Site { symptom Dark; relation feeds to Site many inverse fed; relation fed to Site one inverse feeds; }
class Source extends Site { problem Power; rule all: Power => feeds+.Dark; }
"""
PASSED = """class Site { symptom Dark; event Low; relation feeds to Site many inverse fed; relation fed to Site one inverse feeds;
  rule passes: Low => feeds.Low; rule dark: Low => Dark; }
class Source extends Site { problem Power; rule own: Power => Low; }
"""
PATH = "class Long { problem P; symptom S; relation a to Long one inverse b; relation b to Long one inverse a; rule r: P => %sS; }\n"

MEBI = 1 << 20


def created(count, kind):
    return "".join(f"create n{k} {kind}\n" for k in range(count))


def circle(sites):
    """Nodes in one cycle, each of which causes all."""
    return created(sites, "Node") + "".join(f"link n{k} near n{(k + 1) % sites}\n" for k in range(sites))


def row(sites, closed):
    """Sites in a row, each of which feeds the next one, and the last one the first where it is closed. The first one is a source."""
    links = "".join(f"link n{k} feeds n{k + 1}\n" for k in range(sites - 1))
    return "create n0 Source\n" + "".join(f"create n{k} Site\n" for k in range(1, sites)) + links + f"link n{sites - 1} feeds n0\n" * closed


def filled(text, size, line):
    """The text with lines behind it that say nothing, so many bytes in all."""
    rest = size - len(text)
    return text + line * (rest // len(line)) + line[: rest % len(line) - 1] * (rest % len(line) > 0) + "\n" * (rest % len(line) > 0)


def book(spans, entries):
    """The lines of a certificate with so many spans of so many entries each."""
    head = "codebook certificate 1\nkind book\ndistance 1\nnodes 1\nnode P@n0\ncolumns 0\n"
    return head + f"spans {spans}\n" + (f"span {entries}\nentry 1 0\n" + "entry 1 1\n" * (entries - 1)) * spans + "end\n"


def levels(entries):
    """The lines of levels with so many entries of one node."""
    return f"codebook levels 1\nnodes 1\nnode P@n0\nentries {entries}\nentry 1 0 0\n" + "entry 1 1 1\n" * (entries - 1) + "end\n"


def cases():
    """What is tried: the command, the files by their names, the status and the line that is due."""
    comment, blank = "# " + "x" * 60 + "\n", " " * 60 + "\n"
    alive = {"m": ALIVE, "t": "create n0 Alive\n", "s": ""}
    burst, verify, codebook = ["burst", "m", "t", "s"], ["verify", "m", "t", "c"], ["codebook", "m", "t", "1"]
    yield "model of 16 MiB", ["model", "m"], {"m": filled(ALIVE, 16 * MEBI, blank)}, 0, ""
    yield "model of a byte more", ["model", "m"], {"m": filled(ALIVE, 16 * MEBI + 1, blank)}, 7, "error 7 limit bytes m"
    for name, word in (("t", "topology"), ("s", "symptoms")):
        yield f"{word} of 16 MiB", burst, {**alive, name: filled(alive[name], 16 * MEBI, comment)}, 0, ""
        yield f"{word} of a byte more", burst, {**alive, name: filled(alive[name], 16 * MEBI + 1, comment)}, 7, f"error 7 limit bytes {name}"
        yield f"{word} with a line of 4,096 bytes", burst, {**alive, name: alive[name] + "#" * 4096 + "\n"}, 0, ""
        at = alive[name].count("\n") + 1
        yield f"{word} with a line of 4,097 bytes", burst, {**alive, name: alive[name] + "#" * 4097 + "\n"}, 7, f"error 7 limit line {name} {at}"
    rewind = ["rewind", "m", "t", "r", "1"]
    yield "script of 16 MiB", rewind, {**alive, "r": filled("undo\n", 16 * MEBI, comment)}, 0, "refused 1 nothing"
    yield "script of a byte more", rewind, {**alive, "r": filled("undo\n", 16 * MEBI + 1, comment)}, 7, "error 7 limit bytes r"
    yield "script with a line of 4,096 bytes", rewind, {**alive, "r": "undo\n#" + "#" * 4095 + "\n"}, 0, "refused 1 nothing"
    yield "script with a line of 4,097 bytes", rewind, {**alive, "r": "undo\n#" + "#" * 4096 + "\n"}, 7, "error 7 limit line r 2"
    script = "".join(f"create x{k} Alive\n" for k in range(1_024)) + "undo\n" * 1_024
    yield "1,024 edits taken back", ["rewind", "m", "t", "r", "1024"], {**alive, "r": script}, 0, "columns 1"
    yield "1,025 edits, of which one is forgotten", ["rewind", "m", "t", "r", "1024"], {**alive, "r": "create y Alive\n" + script + "undo\n"}, 0, "refused 2050 nothing"
    yield "certificate of 32 MiB", verify, {**alive, "c": "x\n" * (16 * MEBI)}, 5, "error 5 certificate bad-header"
    yield "certificate of a byte more", verify, {**alive, "c": "x\n" * (16 * MEBI) + "x"}, 7, "error 7 limit bytes c"
    yield "certificate with a line of 4,097 bytes", verify, {**alive, "c": "x" * 4097 + "\n"}, 7, "error 7 limit line c 1"
    for kind, model, limit, most in (
        ("Plain", PLAIN, "instance-limit", 16_384),
        ("Wide", WIDE, "node-limit", 256),
        ("Faulty", FAULTY, "problem-limit", 8_192),
        ("Loud", LOUD, "symptom-limit", 8_192),
    ):
        yield f"{most:,} of {kind}", burst, {"m": model, "t": created(most, kind), "s": ""}, 0, ""
        yield f"{most + 1:,} of {kind}", burst, {"m": model, "t": created(most + 1, kind), "s": ""}, 4, f"error 4 topology line {most + 1} {limit}"
    yield "path of four places", ["model", "m"], {"m": PATH % "a+.b.a+.b+."}, 0, ""
    yield "path of five places", ["model", "m"], {"m": PATH % "a+.b.a+.b+.a."}, 3, "error 3 model line 1 column 129 unexpected"
    for closed in (False, True):
        raised = "".join(f"Dark@n{k}\n" for k in range(not closed, 8_192))
        yield f"run of {8_191 + closed:,} links", burst, {"m": SITE, "t": row(8_192, closed), "s": raised}, 0, "  group Power@n0"
    yield "1,048,576 entries", codebook, {"m": NODE, "t": circle(1024)}, 0, ""
    yield "1,050,625 entries", codebook, {"m": NODE, "t": circle(1025)}, 7, "error 7 limit entries"
    yield "1,048,576 entries for a cap", ["codebook", "m", "t", "cap3"], {"m": NODE, "t": circle(1024)}, 0, ""
    yield "1,050,625 entries for a cap", ["codebook", "m", "t", "cap3"], {"m": NODE, "t": circle(1025)}, 7, "error 7 limit entries"
    yield "certificate with 1,048,576 entries", verify, {**alive, "c": book(16, 65_536)}, 5, "error 5 certificate no-edge entry 2"
    yield "certificate with 17 spans of 65,536", verify, {**alive, "c": book(17, 65_536)}, 5, f"error 5 certificate too-many-entries line {7 + 16 * 65_537 + 1}"
    prove = ["prove", "m", "t", "v"]
    yield "levels of 32 MiB", prove, {**alive, "v": "x\n" * (16 * MEBI)}, 5, "error 5 levels bad-header"
    yield "levels of a byte more", prove, {**alive, "v": "x\n" * (16 * MEBI) + "x"}, 7, "error 7 limit bytes v"
    yield "levels with a line of 4,097 bytes", prove, {**alive, "v": "x" * 4097 + "\n"}, 7, "error 7 limit line v 1"
    yield "levels with 65,536 entries", prove, {**alive, "v": levels(65_536)}, 5, "error 5 levels no-edge entry 2"
    yield "levels with 65,537 entries", prove, {**alive, "v": levels(65_537)}, 5, "error 5 levels bad-line line 4"
    yield "levels of 8,192 nodes", ["levels", "m", "t", "Sick@n0"], {"m": NODE, "t": circle(8_192)}, 0, "entries 8192"
    raised = "".join(f"Dark@n{k}\n" for k in range(1_024))
    longest = "    chain 1025 Power@n0 " + " ".join(f"Low@n{k}" for k in range(1_024)) + " Dark@n1023"
    yield "chains of 4 MB", ["explain", "m", "t", "s"], {"m": PASSED, "t": row(1_024, False), "s": raised}, 0, longest
    for groups, due, line in ((128, 0, "  fit P@n0"), (129, 13, "error 13 groups 129")):
        files = {"m": ALIVE, "t": created(groups - 1, "Alive"), "s": "S@n0\n"}
        yield f"pairs of {groups} groups", ["pairs", "m", "t", "s"], files, due, line
    for what, words in (
        ("distance of 10,000", ["codebook", "m", "t", "10000"]),
        ("cap of 10,000", ["correlate", "m", "t", "s", "cap10000", "1"]),
        ("cap of 10,000, certified", ["codebook", "m", "t", "cap10000"]),
        ("depth of 1,025", ["rewind", "m", "t", "s", "1025"]),
        ("window of 10^12 + 1", ["correlate", "m", "t", "s", "1", str(10**12 + 1)]),
    ):
        yield what, words, alive, 2, "error 2 usage"
    full = {"m": ALIVE, "t": created(8_192, "Alive"), "l": '{"at":1,"from":"a","raise":"S@n0"}\n'}
    line = "book columns 8192 of 8192 cap 9999 radius 0 to 0 groups 8193"
    yield "cap of 9,999 over 8,193 groups", ["correlate", "m", "t", "l", "cap9999", "1"], full, 0, line
    for what, words in (("257 sites", ["grow", "257", "0"]), ("start of 2^64", ["grow", "1", str(2**64)])):
        yield what, words, {"m": ""}, 2, "error 2 usage"
    log = '{"at":1,"tick":true}\n'
    yield "log with a line of 65,537 bytes", ["correlate", "m", "t", "l", "1", "1"], {**alive, "l": log + "x" * 65_537 + "\n" + log}, 0, ""


def told(program, command, folder):
    """The status, what was printed on both outputs, and the seconds."""
    status, text, seconds, _ = measure.run(program, command, folder)
    return status, text.decode(errors="replace"), seconds


def right(status, text, due, line):
    return status == due and (line in text.split("\n") if line else "error" not in text)


def main():
    words = measure.programs(__doc__)
    wrong = 0
    for what, command, files, due, line in cases():
        with tempfile.TemporaryDirectory() as name:
            for file, text in files.items():
                (pathlib.Path(name) / file).write_text(text, newline="")
            programs = [it for it in (words.program, words.peer) if it is not None]
            answers = [told(program, command, name) for program in programs]
        well = all(right(status, text, due, line) for status, text, _ in answers) and len({text for _, text, _ in answers}) == 1
        wrong += not well
        seconds = ", ".join(f"{seconds:.2f} s" for _, _, seconds in answers)
        shown = "" if well else f": {[(status, text[-200:]) for status, text, _ in answers]}"
        print(f"{'ok   ' if well else 'WRONG'} {what} ({command[0]}): status {due}, {seconds}{shown}", flush=True)
    sys.exit(1 if wrong else 0)


if __name__ == "__main__":
    main()
