#!/usr/bin/env python3
"""Tries the rules of docs/language.md: each line of a fault, each word of a table, the order of checks, and how windows close.

    bench/language.py [--program PROGRAM]

Each case is a text with the lines that it must give. At the end, each line and word that the page has in code must have been printed by
some case, except those of UNTRIED. The status is 1 if a case differs, or if a line or word of the page was never printed.
"""
import argparse
import os
import pathlib
import re
import subprocess
import sys
import tempfile

ROOT = pathlib.Path(__file__).resolve().parent.parent
UNTRIED = {"error 10 memory"}
MODEL = """class Link {
  problem Cut;
  symptom Loss;
  relation ends to Port many inverse on;
  rule here: Cut => Loss;
  rule far: Cut => ends.NoSignal;
}
class Port {
  problem Fail;
  symptom NoSignal;
  relation on to Link one inverse ends;
  rule down: Fail => NoSignal;
}
class Dumb extends Port {
  hide NoSignal;
}
"""
TOPOLOGY = """create uplink Link
create port-a Port
create port-b Port
link uplink ends port-a
link port-b on uplink
"""
CHAIN = "class N {\n  problem P;\n  relation next to N one inverse back;\n  relation back to N one inverse next;\n  rule r: P => next.P;\n}\n"
# X causes three of the four symptoms, and Y the fourth: with quiet they are 3, 1 and 4 apart.
UNLIKE = """class U { problem X; problem Y; symptom A; symptom B; symptom C; symptom D; symptom E;
  rule a: X => A; rule b: X => B; rule c: X => C; rule d: Y => D; }
"""
NEAR = "class N {\n  problem symptom Sick;\n  relation near to N many inverse near;\n  rule spread: Sick => near.Sick;\n}\n"
BOOK = "book columns 2 of 3 distance 1 radius 0 groups 4"
ACCEPTED = "accepted book distance 1 radius 0 groups 4 columns 2"
SURE = "unknown 0 distance 0 radius 0 sure groups 1"

SITE = "class S {\n  problem p;\n  symptom s;\n  symptom t;\n  relation q to S one inverse q;\n"
MODELS = (
    ("class A {\n  rule x: y = z;\n}", "line 2 bad-byte"),
    ("class A {\n  problem ;\n}", "line 2 column 11 unexpected"),
    ("class one {\n}", "line 1 column 7 unexpected"),
    ("class A {\n  problem " + "x" * 64 + ";\n}", "line 2 long-name"),
    ("class A {\n  " + "x" * 64, "line 2 long-name"),
    ("class A {\n  problem X;\n", "unfinished"),
    ("class A {\n}\nclass A {\n}", "line 3 two-classes"),
    ("class A extends B {\n}", "line 1 no-parent"),
    ("class A extends A {\n}", "line 1 loop"),
    ("class C0 {\n}\n" + "".join(f"class C{i} extends C{i - 1} {{\n}}\n" for i in range(1, 65)), "line 129 depth"),
    ("class A {\n  event x;\n  event x;\n}", "line 3 two-names"),
    ("class A {\n  relation r to B one inverse s;\n}", "line 2 no-target"),
    ("class A {\n  relation r to A one inverse s;\n}", "line 2 bad-inverse"),
    ("class A {\n  symptom s;\n  rule r: p => s;\n}", "line 3 no-cause"),
    ("class A {\n  problem p;\n  symptom s;\n  rule r: p => q.s;\n}", "line 4 no-relation"),
    ("class A {\n  problem p;\n  rule r: p => s;\n}", "line 3 no-effect"),
    ("class A {\n  block x;\n}", "line 2 no-blocked"),
    ("class A {\n  problem x;\n  hide x;\n}", "line 3 no-hidden"),
    ("".join(f"class C{i} {{ }}\n" for i in range(1025)), "line 1025 too-many-classes"),
    ("class A {\n" + "".join(f"event e{i};\n" for i in range(257)) + "}", "line 1 too-many-members"),
    # A place with a plus: where it may be, and which relations can be repeated.
    (f"{SITE}  rule r: p => s+;\n}}", "line 6 column 18 unexpected"), (f"{SITE}  rule r: p => +q.s;\n}}", "line 6 column 16 unexpected"),
    (f"{SITE}  rule r: p => q++.s;\n}}", "line 6 column 18 unexpected"), (f"{SITE}  rule r: p => q*.s;\n}}", "line 6 bad-byte"),
    (f"{SITE}  rule r: p => q+.q.q+.q.q.s;\n}}", "line 6 column 27 unexpected"),
    ("class A {\n  event e;\n  relation b to B one inverse a;\n  rule r: e => b+.e;\n}\nclass B { event e; relation a to A one inverse b; }",
     "line 4 no-repeat"),
    # The relation is declared by the parent, and leads to a descendant; then by the descendant, and leads to the parent.
    ("class P { event e; relation down to Q many inverse up; rule r: e => down+.e; }\nclass Q extends P { relation up to P one inverse down; }", None),
    ("class P { event e; relation down to Q many inverse up; }\nclass Q extends P {\n  relation up to P one inverse down;\n  rule r: e => up+.e;\n}",
     "line 4 no-repeat"),
    # It is the last of the rules: a later line that breaks another one is reported.
    ("class A {\n  event e;\n  relation b to B one inverse a;\n  rule r: e => b+.e;\n}\nclass B { event e; relation a to A one inverse b; rule x: y => e; }",
     "line 6 no-cause"),
    # A rule that is earlier in the table is reported, though another one is broken on an earlier line.
    ("class A {\n  block x;\n}\nclass B extends Q {\n}", "line 4 no-parent"),
)
EDITS = (
    ("add x Link", "bad-words"), ("create x", "bad-words"), ("create x Link y", "bad-words"), ("create x one", "bad-words"),
    ("mute Loss", "bad-words"), ("mute Loss@uplink # x", "bad-words"), ("create one Link", None), ("  # a comment\n \t\r", None),
    ("create x Box", "no-class"), ("create uplink Box", "no-class"), ("create uplink Port", "exists"),
    ("delete x", "no-instance"), ("link gone foo port-a", "no-instance"), ("link uplink foo port-a", "no-relation"),
    ("create x Link\nlink uplink ends x", "wrong-kind"), ("create x Dumb\nlink uplink ends x", None),
    ("link port-a on uplink", "linked"), ("create x Link\nlink x ends port-a", "occupied"), ("create x Link\nlink port-a on x", "occupied"),
    ("create x Link\nunlink x ends port-a", "not-linked"), ("mute Cut@uplink", "no-symptom"), ("create x Dumb\nmute NoSignal@x", "no-symptom"),
    ("mute Loss@uplink\nmute Loss@uplink", "already-muted"), ("unmute Loss@uplink", "not-muted"),
)
LIMITS = (
    ("event e;", 16385, "instance-limit"), ("problem e;", 8193, "problem-limit"), ("symptom e;", 8193, "symptom-limit"),
    ("event a; event b; event c; event d; event e;", 13108, "node-limit"),
)
SKIPPED = (
    ("no", "not-json"), ("\xff", "not-json"), ("[" * 128 + "]" * 128, "not-json"), ("[" * 127 + "]" * 127, "not-object"),
    ('{"tick":true}', "bad-at"), ('{"at":1.0,"tick":true}', "bad-at"), ('{"at":1e3,"tick":true}', "bad-at"),
    ('{"at":"1","tick":true}', "bad-at"), ('{"at":18446744073709551616,"tick":true}', "bad-at"),
    ('{"at":1,"raise":"Loss@uplink"}', "bad-source"), ('{"at":1,"from":"a b","raise":"Loss@uplink"}', "bad-source"),
    ('{"at":1}', "bad-body"), ('{"at":1,"tick":false}', "bad-body"), ('{"at":1,"tick":true,"edit":"delete uplink"}', "bad-body"),
    ('{"at":1,"from":"a","raise":1}', "bad-body"), ('{"at":1,"from":"a","raise":"Loss"}', "bad-name"),
    ('{"at":1,"edit":"remove uplink"}', "bad-edit"), ("x" * 65537, "long"),
    (" \t\r", None), ('{"at":1,"tick":true,"other":[1]}', None), ('{"at":"x","at":1,"tick":true}', None),
)
WORDS = (["burst", "m", "t"], ["pairs", "m", "t"], ["explain", "m", "t"], ["levels", "m", "t"], ["prove", "m", "t"], ["rewind", "m", "t", "empty"], ["levels", "m", "t", "-"],
         ["levels", "missing", "t", "Cut"], ["levels", "m", "t", "one@uplink"], ["codebook", "m", "t", "0"], ["codebook", "m", "t", "03"], ["codebook", "m", "t", "10000"],
         ["codebook", "missing", "t", "0"], ["correlate", "m", "t", "empty", "1", str(10**12 + 1)], ["grow", "257", "1"],
         *(["correlate", "m", "t", "empty", word, "10"] for word in ("cap", "cap0", "cap03", "cap10000", "cap 3", "cap-3", "Cap3", "3cap", "capcap3")),
         ["correlate", "m", "t", "empty", "3", "cap10"], *(["codebook", "m", "t", word] for word in ("cap", "cap0", "cap03", "cap10000", "Cap3")),
         *(["rewind", "m", "t", "empty", word] for word in ("0", "1025", "01", "-", "cap3")), ["rewind", "missing", "t", "empty", "0"],
         ["grow", "1", str(2**64)], ["--help"], [])


class Trial:
    """A folder with the files of the cases, what was printed, and how many cases differ."""

    def __init__(self, program, folder):
        self.program, self.folder, self.printed, self.cases, self.wrong = program, folder, [], 0, 0

    def write(self, name, text):
        (self.folder / name).write_text(text)

    def run(self, words, text="", **outside):
        """The status, the output and the line on standard error."""
        done = subprocess.run([self.program, *words], cwd=self.folder, check=False, timeout=60,
                              **({"input": text.encode("latin-1"), "capture_output": True} | outside))
        out, err = ((found or b"").decode() for found in (done.stdout, done.stderr))
        self.printed += out.splitlines() + err.splitlines()
        return done.returncode, out, err

    def wants(self, what, found, wanted):
        """Counts a case, and prints it if it differs."""
        self.cases += 1
        if found != wanted:
            self.wrong += 1
            print(f"{what}: {found!r} is printed, and {wanted!r} is wanted")

    def fails(self, words, text, status, line):
        """The command prints nothing but this line on standard error."""
        self.wants(line, self.run(words, text), (status, "", f"error {status} {line}\n" if line else ""))

    def gives(self, words, text, lines):
        """The command ends with status 0 and prints these lines."""
        self.wants(lines[:1], self.run(words, text), (0, "".join(f"{line}\n" for line in lines), ""))


def record(time, source, member, node):
    """A line of a log."""
    return f'{{"at":{time},"from":"{source}","{member}":"{node}"}}\n'


def edit(time, line):
    """A line of a log with an edit."""
    return f'{{"at":{time},"edit":"{line}"}}\n'


def try_texts(trial):
    """Models, topologies and symptoms."""
    for text, line in MODELS:
        if line:
            trial.fails(["model", "-"], text, 3, f"model {line}")
        else:
            trial.wants(text, trial.run(["model", "-"], text)[0], 0)
    trial.gives(["model", "-"], "class A{problem  x;# c\nrule r:x=>s;symptom s;relation q to A one inverse q;}",
                ["class A {", "  problem x;", "  rule r: x => s;", "  symptom s;", "  relation q to A one inverse q;", "}"])
    trial.gives(["model", "-"], "# nothing", [])
    trial.gives(["model", "-"], "class A{problem x;relation q to A one inverse q;rule r:x=>q + .q.x;}",
                ["class A {", "  problem x;", "  relation q to A one inverse q;", "  rule r: x => q+.q.x;", "}"])
    try_runs(trial)
    for text, word in EDITS:
        text = f"{TOPOLOGY}{text}\n"
        if word:
            trial.fails(["burst", "m", "-", "empty"], text, 4, f"topology line {text.count(chr(10))} {word}")
        else:
            trial.wants(text, trial.run(["burst", "m", "-", "empty"], text)[0], 0)
    for members, count, word in LIMITS:
        trial.write("limits", f"class N {{ {members} }}")
        creates = "".join(f"create i{i} N\n" for i in range(count))
        trial.fails(["burst", "limits", "-", "empty"], creates, 4, f"topology line {count} {word}")
    trial.fails(["burst", "m", "t", "-"], "# x\nLoss@uplink\n\nLoss uplink\n", 4, "symptoms line 4 bad-name")
    trial.gives(["burst", "m", "t", "-"], "Fail@port-a\nNoSignal@port-a\nNoSignal@port-a\n",
                ["burst raised 2 unknown 1 distance 0 radius 0 sure groups 1", "  group Fail@port-a"])
    trial.gives(["burst", "m", "t", "-"], "NoSignal@port-a\nNoSignal@port-b",
                ["burst raised 2 unknown 0 distance 1 radius 0 unsure groups 3",
                 "  group Fail@port-a", "  group Fail@port-b", "  group Cut@uplink"])
    trial.gives(["pairs", "m", "t", "-"], "NoSignal@port-a\nNoSignal@port-b",
                ["pairs raised 2 unknown 0 distance 0 radius 0 sure fits 1", "  fit Fail@port-a and Fail@port-b"])
    trial.gives(["pairs", "m", "t", "-"], "Loss@uplink\nFail@uplink",
                ["pairs raised 2 unknown 1 distance 1 radius 0 unsure fits 1", "  fit quiet"])
    ports = "".join(f"create p{k} Port\nlink uplink ends p{k}\n" for k in range(126))
    trial.fails(["pairs", "m", "-", "empty"], TOPOLOGY + ports, 13, "groups 130")
    trial.gives(["matrix", "m", "t"], "",
                ["columns 3", "  column NoSignal@port-a", "  column NoSignal@port-b", "  column Loss@uplink", "groups 4",
                 "  group 000 quiet", "  group 100 Fail@port-a", "  group 010 Fail@port-b", "  group 111 Cut@uplink", "distance 1"])
    trial.gives(["matrix", "m", "empty"], "", ["columns 0", "groups 1", "  group - quiet", "distance none"])


def try_runs(trial):
    """Places with a plus: a row of sites, the same as a cycle, a relation that is its own inverse, and a path with both kinds of places."""
    row = "".join(f"create s{i} S\n" for i in range(4)) + "".join(f"link s{i} next s{i + 1}\n" for i in range(3))
    site = "class S {{ problem p; symptom d; relation next to S one inverse before; relation before to S one inverse next; rule r: p => {}.d; }}"
    for path, edits, wanted in (
        ("next+", "", ["quiet p@s3", "p@s0", "p@s1", "p@s2"]), ("next+", "link s3 next s0\n", ["quiet", "p@s0 p@s1 p@s2 p@s3"]),
        ("next.next+", "", ["quiet p@s2 p@s3", "p@s0", "p@s1"]), ("next+.before", "", ["quiet p@s3", "p@s0", "p@s1", "p@s2"]),
    ):
        trial.write("runs", site.format(path))
        found = trial.run(["matrix", "runs", "-"], row + edits)[1].splitlines()
        trial.wants(f"{path} {edits}", [line.split(" ", 4)[4] for line in found if line.startswith("  group ")], wanted)
    trial.write("runs", "class S { problem p; symptom d; relation peer to S one inverse peer; rule r: p => peer+.d; }")
    trial.write("itself", "d@a\nd@b\n")
    trial.gives(["burst", "runs", "-", "itself"], "create a S\ncreate b S\nlink a peer b\n",
                ["burst raised 2 unknown 0 distance 0 radius 0 sure groups 1", "  group p@a p@b"])


def try_statuses(trial):
    """The words of a command, limits, reads and writes, and which fault comes first."""
    for words in WORDS:
        trial.fails(words, "", 2, "usage")
    trial.wants("UTF-8", trial.run(["model", b"\xff"]), (1, "", ""))
    trial.fails(["burst", "m", "missing", "t"], "", 8, "read missing")
    trial.fails(["burst", "m", "-", "missing"], "bad", 4, "topology line 1 bad-words")
    trial.fails(["burst", "m", "t", "-"], "bad\n" + "x" * 4097 + "\n", 7, "limit line - 2")
    trial.fails(["burst", "m", "t", "-"], "#" + "x" * 4095 + "\r\n", 7, "limit line - 1")
    trial.wants("4,096 bytes", trial.run(["burst", "m", "t", "-"], "#" + "x" * 4095 + "\n")[0], 0)
    trial.fails(["burst", "m", "-", "empty"], "#\n" * 8388609, 7, "limit bytes -")
    trial.fails(["verify", "m", "t", "-"], "x" * 33554433, 7, "limit bytes -")
    trial.write("chain", CHAIN)
    chain = "".join(f"create i{i} N\n" for i in range(1500)) + "".join(f"link i{i} next i{i + 1}\n" for i in range(1499))
    trial.fails(["codebook", "chain", "-", "1"], chain, 7, "limit entries")
    trial.fails(["codebook", "chain", "-", "cap3"], chain, 7, "limit entries")
    with open("/dev/full", "w", encoding="utf-8") as full:
        outside = {"capture_output": False, "stdout": full, "stderr": subprocess.PIPE}
        trial.wants("write", trial.run(["matrix", "m", "t"], **outside), (9, "", "error 9 write\n"))
        outside = {"capture_output": False, "stdout": subprocess.PIPE, "stderr": full}
        trial.wants("standard error fails", trial.run([], **outside), (2, "", ""))
    nothing = [f"burst raised 0 {SURE}", "  group quiet"]
    trial.gives(["burst", "m", "-", "-"], TOPOLOGY, nothing)
    outside = {"input": None, "capture_output": False, "stdout": subprocess.PIPE, "preexec_fn": lambda: os.close(0)}
    closed = trial.run(["burst", "m", "t", "-"], **outside)
    trial.wants("standard input is closed", closed[:2], (0, "".join(f"{line}\n" for line in nothing)))


def try_certificates(trial):
    """Each fault of a certificate, as a text and as a claim."""
    book, status_6 = trial.run(["codebook", "m", "t", "1"])[1], trial.run(["codebook", "m", "t", "2"])
    thin = status_6[1]
    trial.wants("status 6", status_6[::2], (6, "error 6 distance wanted 2 first quiet second Fail@port-a distance 1\n"))
    trial.write("c", book)
    trial.write("thin", thin)
    lines = book.splitlines()
    nodes = [line.split()[1] for line in lines if line.startswith("node ")]
    number = {node: place + 1 for place, node in enumerate(nodes)}
    head = book[: book.index("spans")]

    def span(*entries):
        return f"span {len(entries)}\n" + "".join(f"entry {number[node]} {parent}\n" for node, parent in entries)

    fail_a, fail_b = (span((f"Fail@{port}", 0), (f"NoSignal@{port}", 1)) for port in ("port-a", "port-b"))
    cut = (("Cut@uplink", 0), ("NoSignal@port-a", 1), ("NoSignal@port-b", 1), ("Loss@uplink", 1))
    for text in (book, book[:-1], f"{head}spans 3\n{fail_a}{fail_b}{span(*cut)}end\n"):
        trial.gives(["verify", "m", "t", "-"], text, [ACCEPTED])
    trial.gives(["verify", "m", "t", "thin"], "", ["accepted thin wanted 2 first quiet second Fail@port-a distance 1"])
    entries = "entry 1 0\n" * 65536
    many = f"{head}spans 17\n" + 16 * ("span 65536\n" + entries) + "span 1\nentry 1 0\nend\n"
    rest = fail_b + span(*cut)
    for text, fault in (
        ("codebook certificate 3\n", "bad-header"), ("", "truncated"), (book[:-5], "truncated"),
        (book.replace("distance 1", "distance 01"), "bad-line line 3"), (book + "x", f"extra line {len(lines) + 1}"),
        (many, f"too-many-entries line {head.count(chr(10)) + 2 + 16 * 65537}"),
        (book.replace("node Cut@uplink", "node Cut@gone"), f"bad-node place {number['Cut@uplink']}"),
        (book.replace("column 2\ncolumn 4", "column 4\ncolumn 2"), "bad-column place 2"),
        (book.replace("column 2\n", "column 1\n"), "bad-column place 1"),
        (f"{head}spans 2\n{fail_a}{fail_b}end\n", "no-span problem Cut@uplink"),
        (f"{head}spans 4\n{fail_a}{rest}{fail_a}end\n", "extra-span place 4"),
        (f"{head}spans 3\n{fail_a}{fail_a}{span(*cut)}end\n", "bad-root entry 3"),
        (f"{head}spans 3\n{span(('Fail@port-a', 1), ('NoSignal@port-a', 1))}{rest}end\n", "bad-root entry 1"),
        (f"{head}spans 3\n{span(('Fail@port-a', 0), ('NoSignal@port-a', 2))}{rest}end\n", "bad-parent entry 2"),
        (f"{head}spans 3\n{span(('Fail@port-a', 0), ('NoSignal@port-b', 1))}{rest}end\n", "no-edge entry 2"),
        (f"{head}spans 3\n{fail_a}{fail_b}{span(*cut, cut[3])}end\n", "repeated entry 9"),
        (f"{head}spans 3\n{fail_a}{fail_b}{span(*cut[:3])}end\n", "not-closed entry 5 successor Loss@uplink"),
        (book.replace("distance 1", "distance 2"), "too-close first quiet second Fail@port-a distance 1"),
        (thin.replace("distance 1", "distance 2"), "not-thin distance 1"), (thin.replace("wanted 2", "wanted 1"), "not-thin distance 1"),
    ):
        trial.fails(["verify", "m", "t", "-"], text, 5, f"certificate {fault}")
    trial.fails(["decode", "m", "t", "thin", "empty", "5"], "", 5, "certificate not-book")
    # For a cap of 3 all columns are kept. No port is 3 columns from quiet, and the link is 1 from each port.
    capped = trial.run(["codebook", "m", "t", "cap3"])[1]
    trial.gives(["verify", "m", "t", "-"], capped, ["accepted book cap 3 radius 0 to 0 groups 4 columns 3"])
    form = capped.splitlines()
    radii = form.index("radii 4")
    for old, new, fault in (
        ("certificate 2", "certificate 1", "bad-line line 3"), ("kind book", "kind thin", "bad-line line 2"), ("cap 3", "cap 0", "bad-line line 3"),
        ("cap 3", "cap 10000", "bad-line line 3"), ("radii 4", "radii 0", f"bad-line line {radii + 1}"), ("radius 0", "radius 5000", f"bad-line line {radii + 2}"),
        ("radii 4\nradius 0", "radii 4\nradius 1", "bad-radius place 1"), ("radii 4\nradius 0\n", "radii 3\n", "bad-radius place 4"),
        ("radii 4\n", "radii 5\nradius 0\n", "bad-radius place 5"),
    ):
        trial.fails(["verify", "m", "t", "-"], capped.replace(old, new, 1), 5, f"certificate {fault}")
    trial.write("capped", capped)
    trial.gives(["decode", "m", "t", "capped", "empty", "5"], "", ["accepted book cap 3 radius 0 to 0 groups 4 columns 3"])


def try_scripts(trial):
    """What `rewind` does and reports, and what is wrong with a script."""
    matrix = trial.run(["matrix", "m", "t"])[1].splitlines()
    for script, depth, reported in (
        ("", "1", []), ("# undo\n\n \t\r\n", "1024", []), ("delete uplink\r\n undo\t\r\n", "1", []), ("undo", "1", ["refused 1 nothing"]),
        ("delete uplink\nmute NoSignal@port-a\nundo\nundo\n", "2", []),
        # A refused edit isn't kept: the undo takes back the edit before it.
        ("mute NoSignal@port-a\nmute NoSignal@port-a\nundo\nundo\n", "9", ["refused 2 already-muted", "refused 4 nothing"]),
        # What takes a deleted instance back makes its links and mutes again.
        ("mute NoSignal@port-a\ndelete port-a\nundo\nundo\n", "2", []),
    ):
        trial.gives(["rewind", "m", "t", "-", depth], script, reported + matrix)
    trial.gives(["rewind", "m", "t", "-", "1"], "mute NoSignal@port-a\ndelete port-a\nundo\nundo\n",
                ["refused 4 nothing", "columns 2", "  column NoSignal@port-b", "  column Loss@uplink", "groups 3",
                 "  group 00 quiet Fail@port-a", "  group 10 Fail@port-b", "  group 11 Cut@uplink", "distance 1"])
    # The first line that is neither ignored, nor an edit, nor an undo, before any edit is made.
    for line in ("undo now", "undo undo", "Undo", "#undo\nundone", "create x", "delete uplink # x", "link uplink ends"):
        trial.fails(["rewind", "m", "t", "-", "1"], f"delete gone\n\n{line}\nundo now\n", 4, f"script line {3 + line.count(chr(10))} bad-words")
    trial.fails(["rewind", "m", "-", "missing", "1"], "undo\n", 4, "topology line 1 bad-words")
    trial.fails(["rewind", "m", "t", "-", "1"], "undo now\n#" + "x" * 4096 + "\n", 7, "limit line - 2")
    trial.fails(["rewind", "m", "t", "missing", "1"], "", 8, "read missing")


def try_chains(trial):
    """What `explain` prints below its groups."""
    trial.gives(["explain", "m", "t", "-"], "Loss@uplink\nNoSignal@port-a\nNoSignal@port-b\n",
                [f"explain raised 3 {SURE}", "  group Cut@uplink", "    chain 1 Cut@uplink NoSignal@port-a",
                 "    chain 1 Cut@uplink NoSignal@port-b", "    chain 1 Cut@uplink Loss@uplink"])
    trial.gives(["explain", "m", "t", "empty"], "", [f"explain raised 0 {SURE}", "  group quiet"])
    # Chains lead through a muted node and end at columns; a problem that is a column is a chain by itself.
    trial.write("near", NEAR)
    row = [*(f"create n{i} N" for i in range(3)), "link n0 near n1", "link n1 near n2"]
    trial.gives(["explain", "near", "-", "empty"], "\n".join([*row, "mute Sick@n1"]), [f"explain raised 0 {SURE}", "  group quiet"])
    trial.write("raised", "Sick@n0\nSick@n2\n")
    trial.gives(["explain", "near", "-", "raised"], "\n".join([*row, "mute Sick@n1"]),
                [f"explain raised 2 {SURE}", "  group Sick@n0 Sick@n1 Sick@n2", "    chain 0 Sick@n0", "    chain 2 Sick@n0 Sick@n1 Sick@n2",
                 "    chain 1 Sick@n1 Sick@n0", "    chain 1 Sick@n1 Sick@n2", "    chain 2 Sick@n2 Sick@n1 Sick@n0", "    chain 0 Sick@n2"])
    # A run of links is one edge.
    trial.write("runs", "class S { problem p; symptom d; relation peer to S one inverse back; relation back to S one inverse peer; rule r: p => peer+.d; }")
    trial.gives(["explain", "runs", "-", "empty"], "", [f"explain raised 0 {SURE}", "  group quiet"])
    trial.write("raised", "d@b\nd@c\n")
    trial.gives(["explain", "runs", "-", "raised"], "create a S\ncreate b S\ncreate c S\nlink a peer b\nlink b peer c\n",
                [f"explain raised 2 {SURE}", "  group p@a", "    chain 1 p@a d@b", "    chain 1 p@a d@c"])


def try_levels(trial):
    """Levels of a problem, and each fault of them, as a text and as a claim."""
    trial.gives(["levels", "m", "t", "Cut@uplink"], "",
                ["codebook levels 1", "nodes 4", "node NoSignal@port-a", "node NoSignal@port-b", "node Cut@uplink", "node Loss@uplink",
                 "entries 4", "entry 3 0 0", "entry 1 1 1", "entry 2 1 1", "entry 4 1 1", "end"])
    for node in ("NoSignal@port-a", "Cut@gone", "Gone@uplink"):
        trial.fails(["levels", "m", "t", node], "", 12, f"problem {node}")
    trial.fails(["levels", "m", "missing", "Cut@gone"], "", 8, "read missing")
    trial.fails(["levels", "m", "-", "Cut@gone"], "bad", 4, "topology line 1 bad-words")
    trial.write("row", "create n0 N\ncreate n1 N\ncreate n2 N\nlink n0 near n1\nlink n1 near n2\n")
    trial.write("cycle", "create n0 N\ncreate n1 N\ncreate n2 N\nlink n0 near n1\nlink n1 near n2\nlink n2 near n0\n")
    # Of the two that are as near, the lesser one is the parent.
    square = "".join(f"create {name} N\n" for name in "abcd") + "link a near b\nlink a near c\nlink d near c\nlink d near b\n"
    trial.gives(["levels", "near", "-", "Sick@a"], square,
                ["codebook levels 1", "nodes 4", *(f"node Sick@{name}" for name in "abcd"), "entries 4", "entry 1 0 0", "entry 2 1 1", "entry 3 1 1",
                 "entry 4 2 2", "end"])
    row = trial.run(["levels", "near", "row", "Sick@n0"])[1]
    head, spare = row[: row.index("entries")], row.replace("nodes 3\n", "nodes 4\nnode Sick@m\n")

    def levels(*entries):
        return f"{head}entries {len(entries)}\n" + "".join(f"entry {entry}\n" for entry in entries) + "end\n"

    trial.wants("levels", row, levels("1 0 0", "2 1 1", "3 2 2"))
    for text in (row, row[:-1]):
        trial.gives(["prove", "near", "row", "-"], text, ["accepted levels Sick@n0 reached 3 deepest 2"])
    for text, fault in (
        ("codebook certificate 1\n", "bad-header"), ("", "truncated"), (row[:-5], "truncated"), (row + "x", f"extra line {row.count(chr(10)) + 1}"),
        (row.replace("entries 3", "entries 03"), "bad-line line 6"), (row.replace("\nentry 1 0 0", "\nentry 1 0"), "bad-line line 7"),
        (row.replace("nodes 3", "nodes 65537"), "bad-line line 2"), (row.replace("entry 3 2 2", "entry 4 2 2"), "bad-line line 9"),
        (spare, "bad-node place 1"), (row.replace("node Sick@n1", "node Sick@n0"), "bad-node place 2"),
        (levels("1 1 0", "2 1 1", "3 2 2"), "bad-root entry 1"), (levels("1 0 1", "2 1 1", "3 2 2"), "bad-root entry 1"),
        (levels("1 0 0", "2 1 2", "3 2 2"), "bad-parent entry 2"), (levels("1 0 0", "2 1 0", "3 2 2"), "bad-parent entry 2"),
        (levels("1 0 0", "2 1 1", "3 1 1"), "no-edge entry 3"), (levels("1 0 0", "2 1 1", "1 2 2"), "repeated entry 3"),
        (levels("1 0 0", "2 1 1", "3 1 2"), "bad-level entry 3"), (levels("1 0 0", "2 1 1"), "not-closed entry 2 successor Sick@n2"),
        # The first fault is that of the earlier entry, though a later one breaks an earlier check.
        (levels("1 0 0", "2 2 1", "3 2 3"), "bad-level entry 2"),
    ):
        trial.fails(["prove", "near", "row", "-"], text, 5, f"levels {fault}")
    trial.fails(["prove", "near", "cycle", "-"], row, 5, "levels not-short entry 1 successor Sick@n2")
    trial.fails(["verify", "near", "row", "-"], row, 5, "certificate bad-header")
    trial.fails(["prove", "m", "t", "c"], "", 5, "levels bad-header")
    trial.fails(["prove", "m", "t", "-"], "x" * 33554433, 7, "limit bytes -")
    trial.fails(["prove", "m", "t", "-"], "x" * 4097, 7, "limit line - 1")


def try_logs(trial):
    """Records, windows, diagnoses and codebooks."""
    correlate, decode = ["correlate", "m", "t", "-", "1", "10"], ["decode", "m", "t", "c", "-", "10"]
    for line, word in SKIPPED:
        trial.gives(correlate, line + "\n", [f"skipped 1 {word}"] if word else [])
    first, last = record(5, "a", "raise", "NoSignal@port-a"), record(16, "a", "raise", "NoSignal@port-a")
    answer, port_a, quiet = f"diagnosis a 5 15 raised 1 {SURE}", "  group Fail@port-a", "  group quiet"
    # Each source has windows of its own. They close by opening time, then by source. A column outside the book isn't unknown.
    three = record(1, "b", "raise", "NoSignal@port-a") + record(1, "a", "raise", "NoSignal@port-b") + record(0, "c", "raise", "Loss@uplink")
    trial.gives(correlate, three + '{"at":11,"tick":true}\n',
                [BOOK, f"diagnosis a 1 11 raised 1 {SURE}", "  group Fail@port-b", f"diagnosis b 1 11 raised 1 {SURE}", port_a,
                 f"diagnosis c 1 11 raised 1 {SURE}", quiet])
    # The raise that closes a window opens the next one. Log time never falls. A window has the nodes whose last record was a raise.
    trial.gives(correlate, first + record(15, "a", "raise", "NoSignal@port-b") + record(3, "a", "clear", "NoSignal@port-b"),
                [BOOK, answer, port_a, f"diagnosis a 15 15 raised 0 {SURE}", quiet])
    # A record closes windows before it does its edit. An accepted edit discards the book, and a refused one doesn't.
    after, gone = f"diagnosis a 16 16 raised 1 {SURE}", f"diagnosis a 16 16 raised 1 {SURE.replace('unknown 0', 'unknown 1')}"
    trial.gives(correlate, first + edit(15, "delete port-a") + last,
                [BOOK, answer, port_a, "book columns 2 of 2 distance 1 radius 0 groups 3", gone, quiet])
    trial.gives(correlate, first + edit(15, "delete gone") + last, [BOOK, answer, port_a, "refused 2 no-instance", after, port_a])
    trial.gives(["correlate", "m", "t", "-", "3", "10"], first,
                ["thin wanted 3 first quiet second Fail@port-a distance 1", BOOK, f"diagnosis a 5 5 raised 1 {SURE}", port_a])
    try_caps(trial)
    trial.gives(decode, first + edit(15, "delete port-a") + last, [ACCEPTED, answer, port_a, "refused 2 fixed", after, port_a])
    grown = trial.run(["grow", "4", "7"])[1].splitlines()
    trial.wants("grow", (len(grown), grown[0]), (4, "grow sites 4 start 7"))


def try_caps(trial):
    """Codebooks for a cap: their columns, the radius of each group, and what is sure by it."""
    trial.write("unlike", UNLIKE)
    trial.write("one", "create u U\n")
    two = record(1, "c1", "raise", "A@u") + record(2, "c1", "raise", "B@u")
    found = "diagnosis c1 1 2 raised 2 unknown 0 distance"
    for cap, columns, radius, lines in (
        ("cap3", 4, "0 to 1", [f"{found} 1 radius 1 sure groups 1", "  group X@u"]), ("cap9999", 4, "0 to 1", [f"{found} 1 radius 1 sure groups 1", "  group X@u"]),
        ("cap2", 3, "0 to 0", [f"{found} 0 radius 0 sure groups 1", "  group X@u"]), ("cap1", 2, "0 to 0", [f"{found} 0 radius 0 sure groups 1", "  group X@u"]),
    ):
        trial.gives(["correlate", "unlike", "one", "-", cap, "10"], two, [f"book columns {columns} of 5 cap {cap[3:]} radius {radius} groups 3", *lines])
    # Of quiet and Y the radius is 0. A column that no problem causes is in no codebook: it changes no distance, and isn't unknown.
    correlate = ["correlate", "unlike", "one", "-", "cap3", "10"]
    book = "book columns 4 of 5 cap 3 radius 0 to 1 groups 3"
    trial.gives(correlate, record(1, "c1", "raise", "C@u"), [book, "diagnosis c1 1 1 raised 1 unknown 0 distance 1 radius 0 unsure groups 1", "  group quiet"])
    trial.gives(correlate, record(1, "c1", "raise", "E@u"), [book, f"diagnosis c1 1 1 raised 1 {SURE}", "  group quiet"])
    trial.gives(correlate, two + record(3, "c1", "raise", "D@u"),
                [book, "diagnosis c1 1 3 raised 3 unknown 0 distance 2 radius 1 unsure groups 2", "  group X@u", "  group Y@u"])
    # A mute makes the codebook anew. There is no thin line.
    trial.gives(correlate, two + edit(11, "mute C@u") + record(12, "c1", "raise", "A@u"),
                [book, "diagnosis c1 1 11 raised 2 unknown 0 distance 1 radius 1 sure groups 1", "  group X@u",
                 "book columns 3 of 4 cap 3 radius 0 to 0 groups 3", "diagnosis c1 12 12 raised 1 unknown 0 distance 1 radius 0 unsure groups 2",
                 "  group quiet", "  group X@u"])
    # With quiet alone the radius is that of the cap.
    trial.gives(["correlate", "m", "empty", "-", "cap3", "10"], record(1, "c1", "raise", "Loss@uplink"),
                ["book columns 0 of 0 cap 3 radius 1 to 1 groups 1", "diagnosis c1 1 1 raised 1 unknown 1 distance 0 radius 1 sure groups 1", "  group quiet"])


def lines_of(page):
    """The lines and words that the page has in code, each with a pattern that finds it in what is printed."""
    codes = re.findall(r"`((?:error|skipped|refused|thin wanted|book columns) [^`\n]*)`", page)
    codes += re.findall(r"^(?:accepted|burst raised|grow sites|instances I|records R|diagnoses W) .*$", page, re.MULTILINE)
    for code in codes:
        yield code, "^" + re.sub(r"\b(?:[A-Z]|[A-Z]{2,})\b", r"\\S+", code) + "$"
    for word in re.findall(r"^\| `([a-z]+(?:-[a-z]+)+)` \|", page, re.MULTILINE):
        yield word, rf" {word}\b"


def main():
    parser = argparse.ArgumentParser(description=__doc__, formatter_class=argparse.RawDescriptionHelpFormatter)
    parser.add_argument("--program", type=pathlib.Path, default=ROOT / "crates" / "cb_cli" / "out" / "cb_cli")
    program = parser.parse_args().program.resolve()
    if not program.exists():
        sys.exit(f"{program} doesn't exist: run `.ci/run`, or `rt run` in crates/cb_cli, first")
    with tempfile.TemporaryDirectory() as folder:
        trial = Trial(program, pathlib.Path(folder))
        for name, text in (("m", MODEL), ("t", TOPOLOGY), ("empty", "")):
            trial.write(name, text)
        for part in (try_texts, try_statuses, try_certificates, try_scripts, try_chains, try_levels, try_logs):
            part(trial)
    page, printed = (ROOT / "docs" / "language.md").read_text(), "\n".join(trial.printed)
    patterns = dict(lines_of(page))
    unseen = [code for code, pattern in patterns.items() if code not in UNTRIED and not re.search(pattern, printed, re.MULTILINE)]
    for code in unseen:
        print(f"no case prints `{code}`")
    print(f"docs/language.md: {trial.cases} cases, {trial.wrong} differ; {len(patterns)} lines and words, {len(unseen)} not printed")
    sys.exit(1 if trial.wrong or unseen else 0)


if __name__ == "__main__":
    main()
