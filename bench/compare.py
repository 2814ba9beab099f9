#!/usr/bin/env python3
"""Compares answers on random inputs, good and faulty, with another program that has the same command line.

    bench/compare.py --peer PROGRAM [--program PROGRAM] [--seed N] [--lines N] [--plus] [--only COMMAND] [RUNS]

Each run makes a model text (some of them with a fault in their spelling or in their types), a topology with edits of all
six kinds, some of them refused, a symptom file, a certificate and levels (of the other program, mostly damaged, and now and then of another topology) and a log, hands them to both
programs by one command line or by as many as are asked for, and compares the status, the output and the line on standard error. The seeds are N and those behind it, one a run: space two calls by their RUNS. With --plus each model has a place with a plus, or would have one but for its fault, and with --only
all command lines are of that command. It ends with status 1 where two answers differ, and says
nothing but a word where the other program isn't there. The program is built by the gate, or by `rt run` in crates/cb_cli, which leave it
in out/.
"""
import argparse
import json
import pathlib
import random
import subprocess
import sys
import tempfile

ROOT = pathlib.Path(__file__).resolve().parent.parent
RESERVED = "class extends problem symptom event relation to one many inverse rule block hide".split()


class Class:
    """A class of a random model, by names alone."""

    def __init__(self, name, parent):
        self.name = name
        self.parent = parent
        self.members = []

    def line(self):
        """The class and its ancestors, this one first."""
        above = self
        while above is not None:
            yield above
            above = above.parent

    def named(self, kind):
        return [member[1] for above in self.line() for member in above.members if member[0] == kind]


def random_classes(rng):
    """Some classes that keep the type rules, mostly."""
    classes = []
    for i in range(rng.choice((0, 1, 2, 2, 3, 3, 4, 6))):
        parent = rng.choice(classes) if classes and rng.random() < 0.4 else None
        classes.append(Class(f"C{i}", parent))
    count = 0
    for one in classes:
        for _ in range(rng.randrange(1, 6)):
            kind = rng.choice(("problem", "symptom", "symptom", "problem symptom", "event"))
            one.members.append(("event", f"e{count}", kind))
            count += 1
    for one in classes:
        for _ in range(rng.randrange(3)):
            other = rng.choice(classes)
            there, back = f"r{count}", f"r{count + 1}"
            if other is one and rng.random() < 0.5:
                back = there
            one.members.append(("relation", there, other.name, rng.choice(("one", "many")), back))
            if back != there:
                other.members.append(("relation", back, one.name, rng.choice(("one", "many")), there))
            count += 2
    by_name = {one.name: one for one in classes}
    for one in classes:
        for _ in range(rng.randrange(7)):
            add_rule(rng, by_name, one, f"u{count}")
            count += 1
    for one in classes:
        if one.named("rule") and rng.random() < 0.2:
            one.members.append(("block", rng.choice(one.named("rule"))))
        symptoms = [m[1] for c in one.line() for m in c.members if m[0] == "event" and "symptom" in m[2]]
        if symptoms and rng.random() < 0.2:
            one.members.append(("hide", rng.choice(symptoms)))
    return classes


def add_rule(rng, by_name, one, name):
    """A rule of the class along relations that there are, where it has events for one. Most places that may have a plus have it, and few others."""
    path, reached = [], one
    while rng.random() < 0.5 and len(path) < 4:
        steps = [(m, c) for c in reached.line() for m in c.members if m[0] == "relation"]
        if not steps:
            break
        step, home = rng.choice(steps)
        reached = by_name[step[2]]
        path.append((step[1], rng.random() < (0.6 if home in reached.line() else 0.01)))
    if one.named("event") and reached.named("event"):
        one.members.append(("rule", name, rng.choice(one.named("event")), path, rng.choice(reached.named("event"))))


def spell(member):
    """The tokens of a member."""
    if member[0] == "event":
        return member[2].split() + [member[1], ";"]
    if member[0] == "relation":
        return ["relation", member[1], "to", member[2], member[3], "inverse", member[4], ";"]
    if member[0] == "rule":
        path = [token for name, plus in member[3] for token in (name, *["+"] * plus, ".")]
        return ["rule", member[1], ":", member[2], "=>"] + path + [member[4], ";"]
    return [member[0], member[1], ";"]


def tokens_of(classes):
    tokens = []
    for one in classes:
        tokens += ["class", one.name]
        if one.parent is not None:
            tokens += ["extends", one.parent.name]
        tokens.append("{")
        for member in one.members:
            tokens += spell(member)
        tokens.append("}")
    return tokens


def spoil(rng, tokens):
    """One or two tokens changed, so that the text may break a rule of the grammar or of the types."""
    names = [token for token in tokens if token[0].isalpha() and token not in RESERVED] or ["x"]
    for _ in range(rng.choice((1, 1, 2))):
        at = rng.randrange(len(tokens) + 1)
        kind = rng.randrange(6)
        if kind == 0:
            tokens.insert(at, rng.choice(RESERVED + ["{", "}", ";", ":", ".", "+", "+", "=>", "=", "%", "*", "9a", "é", "n" * 63, "n" * 64]))
        elif kind == 1 and at < len(tokens):
            del tokens[at]
        elif kind == 2 and at < len(tokens):
            tokens[at] = rng.choice(RESERVED + names)
        else:
            places = [i for i, token in enumerate(tokens) if token in names]
            if places:
                tokens[rng.choice(places)] = rng.choice(names + ["new"])


def lay_out(rng, tokens):
    """The tokens with random gaps and comments between them."""
    wide = rng.random() < 0.5
    text = []
    for i, token in enumerate(tokens):
        text.append(token)
        after = tokens[i + 1] if i + 1 < len(tokens) else ""
        if token[-1].isalnum() and after[:1].isalnum() or token[-1:] in "-_" or rng.random() < 0.6:
            text.append(rng.choice((" ", "\n", "\t", "\r\n", " # note: class } ;\n")) if wide else " ")
        if not wide and token in (";", "{", "}"):
            text.append("\n")
    return "".join(text)


def model_text(rng, classes, spoiled):
    tokens = tokens_of(classes)
    if spoiled:
        spoil(rng, tokens)
    text = lay_out(rng, tokens)
    if spoiled and rng.random() < 0.2:
        text = text[: rng.randrange(len(text) + 1)]
    return text


class Network:
    """The instances that a topology text made, as far as its writer knows."""

    def __init__(self, rng, classes):
        self.rng = rng
        self.classes = classes
        self.live = {}

    def name(self):
        """A live instance mostly, else any."""
        if self.live and self.rng.random() < 0.9:
            return self.rng.choice(list(self.live))
        return f"i{self.rng.randrange(12)}"

    def node(self):
        """An event of an instance, mostly of its class."""
        name = self.name()
        events = self.live[name].named("event") if name in self.live else []
        if events and self.rng.random() < 0.9:
            return f"{self.rng.choice(events)}@{name}"
        return f"e{self.rng.randrange(12)}@{name}"

    def problem(self):
        """A problem of an instance, mostly; else any node, or a word that is none."""
        found = [f"{m[1]}@{name}" for name, one in self.live.items() for c in one.line() for m in c.members if m[0] == "event" and "problem" in m[2]]
        if found and self.rng.random() < 0.9:
            return self.rng.choice(found)
        return self.node() if self.rng.random() < 0.8 else self.rng.choice(("", "e0", "e0@", "@i0", "e0@i0@i1", "class@i0", "e0@i0 ", "m", "-"))

    def create(self):
        one = self.rng.choice(self.classes) if self.classes else None
        name = f"i{self.rng.randrange(12)}"
        if one is None or self.rng.random() < 0.05:
            return f"create {name} C{self.rng.randrange(9)}"
        self.live.setdefault(name, one)
        return f"create {name} {one.name}"

    def join(self, verb):
        """A link by a relation that the instance has, to one that fits it, mostly."""
        name = self.name()
        relations = [m for c in self.live[name].line() for m in c.members if m[0] == "relation"] if name in self.live else []
        if not relations:
            return f"{verb} {name} r{self.rng.randrange(20)} {self.name()}"
        relation = self.rng.choice(relations)
        fits = [other for other, one in self.live.items() if relation[2] in [above.name for above in one.line()]]
        other = self.rng.choice(fits) if fits and self.rng.random() < 0.9 else self.name()
        return f"{verb} {name} {relation[1]} {other}"

    def line(self):
        kind = self.rng.randrange(14)
        if kind < 4:
            return self.create()
        if kind < 8:
            return self.join("link")
        if kind == 8:
            return self.join("unlink")
        if kind in (9, 10):
            return f"mute {self.node()}"
        if kind == 11:
            return f"unmute {self.node()}"
        if kind == 12 and self.rng.random() < 0.5:
            name = self.name()
            self.live.pop(name, None)
            return f"delete {name}"
        return self.rng.choice(("# note", "", " \t", "  #x"))


def spoiled_line(rng):
    return rng.choice(
        ("create", "delete i1 i2", "create i1 C0 more", "mute e0", "mute e0@", "link i0 class i1", "\xff", "move i1 i2", "y" * 4097, "#" + "y" * 4096)
    )


def topology_text(rng, network, faulty):
    """Lines of edits that are good, mostly; the first one that isn't would end the reading."""
    lines = [network.create() for _ in range(rng.randrange(1, 8))]
    lines += [network.join("link") for _ in range(rng.choice((0, 0, 4, 12)))]
    lines += [network.line() for _ in range(rng.randrange(24))]
    if faulty:
        lines.insert(rng.randrange(len(lines) + 1), spoiled_line(rng))
    return rng.choice(("\n", "\n", "\r\n", " \n\t")).join(lines) + rng.choice(("", "\n"))


def symptom_text(rng, network, faulty):
    lines = [network.node() for _ in range(rng.randrange(7))]
    if faulty:
        lines.append(rng.choice(("e0", "e0@", "@i0", "e0@i0@i1", "class@i0", "e0@i0 e1@i1", "# no", " \t", "e@" + "i" * 4096)))
        rng.shuffle(lines)
    return "\n".join(lines) + rng.choice(("", "\n", "\r\n"))


def record(rng, network, at):
    """A record of the log, mostly a raise."""
    source = rng.choice(("a", "a", "b", "c-1", "d/2"))
    kind = rng.randrange(12)
    if kind < 6:
        return {"at": at, "from": source, "raise": network.node()}
    if kind < 8:
        return {"at": at, "from": source, "clear": network.node()}
    if kind < 11:
        return {"at": at, "edit": network.line() or "create i1 C0"}
    return {"at": at, "tick": True}


def odd_line(rng, network, at):
    """A line that is no record, mostly."""
    one = record(rng, network, at)
    return rng.choice(
        (
            "", " \t", "\r", "nonsense", "[1]", "17", "{}", "{" * 130, "\xff", "x" * 65536, "x" * 65537,
            json.dumps({**one, "at": -1}), json.dumps({**one, "at": "5"}), json.dumps({**one, "at": 2**64 - 1}), json.dumps({**one, "at": 5.0}),
            json.dumps({**one, "from": "9 a"}), json.dumps({**one, "tick": True, "raise": "e0@i0"}), json.dumps({**one, "tick": False}),
            json.dumps({"at": at, "from": "a", "raise": "e0"}), json.dumps({"at": at, "raise": "e0@i0"}), json.dumps({"at": at, "edit": "move i1"}),
            json.dumps({"at": at, "from": "a", "raise": 5}), json.dumps({**one, "more": [1, {"at": 2}]}), json.dumps(one)[:-1],
            json.dumps(one)[:-1] + ',"at":' + str(at) + "}",
        )
    )


def log_text(rng, network):
    """Records whose times rise, mostly, with lines that are none between them."""
    at, lines = rng.randrange(50), []
    for _ in range(rng.randrange(30)):
        at = max(0, at + rng.choice((0, 0, 1, 1, 2, 5, 20, -3)))
        lines.append(odd_line(rng, network, at) if rng.random() < 0.15 else json.dumps(record(rng, network, at)))
    return rng.choice(("\n", "\n", "\r\n")).join(lines) + rng.choice(("", "\n", "\n\n"))


def accepted_only(rng, peer, folder, text):
    """The text without the lines at which the other program stops, so that the rest of the work is compared too."""
    lines = text.split("\n")
    for _ in range(40):
        (folder / "t").write_text("\n".join(lines), newline="")
        status, _, err = answer(peer, ["burst", "m", "t", "s"], folder)
        words = err.split()
        if status != 4 or words[2] != b"topology":
            break
        del lines[int(words[4]) - 1]
    return "\n".join(lines)


def words_of(rng, network):
    if rng.random() < 0.02:
        return rng.choice(
            (
                [],
                ["model"],
                ["burst", "m", "t"],
                ["pairs", "m", "t"],
                ["explain", "m", "t"],
                ["levels", "m", "t"],
                ["prove", "m", "t"],
                ["rewind", "m", "t", "r"],
                ["rewind", "m", "t", "r", rng.choice(("0", "01", "1025", "", "x"))],
                ["matrix", "m"],
                ["nothing", "m"],
                ["codebook", "m", "t", "0"],
                ["codebook", "m", "t", "01"],
                ["codebook", "m", "t", rng.choice(("cap", "cap0", "cap03", "cap10000", "CAP3"))],
                ["correlate", "m", "t", "s", "1", "1000000000001"],
                ["correlate", "m", "t", "l", rng.choice(("cap", "cap0", "cap03", "cap10000", "CAP3", "cap3 ", "cap+3")), "10"],
                ["model", "missing"],
                ["grow", "257", "0"],
                ["grow", str(rng.randrange(1, 9)), str(rng.randrange(2**64))],
            )
        )
    return rng.choice(
        (
            ["model", "m"],
            ["matrix", "m", "t"],
            ["codebook", "m", "t", str(rng.choice((1, 1, 2, 3, 9999)))],
            ["codebook", "m", "t", f"cap{rng.choice((1, 2, 3, 3, 4, 5, 9999))}"],
            ["verify", "m", "t", "c"],
            ["verify", "m", "t", "c"],
            ["correlate", "m", "t", "l", str(rng.choice((1, 1, 2, 3, 9999))), str(rng.choice((1, 5, 10, 10**12)))],
            ["correlate", "m", "t", "l", f"cap{rng.choice((1, 2, 3, 3, 4, 5, 9999))}", str(rng.choice((1, 5, 10, 10**12)))],
            ["decode", "m", "t", "c", "l", str(rng.choice((1, 5, 10, 10**12)))],
            ["correlate", "m", "t", "l", str(rng.choice((1, 2))), str(rng.choice((3, 10)))],
            ["burst", "m", "t", "s"],
            ["burst", "m", "t", "s"],
            ["pairs", "m", "t", "s"],
            ["pairs", "m", "t", "s"],
            ["explain", "m", "t", "s"],
            ["explain", "m", "t", "s"],
            ["levels", "m", "t", network.problem()],
            ["levels", "m", "t", network.problem()],
            ["prove", "m", "t", "v"],
            ["prove", "m", "t", "v"],
            ["prove", "m", "t", "v"],
            ["rewind", "m", "t", "r", str(rng.choice((1, 1, 2, 3, 8, 1024)))],
            ["rewind", "m", "t", "r", str(rng.choice((1, 1, 2, 3, 8, 1024)))],
        )
    )


def script_text(rng, network, faulty):
    """Edits, of which many are refused, with undos among them, often several in turn; now and then a line that is neither."""
    lines = []
    for _ in range(rng.randrange(24)):
        lines += ["undo"] * rng.choice((1, 1, 2, 5)) if rng.random() < 0.4 else [network.line()]
    if faulty:
        lines.insert(rng.randrange(len(lines) + 1), rng.choice((spoiled_line(rng), "undo now", "Undo", "undo undo", "#undo", "undo #", "redo")))
    return rng.choice(("\n", "\n", "\r\n", " \n\t")).join(lines) + rng.choice(("", "\n"))


def damaged(rng, text):
    """The lines of a certificate, or of levels, with one of them changed, left out, doubled or moved, or a number in it."""
    lines = text.split("\n")
    at = rng.randrange(len(lines))
    match rng.randrange(6):
        case 0:
            del lines[at]
        case 1:
            lines.insert(at, lines[at])
        case 2:
            lines[at : at + 2] = lines[at : at + 2][::-1]
        case 3:
            lines = lines[:at]
        case _:
            words = lines[at].split(" ")
            numbers = [place for place, word in enumerate(words) if word.isdecimal()]
            if numbers:
                place = rng.choice(numbers)
                words[place] = str(max(0, int(words[place]) + rng.choice((-1, 1, 1, 2, 70000))))
            else:
                words[-1] += rng.choice(("", " ", "x", "\r"))
            lines[at] = " ".join(words)
    return "\n".join(lines)


def certificate_text(rng, peer, folder):
    """A certificate of the network, by the other program, now and then damaged."""
    _, out, _ = answer(peer, ["codebook", "m", "t", rng.choice(("1", "1", "2", "3", "cap1", "cap2", "cap3", "cap9999"))], folder)
    text = out.decode()
    for _ in range(rng.choice((0, 1, 1, 1, 2))):
        text = damaged(rng, text)
    return text


def levels_text(rng, network, peer, folder):
    """The levels of a problem, by the other program, mostly damaged."""
    _, out, _ = answer(peer, ["levels", "m", "t", network.problem()], folder)
    text = out.decode()
    for _ in range(rng.choice((0, 1, 1, 1, 2))):
        text = damaged(rng, text)
    return text


def edited_since(rng, network, peer, folder, topology):
    """The topology without one of its lines, and with further edits: a certificate of it is then one of another network."""
    lines = topology.splitlines(keepends=True)
    if lines:
        del lines[rng.randrange(len(lines))]
    more = topology_text(rng, network, False).splitlines(keepends=True)
    return accepted_only(rng, peer, folder, "".join(lines + rng.sample(more, min(len(more), rng.randrange(4)))))


def answer(program, words, folder):
    done = subprocess.run([str(program), *words], cwd=folder, capture_output=True, timeout=60, check=False)
    return done.returncode, done.stdout, done.stderr


def has_plus(classes):
    return any(plus for one in classes for member in one.members if member[0] == "rule" for _, plus in member[3])


def compare(program, peer, rng, folder, words):
    """The words of each command line, and the two answers."""
    classes = random_classes(rng)
    while words.plus and not has_plus(classes):
        classes = random_classes(rng)
    network = Network(rng, classes)
    (folder / "m").write_text(model_text(rng, classes, rng.random() < 0.3), newline="")
    topology = topology_text(rng, network, rng.random() < 0.1)
    (folder / "s").write_text(symptom_text(rng, network, rng.random() < 0.15), newline="")
    if rng.random() < 0.8:
        topology = accepted_only(rng, peer, folder, topology)
    (folder / "t").write_text(topology, newline="")
    (folder / "c").write_text(certificate_text(rng, peer, folder), newline="")
    (folder / "v").write_text(levels_text(rng, network, peer, folder), newline="")
    if rng.random() < 0.2:
        (folder / "t").write_text(edited_since(rng, network, peer, folder, topology), newline="")
    (folder / "l").write_bytes(log_text(rng, network).encode("latin-1"))
    (folder / "r").write_bytes(script_text(rng, network, rng.random() < 0.15).encode("latin-1"))
    for _ in range(words.lines):
        command = words_of(rng, network)
        while words.only and command[:1] != [words.only]:
            command = words_of(rng, network)
        yield command, answer(program, command, folder), answer(peer, command, folder)


def main():
    parser = argparse.ArgumentParser(description=__doc__, formatter_class=argparse.RawDescriptionHelpFormatter)
    parser.add_argument("--program", type=pathlib.Path, default=ROOT / "crates" / "cb_cli" / "out" / "cb_cli")
    parser.add_argument("--peer", type=pathlib.Path, help="the other program")
    parser.add_argument("--seed", type=int, default=1)
    parser.add_argument("--lines", type=int, default=1, help="how many command lines are tried on each network")
    parser.add_argument("--plus", action="store_true", help="only models with a plus in a path")
    parser.add_argument("--only", help="the command of all command lines")
    parser.add_argument("runs", type=int, nargs="?", default=1000)
    words = parser.parse_args()
    if words.peer is None or not words.peer.exists():
        print("skipped: no other program is there")
        return
    if not words.program.exists():
        sys.exit(f"{words.program} isn't there: run .ci/run first, or `rt run` in crates/cb_cli")
    alike, statuses = 0, {}
    for run in range(words.seed, words.seed + words.runs):
        with tempfile.TemporaryDirectory() as name:
            folder = pathlib.Path(name)
            for command, ours, theirs in compare(words.program.resolve(), words.peer.resolve(), random.Random(run), folder, words):
                if ours != theirs:
                    print((folder / "m").read_bytes().decode())
                    sys.exit(f"run {run}: {command}\nprogram: {ours}\npeer:    {theirs}")
                alike += 1
                statuses[ours[0]] = statuses.get(ours[0], 0) + 1
    print(f"{alike} alike {dict(sorted(statuses.items()))}, none different")


if __name__ == "__main__":
    main()
