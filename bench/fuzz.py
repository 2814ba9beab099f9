#!/usr/bin/env python3
"""Damages valid files at random, and compares what two programs answer.

    bench/fuzz.py --peer PROGRAM [--program PROGRAM] [--runs N] [--seed N] [--jobs N] [--keep FOLDER]

The valid files are those of examples/, small ones of its own, and what is made of both: a log of each network's alarms and edits, and its certificates
and levels, by the other program. Each run takes a command with its files, and changes one or two of these by one to four steps: bits, bytes and ranges of bytes, lines
and tokens are changed, removed, repeated, moved or exchanged; a line, or the rest of a file, is taken over from another file of its kind; a number becomes
one at a limit; a line or a name gets as long as it may be and one longer; NUL, bytes that are no UTF-8, CR and CRLF are put in; a log gets odd JSON. Now and
then a word is odd, or names another file, or none that is there. Both programs run on these files. Wanted are the same status, of those that the program
has, 9 and 10 aside, and the same output and error line.

A run in which the answers differ, or a program ends by a signal, is printed, and its files are kept in a folder below --keep; the status is then 1. The
seed of run K is --seed and K together: with that seed and `--runs 1` the run is repeated. It prints how many runs of each command ended with each status, how
many with a changed file ended with 0, and how often each error line came, without its names and numbers.
"""
import argparse
import collections
import json
import multiprocessing
import pathlib
import random
import re
import shutil
import subprocess
import sys
import tempfile

from failing import FILES

ROOT = pathlib.Path(__file__).resolve().parent.parent
STATUSES = (0, 2, 3, 4, 5, 6, 7, 8, 12, 13)
CHUNK = 100

# The words of each command. A word of one letter in KINDS is a file of that kind, and NODE is a problem of the network.
KINDS = {"m": "model", "t": "topology", "s": "symptoms", "c": "certificate", "v": "levels", "r": "script", "l": "log"}
COMMANDS = (
    ("model", "m"),
    ("burst", "m", "t", "s"),
    ("matrix", "m", "t"),
    ("pairs", "m", "t", "s"),
    ("explain", "m", "t", "s"),
    ("levels", "m", "t", "NODE"),
    ("prove", "m", "t", "v"),
    ("rewind", "m", "t", "r", "DEPTH"),
    ("codebook", "m", "t", "WISH"),
    ("verify", "m", "t", "c"),
    ("correlate", "m", "t", "l", "WISH", "WINDOW"),
    ("decode", "m", "t", "c", "l", "WINDOW"),
)
WISHES = ("1", "1", "1", "2", "3", "9999", "cap1", "cap2", "cap3", "cap9999")
DEPTHS = ("1", "1", "2", "3", "8", "1024")
WINDOWS = ("10", "10", "60", "1", "1000000000000")
ODD_FILES = ("m", "t", "s", "c", "v", "r", "l", "./m", "./t", "-", ".", "nothing", "")
ODD_NODES = ("", "@", "e@", "@i", "e@i", "e@i@i", "class@i", "e @i", "-", "m", "e" * 64 + "@i", "e" * 63 + "@" + "i" * 63)
ODD_WORDS = ("0", "01", "", "-1", "+1", "1 ", "10000", "1000000000001", "18446744073709551616", "\N{DIGIT ONE}\N{COMBINING ENCLOSING KEYCAP}", "x", "cap", "cap0",
             "cap01", "cap10000", "Cap1", "cap 1")

ODD_BYTES = [bytes([byte]) for byte in b"\0\n\r\t #@{};:.=>+-_/\"\\[],'0aZ\x7f\x80\xc0\xff"] + [b"\r\n", b"\n\n", b"\xc3\xa9", b"\xed\xa0\x80", b"\xef\xbb\xbf"]
NUMBERS = [
    str(limit + near).encode()
    for limit in (0, 1, 63, 256, 1024, 4096, 8192, 9999, 16384, 65536, 1 << 20, 1 << 31, 1 << 32, 10**12, 1 << 53, 1 << 63, 1 << 64)
    for near in (-1, 0, 1)
] + [b"00", b"01", b"1.0", b"1e0", b"1e3", b"-0", b"1E400", b"0x1", b"9" * 40]
ODD_VALUES = [
    b"null", b"true", b"false", b"[]", b"{}", b'""', b'"at"', b'"\\u0000"', b'"\\ud800"', b'"\\ud83d\\ude00"', b'"\\x"', b"nan", b"-1", b"1.5", b"1e5", b"\"",
    b"18446744073709551615", b"18446744073709551616", b'"9 a"', b'"create n1 Node"', b'{"at":1}', *[b"[" * deep + b"]" * deep for deep in (2, 100, 126, 127, 128, 200)],
]
LENGTHS = (63, 64, 4095, 4096, 4097, 65535, 65536, 65537)

TOKEN = re.compile(rb"[A-Za-z0-9_./:-]+")
NUMBER = re.compile(rb"\d+")
VALUE = re.compile(rb'"(?:[^"\\]|\\.)*"|\d+|true|null')


def span_of(rng, data, most=16):
    """Where a short range begins and ends."""
    at = rng.randrange(len(data) + 1)
    return at, min(len(data), at + rng.randrange(1, most))


def match_of(rng, pattern, data):
    """Where some match of the pattern begins and ends, or the end of the data twice."""
    found = [match.span() for match in pattern.finditer(data)]
    return rng.choice(found) if found else (len(data), len(data))


def with_lines(change):
    """A change of a list of lines as one of the bytes."""

    def changed(rng, data, other):
        lines = data.splitlines(keepends=True) or [b""]
        return b"".join(change(rng, lines, rng.randrange(len(lines)), other))

    return changed


def flip(rng, data, _other):
    if not data:
        return b"\0"
    at = rng.randrange(len(data))
    return data[:at] + bytes([data[at] ^ 1 << rng.randrange(8)]) + data[at + 1 :]


def put_byte(rng, data, _other):
    at = rng.randrange(len(data) + 1)
    return data[:at] + rng.choice(ODD_BYTES) + data[at + rng.randrange(2) :]


def remove_bytes(rng, data, _other):
    start, end = span_of(rng, data)
    return data[:start] + data[end:]


def repeat_bytes(rng, data, _other):
    start, end = span_of(rng, data)
    return data[:end] + data[start:end] * rng.choice((1, 1, 2, 100)) + data[end:]


def move_bytes(rng, data, _other):
    start, end = span_of(rng, data)
    rest = data[:start] + data[end:]
    at = rng.randrange(len(rest) + 1)
    return rest[:at] + data[start:end] + rest[at:]


def cut(rng, data, _other):
    return data[: rng.randrange(len(data) + 1)]


def remove_line(_rng, lines, at, _other):
    return lines[:at] + lines[at + 1 :]


def repeat_line(rng, lines, at, _other):
    return lines[:at] + [lines[at]] * rng.choice((2, 2, 3, 50)) + lines[at + 1 :]


def move_line(rng, lines, at, _other):
    rest = lines[:at] + lines[at + 1 :]
    to = rng.randrange(len(rest) + 1)
    return rest[:to] + [lines[at]] + rest[to:]


def cut_lines(_rng, lines, at, _other):
    return lines[:at]


def borrow_line(rng, lines, at, other):
    return lines[:at] + [rng.choice(other.splitlines(keepends=True) or [b"\n"])] + lines[at + rng.randrange(2) :]


def splice(rng, lines, at, other):
    others = other.splitlines(keepends=True)
    return lines[:at] + others[rng.randrange(len(others) + 1) :]


def lengthen_line(rng, lines, at, _other):
    line = lines[at].rstrip(b"\r\n")
    fill = rng.choice((b" ", b"x", b"#", b"\t", b"\0"))
    long = line + fill * max(0, rng.choice(LENGTHS) - len(line))
    return lines[:at] + [long + rng.choice((b"\n", b"\n", b"\r\n"))] + lines[at + 1 :]


def comment_line(rng, lines, at, _other):
    return lines[:at] + [rng.choice((b"#", b" # ", b"\t#\0", b"\r")) + b"x" * rng.randrange(9) + b"\n"] + lines[at:]


def end_otherwise(rng, data, _other):
    """Other ends of the lines, or of the file."""
    match rng.randrange(4):
        case 0:
            return data.replace(b"\n", b"\r\n")
        case 1:
            return data.replace(b"\n", b"\r", 1)
        case 2:
            return data.rstrip(b"\n")
        case _:
            return data + rng.choice((b"\n", b"\r", b" ", b"\0", b"x", b"\n\n#"))


def remove_token(rng, data, _other):
    start, end = match_of(rng, TOKEN, data)
    return data[:start] + data[end:]


def repeat_token(rng, data, _other):
    start, end = match_of(rng, TOKEN, data)
    return data[:end] + rng.choice((b" ", b"", b".", b"@")) + data[start:end] + data[end:]


def exchange_tokens(rng, data, _other):
    (start, end), (from_, to) = sorted((match_of(rng, TOKEN, data), match_of(rng, TOKEN, data)))
    if end > from_:
        return data
    return data[:start] + data[from_:to] + data[end:from_] + data[start:end] + data[to:]


def borrow_token(rng, data, other):
    start, end = match_of(rng, TOKEN, data)
    source = rng.choice((data, data, data, other))
    from_, to = match_of(rng, TOKEN, source)
    return data[:start] + source[from_:to] + data[end:]


def lengthen_token(rng, data, _other):
    start, end = match_of(rng, TOKEN, data)
    return data[:end] + b"n" * max(0, rng.choice((63, 64)) - (end - start)) + data[end:]


def put_number(rng, data, _other):
    start, end = match_of(rng, NUMBER, data)
    near = str(int(data[start:end] or b"0") + rng.choice((-1, 1))).encode() if end - start < 30 else b"0"
    return data[:start] + rng.choice((near, near, rng.choice(NUMBERS))) + data[end:]


def put_value(rng, data, _other):
    """Another JSON value, or a member more."""
    start, end = match_of(rng, VALUE, data)
    value = rng.choice(ODD_VALUES)
    if rng.random() < 0.5:
        return data[:start] + value + data[end:]
    member = rng.choice((b'"at"', b'"from"', b'"raise"', b'"edit"', b'"tick"', b'"more"', b'"\\u0061t"')) + b":" + value + b","
    at = data.find(b"{", rng.randrange(len(data) + 1)) + 1
    return data[:at] + member + data[at:]


ON_ANY = (
    *(flip, put_byte, remove_bytes, repeat_bytes, move_bytes, cut, end_otherwise),
    *(with_lines(change) for change in (remove_line, repeat_line, move_line, move_line, cut_lines, borrow_line, borrow_line, splice, lengthen_line, comment_line)),
    *(remove_token, repeat_token, exchange_tokens, exchange_tokens, borrow_token, borrow_token, borrow_token, lengthen_token, put_number, put_number),
)
CHANGES = {kind: ON_ANY + (put_value,) * 4 * (kind == "l") + (put_number,) * 4 * (kind in ("c", "v")) for kind in KINDS}


def lines_of(lines):
    return "".join(f"{line}\n" for line in lines).encode()


def log_of(topology, symptoms):
    """A log of the network: each alarm raised, some cleared, and links taken away and made again."""
    lines, at = [], 100
    for name in symptoms.decode().split():
        lines.append({"at": at, "from": f"c{at % 3}", "raise": name})
        at += 1 + at % 7
        if at % 5 == 0:
            lines.append({"at": at, "from": f"c{at % 3}", "clear": name})
    for line in topology.decode().splitlines():
        if line.startswith("link") and at % 2 == 0:
            lines += [{"at": at, "edit": f"un{line}"}, {"at": at + 3, "edit": line}]
        at += 1
    lines.append({"at": at + 100, "tick": True})
    return lines_of(json.dumps(line, separators=(",", ":")) for line in lines)


def script_of(topology):
    """Each link cut and each instance deleted, with an undo after most of them, and some more at the end."""
    lines = []
    for words in (line.split() for line in topology.splitlines()):
        if words[:1] == [b"link"]:
            lines.append(b" ".join([b"unlink", *words[1:]]))
        elif words[:1] == [b"create"]:
            lines.append(b"delete " + words[1])
        if lines and len(lines) % 4 != 3:
            lines.append(b"undo")
    return b"\n".join([*lines[:200], *[b"undo"] * 5]) + b"\n"


def networks():
    """The valid files: for each network and each kind of file a list of them."""
    found = []
    for folder in sorted((ROOT / "examples").iterdir()):
        files = {kind: [file.read_bytes() for file in sorted(folder.glob(f"*.{word}"))] for kind, word in KINDS.items()} if folder.is_dir() else {}
        if files.get("m"):
            found.append(files)
    for name in ("link", "path", "row"):
        files = {kind: [lines_of(FILES[f"{name}.{word}"])] if f"{name}.{word}" in FILES else [] for kind, word in KINDS.items()}
        found.append(files)
    logs = [lines_of(lines) for name, lines in FILES.items() if name.endswith(".log")]
    found[-3]["r"] += [lines_of(lines) for name, lines in FILES.items() if name.endswith(".script")]
    found[-3]["l"] += logs
    found[-2]["l"] += logs
    for files in found:
        files["t"] = files["t"] or [b""]
        files["s"] = files["s"] or [b""]
        files["l"].append(log_of(files["t"][0], files["s"][0]))
        files["r"].append(script_of(files["t"][0]))
    return found


class Fuzzer:
    """What one process of the pool has: the programs, the valid files, and a folder."""

    def __init__(self, program, peer, keep):
        self.program, self.peer, self.keep = program, peer, keep
        self.place = tempfile.TemporaryDirectory()
        self.folder = pathlib.Path(self.place.name)
        self.networks = networks()
        for files in self.networks:
            files["c"] += self.certificates(files) or [b"codebook certificate 1\nkind book\ndistance 3\nnodes 0\ncolumns 0\nspans 0\nend\n"]
            files["NODE"] = self.problems() or ["P@n1"]
            made = (self.answer(self.peer, ["levels", "m", "t", node])[1] for node in files["NODE"])
            files["v"] += [out for out in made if out] or [b"codebook levels 1\nnodes 1\nnode P@n1\nentries 1\nentry 1 0 0\nend\n"]

    def answer(self, program, words):
        done = subprocess.run([program, *words], cwd=self.folder, stdin=subprocess.DEVNULL, capture_output=True, timeout=120, check=False)
        return done.returncode, done.stdout, done.stderr

    def certificates(self, files):
        """The certificates of the network at some distances and caps."""
        (self.folder / "m").write_bytes(files["m"][0])
        (self.folder / "t").write_bytes(files["t"][0])
        made = (self.answer(self.peer, ["codebook", "m", "t", wish]) for wish in ("1", "2", "3", "cap2", "cap9999"))
        return [out for status, out, _ in made if status in (0, 6)]

    def problems(self):
        """Some problems of the network whose files were written last."""
        groups = [line.split()[2:] for line in self.answer(self.peer, ["matrix", "m", "t"])[1].decode().splitlines() if line.startswith("  group ")]
        found = [word for members in groups for word in members if word != "quiet"]
        return found[:: max(1, len(found) // 8)]

    def words(self, rng):
        """A command line."""
        if rng.random() < 0.005:
            return ["grow", rng.choice(("1", "2", "3", *ODD_WORDS, "257")), rng.choice((str(rng.randrange(1 << 64)), *ODD_WORDS))]
        words = rng.choice(COMMANDS)
        numbers = {"WISH": WISHES, "WINDOW": WINDOWS, "DEPTH": DEPTHS}
        odd = rng.random() < 0.01
        words = [rng.choice(ODD_WORDS if odd else numbers[word]) if word in numbers else word for word in words]
        if rng.random() < 0.01:
            words[rng.randrange(1, len(words))] = rng.choice(ODD_FILES)
        if words[-1] == "NODE" and rng.random() < 0.1:
            words[-1] = rng.choice(ODD_NODES)
        return words

    def prepare(self, rng, words):
        """Writes the files of a run: those of one network, some of them changed, and puts a problem of it for NODE. Whether one was changed."""
        files = {kind: rng.choice(texts) for kind, texts in rng.choice(self.networks).items()}
        words[:] = [files["NODE"] if word == "NODE" else word for word in words]
        needed = [word.removeprefix("./") for word in words[1:] if word.removeprefix("./") in KINDS]
        valid = dict(files)
        # A fault of an earlier file hides the later ones, so these are changed more often.
        for kind in rng.choices(needed, range(1, 3 * len(needed), 3), k=rng.choice((1, 1, 1, 2))) if needed else ():
            for _ in range(rng.choice((1, 1, 1, 2, 3, 4))):
                other = rng.choice(rng.choice(self.networks)[kind])
                files[kind] = rng.choice(CHANGES[kind])(rng, files[kind], other)
        for kind in needed:
            (self.folder / kind).write_bytes(files[kind])
        return files != valid

    def run(self, seed):
        """What came of one run: the status, the kind of error line, and whether it was well."""
        rng = random.Random(seed)
        words = self.words(rng)
        changed = self.prepare(rng, words)
        ours, theirs = self.answer(self.program, words), self.answer(self.peer, words)
        well = ours == theirs and ours[0] in STATUSES
        if not well:
            kept = self.keep / str(seed)
            shutil.copytree(self.folder, kept, dirs_exist_ok=True)
            print(f"WRONG: run {seed}, files in {kept}: {' '.join(words)}\n  program: {shown(ours)}\n  peer:    {shown(theirs)}", flush=True)
        return words[0], ours[0], kind_of(ours[2]), changed, well


def shown(answer):
    status, out, err = answer
    return f"{status}, {len(out)} bytes {out[-200:]!r}, {err[:200]!r}"


def kind_of(err):
    """The error line without its numbers and names."""
    words = err.decode(errors="replace").split()
    return " ".join(word for word in words if word.replace("-", "").isalpha() and word.islower() and len(word) > 1)


FUZZER = None


def begin(*given):
    global FUZZER
    FUZZER = Fuzzer(*given)


def run(seed):
    return FUZZER.run(seed)


def main():
    parser = argparse.ArgumentParser(description=__doc__, formatter_class=argparse.RawDescriptionHelpFormatter)
    parser.add_argument("--program", type=pathlib.Path, default=ROOT / "crates" / "cb_cli" / "out" / "cb_cli")
    parser.add_argument("--peer", type=pathlib.Path, help="the other program")
    parser.add_argument("--runs", type=int, default=1000)
    parser.add_argument("--seed", type=int, default=1)
    parser.add_argument("--jobs", type=int, default=2, help="how many runs go on side by side")
    parser.add_argument("--keep", type=pathlib.Path, help="where the files of wrong runs are kept")
    words = parser.parse_args()
    if words.peer is None or not words.peer.exists():
        print("skipped: no other program is there")
        return
    if not words.program.exists():
        sys.exit(f"{words.program} isn't there: run .ci/run first, or `rt run` in crates/cb_cli")
    keep = words.keep or pathlib.Path(tempfile.gettempdir()) / "fuzz"
    statuses, lines, wrong, unmoved = collections.Counter(), collections.Counter(), 0, 0
    with multiprocessing.Pool(words.jobs, begin, (words.program.resolve(), words.peer.resolve(), keep)) as pool:
        for command, status, line, changed, well in pool.imap_unordered(run, range(words.seed, words.seed + words.runs), CHUNK):
            statuses[command, status] += 1
            lines[line] += 1
            unmoved += changed and status == 0
            wrong += not well
    for command in sorted({command for command, _ in statuses}):
        print(f"{command}: " + ", ".join(f"{count} at status {status}" for (of, status), count in sorted(statuses.items()) if of == command))
    print(f"{unmoved} runs on changed files ended with status 0")
    print(f"{len(lines) - ('' in lines)} kinds of error lines: " + ", ".join(f"{line} {count}" for line, count in lines.most_common() if line))
    print(f"{words.runs} runs, {wrong} wrong")
    sys.exit(1 if wrong else 0)


if __name__ == "__main__":
    main()
