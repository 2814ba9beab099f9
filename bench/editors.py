#!/usr/bin/env python3
"""Tries the highlight files of `editors` on the models of all examples, and on some odd texts.

    bench/editors.py [MODEL ..]

Each token of a text has a class: a comment, a word that begins a class or a member (`kind`), another reserved word (`word`), the name of a
class, event, relation or rule, a sign, an operator, or what no token is (`error`). The classes that Vim gives, and those that the regular
expressions of the TextMate grammar give, taken line by line as editors do, must be these for each byte of a token, and none for blanks.
TextMate sees one line at a time: it takes a place of a path for an event if its `+` or `.` is on a later line. Vim is tried where it is
installed. The status is 1 if a class differs.
"""
import json
import pathlib
import re
import shutil
import subprocess
import sys
import tempfile

ROOT = pathlib.Path(__file__).resolve().parent.parent
VIM = ROOT / "editors" / "vim"
TEXTMATE = ROOT / "editors" / "textmate" / "jeknaule.tmLanguage.json"
KINDS = {
    "class": "class", "problem": "event", "symptom": "event", "event": "event", "hide": "event",
    "relation": "relation", "rule": "rule", "block": "rule",
}
WORDS = {"extends", "to", "one", "many", "inverse"}
TOKEN = re.compile(r"(#[^\n]*)|([A-Za-z][A-Za-z0-9_-]*)|(=>|\+)|([{};:.])|[^ \t\r\n]")
GROUPS = {
    "jeknauleComment": "comment", "jeknauleKind": "kind", "jeknauleWord": "word", "jeknauleClass": "class",
    "jeknauleEvent": "event", "jeknauleRelation": "relation", "jeknaulePlace": "relation", "jeknauleRule": "rule",
    "jeknauleSign": "sign", "jeknauleOperator": "operator", "jeknauleError": "error",
}
SCOPES = {
    "comment.line.number-sign": "comment", "storage.type": "kind", "storage.modifier": "word",
    "entity.name.type.class": "class", "variable.other.event": "event", "variable.other.property.relation": "relation",
    "entity.name.function.rule": "rule", "punctuation.separator": "sign", "keyword.operator": "operator",
    "invalid.illegal": "error",
}
ODD = {
    "words in names, comments and ends of lines between tokens": """\
class class-a extends one-lost{problem symptom problem-x;event to-event;
  relation to-rule to # the class; it comes next: {
    class-a many inverse inverse-1;
  relation inverse-1 to class-a one inverse to-rule;\r
  rule rule-1:problem-x=>to-rule+.to-rule . inverse-1+ . to-event;
  rule end_2: to-event
    =>
    # not here: next+.Dead;
    to-rule
    +
    . # and a comment
    inverse-1 # one more

    . problem-x; rule r: problem-x =>
    to-rule . inverse-1+.problem-x;
  block
    rule-0; hide problem-y;
}
# An Ä in a comment, and a class without members.
class one-lost { symptom problem-y; rule rule-0: problem-y => problem-y; } class Empty{}
""",
    "names of 63 and 64 bytes": f"class {'a' * 63} {{ problem {'b' * 64}; event {'c' * 63}; }} class {'d' * 64} {{ }}\n",
    "bytes that begin no token": """\
class Pump {
  problem Cut, Open;
  rule x: Cut -> Öpen;
  rule y: Cut = > Open;
  rule z: Cut=>next++.2Open..Open;
  relation -next to _Pump one inverse <next>;
} (
""",
    "members without an end": """\
class Pump {
  problem Cut
  rule x: Cut => Dark.
  relation next to
  relation before to Pump one inverse
  rule y
  block x
  hide Dark
  symptom Dark
  problem Dry
  event Low
  rule z: Cut
  hide
  block
}
class Tank {
  event
}
class
class Meter { event Dark; }
""",
}


def tokens(text):
    """The tokens of a text, each as where it begins, where it ends, its class, and whether a place's sign is on a later line."""
    found = [match for match in TOKEN.finditer(text)]
    solid = [match for match in found if not match.group(1)]
    after = {match.start(): more for match, more in zip(solid, solid[1:])}
    names, said = "none", []
    for match in found:
        word, later = match.group(), False
        if match.group(1):
            kind = "comment"
        elif word in KINDS:
            kind, names = "kind", KINDS[word]
        elif word in WORDS:
            kind, names = "word", names_after(word, names)
        elif match.group(2):
            sign = after.get(match.start())
            is_place = names == "body" and sign is not None and sign.group() in "+."
            later = is_place and "\n" in text[match.end() : sign.start()]
            kind = "error" if len(word) > 63 else "relation" if is_place else "event" if names == "body" else names
        elif match.group(3) or match.group(4):
            kind, names = ("operator" if match.group(3) else "sign"), names_after(word, names)
        else:
            kind = "error"
        said.append((match.start(), match.end(), kind, later))
    return said


def names_after(word, names):
    """What the names after a word or a sign are, if those before it were of this kind."""
    if word in tuple(";{}"):
        return "none"
    if word == "to" and names == "relation":
        return "class"
    if word in ("one", "many", "inverse") and names == "class":
        return "relation"
    return "body" if word == ":" else names


def of_textmate(text):
    """The class that the TextMate grammar gives each character of a text."""
    grammar = json.loads(TEXTMATE.read_text())
    stack, said = [grammar], []
    for line in text.splitlines(keepends=True):
        said += of_line(line, stack, grammar["repository"])
    return [next((kind for scope, kind in SCOPES.items() if name.startswith(scope)), name) for name in said]


def flat(patterns, repository):
    """The patterns, with what they include in their places."""
    for pattern in patterns:
        if "include" in pattern:
            part = repository[pattern["include"].removeprefix("#")]
            yield from flat(part["patterns"], repository) if part.keys() == {"patterns"} else [part]
        else:
            yield pattern


def of_line(line, stack, repository):
    """The scope of each character of a line; the stack has what is open before the line, and then what is open after it."""
    said, at = [""] * len(line), 0
    while True:
        tried = [(stack[-1]["end"], None)] if "end" in stack[-1] else []
        tried += [(it.get("match") or it["begin"], it) for it in flat(stack[-1]["patterns"], repository)]
        found = [(match.start(), order, match) for order, (it, _) in enumerate(tried) if (match := re.compile(it).search(line, at))]
        if not found:
            return said
        _, order, match = min(found, key=lambda it: it[:2])
        pattern, at = tried[order][1], match.end()
        if pattern is None:
            stack.pop()
            continue
        begins = "begin" in pattern
        name = pattern["beginCaptures"]["0"]["name"] if begins else pattern.get("name", "")
        said[match.start() : at] = [name] * len(match.group())
        stack += [pattern] if begins else []


def of_vim(files):
    """The class that Vim gives each byte of each file, line by line, or nothing where Vim doesn't take a file for a model."""
    with tempfile.TemporaryDirectory() as name:
        room = pathlib.Path(name)
        (room / "files").write_text("".join(f"{file}\n" for file in files))
        (room / "script").write_text(
            f"""set nocompatible encoding=utf-8
let &runtimepath = '{VIM},' . $VIMRUNTIME
filetype on
syntax on
let said = []
for file in readfile('{room}/files')
  execute 'edit!' fnameescape(file)
  call add(said, &filetype . ' ' . line('$'))
  for row in range(1, line('$'))
    let names = []
    for column in range(1, len(getline(row)))
      call add(names, synIDattr(synID(row, column, 1), 'name'))
    endfor
    call add(said, join(names, ','))
  endfor
endfor
call writefile(said, '{room}/said')
qall!
"""
        )
        words = ["vim", "-u", "NONE", "-i", "NONE", "-n", "-e", "-s", "-S", room / "script"]
        subprocess.run(words, stdin=subprocess.DEVNULL, stdout=subprocess.DEVNULL, timeout=300, check=False)
        lines = (room / "said").read_text().split("\n")
    for _ in files:
        kind, _, count = lines.pop(0).partition(" ")
        rows, lines = lines[: int(count)], lines[int(count) :]
        yield [[GROUPS.get(name, "") for name in row.split(",")] for row in rows] if kind == "jeknaule" else None


def in_text(text, rows):
    """Vim's classes by bytes of lines as classes by characters of the text."""
    said = []
    for line, row in zip(text.split("\n"), rows):
        for at, letter in enumerate(line):
            before = len(line[:at].encode())
            said += [row[before] if before < len(row) else ""]
        said += [""]
    return said


def compare(name, text, said, who):
    """Prints where the classes given differ from those wanted, and returns at how many tokens and blanks."""
    wrong, at = 0, 0
    for start, end, kind, later in [*tokens(text), (len(text), len(text), "", False)]:
        kind = "event" if later and who == "TextMate" else kind
        kind = "" if kind == "none" else kind
        for first, last, wanted in ((at, start, ""), (start, end, kind)):
            if any(it != wanted for it in said[first:last]):
                wrong += 1
                row = text.count("\n", 0, first) + 1
                print(f"{name} line {row}: {who} gives {text[first:last]!r} {sorted(set(said[first:last]))}, and {wanted!r} is wanted")
        at = end
    return wrong


def main():
    if any(word.startswith("-") for word in sys.argv[1:]):
        sys.exit(__doc__)
    models = [pathlib.Path(word).resolve() for word in sys.argv[1:]] or sorted(ROOT.glob("examples/*/*.model"))
    with tempfile.TemporaryDirectory() as name:
        odd = [pathlib.Path(name) / f"{place}.model" for place, _ in enumerate(ODD)]
        for file, text in zip(odd, ODD.values()):
            file.write_text(text, newline="")
        called = [*(str(model.relative_to(ROOT) if model.is_relative_to(ROOT) else model) for model in models), *ODD]
        texts = [file.read_bytes().decode() for file in [*models, *odd]]
        has_vim = shutil.which("vim") is not None
        by_vim = list(of_vim([*models, *odd])) if has_vim else [None] * len(texts)
    wrong = 0
    for name, text, rows in zip(called, texts, by_vim):
        bad = compare(name, text, of_textmate(text), "TextMate")
        if has_vim and rows is None:
            print(f"{name}: Vim doesn't take it for a model")
        bad += (compare(name, text, in_text(text, rows), "Vim") if rows else 1) if has_vim else 0
        print(f"{name}: {len(tokens(text))} tokens, {bad} wrong")
        wrong += bad
    if not has_vim:
        print("vim isn't installed, and not tried")
    sys.exit(1 if wrong else 0)


if __name__ == "__main__":
    main()
