#!/usr/bin/env python3
"""What an auditor reads: the definitions that the contract of `run` rests on, and on each crate's page the words that other crates use.

    bench/audit.py                    writes docs/audit.md, and "Words for callers" in each crates/NAME/README.md
    bench/audit.py --check            writes nothing: the status is 1 where one of these pages isn't what would be written now
    bench/audit.py FILE.rt FUNCTION   prints what the contract of another function rests on, by crates

Names, places and comments are those of the tree, and crates come in the order of crates.txt. A definition rests on each definition, type
and trait of the repository that its text cites, found by the imports of its file; what they rest on is read too. Of the kit nothing is
read. It goes by words: a parameter that has the name of an imported definition counts as citing it, so the list may have a definition
too many, and never one too few. It proves nothing.

A type of the source is cited by specs/ as `Rattle.CRATE.specs.declared.MODULE.TYPE`. It rests on the types of its fields and, where its
value is another one, on what `Value` and `view` cite; a trait rests on its clauses.
"""
import collections
import pathlib
import re
import sys
import textwrap

ROOT = pathlib.Path(__file__).resolve().parent.parent
TOP, FUNCTION = ROOT / "crates/cb_top/src/top.rt", "run"
PAGE = ROOT / "docs/audit.md"
TESTS = "cb_test_"
BEGIN, END = "<!-- words: made by bench/audit.py -->", "<!-- end -->"
SECTION = f"\n## Words for callers\n\n{BEGIN}\n{END}\n"

HEAD = re.compile(r"^(?:(?:pub|unfoldable|abbrev|record|data) )+([^\s:(]+)")
CASE = re.compile(r"^  (\w[\w']*) :")
TYPE = re.compile(r"^(?:pub(?:\(crate\))? )?(struct|enum|trait) (\w+)")
VALUE = re.compile(r"^impl\b.*\bModel for (\w+)")
GHOST_USE = re.compile(r"^\s*(?:ghost )?use Rattle\.(\w+)\.specs\.([\w.]+?)(?:\.\{(.*)\}|(?: as (\w+)))?;?\s*$")
RUST_USE = re.compile(r"^(?:pub )?use (\w+)::([^;]*);", re.MULTILINE)
CLAUSE = re.compile(r"\b(?:(?:requires|ensures|decreases)(?: (\w+))? |ghost (\w+)(?: =|:) )(?=\{)")
WORD = re.compile(r"(?<![\w'.])[A-Za-z_][\w']*")
COMMENT = re.compile(r"(?:^|\s)--.*$")


class Item:
    """A definition of specs/, or a type or a trait of the source: where it stands, the comment above it, and its text."""

    def __init__(self, path, line, name, comment, kind=""):
        self.path, self.line, self.name, self.comment, self.kind, self.text = path, line, name, comment, kind, []

    def length(self):
        return sum(1 for line in self.text if line.strip())


class Scope:
    """What the words of a file mean: words that cite an item, and words behind which, after a dot, one of a file's or a type's stands."""

    def __init__(self):
        self.names, self.files, self.types = collections.defaultdict(set), {}, {}

    def bring(self, line):
        """Takes over what an import brings."""
        match = GHOST_USE.match(line)
        if not match:
            return
        crate, path, listed, alias = match[1], match[2].split("."), match[3], match[4]
        owner = type_of(crate, path)
        for part in filter(None, map(str.strip, (listed or "").split(","))):
            own, _, other = part.partition(" as ")
            self.names[other or own].add(owner or (crate, "specs/" + "/".join(path), own))
        if listed is None and owner:
            self.types[alias or path[-1]] = owner
        elif listed is None:
            self.files[alias or path[-1]] = (crate, "specs/" + "/".join(path))

    def cited(self, text):
        """The items that a text cites, and perhaps some that aren't there."""
        found = set().union(*(self.names[word] for word in set(WORD.findall(text)) if word in self.names))
        found |= {key for alias, key in self.types.items() if re.search(rf"\b{alias}\.", text)}
        for alias, file in self.files.items():
            found |= {(*file, word) for word in re.findall(rf"\b{alias}\.([A-Za-z_][\w']*)", text)}
        return found


def type_of(crate, path):
    """The type of the source that a path behind `specs` leads to, if it leads to one."""
    if path[0] not in ("declared", "contracts"):
        return None
    upper = next(place for place, part in enumerate(path) if part[0].isupper())
    return crate, "src/" + "/".join(path[1:upper]), path[upper]


def clauses(text):
    """The clauses in a text of the source, and its ghost definitions, each with its name."""
    text = re.sub(r"//.*", "", text)
    for match in CLAUSE.finditer(text):
        depth, end = 0, match.end()
        while end == match.end() or depth:
            depth += {"{": 1, "}": -1}.get(text[end], 0)
            end += 1
        yield match[1] or match[2] or "", text[match.end() : end]


class Tree:
    """All that stands in the repository, under its crate, its file without its ending, and its name."""

    def __init__(self):
        self.items, self.cases, self.scopes = {}, {}, {}
        order = re.findall(r"^(\w+):", (ROOT / "crates.txt").read_text(), re.MULTILINE)
        self.rank = {crate: place for place, crate in enumerate(order)}
        for crate in order:
            for path in sorted((ROOT / "crates" / crate / "specs").glob("**/*.antt")):
                if path.name != "Lib.antt":
                    self.read_specs(path, self.file_of(path))
            for path in sorted((ROOT / "crates" / crate / "src").glob("**/*.rt")):
                self.read_source(path, self.file_of(path))
        for path in sorted(ROOT.glob("crates/*/src/**/*.rt")):
            self.bring_types(path, self.file_of(path))
        self.settle()

    def file_of(self, path):
        """The crate and the file of a path."""
        crate, *inner = path.relative_to(ROOT / "crates").with_suffix("").parts
        return crate, "/".join(inner)

    def read_specs(self, path, file):
        """Takes over the definitions of a file of specs/."""
        scope, current, comment = Scope(), None, []
        for number, line in enumerate(path.read_text().splitlines(), 1):
            if line.startswith("--"):
                comment.append(line[2:].strip())
                continue
            scope.bring(line)
            if match := HEAD.match(line):
                current = self.items[(*file, match[1])] = Item(path, number, match[1], " ".join(comment))
                scope.names[match[1]] = {(*file, match[1])}
            elif line.startswith("use "):
                current = None
            elif current and current.text[0].startswith("pub data") and (match := CASE.match(line)):
                scope.names[match[1]] = {(*file, current.name)}
                self.cases[(*file, match[1])] = (*file, current.name)
            if current:
                current.text.append(COMMENT.sub("", line))
            comment = []
        self.scopes[file] = scope

    def read_source(self, path, file):
        """Takes over the types and traits of a file of the source, and for a type with a value of its own what says which."""
        scope, current, comment, lines = Scope(), None, [], path.read_text().splitlines()
        for number, line in enumerate(lines, 1):
            scope.bring(line)
            if match := TYPE.match(line):
                current = self.items[(*file, match[2])] = Item(path, number, match[2], " ".join(comment), match[1])
            elif match := VALUE.match(line):
                current = self.items.get((*file, match[1]))
            if current and not line.strip().startswith(("//", "#[", "ghost use", "ghost invariant")):
                current.text.append(line)
            if line.startswith("///"):
                comment.append(line[3:].strip())
            elif not line.startswith("#["):
                comment = []
            if line == "}" or (line and line[0] not in " #/" and line.endswith((";", "{}"))):
                current = None
        self.scopes[file] = scope

    def bring_types(self, path, file):
        """Takes over which types the words of a file of the source mean: its own, and those that it imports."""
        scope = self.scopes[file]
        for match in RUST_USE.finditer(path.read_text()):
            crate, names = (file[0] if match[1] == "crate" else match[1]), match[2]
            for own, other in re.findall(r"\b([A-Z]\w*)(?: as (\w+))?", names):
                module = re.match(r"(\w+)::", names) if match[1] == "crate" else None
                scope.names[other or own] |= self.types_named(crate, own, module and module[1])
        for key in self.items:
            if key[:2] == file:
                scope.names[key[2]].add(key)

    def types_named(self, crate, name, module):
        """The types of this name that a crate exports, or that its module has."""
        files = [key for key in self.items if key[0] == crate and key[1].startswith("src/") and key[2] == name]
        return {key for key in files if not module or key[1] == f"src/{module}"}

    def settle(self):
        """Puts in the place of each case of a definition by cases that definition itself; no import may lead nowhere."""
        for file, scope in self.scopes.items():
            for word, keys in scope.names.items():
                scope.names[word] = {self.cases.get(key, key) for key in keys}
                for key in scope.names[word] - self.items.keys():
                    if key[0] in self.rank:
                        sys.exit(f"{'/'.join(file)} imports {'.'.join(key)}, which bench/audit.py doesn't find")

    def cited(self, key):
        """What an item cites."""
        item, scope = self.items[key], self.scopes[key[:2]]
        return {other for other in scope.cited("\n".join(item.text)) if other in self.items and other != key}

    def under(self, begin):
        """These, and all that they rest on."""
        seen, left = set(), list(begin)
        while left:
            key = left.pop()
            if key not in seen:
                seen.add(key)
                left += self.cited(key)
        return seen

    def in_order(self, keys):
        """By crates, lowest first, types before definitions; a file after those of its crate that it imports."""
        depths = {}

        def depth(file):
            if file not in depths:
                own = (key[:2] for found in self.scopes[file].names.values() for key in found)
                below = {other for other in own if other[0] == file[0] and other[1].startswith("specs/") and other != file}
                depths[file] = 1 + max(map(depth, sorted(below)), default=0)
            return depths[file]

        def place(key):
            kind = self.items[key].kind
            return self.rank[key[0]], not kind, 0 if kind else depth(key[:2]), key[1], self.items[key].line

        return sorted(keys, key=place)

    def contract(self, path, function):
        """The parts of a function's contract, each with its name, its comment and what it cites: the head first, and then each clause."""
        lines, scope = path.read_text().splitlines(), self.scopes[self.file_of(path)]
        start = next(n for n, line in enumerate(lines) if re.match(rf"\s*(?:pub(?:\(crate\))? )?fn {function}\b", line))
        end = next(n for n in range(start, len(lines)) if lines[n].strip() in ("{", "{}"))
        head, parts, comment = [], [], []
        for line in lines[start:end]:
            if line.strip().startswith("//"):
                comment.append(line.strip("/ "))
            elif found := list(clauses(line)):
                parts.append((found[0][0] or "ensures", " ".join(comment), found[0][1]))
                comment = []
            else:
                head.append(line)
        parts.insert(0, ("(the head)", "The types and traits of its arguments and its result.", "\n".join(head)))
        return [(name, said, scope.cited(text) & self.items.keys()) for name, said, text in parts]

    def used_by_others(self):
        """The definitions that contracts or definitions of another crate cite."""
        used = set()
        for path in ROOT.glob("crates/*/src/**/*.rt"):
            file = self.file_of(path)
            if not file[0].startswith(TESTS):
                text = "\n".join(clause for _, clause in clauses(path.read_text()))
                used |= {key for key in self.scopes[file].cited(text) if key[0] != file[0]}
        for key, item in self.items.items():
            if not item.kind:
                used |= {other for other in self.cited(key) if other[0] != key[0]}
        return {key for key in used if key in self.items and not self.items[key].kind}


def cell(text):
    return text.replace("|", "\\|")


def link(tree, key):
    """The name of an item, as a link from the auditor's page."""
    item = tree.items[key]
    return f"[`{key[2]}`](../{item.path.relative_to(ROOT).as_posix()}#L{item.line})"


def said_of(tree, key):
    """What stands above an item; else, of the first of a file, what the file begins with, and of others the type."""
    item = tree.items[key]
    if item.comment:
        return cell(item.comment)
    first = item.path.read_text().split("\n", 1)[0]
    if first.startswith("--") and key == next(other for other in tree.items if other[:2] == key[:2]):
        return cell(first[2:].strip())
    return "`" + cell(item.text[0].split(item.name, 1)[1].strip(" :").rsplit(" where", 1)[0]) + "`"


def sizes(tree, keys):
    return len(keys), sum(tree.items[key].length() for key in keys)


def page_of(tree):
    """The page of the auditor."""
    parts = [(name, said, begin, tree.under(begin)) for name, said, begin in tree.contract(TOP, FUNCTION)]
    parts = parts[:1] + sorted(parts[1:], key=lambda part: len(part[3]))
    everything = set().union(*(part[3] for part in parts))
    first = {key: name for name, _, _, keys in reversed(parts) for key in keys}
    definitions = [key for key, item in tree.items.items() if not item.kind]
    needed = [key for key in definitions if key in everything]
    pieces = [head_of(tree, everything, needed, definitions), clauses_of(tree, parts), summary_of(tree, needed, everything)]
    for crate in sorted({key[0] for key in everything}, key=tree.rank.get):
        pieces.append(table_of(tree, crate, tree.in_order(key for key in everything if key[0] == crate), first))
    return "\n".join(pieces)


def head_of(tree, everything, needed, definitions):
    types, lines = len(everything) - len(needed), sizes(tree, everything)[1]
    return f"""# What an auditor reads

Made by `bench/audit.py` out of the sources: change those and run it, never this page.

`{FUNCTION}` ([`{TOP.name}`](../{TOP.relative_to(ROOT).as_posix()})) is the call that `main` makes, and it is proved to meet its
clauses. What a clause says depends on the definitions that it cites, and on those that these cite in turn.
All of them are listed here: {len(needed):,} definitions of `specs/` and {types:,} types and traits of the source,
{lines:,} lines.

**Whoever believes that these definitions say what is meant, and believes the toolchain, believes the clauses
of `{FUNCTION}`.** No body of a function, no proof and no other definition needs to be read for that:
{len(definitions) - len(needed):,} more definitions are in `specs/`, for contracts inside. `docs/proved.md` says what no clause
claims, and README.md what the toolchain is.

**In which order.** Begin at the clauses, below, with the one that matters to you. Read the definitions that
it cites, then those that they cite. In the table, each clause but the first needs little beyond those before it. In the
lists by crate, the column "For" names the first clause of that order for which a definition is needed. So you
can stop at a clause and leave out what is only for later ones. Or read from the ground: crates come lowest
first, in each the types before the definitions, and a file after those of its crate that it imports.

Lines are those of the definition, without the comment above it. If it has no comment, its type is given. Of
the kit (numbers, lists, `Option`, what files and sinks take and give) and of `serde_json` nothing is listed.
`docs/definitions.md` explains the main definitions with examples.
"""


def clauses_of(tree, parts):
    rows = ["## The clauses", "", "| Clause | It cites | Rests on | Lines | New here |", "|---|---|---|---|---|"]
    seen, said = set(), []
    for name, comment, begin, keys in parts:
        number, lines = sizes(tree, keys)
        cites = " ".join(link(tree, key) for key in tree.in_order(begin))
        rows.append(f"| {name} | {cites} | {number:,} | {lines:,} | {len(keys - seen):,} |")
        said.append(textwrap.fill(f"- **{name}**: {comment}", 110, subsequent_indent="  ", break_long_words=False, break_on_hyphens=False))
        seen |= keys
    return "\n".join([*rows, "", "What the source says above each:", "", *said, ""])


def summary_of(tree, needed, everything):
    rows = ["## By crate", "", "| Crate | Definitions | Lines | Types and traits | Lines | Needn't be read |", "|---|---|---|---|---|---|"]
    total = collections.Counter()
    for crate in sorted({key[0] for key, item in tree.items.items() if not item.kind}, key=tree.rank.get):
        own = [key for key in needed if key[0] == crate]
        types = [key for key in everything if key[0] == crate and tree.items[key].kind]
        others = sum(1 for key, item in tree.items.items() if key[0] == crate and not item.kind) - len(own)
        cells = [*sizes(tree, own), *sizes(tree, types), others]
        total.update(dict(enumerate(cells)))
        name = f"[{crate}](#{crate})" if own or types else crate
        rows.append(f"| {name} | " + " | ".join(f"{number:,}" for number in cells) + " |")
    rows.append("| **all** | " + " | ".join(f"**{total[place]:,}**" for place in range(5)) + " |")
    return "\n".join([*rows, ""])


def table_of(tree, crate, keys, first):
    rows = [f"## {crate}", "", "| Definition | File | Lines | For | What it says |", "|---|---|---|---|---|"]
    for key in keys:
        item = tree.items[key]
        kind = f" ({item.kind})" if item.kind else ""
        file = item.path.relative_to(ROOT / "crates" / crate).as_posix()
        rows.append(f"| {link(tree, key)}{kind} | {file} | {item.length()} | {first[key]} | {said_of(tree, key)} |")
    return "\n".join([*rows, ""])


def words_of(tree, crate, used):
    """The words for callers of a crate, between the marks; nothing where there are none."""
    own = [key for key, item in tree.items.items() if key[0] == crate and not item.kind]
    outer = tree.in_order(key for key in own if key in used)
    if not outer:
        return ""
    rows = [BEGIN, f"Definitions of `specs/` that contracts or definitions of other crates cite: {len(outer)}.",
            f"Inner ones, which only this crate and proofs cite: {len(own) - len(outer)}.", "", "| Word | File | What it says |", "|---|---|---|"]
    for key in outer:
        rows.append(f"| `{key[2]}` | [{key[1][6:]}]({key[1]}.antt) | {said_of(tree, key)} |")
    return "\n".join([*rows, END])


def pages(tree):
    """Each page that is made, with its text."""
    yield PAGE, page_of(tree)
    used = tree.used_by_others()
    for crate in tree.rank:
        path = ROOT / "crates" / crate / "README.md"
        if path.exists() and (words := words_of(tree, crate, used)):
            text = path.read_text()
            text = text if BEGIN in text else text + SECTION
            before, rest = text.split(BEGIN, 1)
            yield path, before + words + rest.split(END, 1)[1]


def tell(tree, path, function):
    """Prints what a function's contract rests on."""
    keys = tree.under(set().union(*(begin for _, _, begin in tree.contract(path.resolve(), function))))
    for key in tree.in_order(keys):
        item = tree.items[key]
        print(f"{key[0]:18} {key[2]:32} {item.length():3}  {item.path.relative_to(ROOT)}:{item.line}")
    print("{:,} in all, {:,} lines".format(*sizes(tree, keys)))


def main(words):
    tree = Tree()
    if len(words) == 2:
        tell(tree, pathlib.Path(words[0]), words[1])
    elif words in ([], ["--check"]):
        stale = [(path, text) for path, text in pages(tree) if not path.exists() or path.read_text() != text]
        for path, text in stale:
            print(path.relative_to(ROOT), "isn't what bench/audit.py makes" if words else "written")
            if not words:
                path.write_text(text)
        sys.exit(1 if words and stale else 0)
    else:
        sys.exit(__doc__)


if __name__ == "__main__":
    main(sys.argv[1:])
