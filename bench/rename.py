#!/usr/bin/env python3
"""Brings texts that were written over the names before, such as a patch that waits, into the names of today.

    bench/rename.py FOLDER [--only names,rooms,english,second,capacity,fmt]

FOLDER is laid out as a checkout, with crates/. Stages, in this order:
  names     types, definitions and modules of antt: each name one meaning
  rooms     crates under other names
  english   standard words in comments and pages
  second    definitions that two crates had under one name, by the list `bench/renamed.txt` (crate, old, new)
  capacity  `room` is capacity in every name
  fmt       `rt fmt` in each crate's folder, and a look at the must-fail edits
A name is followed by what a file imports, and not by its place, so that files never seen before are done right. What isn't there is left
alone and reported. A second run changes nothing.
"""
import os, re, subprocess, sys

# ---------------------------------------------------------------------------------------------------------------- what is renamed

# types of src: crate, old, new
TYPES = [
    ('cb_grammar', 'Place', 'MemberSoFar'),
    ('cb_rules', 'Place', 'MemberPosition'),
    ('cb_reduce', 'Place', 'WaitingPlace'),
    ('cb_topo', 'Kind', 'NodeKind'),
    ('cb_span', 'Kind', 'NodeKind'),
    ('cb_rules', 'Kind', 'MemberKind'),
    ('cb_alarm', 'Kind', 'BodyKind'),
    ('cb_test_topology', 'Kind', 'EditKind'),
    ('cb_cert', 'Line', 'CertificateLine'),
    ('cb_rules', 'Entry', 'ClassEntry'),
    ('cb_io', 'Entry', 'NamedBytes'),
    ('cb_accept', 'Counts', 'NodeCounts'),
    ('cb_check', 'Counts', 'RowCounts'),
    ('cb_checker', 'Marks', 'SpanNodes'),
    ('cb_instances', 'Row', 'LinkRow'),
]

# definitions of specs: crate, old, new
DEFS = [
    ('cb_cert', 'Place', 'TextPlace'),
    ('cb_alarm', 'Line', 'NumberedLine'),
    ('cb_gen', 'Entry', 'MadeUpLine'),
    ('cb_log', 'Entry', 'LogEntry'),
    ('cb_outcome', 'Counts', 'BoundsSteps'),
    ('cb_reduce', 'Counts', 'MayBeClose'),
    ('cb_reduce', 'Marks', 'MarksPlaces'),
    ('cb_cache', 'AreApart', 'OwnSlots'),
    ('cb_instances', 'AreApart', 'OneRowEach'),
    ('cb_nodes', 'AreApart', 'AreDistinct'),
    ('cb_matrix', 'ArePlaces', 'IsColumnIndex'),
    ('cb_topo', 'ArePlaces', 'IsColumnIndex'),
    ('cb_model', 'ArePlaces', 'AreIndices'),
    ('cb_group', 'ArePlaces', 'IsChosenIndex'),
    ('cb_cache', 'IsKept', 'IsCacheOf'),
    ('cb_compact', 'IsKept', 'IsCompactOf'),
    ('cb_pool', 'IsKept', 'IsPoolOf'),
    ('cb_topo', 'IsKept', 'IsTopologyOf'),
    ('cb_grammar', 'IsSound', 'HasShortPaths'),
    ('cb_codes', 'IsSound', 'FitsTogether'),
    ('cb_instances', 'IsSound', 'IsNetOf'),
    ('cb_nodes', 'IsSound', 'IsTableOf'),
    ('cb_claim', 'Lists', 'ListsNode'),
    ('cb_instances', 'Lists', 'ListsInstance'),
    ('cb_nodes', 'Lists', 'NodeLists'),
    ('cb_graph', 'Lists', 'AddsItems'),
    ('cb_io', 'Reads', 'ReadsBytes'),
    ('cb_alarm', 'Reads', 'ReadsJson'),
    ('cb_cert', 'Reads', 'ReadsLines'),
    ('cb_lexer', 'Reads', 'ReadsTokens'),
    ('cb_cert', 'Takes', 'TakesForm'),
    ('cb_pool', 'Takes', 'TakesSlot'),
    ('cb_nodes', 'Takes', 'TakesNumber'),
    ('cb_claim', 'Tells', 'ReportsCheck'),
    ('cb_io', 'Tells', 'IsGivenLine'),
    ('cb_session', 'Tells', 'ReportsWindows'),
    ('cb_alarm', 'Spells', 'SpellsRecord'),
    ('cb_cert', 'Spells', 'SpellsCertificate'),
    ('cb_edits', 'Spells', 'SpellsEditWords'),
    ('cb_syntax', 'Spells', 'SpellsModel'),
    ('cb_io', 'IsDue', 'IsNextFailing'),
    ('cb_log', 'IsDue', 'IsWindowDue'),
    ('cb_rules', 'IsClass', 'BlamesClass'),
    ('cb_rules', 'IsMember', 'BlamesMember'),
    ('cb_network', 'IsOne', 'IsToOne'),
    ('cb_network', 'IsTaken', 'IsOneUsedUp'),
    ('cb_network', 'IsOf', 'HasClass'),
    ('cb_topo', 'numbered_code', 'numbered_encoding'),
    ('cb_instances', 'name_code', 'name_encoding'),
    ('cb_instances', 'link_code', 'link_encoding'),
    ('cb_instances', 'topology_code', 'topology_encoding'),
    ('cb_instances', 'net_code', 'net_encoding'),
    ('cb_session', 'mode_code', 'mode_encoding'),
    ('cb_session', 'state_code', 'state_encoding'),
    ('cb_cache', 'pool_code', 'pool_encoding'),
    ('cb_cache', 'cached_code', 'cached_encoding'),
    ('cb_window', 'open_code', 'open_encoding'),
    ('cb_window', 'kept_code', 'kept_encoding'),
]

# files of definitions: crate, old, new
MODULES = [(crate, 'Codes', 'Encoding') for crate in ('cb_topo', 'cb_instances', 'cb_session', 'cb_cache', 'cb_window')]

ROOMS = [
    ('cb_reach', 'cb_successors'),
    ('cb_claim', 'cb_validity'),
    ('cb_codebook', 'cb_certify'),
    ('cb_answers', 'cb_network_commands'),
    ('cb_follow', 'cb_log_commands'),
    ('cb_inputs', 'cb_line_files'),
    ('cb_files', 'cb_file_kinds'),
]

# whole sentences, by hand; a gap stands for a gap or a line's end with the comment's sign
SENTENCES = [
    ('The codes of groups, the first of which is the quiet one, and whom the others are called by.', 'The code of each group, quiet first, and the least member that names each of the others.'),
    ('The same, where so many ones come before that place: among places that are kept it stands at that index.',
     'As `next_one(from)`; `before` ones precede `from`, so stored positions are indexed directly.'),
    ('Brings the items into an order that leaps to and fro: each changes places with the one whose place has the same bits backwards.', 'Puts the items in bit-reversal order.'),
    ('Writes what comes of each line that comes, and of the end.', 'Writes the events of each line, then those of the end of the log.'),
    ('What is told of windows that close, by what is ready for the topology.', 'The events of the closing windows, by the codebook at hand or one made now.'),
    ('No list of numbers has anything yet.', '`count` empty lists.'),
    ('Who wants to rely on one codebook that was looked at beforehand hands over its certificate.', 'To rely on a codebook that was reviewed, pass its certificate.'),
    ('Doing without any problem is as near as the best one, or nearer.', 'The quiet group is at least as near as any problem.'),
    ('Makes room for so many more items.', 'Makes room for `more` further items.'),
    ('Room for searches among so many nodes.', 'Buffers for searches among `room` nodes.'),
    ('Room for so many nodes.', 'Room for `room` nodes.'),
    ('Makes room for so many nodes more.', 'Makes room for `more` further nodes.'),
    ("Makes room in the instance's list for so many events more.", "Makes room in the instance's list for `more` further events."),
    ('The topology of so many sites.', 'The topology of `sites` sites.'),
    ('The log of a network of so many sites, with what is drawn from a start on.', 'The log of a network of `sites` sites, with what is drawn from `start` on.'),
    ('A sink with room for so many bytes, which takes as many at once as there is room for.', 'A sink with room for `room` bytes, which takes as many at once as fit.'),
    ('From now on a write takes at most so many bytes.', 'From now on a write takes at most `most` bytes.'),
    ('From now on a read gives at most so many bytes.', 'From now on a read gives at most `most` bytes.'),
    ('The places of the ones, of which there are so many.', 'The positions of the ones, of which there are `ones`.'),
    ('An entry, in a certificate with so many nodes.', 'An entry, in a certificate with `nodes` nodes.'),
    ('What `room` is once so many nodes more have their numbers.', 'What `room` is once `more` further nodes have their numbers.'),
    ('How many numbers there are in use once so many nodes more have theirs.', 'How many numbers are in use once `more` further nodes have theirs.'),
    ('Whether two codes are known to differ at so many columns before one.', 'Whether two codes are known to differ at `often` columns before one.'),
    ('The same, where so many of them come before that place, which then need not be looked at.', 'As `next_place`; `before` of them come before that place, and are skipped.'),
]

# ---------------------------------------------------------------------------------------------------------------- files

SKIP = {'.git', 'out', '__pycache__', 'target'}

def walk(top, ends):
    for base, folders, names in os.walk(top):
        folders[:] = sorted(f for f in folders if f not in SKIP)
        for name in sorted(names):
            if name.endswith(ends):
                yield os.path.join(base, name)

def read(path):
    with open(path, encoding='utf-8') as file:
        return file.read()

def write(path, text):
    with open(path, 'w', encoding='utf-8') as file:
        file.write(text)

notes = []

def note(*words):
    text = ' '.join(str(w) for w in words)
    notes.append(text)
    print(text)

# ---------------------------------------------------------------------------------------------------------------- names

# a name stands whole between these; antt lets names have - and ' in them
WORD = r"(?<![\w'◌\-]){}(?![\w'◌]|-\w)"

def word(name):
    return re.compile(WORD.format(re.escape(name)))

class Target:
    """What a name stands for: its path in antt, and for a type the crate and module of src."""
    def __init__(self, crate, path, old, new, module=None):
        self.crate, self.path, self.old, self.new, self.module = crate, path, old, new, module
        self.home = None      # the file that defines it

def find_types(top):
    for crate, old, new in TYPES:
        found = []
        for path in walk(os.path.join(top, 'crates', crate, 'src'), '.rt'):
            if re.search(r'^\s*(pub(\([a-z]+\))? )?(struct|enum|union|trait|type) ' + old + r'\b', read(path), re.M):
                found.append(path)
        if len(found) != 1:
            note('names: type', crate, old, 'stands', len(found), 'times: left')
            continue
        module = os.path.relpath(found[0], os.path.join(top, 'crates', crate, 'src'))[:-3].replace('/', '.')
        target = Target(crate, f'Rattle.{crate}.specs.declared.{module}', old, new, module)
        target.home = found[0]
        yield target

def defines(text, name):
    return re.search(r'^(pub )?((unfoldable|abbrev|foldable|opaque|private) )*(pub )?((record|data|mutual|abbrev|unfoldable) )*(pub )?' + re.escape(name) + r'( [^=\n]*)? : ', text, re.M)

def find_defs(top):
    for crate, old, new in DEFS:
        found = [p for p in walk(os.path.join(top, 'crates', crate, 'specs'), '.antt') if defines(read(p), old)]
        if len(found) != 1:
            note('names: definition', crate, old, 'stands', len(found), 'times: left')
            continue
        module = os.path.relpath(found[0], os.path.join(top, 'crates', crate))[:-5].replace('/', '.')
        target = Target(crate, f'Rattle.{crate}.{module}', old, new)
        target.home = found[0]
        yield target

USE_ANTT = re.compile(r"(?<![\w/])use\s+(Rattle\.[\w.'\-◌]+?)(?:\.\{([^{}]*)\}|\s+as\s+([\w'\-]+))?(?=\s|;|$)")
USE_RUST = re.compile(r'(?<![\w/])use\s+([a-z_][\w:]*?)::(?:\{([^;]*)\}|(\w+)(?:\s+as\s+(\w+))?)\s*;')

def crate_of(path):
    parts = path.split('/')
    return parts[parts.index('crates') + 1] if 'crates' in parts[:-1] else None

def bindings(path, text):
    """name in this file -> set of what it is bound to: (path, name), by imports and by the file's own."""
    bound = {}
    def bind(name, what):
        bound.setdefault(name, set()).add(what)
    for use in USE_ANTT.finditer(text):
        base, items, alias = use.groups()
        if items is not None:
            for item in items.split(','):
                item = item.strip()
                if not item:
                    continue
                if ' as ' in item:
                    old, name = [w.strip() for w in item.split(' as ')]
                else:
                    old = name = item
                bind(name, ('antt', base, old))
        elif alias:
            bind(alias, ('antt', base, None))
    if path.endswith('.rt'):
        for use in USE_RUST.finditer(text):
            base, items, one, alias = use.groups()
            if items is not None:
                flat = re.sub(r'\s+', ' ', items)
                if '{' in flat:
                    note('names: nested import in', path)
                for item in flat.replace('{', ',').replace('}', ',').split(','):
                    item = item.strip()
                    if not item:
                        continue
                    if ' as ' in item:
                        old, name = [w.strip() for w in item.split(' as ')]
                    else:
                        old = name = item
                    bind(name.split('::')[-1], ('rust', base, old.split('::')[-1]))
            else:
                bind(alias or one, ('rust', base, one))
    return bound

def is_target(target, what, path):
    kind, base, old = what
    if old != target.old:
        return False
    if kind == 'antt':
        # a type's own module is its path and its name: specs.declared.place.Place.{Place}
        return base == target.path or base == f'{target.path}.{target.old}'
    if target.module is None:
        return False
    own = crate_of(path) == target.crate
    first = base.split('::')[0]
    if first == target.crate:
        return True
    return own and (first in ('crate', 'super', 'self') or base == target.module.replace('.', '::')) and target_in(target, base)

def target_in(target, base):
    last = base.split('::')[-1]
    return last in (target.module.split('.')[-1], 'crate', 'super', 'self')

def clean(text, path):
    """(is code, piece) of a text: comments and strings apart."""
    if path.endswith('.antt'):
        pattern = re.compile(r'--[^\n]*|"(?:\\.|[^"\\])*"')
    else:
        pattern = re.compile(r'//[^\n]*|/\*.*?\*/|"(?:\\.|[^"\\])*"', re.S)
    at = 0
    for m in pattern.finditer(text):
        # -- inside a name isn't a comment
        yield True, text[at:m.start()]
        yield False, m.group()
        at = m.end()
    yield True, text[at:]

def in_ticks(name, new, piece):
    """In comments only what stands in `..`, as a word by itself."""
    return re.sub(r'`[^`\n]*`', lambda m: word(name).sub(new, m.group()), piece)

def declares_own(path, text, name):
    if path.endswith('.rt'):
        return re.search(r'^\s*(pub(\([a-z]+\))? )?(struct|enum|union|trait|type) ' + name + r'\b', text, re.M)
    # indented ones too: parameters of a module, or what stands in a where
    return re.search(r'^\s*(?:\(|\{)?(pub )?((unfoldable|abbrev|foldable|opaque|private|record|data|pub|mutual) )*' + re.escape(name) + r"( [^=\n:]*)? : ", text, re.M)

def effects(path, text, targets):
    """The renamings of bare names that hold in a file; conflicts are said."""
    bound = bindings(path, text)
    result = []
    for target in targets:
        whats = bound.get(target.old, set())
        hits = [w for w in whats if is_target(target, w, path)]
        home = path == target.home
        if not hits and not home:
            continue
        others = [w for w in whats if not is_target(target, w, path)]
        # std's relatives of one type: two imports of one thing (src and ghost) are both hits
        own = declares_own(path, text, target.old) and not home
        if others or own:
            result.append((target, 'mixed', others))
        else:
            result.append((target, 'whole', []))
    return result

def ghost_spans(text):
    """Where in a file of src the logic speaks: ghost use, and braces behind requires, ensures, invariant, .."""
    spans = []
    for m in re.finditer(r'\bghost\b[^;{]*(?:;|\{|=)|\b(?:requires|ensures|invariant|decreases|returns|variant|where_ghost)\b[^{;\n]*\{', text):
        start = m.start()
        at = m.end() - 1
        if text[at] == '=':
            at = text.find('{', at)
        if at < 0:
            continue
        if text[at] == ';':
            spans.append((start, at + 1))
            continue
        depth, end = 0, at
        while end < len(text):
            if text[end] == '{':
                depth += 1
            elif text[end] == '}':
                depth -= 1
                if depth == 0:
                    break
            end += 1
        end = text.find(';', end) + 1 if m.group().startswith('ghost use') else end + 1
        spans.append((start, end))
    return spans

def rename_bare(path, text, target, ghost=None):
    """All whole words of code; with ghost only those in (True) or out of (False) the logic's places."""
    spans = ghost_spans(text) if ghost is not None else []
    uses = [m.span() for m in USE_ANTT.finditer(text)] + ([m.span() for m in USE_RUST.finditer(text)] if path.endswith('.rt') else [])
    pattern = word(target.old)
    out, at = [], 0
    for code, piece in clean(text, path):
        if code:
            def put(m, base=at):
                where = base + m.start()
                # imports are done by their paths
                if any(a <= where < b for a, b in uses):
                    return m.group()
                # a field or part of another thing: x.Old is none of ours, but a path or an alias's is done elsewhere
                before = text[where - 1] if where else ' '
                if before == '.':
                    return m.group()
                if text[max(0, where - 2):where] == '::':
                    head = re.search(r'([\w:]+)::$', text[max(0, where - 60):where])
                    if not head or not rust_head(target, head.group(1), path):
                        return m.group()
                if ghost is not None and any(a <= where < b for a, b in spans) != ghost:
                    return m.group()
                return target.new
            out.append(pattern.sub(put, piece))
        elif piece.startswith(('//', '--', '/*')):
            out.append(in_ticks(target.old, target.new, piece) if ghost is None else piece)
        else:
            out.append(piece)
        at += len(piece)
    return ''.join(out)

def rust_head(target, head, path):
    parts = head.split('::')
    if target.module is None:
        return False
    if parts[0] == target.crate:
        return True
    return crate_of(path) == target.crate and parts[-1] in (target.module.split('.')[-1], 'crate', 'super', 'self')

def item_renamed(item, target):
    """One item of an import: its own name, not what it is called by behind `as`."""
    m = re.match(r'(\s*)(\S+)(.*)$', item, re.S)
    if not m or m.group(2) != target.old:
        return item
    rest = m.group(3)
    if re.match(r'\s+as\s+' + re.escape(target.new) + r'\s*$', rest):
        rest = ''
    return m.group(1) + target.new + rest

def rename_items(text, target):
    """Items of imports by their path, whether bare or `as` another name."""
    for base in (target.path, f'{target.path}.{target.old}'):
        text = re.sub(r'(' + re.escape(base) + r'\.\{)([^{}]*)(\})', lambda m: m.group(1) + ','.join(item_renamed(i, target) for i in m.group(2).split(',')) + m.group(3), text)
    return text

def rename_paths(text, target):
    """Dotted paths that go through the name: Rattle.crate.specs.M.Old, Rattle.crate.specs.declared.m.Old.., Rattle.crate.proofs.m.Old.fn.Goals."""
    text = re.sub(re.escape(f'{target.path}.{target.old}') + r"(?![\w'\-])", f'{target.path}.{target.new}', text)
    if target.module:
        for kind in ('proofs', 'specs', 'specs.contracts'):
            text = re.sub(re.escape(f'Rattle.{target.crate}.{kind}.{target.module}.{target.old}') + r"(?![\w'\-])", f'Rattle.{target.crate}.{kind}.{target.module}.{target.new}', text)
    return text

def rename_aliases(path, text, target):
    for use in USE_ANTT.finditer(text):
        base, items, alias = use.groups()
        if alias and base == target.path:
            text = re.sub(r"(?<![\w'.\-])" + re.escape(alias) + r'\.' + re.escape(target.old) + r"(?![\w'\-])", f'{alias}.{target.new}', text)
    return text

def one_file(path, text, targets):
    whole = effects(path, text, targets)
    for target, how, others in whole:
        if how == 'whole':
            text = rename_bare(path, text, target)
        elif path.endswith('.rt') and all(o[0] != ('antt' if target.module is None else 'rust') for o in others) and others:
            # src means one thing and the logic another
            note('names: two meanings of', target.old, 'in', path, ':', 'the logic' if target.module is None else 'src', 'has', target.new)
            text = rename_bare(path, text, target, ghost=target.module is None)
        else:
            note('names: CONFLICT of', target.old, '->', target.new, 'in', path, others)
    for target in targets:
        if target.old not in text:
            continue
        text = rename_aliases(path, text, target)
        text = rename_items(text, target)
        text = rename_paths(text, target)
        if target.module and path.endswith('.rt'):
            text = rust_paths(path, text, target)
    return text

def rust_paths(path, text, target):
    heads = [target.crate + '::', target.crate + '::' + target.module.replace('.', '::') + '::']
    if crate_of(path) == target.crate:
        heads += [target.module.split('.')[-1] + '::', 'crate::' + target.module.replace('.', '::') + '::']
    for head in heads:
        text = re.sub(r'(?<![\w:])' + re.escape(head) + target.old + r'\b', head + target.new, text)
    def put(m):
        base, items = m.group(1), m.group(2)
        if items is None or not is_target(target, ('rust', base, target.old), path):
            return m.group()
        return m.group().replace('{' + items + '}', '{' + ','.join(item_renamed(i, target) for i in items.split(',')) + '}')
    return USE_RUST.sub(put, text)

def check_free(path, text, targets):
    for target, how, others in effects(path, text, targets):
        if word(target.new).search(''.join(p for c, p in clean(text, path) if c)):
            note('names: CLASH', target.new, 'is there already in', path)

def names(top):
    types = list(find_types(top))
    defs = list(find_defs(top))
    targets = types + defs
    spoken = {(t.crate, t.old): t.new for t in targets}
    for target in targets:
        print(f'names: {target.path}.{target.old} -> {target.new}')
    sources = list(walk(os.path.join(top, 'crates'), ('.rt', '.antt')))
    texts = {p: read(p) for p in sources}
    edits = list(walk(os.path.join(top, 'crates'), '.edit')) + planted(top)
    for path in edits:
        text = read(path)
        file = re.search(r'^file: (\S+)', text, re.M)
        crate = crate_of(path) or planted_crate(top, path)
        source = file and os.path.join(top, 'crates', crate, file.group(1))
        if not source or source not in texts:
            note('names: no source for', path)
            continue
        new = text
        for target, how, others in effects(source, texts[source], targets):
            if how == 'whole' or target.module is not None:
                new = ''.join(rename_edit(line, target) for line in new.splitlines(True))
        if new != text:
            write(path, new)
    changed = 0
    for path, text in texts.items():
        check_free(path, text, targets)
        new = one_file(path, text, targets)
        if new != text:
            write(path, new)
            changed += 1
    print('names:', changed, 'files changed')
    for target in types:
        folder = os.path.join(top, 'crates', target.crate, 'proofs', *target.module.split('.'), target.old)
        if os.path.isdir(folder):
            os.rename(folder, os.path.join(os.path.dirname(folder), target.new))
            print('names: moved', folder)
    for path in walk(os.path.join(top, 'crates'), 'README.md'):
        text = read(path)
        for target in targets:
            if target.crate == crate_of(path):
                text = in_ticks(target.old, target.new, text)
        write(path, text)
    # `Old` of cb_x, on any page and in any comment
    for path in walk(top, ('.md', '.rt', '.antt')):
        text = read(path)
        new = re.sub(r'`(\w+)`( of | \(|, )(cb_\w+)', lambda m: '`' + spoken.get((m.group(3), m.group(1)), m.group(1)) + '`' + m.group(2) + m.group(3), text)
        if new != text:
            write(path, new)
    modules(top)

def second(top):
    global TYPES, DEFS, MODULES
    lines = [tuple(line.split()) for line in read(os.path.join(os.path.dirname(os.path.abspath(__file__)), 'renamed.txt')).splitlines()]
    TYPES, MODULES = [line for line in lines if line[1] == 'Codes'], []
    DEFS = [line for line in lines if line[1] != 'Codes']
    names(top)

def rename_edit(line, target):
    if not line.startswith(('old:', 'new:')):
        return line
    return word(target.old).sub(lambda m: m.group() if line[m.start() - 1] == '.' else target.new, line)

def planted(top):
    return [p for p in walk(os.path.join(top, 'bench', 'planted'), '.edit')]

def planted_crate(top, path):
    return os.path.relpath(path, os.path.join(top, 'bench', 'planted')).split('/')[0]

def modules(top):
    for crate, old, new in MODULES:
        folder = os.path.join(top, 'crates', crate, 'specs')
        source = os.path.join(folder, old + '.antt')
        if not os.path.exists(source):
            note('names: no file', source)
            continue
        os.rename(source, os.path.join(folder, new + '.antt'))
        lib = os.path.join(folder, 'Lib.antt')
        write(lib, re.sub(r'^pub mod ' + old + r'$', 'pub mod ' + new, read(lib), flags=re.M))
        for path in walk(os.path.join(top, 'crates'), ('.rt', '.antt')):
            text = read(path)
            renamed = re.sub(re.escape(f'Rattle.{crate}.specs.{old}') + r"(?![\w'\-])", f'Rattle.{crate}.specs.{new}', text)
            if renamed != text:
                write(path, renamed)
        for path in list(walk(os.path.join(top, 'crates', crate), '.md')):
            text = read(path)
            write(path, text.replace(f'specs/{old}.antt', f'specs/{new}.antt').replace(f'`{old}.antt`', f'`{new}.antt`'))

# ---------------------------------------------------------------------------------------------------------------- rooms

ROOM_FILES = ('.rt', '.antt', '.edit', '.md', '.txt', '.py', '.sh', '.svg', '.c', '.1', '.5', '.toml', '.csv')

def rooms(top):
    table = {old: new for old, new in ROOMS if os.path.isdir(os.path.join(top, 'crates', old))}
    for old, new in ROOMS:
        if old not in table:
            note('rooms: no crate', old)
    if not table:
        return
    pattern = re.compile(r'(?<![\w])(' + '|'.join(table) + r')(?!\w)(\)?)( *)')
    def put(m):
        new, close, gap = table[m.group(1)], m.group(2), m.group(3)
        more = len(new) - len(m.group(1))
        # in a drawing or a table what follows stays in its column
        if len(gap) > 2:
            gap = gap[min(more, len(gap) - 2):] if more > 0 else gap + ' ' * -more
        return new + close + gap
    for path in list(walk(top, '')):
        if not (path.endswith(ROOM_FILES) or os.access(path, os.X_OK) or '.' not in os.path.basename(path)):
            continue
        try:
            text = read(path)
        except UnicodeDecodeError:
            continue
        new = pattern.sub(put, text)
        if new != text:
            write(path, new)
    for old, new in table.items():
        for base in ('crates', 'bench/planted', 'docs', 'docs/pictures'):
            for name in os.listdir(os.path.join(top, base)) if os.path.isdir(os.path.join(top, base)) else []:
                if name == old or name.startswith(old + '.'):
                    os.rename(os.path.join(top, base, name), os.path.join(top, base, new + name[len(old):]))
                    print('rooms: moved', base + '/' + name)

# ---------------------------------------------------------------------------------------------------------------- capacity

CAPACITY = {'RoomyList': 'ReservedList', 'Roomy': 'Reserved', 'roomy_code': 'reserved_code', 'roomy_list': 'reserved_list', 'roomy': 'full_length',
            'roomier': 'more_capacity', 'rooms': 'capacities', 'Rooms': 'Capacities', 'NoRoomForEdit': 'NoMemoryForEdit'}
ROOM = re.compile(r'[A-Za-z_0-9]*[Rr]oom[A-Za-z_0-9]*')

def capacity(top):
    def put(m):
        return CAPACITY.get(m.group(), m.group().replace('Room', 'Capacity').replace('room', 'capacity'))
    for root in (os.path.join(top, 'crates'), os.path.join(top, 'bench', 'planted')):
        for base, folders, files in os.walk(root, topdown=False):
            for name in files:
                path = os.path.join(base, name)
                if name.endswith(('.rt', '.antt', '.edit', '.md')):
                    text = read(path)
                    if ROOM.search(text):
                        write(path, ROOM.sub(put, text))
            for name in files + folders:
                if ROOM.search(name):
                    os.rename(os.path.join(base, name), os.path.join(base, ROOM.sub(put, name)))

# ---------------------------------------------------------------------------------------------------------------- english

GAP = r'(\s+|\n\s*(?://[/!]?|--)\s*|\n[ \t]*)'

PHRASES = [
    (r"\bcan number are want of memory\b", 'can number count as out of memory'),
    (r"(\w+) for want of memory", lambda m: m.group(1) + (' for out of memory' if m.group(1) in ('line', 'status', 'case', 'row', 'variant') else ' when memory runs out')),
    (r"\b[Nn]othing but want of memory\b", lambda m: m.group(0)[0] + 'othing but running out of memory'),
    (r"\bmemory is never wanting\b", 'memory never runs out'),
    (r"\bMemory is never wanting\b", 'Memory never runs out'),
    (r"\bmemory is wanting\b", 'memory runs out'),
    (r"\bMemory is wanting\b", 'Memory runs out'),
    (r"\bmemory was wanting\b", 'memory ran out'),
    (r"\bwant of memory\b", 'out of memory'),
    (r"\bWant of memory\b", 'Out of memory'),
    (r"\bpassed over\b", 'ignored'),
    (r"\b([Ww]hat) is told\b", r'\1 is reported'),
    (r"\b([Ww]hat) comes of\b", r'\1 results from'),
    (r"\b([Ww]hat) came of\b", r'\1 resulted from'),
    (r"\bisn't told\b", "isn't reported"),
    (r"\bis let go once\b", 'is dropped once'),
    (r"\b([Aa]|its|each|every|some|same|longer|shorter|any|no) front(s?)\b(?! of (?:the line|a line|buf|`buf`))", lambda m: m.group(1) + ' prefix' + ('es' if m.group(2) else '')),
    (r"\bfronts of\b", 'prefixes of'),
    (r"\bis the front of\b", 'is a prefix of'),
    (r"\bare the front of\b", 'are the prefix of'),
]
BEHIND = [
    (r"(?<!leaves )(?<!leave )(?<!stays )(?<!stay )\bbehind\b(?= (?:a|an|the|this|that|these|those|it|its|them|one|each|every|some|another|other|others|all|which|what|so|such|`|\d|his|any|both|such|many|two|three|and|whose|either|LF|no|nothing|him|whom|more|most|certain|as|edit|line|links|names|words|files|node|nodes|entries|place|rows|blank))\b", 'after'),
    (r"(?<!leaves )(?<!leave )(?<!stays )(?<!stay )\bBehind\b(?= (?:a|an|the|this|that|these|those|it|its|them|one|each|every|some|another|all|which|what|so|such|any|both))\b", 'After'),
    (r"\bbehind (?=`)", 'after '),
]

def prose(text, kind):
    """Replaces in prose alone: outside `..`, outside strings."""
    parts = re.split(r'(`[^`\n]*`)', text)
    whole = []
    for part in parts:
        if part.startswith('`') and part.endswith('`') and len(part) > 1:
            whole.append(part)
            continue
        for pattern, new in PHRASES:
            pattern = pattern.replace(' ', '(?:\x01)') if False else pattern
            part = re.sub(pattern, new, part)
        for pattern, new in BEHIND:
            part = re.sub(pattern, new, part)
        part = re.sub(r'\bbehind $', 'after ', part)
        # what comes of a, and of b
        part = re.sub(r'(\bresult(?:s|ed) from [^.;:]*?,? and(?: then)?) of (the|its|what|a|each|them)\b', r'\1 from \2', part)
        whole.append(part)
    return ''.join(whole)

def comment_lines(text, sign):
    lines = text.split('\n')
    return [prose(l, 'comment') if re.match(r'\s*(?:' + sign + ')', l) else l for l in lines]

def across(text, sign):
    """Phrases that a line's end cuts, in comments."""
    brk = r'(\n\s*(?:' + sign + r')\s*)'
    for a, b, x, y in (('memory', 'is wanting', 'memory', 'runs out'), ('memory is', 'wanting', 'memory', 'runs out'), ('is passed', 'over', 'is', 'ignored'), ('are passed', 'over', 'are', 'ignored'),
                       ('[Ww]ant', 'of memory', None, 'of memory'), ('[Ww]ant of', 'memory', None, 'memory')):
        def put(m, x=x, y=y):
            first = x if x is not None else m.group(1).replace('want', 'out').replace('Want', 'Out')
            return first + m.group(2) + y
        text = re.sub(r'\b(' + a + r')' + brk + b + r'\b', put, text)
    text = re.sub(r'(?<!leaves )(?<!leave )\bbehind' + brk + r'(?=(?:a|an|the|this|that|these|those|it|its|them|one|each|every|another|all|which|what)\b)', r'after\1', text)
    return text

def sentences(text, sign):
    for old, new in SENTENCES:
        gap = r'(?:[ \t]+|\n\s*(?:' + sign + r')[ \t]*)'
        pattern = gap.join(re.escape(w) for w in old.split())
        text = re.sub(pattern, lambda m: new, text)
    return text

def english(top):
    for path in walk(os.path.join(top, 'crates'), ('.rt', '.antt')):
        text = read(path)
        sign = '--' if path.endswith('.antt') else '//[/!]?'
        new = sentences(text, sign)
        new = across(new, sign)
        new = '\n'.join(comment_lines(new, sign))
        new = wrapped(new, sign)
        if new != text:
            write(path, new)
    pages = list(walk(os.path.join(top, 'crates'), '.md')) + list(walk(os.path.join(top, 'docs'), '.md')) + [os.path.join(top, 'README.md'), os.path.join(top, 'examples', 'README.md')]
    for path in pages:
        if not os.path.exists(path):
            continue
        text = read(path)
        out, fenced = [], False
        for line in text.split('\n'):
            if re.match(r'\s*(```|~~~)', line):
                fenced = not fenced
            plain = fenced or re.match(r'( {4,}|\t)\S', line) and not re.match(r'\s*([-*]|\d+\.) ', line) and (not out or out[-1].strip() == '')
            out.append(line if plain else prose(line, 'page'))
        new = sentences('\n'.join(out), '')
        if new != text:
            write(path, new)

def wrapped(text, sign):
    return text

# ---------------------------------------------------------------------------------------------------------------- fmt

def fmt(top):
    for name in sorted(os.listdir(os.path.join(top, 'crates'))):
        folder = os.path.join(top, 'crates', name)
        if os.path.isdir(os.path.join(folder, 'src')):
            done = subprocess.run(['rt', 'fmt'], cwd=folder, capture_output=True, text=True)
            if done.returncode:
                note('fmt:', name, done.stdout[-300:], done.stderr[-300:])
    edits_stand(top)

def edits_stand(top):
    for path in list(walk(os.path.join(top, 'crates'), '.edit')) + planted(top):
        text = read(path)
        crate = crate_of(path) or planted_crate(top, path)
        file = re.search(r'^file: (\S+)', text, re.M)
        old = re.search(r'^old: (.*)$', text, re.M)
        source = file and os.path.join(top, 'crates', crate, file.group(1))
        if not (source and old and os.path.exists(source)):
            note('edits: no source or text:', path)
            continue
        count = read(source).count(old.group(1))
        if count != 1:
            note('edits:', path, 'stands', count, 'times in', file.group(1), ':', old.group(1))

def main():
    words = sys.argv[1:]
    only = ['names', 'rooms', 'english', 'second', 'capacity', 'fmt']
    if '--only' in words:
        at = words.index('--only')
        only = words[at + 1].split(',')
        del words[at:at + 2]
    top = os.path.abspath(words[0])
    for stage in only:
        print('==', stage)
        {'names': names, 'rooms': rooms, 'english': english, 'second': second, 'capacity': capacity, 'fmt': fmt, 'edits': edits_stand}[stage](top)
    print('==', len(notes), 'notes')
    for text in notes:
        print('  ', text)

if __name__ == "__main__":
    main()
