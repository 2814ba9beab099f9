#!/usr/bin/env python3
"""Draws the pictures of the documents, as SVG: docs/pictures/make.py writes layers.svg, log.svg and radius.svg beside itself."""
import pathlib

HERE = pathlib.Path(__file__).resolve().parent
INK, PALE, LINE = "#1a1a1a", "#555555", "#888888"
LAYERS = {
    "program": "#e8e8e8",
    "base": "#fdf3d8",
    "model": "#dcebf7",
    "topology": "#dff2e1",
    "causes": "#f7e3d4",
    "codes": "#ecdff5",
    "log": "#f9e0e7",
}
BLUE, ORANGE, EMPTY = "#2b6cb0", "#d9730d", "#f4f4f4"


def text(x, y, words, size=14, colour=INK, anchor="middle", mono=False, bold=False):
    """A line of words."""
    family = "ui-monospace, Menlo, Consolas, monospace" if mono else "system-ui, Helvetica, Arial, sans-serif"
    weight = ' font-weight="600"' if bold else ""
    words = words.replace("&", "&amp;").replace("<", "&lt;")
    return f'<text x="{x}" y="{y}" font-family="{family}" font-size="{size}" fill="{colour}" text-anchor="{anchor}"{weight}>{words}</text>'


def rectangle(x, y, width, height, fill, stroke=LINE, dash=""):
    dashed = f' stroke-dasharray="{dash}"' if dash else ""
    return f'<rect x="{x}" y="{y}" width="{width}" height="{height}" rx="6" fill="{fill}" stroke="{stroke}"{dashed}/>'


def arrow(*points):
    """A line through these points, with a head at its end."""
    path = " ".join(f"{x},{y}" for x, y in points)
    return f'<polyline points="{path}" fill="none" stroke="{PALE}" stroke-width="1.5" marker-end="url(#head)"/>'


def picture(name, width, height, title, parts):
    """Writes a picture under its name, on white, with a title for those who can't see it."""
    head = (
        f'<svg xmlns="http://www.w3.org/2000/svg" viewBox="0 0 {width} {height}" width="{width}" height="{height}" role="img">\n'
        f"<title>{title}</title>\n"
        '<defs><marker id="head" markerWidth="9" markerHeight="8" refX="8" refY="4" orient="auto">'
        f'<path d="M0,0 L9,4 L0,8 z" fill="{PALE}"/></marker></defs>\n'
        f'<rect width="{width}" height="{height}" fill="#ffffff"/>\n'
    )
    (HERE / name).write_text(head + "\n".join(parts) + "\n</svg>\n")


def box(x, y, layer, title, crates, width=286):
    """A step: what there is after it, and the crates that make it, in the colour of their layer."""
    middle = x + width // 2
    words = [text(middle, y + 22, title, bold=True), text(middle, y + 41, crates, 11, PALE, mono=True)]
    return [rectangle(x, y, width, 52, LAYERS[layer]), *words]


def layers():
    """The way of the three files of `burst` through the layers."""
    left, mid, right = 20, 330, 640
    steps = [
        box(left, 20, "program", "words: what is asked for, and which files", "cb_cli  cb_top  cb_request", 906),
        box(left, 105, "base", "bytes of the model", "cb_io"),
        box(mid, 105, "base", "bytes of the topology", "cb_io"),
        box(right, 105, "base", "bytes of the symptoms", "cb_io"),
        box(left, 190, "model", "tokens, then a tree", "cb_lexer  cb_grammar  cb_syntax"),
        box(mid, 190, "topology", "lines, then edits", "cb_text  cb_edits  cb_line_files"),
        box(right, 190, "topology", "lines, then raised nodes", "cb_text  cb_line_files"),
        box(left, 275, "model", "no type rule is broken", "cb_rules  cb_check"),
        box(left, 360, "model", "the model", "cb_model"),
        box(mid, 360, "topology", "the topology", "cb_accept  cb_instances  cb_nodes  cb_topo"),
        box(mid, 445, "causes", "what causes what", "cb_graph  cb_cache"),
        box(mid, 530, "codes", "columns, groups, codes, radius", "cb_matrix  cb_reduce  cb_bits"),
        box(mid, 615, "codes", "the nearest groups: the finding", "cb_decode", 596),
        box(mid, 700, "program", "the lines of the answer, on standard output", "cb_report  cb_io", 596),
    ]
    falls = {left: [(72, 105), (157, 190), (242, 275), (327, 360)], right: [(72, 105), (157, 190), (242, 615)]}
    falls[mid] = [(72, 105), (157, 190), (242, 360), (412, 445), (497, 530), (582, 615), (667, 700)]
    arrows = [arrow((x + 143, top), (x + 143, bottom)) for x in falls for top, bottom in falls[x]] + [arrow((left + 286, 386), (mid, 386))]
    notes = [
        rectangle(left, 445, 286, 137, "#ffffff", dash="5 4"),
        text(left + 143, 470, "Each step is proved to give what", 13, PALE),
        text(left + 143, 488, "the definitions say:", 13, PALE),
        text(left + 143, 512, "cb_network  cb_coding", 12, PALE, mono=True),
        text(left + 143, 530, "cb_finding  cb_outcome", 12, PALE, mono=True),
        text(left + 143, 560, "a logic of their own, no program", 13, PALE),
        rectangle(left, 615, 286, 137, "#ffffff", dash="5 4"),
        text(left + 143, 642, "A text that is refused at a step ends the", 13, PALE),
        text(left + 143, 660, "way there: its first fault is reported,", 13, PALE),
        text(left + 143, 678, "with the line, on standard error.", 13, PALE),
        text(left + 143, 706, "The command model ends at the", 13, PALE),
        text(left + 143, 724, "third box on the left and prints the tree.", 13, PALE),
    ]
    title = "The way of the three files of burst through the layers, to the lines of the answer"
    picture("layers.svg", 946, 772, title, sum(steps, []) + arrows + notes)


def log():
    """The way of one line of a log through the layers, and back for the next one."""
    x, width, step = 60, 560, 78
    boxes = [
        ("base", "a line of the log, with its number", "cb_io"),
        ("log", "a record, or why the line is skipped", "cb_alarm"),
        ("log", "the windows that are due now", "cb_window"),
        ("codes", "a codebook, if none is in use", "cb_cache  cb_matrix  cb_reduce"),
        ("codes", "for each of these windows the nearest groups", "cb_decode"),
        ("topology", "an edit changes the topology, what causes what, and the rows", "cb_topo  cb_graph  cb_cache"),
        ("log", "an alarm joins the window of its source, or leaves it", "cb_window"),
        ("program", "the events, as lines, on standard output", "cb_report  cb_io"),
    ]
    tops = [20 + step * i for i in range(len(boxes))]
    steps = [box(x, top, layer, title, crates, width) for top, (layer, title, crates) in zip(tops, boxes)]
    middle, last = x + width // 2, tops[-1] + 26
    arrows = [arrow((middle, top + 52), (middle, below)) for top, below in zip(tops, tops[1:])]
    arrows.append(arrow((x, last), (24, last), (24, tops[0] + 26), (x, tops[0] + 26)))
    beside = x + width + 24
    notes = [
        rectangle(beside, tops[2], 262, 290, "#ffffff", dash="5 4"),
        *(text(beside + 131, tops[2] + 30 + 22 * i, words, 13, PALE) for i, words in enumerate((
            "cb_session: one call of step.",
            "",
            "Diagnoses come before the edit of",
            "the same line, by the topology",
            "before it.",
            "",
            "A codebook stays until an edit is",
            "accepted. Where two groups are",
            "closer than wanted, that is reported.",
            "",
            "If memory runs out, the session",
            "is as it was before the line.",
        ))),
        text(beside + 131, tops[-1] + 16, "All is written before the next", 13, PALE),
        text(beside + 131, tops[-1] + 34, "line is asked for.", 13, PALE),
    ]
    title = "The way of a line of a log through the layers, to the lines of its events, and back for the next line"
    picture("log.svg", beside + 282, tops[-1] + 72, title, sum(steps, []) + arrows + notes)


COLUMNS = ["NoPicture@camera", "NoPing@camera", "NoStream@camera", "NoAgent@desk", "NoLogin@desk", "NoPing@desk", "NoPing@switch"]
CODES = {"quiet": "0000000", "Failed@camera": "1110000", "Crashed@desk": "0001110", "Dead@switch": "1111111"}
RAISED = "1010000"


def apart(one, two):
    """At how many places two words differ."""
    return sum(a != b for a, b in zip(one, two))


def row(y, name, word, closest):
    """A row of the matrix: name and cells; where it differs from the closest code the cell has a ring."""
    parts = [text(178, y + 21, name, 14, anchor="end", mono=True)]
    for i, (bit, other) in enumerate(zip(word, closest or word)):
        parts.append(rectangle(195 + 46 * i, y, 40, 30, BLUE if bit == "1" else EMPTY))
        if bit != other:
            ring = f'fill="none" stroke="{ORANGE}" stroke-width="3"'
            parts.append(f'<rect x="{192 + 46 * i}" y="{y - 3}" width="46" height="36" rx="8" {ring}/>')
    return parts


def radius():
    """A code matrix of four groups, a word with one alarm lost, and how far it is from each code."""
    least = min(apart(one, two) for one in CODES.values() for two in CODES.values() if one != two)
    near = min(CODES, key=lambda name: apart(CODES[name], RAISED))
    parts = [text(575, 150, "distance", 13, PALE)]
    for i, name in enumerate(COLUMNS):
        parts.append(f'<g transform="translate({221 + 46 * i},150) rotate(-52)">{text(0, 0, name, 12, anchor="start", mono=True)}</g>')
    for i, (name, code) in enumerate(CODES.items()):
        parts += row(165 + 42 * i, name, code, None)
        far = apart(code, RAISED)
        parts.append(text(575, 186 + 42 * i, str(far), 15, ORANGE if name == near else INK, bold=name == near))
    parts += row(353, "raised", RAISED, CODES[near])
    lines = [
        f"Any two of the four patterns differ at {least} places or more, so the radius is ({least} - 1) / 2 = {(least - 1) // 2}.",
        f"What is raised differs from {near} at {apart(CODES[near], RAISED)} place (ringed: an alarm that was lost),",
        "which is within the radius, and from each other pattern at more: the answer is sure.",
    ]
    parts.append(f'<line x1="40" y1="341" x2="610" y2="341" stroke="{LINE}"/>')
    parts += [text(40, 420 + 23 * i, line, anchor="start") for i, line in enumerate(lines)]
    title = "A matrix of four codes at least three places apart, and a word that differs from one of them at one place"
    picture("radius.svg", 650, 490, title, parts)


if __name__ == "__main__":
    layers()
    log()
    radius()
