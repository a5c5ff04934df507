#!/usr/bin/env python3
"""docs/house.svg: the groups of crates, and the roads through them, made from crates.txt.

    python3 bench/house.py            writes docs/house.svg
    python3 bench/house.py --check    says whether the picture is what it would write (status 0 or 1)

A crate of crates.txt that is in no box, and a box of no crate, are errors.
"""
import fnmatch
import pathlib
import sys

ROOT = pathlib.Path(__file__).resolve().parent.parent
PICTURE = ROOT / "docs" / "house.svg"
MOST_BOXES = 60

# A group of crates.txt, with its boxes: a pattern has one box for all of its crates.
LAYERS = [
    [("examples", ["*"]),
     ("calls from C", ["fanughespu", "fan_*"])],
    [("texts", ["asn1_convert", "asn1_value_text", "asn1_paths"]),
     ("LDAP", ["asn1_ldap_*"]),
     ("schema check", ["asn1_check", "asn1_report", "asn1_clash"])],
    [("certificates", ["asn1_certificate", "asn1_certificate_input", "asn1_certificate_reader", "asn1_certificate_rules",
                       "asn1_certificate_text"])],
    [("types to use", ["asn1_samples", "asn1_recursive", "asn1_contents", "asn1_ldap", "asn1_x509*"])],
    [("bytes", ["asn1_tagform", "asn1_bench", "asn1_buffers", "asn1_items"]),
     ("DER", ["asn1_der*", "asn1_elements"]),
     ("BER", ["asn1_ber*"])],
    [("codecs", ["asn1_schema", "asn1_rules", "asn1_tables", "asn1_open|asn1_limits", "asn1_circles", "asn1_nesting", "asn1_slots|asn1_spelling", "asn1_enc",
                 "asn1_dec", "asn1_laws"])],
    [("types", ["asn1_types", "asn1_components", "asn1_fields", "asn1_model"])],
    [("values", ["asn1_values", "asn1_integers", "asn1_strings", "asn1_tags", "asn1_bounds", "asn1_ranges"])],
]
SIDE = [
    ("compiler", ["asn1_compil*", "asn1_print_calls", "asn1_print", "asn1_rust_*|asn1_circle_definitions", "asn1_module_check",
                  "asn1_resolve*", "asn1_objects", "asn1_names|asn1_modules", "asn1_grammar", "asn1_tokens", "asn1_notation*"]),
    ("tests", ["*"]),
    ("measures", ["*"]),
]
# A road of docs/ARCHITECTURE.md: its heading, its colour, and the boxes of each of its steps.
ROADS = [
    ("A value to bytes and back", "#c0392b",
     [["asn1_model", "asn1_components"], ["asn1_enc"], ["asn1_buffers"], ["asn1_dec", "asn1_items"], ["asn1_slots|asn1_spelling"], ["asn1_rules"]]),
    ("A certificate to its report", "#2e8b57",
     [["asn1_certificate_input", "asn1_x509*", "asn1_certificate_rules"], ["asn1_certificate_reader"], ["asn1_certificate_text"]]),
    ("A module to a crate", "#1f6fb2",
     [["asn1_tokens", "asn1_grammar"], ["asn1_resolve*", "asn1_names|asn1_modules"], ["asn1_module_check"],
      ["asn1_print", "asn1_rust_*|asn1_circle_definitions", "asn1_compil*"]]),
    ("A line to its verdict", "#a0632c", [["asn1_report"], ["asn1_clash"]]),
]
WIDTH, SIDE_WIDTH, GAP, BOX, LINE, HEAD = 940, 250, 14, 30, 38, 26


def crates():
    """The crates of each group of crates.txt, and the libraries of each crate."""
    group, found, libraries = None, {}, {}
    for line in (ROOT / "crates.txt").read_text().splitlines():
        if line.startswith("#"):
            group = line.lstrip("# ").strip()
        elif ":" in line:
            name, below = line.split(":")
            found.setdefault(group, []).append(name.split()[0])
            libraries[name.split()[0]] = below.split()
    return found, libraries


def check_layers(there, libraries):
    """A crate of a layer uses crates of its own layer and of those below it, and none of a group at the side."""
    layer_of = {name: place for place, layer in enumerate(LAYERS) for group, _ in layer for name in there[group]}
    for name, place in layer_of.items():
        above = [below for below in libraries[name] if below in libraries and layer_of.get(below, -1) < place]
        if above:
            sys.exit(f"house.py: {name} uses {', '.join(above)} of a layer above it")


def boxes_of(group, patterns, names):
    """The boxes of a group: a pattern with its crates. A crate is in the first box whose pattern is its name, or that it matches."""
    left, found = list(names), {}
    for pattern in sorted(patterns, key=lambda p: "*" in p):
        found[pattern] = [n for n in left if any(fnmatch.fnmatchcase(n, part) for part in pattern.split("|"))]
        left = [n for n in left if n not in found[pattern]]
        if not found[pattern]:
            sys.exit(f"house.py: no crate of {group} is {pattern}")
    if left:
        sys.exit(f"house.py: in no box: {', '.join(left)}")
    return [(pattern, found[pattern]) for pattern in patterns]


def title(pattern, names):
    if pattern == "*":
        return f"{len(names)} crates"
    short = [name.removeprefix("asn1_") for name in names]
    if len(short) < 3 and len(", ".join(short)) < 34:
        return ", ".join(short)
    return f"{pattern.split('|')[0].removeprefix('asn1_')} ({len(names)})"


def text(x, y, words, size=13, anchor="middle", extra=""):
    words = words.replace("&", "&amp;").replace("<", "&lt;")
    return f'<text x="{x:.0f}" y="{y:.0f}" font-size="{size:g}" text-anchor="{anchor}"{extra}>{words}</text>'


def box(x, y, width, pattern, names):
    words = title(pattern, names)
    size = round(min(13, 1.75 * (width - 12) / len(words)), 1)
    out = [f'<rect x="{x:.0f}" y="{y:.0f}" width="{width:.0f}" height="{BOX}" rx="5" fill="#fff" stroke="#8a8f98"/>',
           text(x + width / 2, y + 20, words, size)]
    marks = [(colour, step) for _, colour, road in ROADS for step, boxes in enumerate(road, 1) if pattern in boxes]
    for place, (colour, step) in enumerate(marks):
        at = x + width - 4 - 18 * place
        out += [f'<circle cx="{at:.0f}" cy="{y:.0f}" r="8.5" fill="{colour}"/>',
                text(at, y + 4, str(step), 11, extra=' fill="#fff" font-weight="bold"')]
    return out


def room(x, y, width, columns, group, boxes):
    """A group with its boxes, in so many columns; and its height."""
    rows = -(-len(boxes) // columns)
    height = HEAD + rows * LINE + 8
    out = [f'<rect x="{x:.0f}" y="{y:.0f}" width="{width:.0f}" height="{height}" rx="8" fill="#f2f4f7" stroke="#c9ced6"/>',
           text(x + 10, y + 18, group, 14, "start", ' font-weight="bold"')]
    inner = (width - 20 - 8 * (columns - 1)) / columns
    for place, (pattern, names) in enumerate(boxes):
        out += box(x + 10 + (place % columns) * (inner + 8), y + HEAD + 4 + (place // columns) * LINE, inner, pattern, names)
    return out, height


def picture():
    there, libraries = crates()
    check_layers(there, libraries)
    named = {group for layer in LAYERS for group, _ in layer} | {group for group, _ in SIDE}
    if set(there) != named:
        sys.exit(f"house.py: groups that differ: {', '.join(sorted(set(there) ^ named))}")
    out, y, count = [], GAP, 0
    for layer in LAYERS:
        rooms = [(group, boxes_of(group, patterns, there[group])) for group, patterns in layer]
        # A layer's groups share its width by their boxes, at most six in a row.
        columns = [min(6, len(boxes)) for _, boxes in rooms]
        unit = (WIDTH - GAP * (len(rooms) - 1)) / sum(columns)
        x, tallest = GAP, 0
        for (group, boxes), wide in zip(rooms, columns):
            drawn, height = room(x, y, unit * wide, wide, group, boxes)
            out += drawn
            x, tallest, count = x + unit * wide + GAP, max(tallest, height), count + len(boxes)
        y += tallest + GAP
    side = GAP
    for group, patterns in SIDE:
        boxes = boxes_of(group, patterns, there[group])
        drawn, height = room(WIDTH + 2 * GAP, side, SIDE_WIDTH, 1, group, boxes)
        out += drawn
        side, count = side + height + GAP, count + len(boxes)
    if count > MOST_BOXES:
        sys.exit(f"house.py: {count} boxes, {MOST_BOXES} at most")
    foot = max(y, side)
    for place, (name, colour, _) in enumerate(ROADS):
        at = GAP + place * (WIDTH + SIDE_WIDTH) / len(ROADS)
        out += [f'<circle cx="{at + 9:.0f}" cy="{foot + 9:.0f}" r="8.5" fill="{colour}"/>', text(at + 24, foot + 14, name, 13, "start")]
    foot += 42
    note = ("A crate uses crates of its own row and of the rows below it; the tests and the measures use any, the compiler tags, "
            "fields and clash. asn1_ is left out of the names. The numbers are the steps of a road.")
    out += [text(GAP, foot, note, 12, "start", ' fill="#555"')]
    width, height = WIDTH + SIDE_WIDTH + 3 * GAP, foot + GAP
    head = (f'<svg xmlns="http://www.w3.org/2000/svg" viewBox="0 0 {width} {height:.0f}" font-family="sans-serif" fill="#20242a">'
            f'<rect width="{width}" height="{height:.0f}" fill="#fff"/>')
    return "\n".join([head, *out, "</svg>"]) + "\n"


def main():
    drawn = picture()
    if sys.argv[1:] == ["--check"]:
        is_same = PICTURE.exists() and PICTURE.read_text() == drawn
        print("house.svg is what crates.txt says" if is_same else "house.svg differs: run bench/house.py")
        return not is_same
    PICTURE.write_text(drawn)
    return 0


if __name__ == "__main__":
    sys.exit(main())
