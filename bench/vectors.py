#!/usr/bin/env python3
"""Checks lines of test_vectors and test_module_types by another program than the codecs.

    python3 bench/vectors.py

goes through the stored answers of the two programs. Where a line has a value in two forms, of the packed form, the tag form and DER,
one of them is made here of the items of the other alone, by the layout that asn1_items defines and by X.690, and compared. A line that
was refused as not canonical names the bytes as which its value is written: these have to be read by another line, and the position has
to be that of the first byte in which the two differ. Named bits are read without the 0 bits at their end, so those of a line are cut
here too. It stops at the first line that is otherwise, and prints how many lines were checked. Left out are other refusals, open types by themselves, lines of one form, the lines that read a component that is its DEFAULT,
which is not written again, and those of BER, which bench/spellings.py and bench/encoders.py make.
"""
import os
import sys

ROOT = os.path.dirname(os.path.dirname(os.path.abspath(__file__)))
LINES = [os.path.join(ROOT, "crates", name, "stdout") for name in ("test_vectors", "test_module_types")]

CONTENT, SET, SET_OF, ALTERNATIVE = 1, 3, 5, 7
SCOPES = range(2, 8)
MARKS = range(0x10, 0x15)
BOOLEAN, NUMBER, DISCRIMINANT, ARCS, TELETEX = 1, 2, 3, 5, 15


class NoItems(Exception):
    """The bytes are no items."""


def items_of(data):
    """The items and presence marks of these bytes, as pairs and numbers."""
    found, at = [], 0
    while at < len(data):
        kind = data[at]
        if kind in MARKS:
            found.append(kind)
            at += 1
            continue
        if kind != CONTENT and kind not in SCOPES:
            raise NoItems
        tag = (data[at + 1], int.from_bytes(data[at + 2:at + 6], "big"))
        at += 6
        content = None
        if kind == CONTENT:
            content = data[at]
            at += 1
        length = int.from_bytes(data[at:at + 4], "big")
        inside = data[at + 4:at + 4 + length]
        if len(inside) != length:
            raise NoItems
        at += 4 + length
        found.append((kind, tag, content, inside if kind == CONTENT else items_of(inside)))
    return found


def tag_form(items):
    """The bytes of these items, without presence marks."""
    out = b""
    for item in items:
        if item in MARKS:
            continue
        kind, (tag_class, number), content, inside = item
        body = inside if kind == CONTENT else tag_form(inside)
        head = bytes([kind, tag_class]) + number.to_bytes(4, "big")
        out += head + (bytes([content]) if kind == CONTENT else b"") + len(body).to_bytes(4, "big") + body
    return out


def base_128(number):
    """A number to the base 128, with bit 8 set in each octet but the last (X.690, 8.1.2.4 and 8.19.2)."""
    digits = [number & 0x7F]
    while number := number >> 7:
        digits.append(number & 0x7F | 0x80)
    return bytes(reversed(digits))


def element(tag, constructed, contents):
    """An element (X.690, 8.1 and 10.1)."""
    tag_class, number = tag
    first = tag_class << 6 | (0x20 if constructed else 0)
    identifier = bytes([first | number]) if number < 31 else bytes([first | 31]) + base_128(number)
    size = len(contents)
    if size < 128:
        return identifier + bytes([size]) + contents
    octets = size.to_bytes((size.bit_length() + 7) // 8, "big")
    return identifier + bytes([0x80 | len(octets)]) + octets + contents


def contents_octets(content, inside):
    """The contents octets of a content (X.690, 8.2 to 8.23)."""
    if content == BOOLEAN:
        return b"\xff" if inside == b"\x01" else b"\x00"
    if content in (NUMBER, DISCRIMINANT):
        magnitude = int.from_bytes(inside[1:], "big")
        number = -magnitude if inside[0] else magnitude
        bits = (-number - 1 if number < 0 else number).bit_length() + 1
        return number.to_bytes((bits + 7) // 8, "big", signed=True)
    if content == ARCS:
        arcs = [int.from_bytes(inside[at:at + 4], "big") for at in range(0, len(inside), 4)]
        return b"".join(base_128(arc) for arc in [arcs[0] * 40 + arcs[1], *arcs[2:]])
    if content == TELETEX:
        return bytes(int.from_bytes(inside[at:at + 4], "big") for at in range(0, len(inside), 4))
    return inside


def der_elements(items):
    """The elements of DER of these items, each with the tag with which it begins (X.690, 8 to 11)."""
    found = []
    for item in items:
        if item in MARKS:
            continue
        kind, tag, content, inside = item
        if kind == CONTENT:
            found.append((tag, element(tag, False, contents_octets(content, inside))))
            continue
        inner = der_elements(inside)
        if kind == ALTERNATIVE:
            found += inner
            continue
        if kind == SET:
            inner.sort()
        if kind == SET_OF:
            inner.sort(key=lambda pair: pair[1])
        found.append((tag, element(tag, True, b"".join(octets for _, octets in inner))))
    return found


def in_form(form, data):
    """The bytes in this form of a value whose items these bytes are."""
    items = items_of(data)
    return tag_form(items) if form == "tag" else b"".join(octets for _, octets in der_elements(items))


def parts(line):
    """The codec, the type, the action, the other codec, the bytes, the answer and the source of a line."""
    request, rest = line.split(" -> ")
    answer, source = rest.split(" ; ", 1)
    codec, type_name, _depth, action, other, digits = (request + " ").split(" ", 5)
    return codec, type_name, action, other, bytes.fromhex(digits), answer, source


def octets(answer):
    """The bytes of an answer, if it has any."""
    digits = answer.split(" of ")[0]
    return bytes.fromhex(digits) if all(part in "0123456789abcdef " for part in digits) else None


def sides(line):
    """The two forms of a line and the bytes in each; nothing if it is a refusal."""
    codec, _type, action, other, asked, answer, _source = parts(line)
    answered = None if answer.startswith("refused") else octets(answer)
    if answered is None:
        return None
    if action == "front":
        asked = asked[:int(answer.split(" of ")[1].split(" ")[0])]
    if action == "stream":
        asked = read_of(asked, codec, answered, int(answer.split(" of ")[1].split(" ")[0]))
    return (codec, other, asked, answered) if action != "write" else (other, codec, asked, answered)


def read_of(asked, codec, answered, count):
    """The bytes of a stream that were read as so many values, which are also those of the answer."""
    if codec == "der":
        return asked[:len(in_form("der", answered))]
    values, length = items_of(asked)[:count], 0
    while items_of_front(asked, length) != values:
        length += 1
    return asked[:length]


def items_of_front(data, length):
    """The items of the first bytes, if they are whole items."""
    try:
        return items_of(data[:length])
    except (NoItems, IndexError):
        return None


def without_zeros(data):
    """An element of named bits without the 0 bits at its end (X.690, 11.2.2)."""
    octets = data[3:].rstrip(b"\x00")
    unused = (octets[-1] & -octets[-1]).bit_length() - 1 if octets else 0
    return element((0, 3), False, bytes([unused]) + octets)


def first_difference(left, right):
    """The first position in which two byte strings differ, or at which one of them ends."""
    same = 0
    while same < min(len(left), len(right)) and left[same] == right[same]:
        same += 1
    return same


def departs(line, read):
    """Whether the bytes of a line are written as those that it names, which are read, and differ first where it says."""
    codec, type_name, _action, _other, asked, answer, source = parts(line)
    written = bytes.fromhex(source.split("written as ")[1])
    return (codec, type_name, written) in read and first_difference(asked, written) == int(answer.split(" ")[-1])


def main():
    if len(sys.argv) > 1:
        return print(__doc__.strip())
    checked = left = 0
    lines = []
    for name in LINES:
        with open(name) as file:
            lines += [(number, line.rstrip("\n")) for number, line in enumerate(file, 1) if line.strip() and line[0] != "#"]
    others = [line for _, line in lines if line.startswith("ber ") and line.split()[3] != "canonical"]
    lines = [(number, line) for number, line in lines if line not in others]
    left += len(others)
    read = {parts(line)[:2] + (parts(line)[4],) for _, line in lines if " canonical " in line and sides(line)}
    for number, line in lines:
        if "not canonical at byte" in line:
            if not departs(line, read):
                sys.exit(f"line {number}: {line}")
            checked += 1
            continue
        found = sides(line)
        if found is None or " Any " in line or found[0] == found[1] or found[0] == "ber":
            left += 1
            continue
        form, other, asked, answered = found
        if form == "der" or (form == "tag" and other == "packed"):
            form, other, asked, answered = other, form, answered, asked
        if " NamedBitString " in line and other == "der":
            answered = without_zeros(answered)
        made = in_form(other, asked)
        if made == answered:
            checked += 1
        elif " default" in line and " read " in line:
            left += 1
        else:
            sys.exit(f"line {number}: {line}\nmade: {made.hex(' ')}")
    print(f"{checked} lines checked, {left} left out")


if __name__ == "__main__":
    main()
