#!/usr/bin/env python3
"""Other spellings in BER of the values that test_vectors and test_module_types have in DER.

    bench/spellings.py --lines COUNT [SEED]
    bench/spellings.py --run COUNT [SEED]

Each value that a line of the stdout of one of the programs reads and has in DER, of a type with lines in BER, is spelled anew, at random,
by X.690, 8: lengths in more octets than they need, or indefinite; of elements with universal tags also a BOOLEAN that is TRUE by any octet
but zero, unused bits of any value, strings in pieces, nested, and the elements of sets in another order. The first call prints lines for
the two. The second gives lines to the built programs (`rt run` in the folder of each builds it), whose answer has to be the DER of the
value, and damages each line once more: the answer to that is an error or a value, and the program ends. The status is 0 if all is as it
has to be.
"""
import pathlib
import random
import subprocess
import sys

CRATES = pathlib.Path(__file__).resolve().parent.parent / "crates"
PROGRAMS = ("test_vectors", "test_module_types")

BOOLEAN, BIT_STRING, OCTET_STRING, SET = 1, 3, 4, 17
STRINGS = {OCTET_STRING, 12, 18, 19, 20, 22, 25, 26, 27, 30}
# Types with an open type in them: what is inside that is read in normal form, and no further.
OPEN_TYPES = {"Any", "Envelope", "Open", "Notice", "RdnSequence", "Certificate"}


def samples(program):
    """The types, depths and DER of the values that lines of a program read, of the types with lines in BER."""
    found, asked = {}, (CRATES / program / "stdout").read_text().splitlines()
    kinds = {line.split(" ", 2)[1] for line in asked if line.startswith("ber ")}
    for line in asked:
        request, _, answer = line.partition(" -> ")
        words, answer = request.split(), answer.partition(" ;")[0].strip()
        if len(words) < 5 or words[3:5] != ["read", "der"] or not answer:
            continue
        try:
            data = bytes.fromhex(answer)
        except ValueError:
            continue
        if data and words[1] in kinds:
            found.setdefault((words[1], data), int(words[2]))
    return [(program, kind, depth, data) for (kind, data), depth in found.items()]


def parse(data):
    """The elements of DER: identifier octets and contents octets of each."""
    elements, at = [], 0
    while at < len(data):
        start = at
        at += 1
        if data[start] & 31 == 31:
            while data[at] & 128:
                at += 1
            at += 1
        identifier = data[start:at]
        size = data[at]
        at += 1
        if size & 128:
            count = size & 127
            size = int.from_bytes(data[at:at + count], "big")
            at += count
        elements.append((identifier, data[at:at + size]))
        at += size
    return elements


def length(dice, size):
    """Length octets, definite."""
    least = (size.bit_length() + 7) // 8
    if size < 128 and dice.random() < 0.5:
        return bytes([size])
    count = max(least, 1) + dice.choice([0, 0, 1, 2, 5])
    return bytes([128 + count]) + size.to_bytes(count, "big")


def element(dice, identifier, contents, constructed):
    """An element, of a definite length or, if it is constructed, of an indefinite one."""
    if constructed and dice.random() < 0.5:
        return identifier + b"\x80" + contents + b"\0\0"
    return identifier + length(dice, len(contents)) + contents


def pieces(dice, tag, octets, nested):
    """Octets in pieces of this tag."""
    out, at = b"", 0
    while at < len(octets):
        size = dice.randint(1, max(1, len(octets) - at))
        out += piece(dice, tag, octets[at:at + size], nested)
        at += size
    if tag == OCTET_STRING and dice.random() < 0.2:
        out += piece(dice, tag, b"", nested)
    return out


def piece(dice, tag, octets, nested):
    if nested and dice.random() < 0.3:
        return element(dice, bytes([tag | 32]), pieces(dice, tag, octets, nested - 1), True)
    return element(dice, bytes([tag]), (b"\0" if tag == BIT_STRING else b"") + octets, False)


def bits(dice, contents):
    """A bit string: any unused bits, and whole octets in pieces but for the last."""
    unused, octets = contents[0], contents[1:]
    if unused:
        octets = octets[:-1] + bytes([octets[-1] | dice.randrange(1 << unused)])
    last = bytes([unused]) + octets
    if len(octets) < 2 or dice.random() < 0.5:
        return element(dice, b"\x03", last, False)
    cut = dice.randint(1, len(octets) - 1)
    whole = pieces(dice, BIT_STRING, octets[:cut], 2)
    return element(dice, b"\x23", whole + element(dice, b"\x03", bytes([unused]) + octets[cut:], False), True)


def spell(dice, data, loose):
    """The same elements in another spelling: with `loose` also of contents, and not of lengths alone."""
    out = []
    for identifier, contents in parse(data):
        universal = identifier[0] & 31 if identifier[0] < 64 else None
        if identifier[0] & 32:
            inside = [spell(dice, identifier_and_contents, loose) for identifier_and_contents in split(contents)]
            if universal == SET and loose:
                dice.shuffle(inside)
            out.append(element(dice, identifier, b"".join(inside), True))
        elif loose and universal == BOOLEAN and contents != b"\0":
            out.append(element(dice, identifier, bytes([dice.randint(1, 255)]), False))
        elif loose and universal == BIT_STRING:
            out.append(bits(dice, contents))
        elif loose and universal in STRINGS and dice.random() < 0.6:
            out.append(element(dice, bytes([universal | 32]), pieces(dice, OCTET_STRING, contents, 2), True))
        else:
            out.append(element(dice, identifier, contents, False))
    return b"".join(out)


def split(data):
    """The elements of DER, each with its octets."""
    found, at = [], 0
    for identifier, contents in parse(data):
        size = len(identifier) + len(contents) + 1
        if len(contents) > 127:
            size += (len(contents).bit_length() + 7) // 8
        found.append(data[at:at + size])
        at += size
    return found


def lines(count, seed):
    """Lines for the programs, each with its program and the answer that it has to get."""
    dice, known = random.Random(seed), [sample for program in PROGRAMS for sample in samples(program)]
    for _ in range(count):
        program, kind, depth, data = dice.choice(known)
        other = spell(dice, data, kind.split("]")[-1] not in OPEN_TYPES)
        yield program, f"ber {kind} {depth} read der {other.hex(' ')}", data.hex(" ")


def damaged(dice, line):
    """The line with one of its octets changed, lost or doubled."""
    words = line.split(" ")
    at = dice.randrange(5, len(words))
    words[at:at + 1] = dice.choice([[f"{dice.randrange(256):02x}"], [], [words[at]] * 2])
    return " ".join(words)


def main():
    if len(sys.argv) < 3 or sys.argv[1] not in ("--lines", "--run"):
        print(__doc__, file=sys.stderr)
        return 2
    seed = int(sys.argv[3]) if len(sys.argv) > 3 else 1
    made = list(lines(int(sys.argv[2]), seed))
    if sys.argv[1] == "--lines":
        for _, line, _ in made:
            print(line)
        return 0
    dice = random.Random(seed)
    faults = sum(faults_of(program, [(line, wanted) for name, line, wanted in made if name == program], dice) for program in PROGRAMS)
    print(f"spellings: {len(made)}, faults: {faults}")
    return faults > 0


def faults_of(program, made, dice):
    """Gives a program its lines, and each once more with damage; prints what is wrong in the answers, and tells how much that is."""
    faults, asked = 0, [line for line, _ in made] + [damaged(dice, line) for line, _ in made]
    ran = subprocess.run([CRATES / program / "out" / program], input="\n".join(asked) + "\n", capture_output=True, text=True)
    answers = ran.stdout.splitlines()
    for (line, wanted), answer in zip(made, answers):
        if answer.rstrip(" ;") != f"{line} -> {wanted}":
            faults += 1
            print(f"{answer}\n  in place of {wanted}")
    for answer in answers[len(made):]:
        if "not understood" in answer:
            faults += 1
            print(answer)
    if len(answers) != len(asked) or ran.returncode:
        faults += 1
        print(f"{len(answers)} answers to {len(asked)} lines, status {ran.returncode}: {ran.stderr}")
    return faults


if __name__ == "__main__":
    sys.exit(main())
