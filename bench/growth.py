#!/usr/bin/env python3
"""Counts instructions as lists, chains, strings in pieces, sets, streams and modules grow, and prints a table in Markdown.

    python3 bench/growth.py [FOLDER]

takes the programs measure_codecs, test_vectors and asn1_compile of this folder, or proves and builds them. A cell has the instructions for
each of 10^3 to 10^6 values, nodes, pieces, elements or definitions, less those of a run without them, by valgrind. Chains have 10^4 nodes
at most, since writing ten times as many takes minutes, and modules 10^4 definitions, each of which may be a file. Strings and sets come
as a line in hexadecimal and are written as another, which is counted too.
"""
import pathlib
import shutil
import sys
import tempfile

import measure
from compile import large_module
from peers import integer, scope

SIZES = 10**3, 10**4, 10**5, 10**6
FEW = SIZES[:2]


def of_codec(codec, action, values):
    """The calls that read or write a list or a chain of this size once, and never."""
    return lambda size: [(f"measure_codecs {codec} {action} {values} {size} {times}", "") for times in (1, 0)]


def of_stream(text):
    """The calls with a stream of this size, and with none."""
    return lambda size: [("measure_codecs " + text(count), "") for count in (size, 0)]


def of_line(type_name, octets):
    """The calls with the octets of this size, and without any, of a value that is read in BER and written in DER."""
    return lambda size: [("test_vectors", f"ber {type_name} 1 read der {octets(count).hex(' ')}\n") for count in (size, 0)]


def of_module(shape):
    """The calls with a module of this size, and with a definition alone."""
    return lambda size: [("asn1_compile large --out {out} {input}", large_module(shape, count)) for count in (size, 1)]


def pieces(count):
    return b"\x24\x80" + b"\x04\x01a" * count + b"\0\0"


def nested_pieces(count):
    return b"\x24\x80" * count + b"\x04\x01a" + b"\0\0" * count


def descending(count):
    return scope(17, *(integer(count - index) for index in range(count)))


# The sizes and the calls of each row.
ROWS = {
    **{
        f"{title}, {name}, {done}": (sizes, of_codec(codec, action, values))
        for title, values, sizes in (("list of `Person`", "person", SIZES), ("chain of `Node`", "node", FEW))
        for codec, name in (("der", "DER"), ("ber", "BER"), ("packed", "packed"))
        for action, done in (("read", "read"), ("write", "written"))
    },
    "OCTET STRING in pieces, BER to DER": (SIZES, of_line("OctetString", pieces)),
    "OCTET STRING in pieces inside one another, BER to DER": (SIZES, of_line("OctetString", nested_pieces)),
    "SET OF INTEGER, descending, BER to DER": (SIZES, of_line("SetOf<i32>", descending)),
    "list of BOOLEAN of indefinite length, BER, in pieces of 16 octets": (SIZES, of_stream("grow {} 16".format)),
    "pieces of 16 octets, appended to a stream": (SIZES, of_stream(lambda count: f"append {16 * count} 16 early")),
    **{f"module of {shape}, compiled": (FEW, of_module(shape)) for shape in ("components", "aliases", "values")},
}


def instructions(folder, words, text):
    """The instructions of a call with this input, which it must not refuse."""
    path, out = folder / "input.asn1", folder / "out"
    path.write_text(text)
    program, *others = words.format(input=path, out=out).split()
    call = [folder / program, *others]
    answer = measure.answer(call, path)
    if " -> refused" in answer or " -> not" in answer or answer.startswith("not"):
        sys.exit(answer)
    shutil.rmtree(out, ignore_errors=True)
    count = measure.instructions(call, path)
    shutil.rmtree(out, ignore_errors=True)
    return count


def cost(folder, calls, size):
    """The instructions for each of so many."""
    most, none = (instructions(folder, *call) for call in calls(size))
    return (most - none) / size


def main():
    if {"-h", "--help"} & set(sys.argv):
        return print(__doc__.strip())
    with tempfile.TemporaryDirectory() as place:
        folder = pathlib.Path(place)
        measure.link_ours(folder, ["measure_codecs", "test_vectors", "asn1_compile"], sys.argv[1:])
        measure.print_head(["", *(f"10^{len(str(size)) - 1}" for size in SIZES)])
        for title, (sizes, calls) in ROWS.items():
            measure.print_row([title, *(f"{cost(folder, calls, size):,.0f}" if size in sizes else "" for size in SIZES)])


if __name__ == "__main__":
    main()
