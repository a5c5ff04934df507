#!/usr/bin/env python3
"""Times what it costs to append bytes to a stream (crate asn1_rules): 100 MB in pieces of 1 KB, and in one piece.

    python3 bench/append.py

proves and builds the program measure_codecs first, which appends the bytes and takes blocks of 1000 of them: after each piece, or when
all is appended. It prints the seconds of processor time for each, the best of five, without what making the bytes costs, and how
they compare with those of one piece.
"""
import os
import subprocess

import measure

CRATE = os.path.join(measure.ROOT, "crates", "measure_codecs")
PROGRAM = os.path.join(CRATE, "out", "measure_codecs")
TOTAL = 100 * 10**6


def seconds(size, when="early"):
    """The least processor time in seconds of five runs with pieces of this size; 0 appends nothing."""
    return min(measure.seconds([PROGRAM, "append", str(TOTAL), str(size), when]) for _ in range(5))


def main():
    subprocess.run(["rt", "run", "--", "append", "10000", "1024", "early"], cwd=CRATE, stdin=subprocess.DEVNULL, check=True)
    nothing = seconds(0)
    at_once = seconds(TOTAL) - nothing
    print(f"100 MB in one piece: {at_once:.3f} s")
    for text, when in ("taken as they come", "early"), ("taken at the end", "late"):
        in_pieces = seconds(1024, when) - nothing
        print(f"100 MB in pieces of 1 KB, {text}: {in_pieces:.3f} s; ratio {in_pieces / at_once:.2f}")


main()
