#!/usr/bin/env python3
"""Measures how many certificates are read and written a second, beside plain Rust in two forms.

    python3 bench/certificates.py
    python3 bench/certificates.py PROGRAM

proves and builds the program measure_certificates, which reads a certificate and writes it again as often as it is told; or takes
this PROGRAM in its place. It builds bench/plain_certificates.rs, a program in plain Rust that does the same job, by `rustc -O` for the
processor for which `rt` builds, in two forms: one makes the same values as the layer, with a `bool` for each bit of a BIT STRING, and
one keeps the bits in bytes. It checks that all write as many bytes, with the same checksum, for each certificate of
examples/certificates.

Then it prints a line for each certificate, read and written: how many go in a second, how many by each form of plain Rust, and the
ratios of the times; and the instructions for one, if valgrind is there. The time is that of the processor, the best of seven, less what
it takes to start. Two lines are of all four together. The last ones have the instructions of canonical reading beside those of reading
and of writing, and how often reading allocates, beside how many strings, object identifiers, numbers beyond 128 bits, lists and open types
the certificate has. bench/peers.py measures the program beside libraries.
"""
import glob
import os
import shutil
import sys
import tempfile

from measure import ROOT, allocations, answer, instructions, plain_rust, proved, seconds
from spellings import parse

CERTIFICATES = sorted(glob.glob(os.path.join(ROOT, "examples", "certificates", "*.der")))
RUNS = 7
# Identifier octets.
BOOLEAN, INTEGER, OBJECT_IDENTIFIER, SET, EXTENSIONS = b"\x01", b"\x02", b"\x06", b"\x31", b"\xa3"
# The two forms of plain Rust, each with the name of its program and the arguments of `rustc`.
FORMS = {"plain Rust, the same values": ("same_values", ["--cfg", "bools"]), "plain Rust, bits in bytes": ("bits_in_bytes", [])}


def arguments(action, times):
    """The arguments by which a program does this as many times."""
    return [str(times) if action == other else "0" for other in ("read", "written", "read_canonical")]


def microseconds(programs, action, path):
    """What one time costs each program in microseconds: the least of some runs, in which the programs take turns, each long enough
    to be measured."""
    times = {}
    for program in programs:
        times[program] = 1000
        while seconds([program, *arguments(action, times[program])], path) < 0.3:
            times[program] *= 2
    least = dict.fromkeys(programs, float("inf"))
    for _ in range(RUNS):
        for program in programs:
            start = seconds([program, "0", "0"], path)
            taken = seconds([program, *arguments(action, times[program])], path) - start
            least[program] = min(least[program], taken * 10**6 / times[program])
    return [least[program] for program in programs]


def steps(program, action, path, count=instructions):
    """How many instructions one time costs, or allocations."""
    most, none = (count([program, *arguments(action, times)], path) for times in (100, 0))
    return (most - none) / 100


def parts(octets):
    """How many strings, object identifiers, wide numbers, lists and open types elements of a certificate have."""
    elements = parse(octets)
    if elements[:1] and elements[0][0] == OBJECT_IDENTIFIER:
        # What comes behind an object identifier is an open type, or the BOOLEAN and the OCTET STRING of an extension.
        return sum(identifier != BOOLEAN for identifier, _ in elements)
    lists = bool(elements) and elements[0][0] == SET
    return lists + sum(parts_of(identifier, contents) for identifier, contents in elements)


def parts_of(identifier, contents):
    """The same of an element."""
    if identifier == INTEGER:
        return len(contents) > 16
    if identifier[0] & 0x20:
        return (identifier in (SET, EXTENSIONS)) + parts(contents)
    return 1


def line(what, costs, counts, certificates):
    """Prints what was measured of these programs: of ours, and of each form of plain Rust."""
    ours, *others = costs
    text = f"{what}: {certificates * 10**6 / ours:.0f} a second"
    for name, cost in zip(FORMS, others):
        text += f"; {name}: {certificates * 10**6 / cost:.0f}, ratio {ours / cost:.2f}"
    if counts:
        ours, *others = counts
        text += f"; {ours / certificates:.0f} instructions for one"
        for name, count in zip(FORMS, others):
            text += f"; of {name}: {count / certificates:.0f}, ratio {ours / count:.2f}"
    print(text, flush=True)


def count_canonical(program):
    """Prints the instructions of canonical reading of each certificate, and those of reading and of writing it."""
    for path in CERTIFICATES:
        counts = {action: steps(program, action, path) for action in ("read", "written", "read_canonical")}
        ratio = counts["read_canonical"] / counts["read"]
        text = ", ".join(f"{action} {count:.0f}" for action, count in counts.items())
        print(f"{os.path.basename(path)}: {text} instructions, {ratio:.2f} times those of reading", flush=True)


def count_allocations(program):
    """Prints how often reading each certificate allocates, beside how many parts it has that need an allocation."""
    for path in CERTIFICATES:
        with open(path, "rb") as source:
            wanted = parts(source.read())
        count = steps(program, "read", path, allocations)
        print(f"{os.path.basename(path)}: read with {count:.0f} allocations, has {wanted} parts", flush=True)


def main():
    ours = os.path.abspath(sys.argv[1]) if len(sys.argv) > 1 else proved("measure_certificates")
    with tempfile.TemporaryDirectory() as folder:
        programs = [ours, *(plain_rust(folder, "plain_certificates", *form) for form in FORMS.values())]
        for path in CERTIFICATES:
            said = {program: answer([program, "1", "1"], path) for program in programs}
            if len(set(said.values())) != 1:
                sys.exit(f"{path}: {said}")
        for action in "read", "written":
            all_costs, all_counts = [0] * len(programs), [0] * len(programs)
            for path in CERTIFICATES:
                costs = microseconds(programs, action, path)
                counts = [steps(program, action, path) for program in programs] if shutil.which("valgrind") else []
                line(f"{os.path.basename(path)}, {action}", costs, counts, 1)
                all_costs = [total + cost for total, cost in zip(all_costs, costs)]
                all_counts = [total + count for total, count in zip(all_counts, counts)]
            line(f"all, {action}", all_costs, all_counts, len(CERTIFICATES))
        if shutil.which("valgrind"):
            count_canonical(ours)
            count_allocations(ours)


main()
