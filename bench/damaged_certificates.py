#!/usr/bin/env python3
"""Damages the certificates of examples/certificates, and compares what asn1_certificate takes with what OpenSSL takes.

Each byte is damaged in three ways (its lowest bit, its highest bit, all of its bits), each first octet of an element is every other
octet in turn, and the bytes are cut off before each place.
The program is to end with a status of its own for each input, and to take none of these that `openssl x509` refuses. It prints each input
that is taken and that OpenSSL refuses, and a line of counts.

    bench/damaged_certificates.py [--try] [--every N] [--minutes N]

With `--try` the program is run before its proof, by `rt try`, and else as it is built (`rt run` in crates/asn1_certificate builds
it). `--every 7` damages each seventh byte alone. After that many minutes (30) it asks no more.
"""
import argparse
import concurrent.futures
import pathlib
import re
import subprocess
import sys
import tempfile
import time

TOP = pathlib.Path(__file__).resolve().parent.parent
CRATE = TOP / "crates" / "asn1_certificate"
SHOWN = "version:"


def first_octets(octets, start, end):
    """The places of the first octets of the elements that these octets are, and of those inside. Tags are below 31."""
    while start < end:
        yield start
        begin, size = start + 2, octets[start + 1]
        if size >= 0x80:
            begin, size = begin + size - 0x80, int.from_bytes(octets[begin : begin + size - 0x80], "big")
        if octets[start] & 0x20:
            yield from first_octets(octets, begin, begin + size)
        start = begin + size


def damaged(octets, every):
    """Each damaged form of these octets, with its name."""
    firsts = set(first_octets(octets, 0, len(octets)))
    for place in range(0, len(octets), every):
        for mask in range(1, 256) if place in firsts else (0x01, 0x80, 0xFF):
            changed = bytearray(octets)
            changed[place] ^= mask
            yield f"{place:04}-{mask:02x}", bytes(changed)
        yield f"{place:04}-cut", octets[:place]


def write_cases(folder, every):
    """Writes the damaged forms of each certificate to files, and answers their paths."""
    paths = []
    for certificate in sorted((TOP / "examples" / "certificates").glob("*.der")):
        for name, octets in damaged(certificate.read_bytes(), every):
            path = folder / f"{certificate.stem}-{name}"
            path.write_bytes(octets)
            paths.append(path)
    return paths


def openssl_takes(path):
    """Whether OpenSSL reads a file as a certificate."""
    run = subprocess.run(["openssl", "x509", "-inform", "DER", "-noout", "-in", path], capture_output=True)
    return run.returncode == 0


def program_answers(path):
    """What the built program answers: whether it shows a certificate, or None where it ends otherwise."""
    with open(path, "rb") as octets:
        run = subprocess.run([CRATE / "out" / "asn1_certificate"], stdin=octets, capture_output=True, timeout=20)
    return run.stdout.startswith(SHOWN.encode()) if run.returncode in (0, 1) else None


def tried_answers(folder):
    """The same for each file of a folder, by `rt try`."""
    run = subprocess.run(["rt", "try", "--cases", folder], cwd=CRATE, stdout=subprocess.PIPE, stderr=subprocess.STDOUT)
    text = run.stdout.decode(errors="replace")
    cases = re.findall(r"(?ms)^== (\S+)\n(.*?)^case=\S+ run=(\S+) status=(\S+)", text)
    return {
        name: out.startswith(SHOWN) if (how, status) in (("ended", "0"), ("ended", "1")) else None
        for name, out, how, status in cases
    }


def main():
    words = argparse.ArgumentParser(description=__doc__, formatter_class=argparse.RawDescriptionHelpFormatter)
    words.add_argument("--try", dest="tried", action="store_true")
    words.add_argument("--every", type=int, default=1)
    words.add_argument("--minutes", type=float, default=30)
    asked = words.parse_args()
    end = time.monotonic() + asked.minutes * 60
    with tempfile.TemporaryDirectory() as name:
        folder = pathlib.Path(name)
        paths = write_cases(folder, asked.every)
        answers = tried_answers(folder) if asked.tried else {}
        counts = {"inputs": len(paths), "asked": 0, "shown": 0, "crashes": 0, "taken that OpenSSL refuses": 0}
        with concurrent.futures.ThreadPoolExecutor(4) as pool:
            for first in range(0, len(paths), 64):
                if time.monotonic() > end:
                    break
                some = paths[first : first + 64]
                ours = [answers.get(path.name) for path in some] if asked.tried else list(pool.map(program_answers, some))
                shown = [path for path, our in zip(some, ours) if our]
                refused = [path for path, taken in zip(shown, pool.map(openssl_takes, shown)) if not taken]
                crashes = [path for path, our in zip(some, ours) if our is None]
                counts["asked"] += len(some)
                counts["shown"] += len(shown)
                counts["crashes"] += len(crashes)
                counts["taken that OpenSSL refuses"] += len(refused)
                for path in crashes:
                    print(path.name, "crashes")
                for path in refused:
                    print(path.name, "is taken")
    print(", ".join(f"{count} {what}" for what, count in counts.items()))
    return counts["crashes"] + counts["taken that OpenSSL refuses"] > 0


if __name__ == "__main__":
    sys.exit(main())
