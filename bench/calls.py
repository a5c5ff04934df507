#!/usr/bin/env python3
"""Counts the instructions of calls of libfanughespu.a for a certificate, beside those of OpenSSL and libtasn1.

    python3 bench/calls.py FOLDER

FOLDER has libfanughespu.a, as `rt lib` in crates/fanughespu makes it in out/. It builds bench/calls.c with gcc -O2, Debian's libssl-dev
and libtasn1-6-dev, and asks each call about each CA certificate of this machine three times under `valgrind --tool=callgrind`. It prints a
table: the instructions for one certificate, less those of a run that asks nothing, and how many certificates were accepted.
"""
import os
import pathlib
import re
import ssl
import subprocess
import sys
import tempfile

ROOT = pathlib.Path(__file__).resolve().parent.parent
BUNDLE = pathlib.Path("/etc/ssl/certs/ca-certificates.crt")
ROUNDS = 3
# What is asked, by the names in calls.c: (name, what it does), one group of comparable calls after another.
CALLS = [
    ("fan_der_check", "elements of DER, with shortest lengths and tags, at most 64 deep"),
    ("ASN1_get_object", "the same walk over OpenSSL's reader of headers, which takes other lengths and tags"),
    ("asn1_get_tag_der", "the same over libtasn1's readers of tags and lengths, which take them too"),
    ("fan_certificate_broken_rule", "the rules of DER, with those of the types of a certificate"),
    ("asn1_der_decoding2", "libtasn1 reads the values of a certificate, as strict DER"),
    ("d2i_X509", "OpenSSL reads the values of a certificate, and its key"),
    ("fan_certificate_report", "reads the values of a certificate and its extensions, writes it again, and makes its report"),
    ("X509_print_ex", "OpenSSL reads a certificate, and prints it to nowhere"),
]


def certificates(folder):
    """The CA certificates of the machine, as files of DER."""
    begin, end = "-----BEGIN CERTIFICATE-----", "-----END CERTIFICATE-----"
    paths = []
    for number, part in enumerate(BUNDLE.read_text().split(begin)[1:]):
        path = folder / f"{number:03}.der"
        path.write_bytes(ssl.PEM_cert_to_DER_cert(begin + part[: part.index(end)] + end + "\n"))
        paths.append(path)
    return paths


def build(library, program):
    words = ["gcc", "-std=c11", "-O2", "-Wall", "-Wextra", f"-I{ROOT / 'bindings/c'}", ROOT / "bench/calls.c", ROOT / "bindings/c/heap.c"]
    subprocess.run([*words, library, "-lcrypto", "-ltasn1", "-o", program], check=True)


def instructions(program, call, paths):
    """The instructions of a run, and how often a certificate was accepted."""
    words = ["valgrind", "--tool=callgrind", "--callgrind-out-file=/dev/null", program, str(ROUNDS), call, ROOT / "bench/certificate.asn", *paths]
    run = subprocess.run(words, capture_output=True, text=True, check=True)
    return int(re.search(r"Collected : (\d+)", run.stderr)[1]), int(run.stdout)


def main():
    if len(sys.argv) != 2:
        sys.exit(__doc__)
    with tempfile.TemporaryDirectory() as room:
        room = pathlib.Path(room)
        paths = certificates(room)
        program = room / "calls"
        build(pathlib.Path(sys.argv[1]) / "libfanughespu.a", program)
        idle, _ = instructions(program, "nothing", paths)
        octets = sum(os.path.getsize(path) for path in paths)
        print(f"{len(paths)} certificates, {octets} octets\n\n| Call | What it does | Instructions | Accepted |\n|---|---|---|---|")
        for call, what in CALLS:
            taken, accepted = instructions(program, call, paths)
            print(f"| `{call}` | {what} | {round((taken - idle) / ROUNDS / len(paths)):,} | {accepted // ROUNDS} |", flush=True)


if __name__ == "__main__":
    main()
