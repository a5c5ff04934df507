#!/usr/bin/env python3
"""Runs asn1_certificate over the certificates of examples/departures, which depart from DER or have PrintableStrings with characters
outside their alphabet, and those of examples/certificates, which OpenSSL made.

    bench/departures.py [--try] [--openssl]

With `--try` the program is run before its proof, by `rt try`, and else as it is built (`rt run` in crates/asn1_certificate builds
it). What it tells of all files at once has to be examples/departures/answers.txt. With `--strict` each warning of a departure has to
be an error. The names that it writes of some have to be those of examples/departures/names.txt. Of OpenSSL's certificates it has to
tell nothing, with `--strict` too, and to write what is stored beside them. With `--openssl` each file is also given to
`openssl asn1parse` and `openssl x509`, and their answers have to be those of examples/departures/openssl.txt, and the names by
`openssl x509` those of names.txt. The status is 0 if all is as it has to be.
"""
import pathlib
import subprocess
import sys

TOP = pathlib.Path(__file__).resolve().parent.parent
CRATE = TOP / "crates" / "asn1_certificate"
DEPARTURES = TOP / "examples" / "departures"
CERTIFICATES = TOP / "examples" / "certificates"


def run(paths, *options):
    """What the program writes, what it tells, and its status, for files and options."""
    if "--try" in sys.argv:
        data = [word for path in paths for word in ("--data", f"{path.name}={path}")]
        words = ["rt", "try", *data, "--", *options, *(path.name for path in paths)]
        ran = subprocess.run(words, cwd=CRATE, stdout=subprocess.PIPE, stderr=subprocess.STDOUT, text=True)
        lines = ran.stdout.splitlines(keepends=True)
        told = "".join(line for line in lines if ": warning: " in line or ": error: " in line)
        written = "".join(line for line in lines if line not in told and not line.startswith(("checked:", "run=")))
        return written, told, ran.returncode
    words = [CRATE / "out" / "asn1_certificate", *options, *(path.name for path in paths)]
    ran = subprocess.run(words, cwd=paths[0].parent, capture_output=True, text=True)
    return ran.stdout, ran.stderr, ran.returncode


def strict(line):
    """A message with --strict: a departure from DER is an error, and a character outside an alphabet is none."""
    return line if line.endswith(" (X.680, 41.4)\n") else line.replace(" warning: ", " error: ")


def names_in(path, written):
    """The lines of a report that have names, as names.txt has them."""
    fields = [line.partition(":") for line in written.splitlines()]
    return "".join(f"{path.name}: {field}={name.strip()}\n" for field, _, name in fields if field in ("subject", "issuer"))


def names_by_openssl(path):
    """The names of a certificate as OpenSSL writes them."""
    words = ["openssl", "x509", "-inform", "DER", "-in", path, "-noout", "-subject", "-issuer", "-nameopt", "RFC2253"]
    lines = subprocess.run(words, capture_output=True, text=True).stdout.splitlines(keepends=True)
    return "".join(f"{path.name}: {line}" for line in lines)


def openssl_line(path):
    """A line with the answers of OpenSSL about a file."""
    form = "PEM" if path.suffix == ".pem" else "DER"
    answers = []
    for words in ["asn1parse"], ["x509", "-noout"]:
        ran = subprocess.run(["openssl", *words, "-inform", form, "-in", path], capture_output=True)
        answers.append("taken" if ran.returncode == 0 else "refused")
    return f"{path.name}: asn1parse {answers[0]}, x509 {answers[1]}\n"


def main():
    faults = 0

    def expect(what, given, wanted):
        nonlocal faults
        if given != wanted:
            faults += 1
            print(f"{what}: {given!r} in place of {wanted!r}")

    answers = (DEPARTURES / "answers.txt").read_text()
    departures = [DEPARTURES / name for name in dict.fromkeys(line.split(":")[0] for line in answers.splitlines())]
    _, told, status = run(departures)
    expect("what is told", told, answers)
    expect("the status", status, 1)
    _, told, status = run(departures, "--strict")
    lines = answers.splitlines(keepends=True)
    expect("what is told with --strict", told, "".join(map(strict, lines)))
    expect("the status with --strict", status, 1)
    names = (DEPARTURES / "names.txt").read_text()
    named = [DEPARTURES / name for name in dict.fromkeys(line.split(":")[0] for line in names.splitlines())]
    expect("the names", "".join(names_in(path, run([path])[0]) for path in named), names)
    made = sorted(CERTIFICATES.glob("*.der")) + sorted(CERTIFICATES.glob("*.pem"))
    for options in [], ["--strict"]:
        for path in made:
            written, told, status = run([path], *options)
            expect(f"{path.name} {options}", (written, told, status), (path.with_suffix(".txt").read_text(), "", 0))
    if "--try" not in sys.argv:
        _, told, status = run([DEPARTURES / "none.der"])
        expect("a file that is not there", (told.startswith("none.der: error: "), status), (True, 2))
        _, told, status = run([DEPARTURES / "critical-false.der"], "--unknown")
        expect("an unknown argument", (told.startswith("error: "), status), (True, 2))
        written, told, status = run([DEPARTURES / "critical-false.der"], "--help")
        expect("help", ("--strict" in written, told, status), (True, "", 0))
    if "--openssl" in sys.argv:
        lines = "".join(openssl_line(path) for path in departures)
        expect("what OpenSSL answers", lines, (DEPARTURES / "openssl.txt").read_text())
        expect("the names by OpenSSL", "".join(map(names_by_openssl, named)), names)
    print(f"{len(departures)} files that depart, have other characters or are damaged, {len(made)} of OpenSSL: {faults} faults")
    return faults > 0


if __name__ == "__main__":
    sys.exit(main())
