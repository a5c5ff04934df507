#!/usr/bin/env python3
"""Measures the codecs beside libraries that one would take instead, and prints a table in Markdown.

    python3 bench/peers.py [FOLDER]

takes the programs measure_codecs and measure_certificates of this folder, or proves and builds them. It builds plain Rust of bench/, and
the programs of bench/peers, each over a library of Debian. All are given the same octets: the certificates of examples/certificates, lists
of 1000 values, a chain of 200 nodes, and a message of LDAP with an entry of 20 attributes, each of two values. The packed codec is
compared with plain Rust alone.

A cell has the instructions for one certificate, value, node or message, less those of a run without it; in brackets it has ours over those.
A star stands where a library writes other octets than ours. It needs valgrind, rustc, cargo and gcc, and for the libraries
librust-asn1-dev, librust-asn1-derive-dev, librust-bcder-dev, libmbedtls-dev, libssl-dev, libldap-dev and asn1c. Without its packages a
library has no column, and a line says which are not installed.
"""
import collections
import functools
import os
import pathlib
import subprocess
import sys
import tempfile

import measure
from vectors import element

ROOT = pathlib.Path(measure.ROOT)
SOURCES = ROOT / "bench" / "peers"
REGISTRY = "/usr/share/cargo/registry"

# What a program says that has no writer.
NOTHING_WRITTEN = "0 bytes, checksum 0\n"

# The packages of Debian that a program needs.
PACKAGES = {
    "asn1": ["librust-asn1-dev", "librust-asn1-derive-dev"],
    "bcder": ["librust-bcder-dev"],
    "mbedtls": ["libmbedtls-dev"],
    "openssl": ["libssl-dev"],
    "liblber": ["libldap-dev"],
    "asn1c_x509": ["asn1c"],
    "asn1c_samples": ["asn1c"],
    "asn1c_ldap": ["asn1c"],
}
# What it is built with: crates; arguments of gcc; or arguments of asn1c, with modules.
CRATES = {"asn1": ["asn1"], "bcder": ["bcder", "bytes"]}
LIBRARIES = {"mbedtls": ["-lmbedx509", "-lmbedcrypto"], "openssl": ["-lcrypto"], "liblber": ["-llber"]}
MODULES = {
    "asn1c_x509": ["-fwide-types", ROOT / "examples/modules/x509.asn1"],
    "asn1c_samples": ["-fnative-types", ROOT / "bench/samples.asn1", SOURCES / "lists.asn1"],
    "asn1c_ldap": ["-fnative-types", "-fcompound-names", ROOT / "examples/modules/ldap.asn1"],
}

MANIFEST = """[package]
name = "{name}_peer"
version = "0.0.0"
edition = "2024"

[dependencies]
{crates}

[[bin]]
name = "{name}"
path = "{source}"
"""

CONFIG = """[source.crates-io]
replace-with = "debian"

[source.debian]
directory = "{registry}"

[build]
rustflags = ["-C", "target-cpu={processor}"]
"""


def codecs(program, **forms):
    """The calls of a program that makes its values, with the form in which it has each codec."""
    values = {"persons": "person 1000", "badges": "badge 1000", "node": "node 200"}
    return {f"{kind}-{codec}": f"{program} {form} ACTION {value} TIMES" for kind, value in values.items() for codec, form in forms.items()}


def peer(program, kinds, end=""):
    """The calls of a program of bench/peers, which has the same names for kinds of values, but for their ends."""
    return {kind: f"{program} {kind}{end} READS WRITES" for kind in kinds}


# The columns: the calls for each kind of values.
OURS = "Ours"
COLUMNS = {
    OURS: {"certificate": "measure_certificates READS WRITES", **codecs("measure_codecs", der="der", ber="ber", packed="packed")},
    "Plain Rust": {"certificate": "plain_certificates READS WRITES", **codecs("plain_codecs", der="der", ber="der", packed="packed")},
    "`asn1`, borrowed": peer("asn1", ["certificate", "persons-der", "node-der"]),
    "`asn1`, owned": peer("asn1", ["certificate", "persons-der", "node-der"], "-owned"),
    "`bcder`": peer(
        "bcder", ["certificate", "persons-der", "persons-ber", "badges-der", "badges-ber", "node-der", "node-ber", "entry-ber"]
    ),
    "mbedTLS": peer("mbedtls", ["certificate"]),
    "OpenSSL": peer("openssl", ["certificate"], "-x509"),
    "OpenSSL, templates": peer("openssl", ["certificate"], "-template"),
    "liblber": peer("liblber", ["entry-ber"]),
    "asn1c": {
        "certificate": "asn1c_x509 Certificate READS WRITES",
        "persons-ber": "asn1c_samples Persons READS WRITES",
        "badges-ber": "asn1c_samples Badges READS WRITES",
        "node-ber": "asn1c_samples Node READS WRITES",
        "entry-ber": "asn1c_ldap LDAPMessage READS WRITES",
    },
}


def scalar(number, contents, tag_class=0):
    """A primitive element."""
    return element((tag_class, number), False, contents)


def scope(number, *elements, tag_class=0):
    """A constructed element."""
    return element((tag_class, number), True, b"".join(elements))


def integer(value, number=2, tag_class=0):
    """An INTEGER that is not negative."""
    return scalar(number, value.to_bytes(value.bit_length() // 8 + 1, "big"), tag_class)


def person(number):
    names = b"Ann", b"Bartholomew", b"", b"Christina of Sweden"
    return scope(16, integer(number), scalar(12, names[number % 4]))


def badge(number):
    if number % 2 == 0:
        return scope(17, integer(number), integer(number, 0, tag_class=2))
    return scope(17, scalar(1, b"\xff"), integer(number), scalar(26, b"visitor"))


def node(levels):
    octets = scope(16, scope(16))
    for _ in range(levels):
        octets = scope(16, scope(16, octets))
    return octets


def attribute(number):
    values = (scalar(4, b"value %d of attribute %02d" % (value, number)) for value in range(2))
    return scope(16, scalar(4, b"attribute%02d" % number), scope(17, *values))


def entry(attributes):
    name = scalar(4, b"uid=ann,ou=people,dc=example,dc=org")
    return scope(16, integer(2), scope(4, name, scope(16, *map(attribute, range(attributes))), tag_class=1))


# A row: the kind of values, their octets, how many they are, and how often they are read or written.
Row = collections.namedtuple("Row", "title kind octets count times")


def rows():
    """The rows of the table."""
    for path in sorted(ROOT.glob("examples/certificates/*.der")):
        yield Row(f"certificate `{path.stem}`", "certificate", path.read_bytes(), 1, 10)
    persons, badges = (scope(16, *map(value, range(1000))) for value in (person, badge))
    values = {"`Person`": ("persons", persons, 1000), "`Badge`": ("badges", badges, 1000), "chain of `Node`": ("node", node(200), 200)}
    for title, (kind, octets, count) in values.items():
        for codec in "DER", "BER", "packed":
            yield Row(f"{title}, {codec}", f"{kind}-{codec.lower()}", octets, count, 1)
    yield Row("entry of LDAP, BER", "entry-ber", entry(20), 1, 10)


def is_installed(package):
    """Whether a package of Debian is installed."""
    state = subprocess.run(["dpkg-query", "-W", "-f", "${Status}", package], capture_output=True, text=True)
    return state.stdout == "install ok installed"


def build_rust(folder, name):
    """Builds a program over crates."""
    place = folder / f"{name}_peer"
    (place / ".cargo").mkdir(parents=True)
    crates = "\n".join(f'{crate} = "*"' for crate in CRATES[name])
    (place / "Cargo.toml").write_text(MANIFEST.format(name=name, crates=crates, source=SOURCES / f"{name}.rs"))
    (place / ".cargo" / "config.toml").write_text(CONFIG.format(registry=REGISTRY, processor=measure.PROCESSOR))
    subprocess.run(["cargo", "build", "--release", "--offline", "--quiet"], cwd=place, check=True)
    (place / "target" / "release" / name).rename(folder / name)


def build_c(folder, name, source, arguments):
    """Builds a program over a library of C."""
    words = ["gcc", "-O2", f"-march={measure.PROCESSOR}", SOURCES / f"{source}.c", *arguments, "-o", folder / name]
    subprocess.run(words, check=True)


def build_asn1c(folder, name):
    """Builds a program over what asn1c makes of modules."""
    place = folder / f"{name}_peer"
    place.mkdir()
    subprocess.run(["asn1c", "-pdu=all", *MODULES[name]], cwd=place, check=True, capture_output=True)
    files = [path for path in place.glob("*.c") if path.name != "converter-sample.c"]
    build_c(folder, name, "asn1c", ["-w", f"-I{place}", *files])


def build(folder):
    """Builds all programs but ours whose packages are installed, and says which are not."""
    for name in "plain_codecs", "plain_certificates":
        measure.plain_rust(folder, name)
    for name, packages in PACKAGES.items():
        if absent := [package for package in packages if not is_installed(package)]:
            print(f"{name}: not installed: {', '.join(absent)}", file=sys.stderr)
        elif name in CRATES:
            build_rust(folder, name)
        elif name in MODULES:
            build_asn1c(folder, name)
        else:
            build_c(folder, name, name, LIBRARIES[name])


def words_of(folder, call, action, times):
    """The words of a call that reads or writes as many times."""
    program, *words = call.split()
    numbers = {"ACTION": action, "TIMES": times, "READS": times if action == "read" else 0, "WRITES": times if action == "write" else 0}
    return (folder / program, *(str(numbers.get(word, word)) for word in words))


@functools.cache
def instructions(words, path):
    """How many instructions a call takes."""
    return measure.instructions(words, path)


def cost(folder, call, action, path, row):
    """The instructions for each of the values."""
    most, none = (instructions(words_of(folder, call, action, times), path) for times in (row.times, 0))
    return (most - none) / row.times / row.count


def said(folder, call, path):
    """What a program says about the octets that it writes, or None if it refuses the input."""
    try:
        text = measure.answer(words_of(folder, call, "read", 0), path)
    except subprocess.CalledProcessError as error:
        text = error.stdout.decode()
    if text == "not understood\n":
        sys.exit(f"{call}: {text}")
    return text if "checksum" in text else None


def cells(folder, columns, row, path, action):
    """The texts of a row for an action, one for each column."""
    calls = {title: calls[row.kind] for title, calls in columns.items() if row.kind in calls}
    answers = {title: said(folder, call, path) for title, call in calls.items()}
    able = [title for title, answer in answers.items() if answer and (action == "read" or answer != NOTHING_WRITTEN)]
    costs = {title: cost(folder, calls[title], action, path, row) for title in able}
    return [cell(title, answers, costs) for title in columns]


def cell(title, answers, costs):
    """The text of a column."""
    if title in costs:
        ratio = f" ({costs[OURS] / costs[title]:.2f})" if OURS in costs and title != OURS else ""
        star = "\\*" if OURS in answers and answers[title] not in (answers[OURS], NOTHING_WRITTEN) else ""
        return f"{costs[title]:,.0f}{ratio}{star}"
    if title in answers and not answers[title]:
        return "refused"
    return "no program" if title == OURS else ""


def main():
    if {"-h", "--help"} & set(sys.argv):
        return print(__doc__.strip())
    with tempfile.TemporaryDirectory() as place:
        folder = pathlib.Path(place)
        measure.link_ours(folder, ["measure_codecs", "measure_certificates"], sys.argv[1:])
        build(folder)
        built = set(os.listdir(folder))
        columns = {title: calls for title, calls in COLUMNS.items() if {call.split()[0] for call in calls.values()} <= built}
        measure.print_head(["", "", *columns])
        for row in rows():
            path = folder / "octets"
            path.write_bytes(row.octets)
            instructions.cache_clear()
            for action, done in ("read", "read"), ("write", "written"):
                measure.print_row([row.title, done, *cells(folder, columns, row, path, action)])


if __name__ == "__main__":
    main()
