#!/usr/bin/env python3
"""Compiles the modules of examples/modules with asn1_compile, and compares the crates that are made of them with what it prints.

    bench/compile.py [--try] [--prove NAME] [--round-trip NAME] [--layout NUMBER] [--refuse] [--damaged NUMBER] [--time]

The program is the one that is built (`rt run` in crates/asn1_compile builds it), or with `--try` it is run before its proof, by
`rt try`. Each module has to compile. Where a crate of the table is in crates/, its src/, specs/ and proofs/ have to be the files that are
printed, and those that the table has as written by hand; its lib.rt then has each line of code that is printed, and more. The
crates greetings_convert and greetings_c have to be what `--program` and `--exports` print. Then the program is run on wrong arguments,
on modules with an error, and with `--out` and `--check`.

With `--prove` the types of one module, as `snmp`, are put into a clone in a temporary folder, with the libraries that are built here
and with their line in crates.txt; `rt fmt` has to leave them as they are, and `rt check` has to prove them. With `--round-trip` a
program beside them in such a clone reads values of these types in DER and writes them again: each has to come back as the octets that
were read. The values are the lines of NAME.der.txt, and for certificates those of examples/certificates. `rt try` runs the program.

With `--layout` modules of types with random names, the first from this number and three more, are printed, and `rt fmt` has to leave
the files as they are.

With `--refuse` each growth of memory of one run is refused in turn (bench/refuse.rs): the program has to end with the status 2 and
without a file, or with all of them.

With `--damaged` so many modules are compiled, each one of examples/modules with one to three faults of some kinds: a word that is left
out, doubled, exchanged with another or cut, an octet that is another, an end that is missing. The program has to end within a minute, with
the status 0, or with 1 and an error; each line that it tells begins with the place in the text.

With `--time` large modules of some shapes are compiled, each in two sizes, of which one is ten times the other: the time has to be in
line with the size. Beside it is that of asn1c and of Erlang's compiler, if they are there.

The status is 0 if all is as it has to be.
"""
import collections
import contextlib
import itertools
import os
import pathlib
import random
import re
import shutil
import subprocess
import sys
import tempfile
import time

TOP = pathlib.Path(__file__).resolve().parent.parent
CRATES = TOP / "crates"
PROGRAM = CRATES / "asn1_compile"
MODULES = TOP / "examples" / "modules"

# The types of certificates that their extensions name, and those that the Cryptographic Message Syntax names.
NAMED = ["CertificateSerialNumber", "DirectoryString", "Name"]
SIGNED = [*NAMED, "AlgorithmIdentifier", "Certificate", "Extensions", "PKIX1Explicit88.Time", "UniqueIdentifier", "Version"]

# The types of certificates that the modules of their status name.
ASKED = [*NAMED, "AlgorithmIdentifier", "Certificate", "Extensions"]

# A file of examples/modules: the crate, what the program is told of types that exist already, and the crates of these.
TABLE = {
    "badges": ("badges", [], ["asn1_tables"]),
    "certificates": ("certificates", [], ["asn1_contents"]),
    "circle_forms": ("circle_forms", [], []),
    "circles": ("circles", [], []),
    "cms": ("cms", [*(f"--extern={name}=asn1_x509::{name.split('.')[-1]}" for name in SIGNED),
                    "--extern=GeneralNames=asn1_x509_extensions::GeneralNames"], ["asn1_x509", "asn1_x509_extensions"]),
    "contents": ("contents", [], ["asn1_contents"]),
    "expressions": ("expressions", [], []),
    "externals": ("externals", [], []),
    "folders": ("folders", [], []),
    "greetings": ("greetings", [], []),
    "ldap": ("asn1_ldap", [], []),
    "operations": ("operations", [], ["asn1_tables"]),
    "queries": ("queries", [], []),
    "signals": ("signals", [], ["asn1_tables"]),
    "spelling_forms": ("spelling_forms", [], ["asn1_contents"]),
    "snmp": ("snmp", [], []),
    "status": ("status", [*(f"--extern={name}=asn1_x509::{name}" for name in ASKED),
                          "--extern=GeneralName=asn1_x509_extensions::GeneralName"], ["asn1_x509", "asn1_x509_extensions"]),
    "tickets": ("tickets", [], []),
    "workshop": ("workshop", [], ["asn1_tables"]),
    "x509": ("asn1_x509", [], ["asn1_contents"]),
    "x509_extensions": ("asn1_x509_extensions", [f"--extern={name}=asn1_x509::{name}" for name in NAMED], ["asn1_x509"]),
}

# The files of src/, and the folders of specs and proofs, that are written by hand in crates that are printed otherwise.
BY_HAND = {
    "asn1_x509": ("src/laws.rt", "src/signed.rt", "src/valid.rt", "specs/", "proofs/laws/"),
    "asn1_x509_extensions": ("src/laws.rt", "src/valid.rt", "specs/", "proofs/"),
}

# As many scopes as a value may nest.
DEPTH = 512

faults = 0


def expect(what, given, wanted):
    """Tells a difference."""
    global faults
    if given != wanted:
        faults += 1
        print(f"{what}: {given!r} in place of {wanted!r}")


def run(arguments, text=""):
    """What the program writes, what it tells, and its status."""
    if "--try" in sys.argv:
        words = ["rt", "try", "--", *arguments]
        ran = subprocess.run(words, cwd=PROGRAM, input=text, stdout=subprocess.PIPE, stderr=subprocess.PIPE, text=True)
        told = "".join(line for line in ran.stderr.splitlines(keepends=True) if not line.startswith(("checked:", "run=")))
        return ran.stdout, told, ran.returncode
    ran = subprocess.run([PROGRAM / "out" / "asn1_compile", *arguments], input=text, capture_output=True, text=True)
    return ran.stdout, ran.stderr, ran.returncode


def files_of(listing):
    """The files of standard output, by their paths."""
    files = {}
    for part in ("\n" + listing).split("\n=== ")[1:]:
        path, _, text = part.partition("\n")
        files[path] = text + "\n" if text and not text.endswith("\n") else text
    return files


def printed(name):
    """The files that are printed for a module, by their paths; none if it does not compile."""
    crate, externs, _ = TABLE[name]
    written, told, status = run([crate, *externs], (MODULES / f"{name}.asn1").read_text())
    errors = [line for line in told.splitlines() if ": warning: " not in line]
    expect(f"{name}.asn1: errors and status", (errors, status), ([], 0))
    files = files_of(written)
    print(f"{name}.asn1: {len(files)} files, {len(told.splitlines()) - len(errors)} warnings")
    return files


def code_of(text):
    """The lines of a file that are no comments."""
    return [line for line in text.splitlines() if not line.lstrip().startswith("//")]


def is_printed(path, found, printed, by_hand):
    """Whether a file is what is printed; of a crate with files by hand, whether lib.rt has its lines of code."""
    if path == "src/lib.rt" and by_hand:
        return set(code_of(printed)) <= set(code_of(found))
    return found == printed


def compare(crate, files):
    """Compares the files of a crate with what is printed."""
    folder = CRATES / crate
    by_hand = BY_HAND.get(crate, ())
    found = {str(path.relative_to(folder)): path.read_text()
             for part in ("src", "specs", "proofs") for path in sorted((folder / part).rglob("*")) if path.is_file()}
    printed_paths = [path for path in found if path in files or not path.startswith(by_hand)]
    expect(f"the files of {crate}", sorted(printed_paths), sorted(files))
    for path in sorted(found.keys() & files.keys()):
        if not is_printed(path, found[path], files[path], by_hand):
            expect(f"{crate}/{path}", "other text", "what is printed")


def compare_beside():
    """Compares the program and the calls of greetings, which are printed beside the crate, with the crates that are stored."""
    written, told, status = run(["greetings", "--program", "--exports"], (MODULES / "greetings.asn1").read_text())
    expect("greetings with --program and --exports", (told, status), ("", 0))
    files = {path[3:]: text for path, text in files_of(written).items() if path.startswith("../")}
    print(f"greetings: {len(files)} files beside the crate")
    found = {str(path.relative_to(CRATES)) for name in ("greetings_convert", "greetings_c")
             for path in (CRATES / name).rglob("*") if path.is_file() and "out" not in path.parts}
    expect("the files beside greetings", sorted(found & files.keys()), sorted(files))
    for path in sorted(found & files.keys()):
        if (CRATES / path).read_text() != files[path]:
            expect(f"crates/{path}", "other text", "what is printed")


def lay(folder, files):
    """Writes files into a folder."""
    for path, text in files.items():
        (folder / path).parent.mkdir(parents=True, exist_ok=True)
        (folder / path).write_text(text)


def link(source, target):
    """A file of one folder in another: the same one where both are on one disk."""
    try:
        os.link(source, target)
    except OSError:
        shutil.copy2(source, target)


@contextlib.contextmanager
def clone_with(name, files):
    """A clone in a temporary folder, with the types of a module."""
    crate, _, libraries = TABLE[name]
    with tempfile.TemporaryDirectory() as place:
        clone = pathlib.Path(place) / "clone"
        subprocess.run(["git", "clone", "-q", "--no-hardlinks", TOP, clone], check=True)
        for built in CRATES.glob("*/out/rlib"):
            if (clone / "crates" / built.parent.parent.name).is_dir():
                shutil.copytree(built, clone / built.relative_to(TOP), copy_function=link)
        shutil.rmtree(clone / "crates" / crate, ignore_errors=True)
        lay(clone / "crates" / crate, files)
        lines = [line for line in (clone / "crates.txt").read_text().splitlines() if not line.startswith(f"{crate}:")]
        circles = ["asn1_circles"] if any(path.startswith("specs/") for path in files) else []
        lawful = any(path.endswith("_has_one_spelling/Answers.antt") for path in files)
        laws = ["asn1_model", "asn1_slots", "asn1_spelling"] if lawful else []
        lines.append(" ".join([f"{crate}: asn1_schema asn1_tags", *circles, *laws, *libraries]))
        (clone / "crates.txt").write_text("\n".join(lines) + "\n")
        yield clone


def prove(crate, files, clone):
    """Proves the types of a module in a clone."""
    folder = clone / "crates" / crate
    subprocess.run(["rt", "fmt"], cwd=folder, check=True, stdout=subprocess.DEVNULL)
    for path, text in files.items():
        expect(f"{crate}/{path} after rt fmt", (folder / path).read_text() == text, True)
    ran = subprocess.run(["rt", "check", "--jobs", "1"], cwd=folder, stdout=subprocess.PIPE, stderr=subprocess.STDOUT, text=True)
    print("".join(line for line in ran.stdout.splitlines(keepends=True) if "no proof" in line or line.startswith("logic=")), end="")
    expect(f"the status of rt check on {crate}", ran.returncode, 0)


def values_of(name):
    """Values of the types of a module in DER: for each the name of its type in Rust, and its octets in hexadecimal."""
    if name in ("certificates", "x509"):
        return [("Certificate", path.read_bytes().hex()) for path in sorted((TOP / "examples" / "certificates").glob("*.der"))]
    text = (MODULES / f"{name}.der.txt").read_text()
    return [tuple(line.split(" ")) for line in text.splitlines() if line and not line.startswith("#")]


# A program that reads lines with a type and the octets of a value, and prints the octets of the same value written again.
ROUND_TRIP = """//! Writes again each value that it reads.
#![tactic(auto)]

use asn1_der::DerRules;
use asn1_schema::{{Decode, Encode, Rules}};
use std::alloc::Global;
use std::io::{{self, BufRead, BufReader}};

fn main(rt: HostRuntime) -> io::Result<()> {{
    let alloc = rt.alloc();
    for line in BufReader::new(alloc, rt.reader())?.lines(alloc) {{
        let line = line?;
        let (name, digits) = match line.as_str().split_once(' ') {{
            Some(parts) => parts,
            None => return println!(rt; "no type and octets"),
        }};
        match name {{
{arms}
            _ => println!(rt; "no type")?,
        }}
    }}
    Ok(())
}}

fn print_again<T: Encode + Decode>(rt: &impl Print, alloc: Global, digits: &str) -> io::Result<()> {{
    let octets = match hex::decode(alloc, digits) {{
        Ok(octets) => octets,
        Err(error) => return println!(rt; "no octets: {{error}}"),
    }};
    let der = DerRules::new(alloc);
    let value: T = match der.read_value(&octets, {depth}) {{
        Ok(value) => value,
        Err(error) => return println!(rt; "not read: {{error}}"),
    }};
    match der.write_value(&value, {depth}) {{
        Ok(written) => println!(rt; "{{}}", hex::encode(alloc, &written)?),
        Err(error) => println!(rt; "not written: {{error}}"),
    }}
}}
"""


def round_trip_program(name):
    """The program for the values of a module."""
    crate = TABLE[name][0]
    types = sorted({type_name for type_name, _ in values_of(name)})
    arms = "\n".join(f'            "{it}" => print_again::<{crate}::{it}>(&rt, alloc, digits)?,' for it in types)
    return ROUND_TRIP.format(arms=arms, depth=DEPTH)


def round_trip(name, clone):
    """Reads values of the types of a module in a clone, and writes them again."""
    lay(clone / "crates" / "round_trip", {"src/main.rt": round_trip_program(name)})
    with (clone / "crates.txt").open("a") as lines:
        lines.write(f"round_trip: asn1_schema asn1_der {TABLE[name][0]} hex\n")
    values = values_of(name)
    text = "".join(f"{type_name} {octets}\n" for type_name, octets in values)
    ran = subprocess.run(["rt", "try"], cwd=clone / "crates" / "round_trip", input=text, capture_output=True, text=True)
    if ran.returncode:
        print(ran.stderr, end="")
    written = ran.stdout.splitlines()
    for number, (type_name, octets) in enumerate(values):
        expect(f"{name}: value {number + 1}, {type_name}, written again", written[number] if number < len(written) else "", octets)
    print(f"{name}: {len(values)} values")


# Types that need no other.
PLAIN = ["BOOLEAN", "INTEGER", "INTEGER (0..255)", "INTEGER (-5..70000)", "NULL", "OCTET STRING", "BIT STRING", "OBJECT IDENTIFIER",
         "UTF8String", "PrintableString (SIZE (1..64))", "GeneralizedTime", "SEQUENCE OF INTEGER", "SET OF SEQUENCE OF INTEGER (0..100000)"]


class Module:
    """A module of types with random names."""

    def __init__(self, number, count):
        self.random = random.Random(number)
        self.types, self.enumerations, lines = list(PLAIN), [], []
        for index in range(count):
            name = self.name(index)
            name = name[0].upper() + name[1:]
            lines.append(f"{name} ::= {self.definition(name)}")
            self.types.append(name)
        for index in range(count // 8):
            arcs = " ".join(str(self.random.randrange(100000)) for _ in range(self.random.randrange(20)))
            lines.append(f"{self.name(index)}Value OBJECT IDENTIFIER ::= {{ 1 2 {arcs} }}")
        self.text = "\n".join(["Generated DEFINITIONS AUTOMATIC TAGS ::= BEGIN", *lines, "END", ""])

    def name(self, index):
        """A name that ends with a number."""
        words = ("".join(self.random.choices("abcdefghijklmnopqrstuvwxyz", k=self.random.randrange(1, 9))) for _ in range(self.random.randrange(1, 4)))
        return "q" + "".join(word.capitalize() for word in words) + str(index)

    def definition(self, name):
        """A type."""
        kind = self.random.choice(["SEQUENCE", "SEQUENCE", "SET", "CHOICE", "ENUMERATED", "alias", "tag"])
        if kind == "alias":
            return self.random.choice(["", "SEQUENCE OF ", "SET OF "]) + self.random.choice(self.types)
        if kind == "tag":
            return f"[APPLICATION {self.random.randrange(99)}] EXPLICIT SEQUENCE {{ {self.name(0)} NULL }}"
        parts = [self.part(kind, index) for index in range(self.random.randrange(1, 16))]
        if kind == "ENUMERATED":
            self.enumerations.append((name, parts))
        if self.random.random() < 0.4:
            parts = [*parts, "...", *(self.part(kind, index + 20) for index in range(self.random.randrange(3)))]
            if kind == "SEQUENCE":
                parts.append(f"[[ {self.part('SET', 30)}, {self.part('SET', 31)} ]]")
        return f"{kind} {{ {', '.join(parts)} }}"

    def part(self, kind, index):
        """A component, an alternative or an item."""
        name = self.name(index)
        if kind == "ENUMERATED":
            return name
        usage = self.random.random() if kind != "CHOICE" else 1
        if usage < 0.3 and self.enumerations:
            enumeration, items = self.random.choice(self.enumerations)
            return f"{name} {enumeration} DEFAULT {self.random.choice(items)}"
        return f"{name} {self.random.choice(self.types)}{' OPTIONAL' if usage < 0.5 else ''}"


def lay_out(number):
    """Prints a generated module, which `rt fmt` has to leave as it is."""
    written, told, status = run(["generated"], Module(number, 60).text)
    expect(f"module {number}: errors and status", ([line for line in told.splitlines() if ": warning: " not in line], status), ([], 0))
    files = files_of(written)
    with tempfile.TemporaryDirectory() as place:
        top = pathlib.Path(place)
        (top / "crates.txt").write_text("generated: asn1_schema asn1_tags\n")
        subprocess.run(["git", "init", "-q", "."], cwd=top, check=True)
        lay(top / "crates" / "generated", files)
        subprocess.run(["rt", "fmt"], cwd=top / "crates" / "generated", check=True, stdout=subprocess.DEVNULL)
        for path, text in files.items():
            expect(f"module {number}: {path} after rt fmt", (top / "crates" / "generated" / path).read_text() == text, True)
    print(f"module {number}: {len(files)} files")


def refuse_growths():
    """Refuses each growth of a run."""
    text = (MODULES / "greetings.asn1").read_text()
    whole = len(files_of(run(["greetings"], text)[0]))
    with tempfile.TemporaryDirectory() as place:
        library, folder = pathlib.Path(place) / "librefuse.so", pathlib.Path(place) / "greetings"
        subprocess.run(["rustc", "-O", "--edition", "2024", "--crate-type", "cdylib", TOP / "bench" / "refuse.rs", "-o", library], check=True)
        for number in itertools.count(1):
            shutil.rmtree(folder, ignore_errors=True)
            ran = subprocess.run([PROGRAM / "out" / "asn1_compile", "greetings", "--out", folder], input=text, capture_output=True,
                                 text=True, env={"LD_PRELOAD": str(library), "REFUSED": str(number)})
            files = sum(path.is_file() for path in folder.rglob("*"))
            if "a growth is refused" not in ran.stderr:
                expect("no growth refused: status and files", (ran.returncode, files), (0, whole))
                break
            expect(f"growth {number}: status and files", (ran.returncode, files) in ((2, 0), (0, whole)), True)
    print(f"{number - 1} growths refused")


def damaged(text, chance):
    """A text with a fault."""
    words = re.findall(rb"\s+|--[^\n]*|[\w.-]+|.", text)
    at, other = (chance.randrange(len(words)) for _ in range(2))
    kind = chance.randrange(6)
    if kind == 0:
        del words[at]
    elif kind == 1:
        words.insert(at, words[at])
    elif kind == 2:
        words[at], words[other] = words[other], words[at]
    elif kind == 3:
        words[at] = words[at][:len(words[at]) // 2]
    elif kind == 4:
        words[at] = bytes([chance.randrange(256)]) + words[at][1:]
    else:
        del words[at:]
    return b"".join(words)


def compile_damaged(count):
    """Compiles modules with faults."""
    chance, ended = random.Random(1), collections.Counter()
    for number in range(count):
        name = chance.choice(sorted(TABLE))
        text = (MODULES / f"{name}.asn1").read_bytes()
        for _ in range(chance.randint(1, 3)):
            text = damaged(text, chance) if text else text
        try:
            ran = subprocess.run([PROGRAM / "out" / "asn1_compile", "x"], input=text, capture_output=True, timeout=60)
        except subprocess.TimeoutExpired:
            expect(f"module {number}, of {name}", "no end", "an end")
            continue
        told = ran.stderr.decode(errors="replace").splitlines()
        places = [bool(re.match(r"-:\d+:\d+: ", line)) for line in told]
        errors = [line for line in told if not re.match(r"-:\d+:\d+: warning: ", line)]
        ended[ran.returncode] += 1
        expect(f"module {number}, of {name}", (ran.returncode in (0, 1), all(places), bool(errors), bool(ran.stdout)),
               (True, True, ran.returncode == 1, ran.returncode == 0))
    print(f"{ended[0]} compiled, {ended[1]} refused")


def object_of(number, count):
    """An object; in front of the first its class, a type, and the set of all objects, which the type names."""
    own = f"o{number} ITEM ::= {{ &id {number}, &Type NULL }}"
    if number:
        return own
    objects = " | ".join(f"o{other}" for other in range(count))
    return ("ITEM ::= CLASS { &id INTEGER (0..65535) UNIQUE, &Type }\n"
            f"Holder ::= SEQUENCE {{ id ITEM.&id ({{Items}}), value ITEM.&Type ({{Items}}{{@id}}) }}\nItems ITEM ::= {{ {objects} }}\n{own}")


# The definition of a number of a large module, by the shape of the module: components of a type that follows, aliases one of another,
# values one of another, names that are not defined, types that hold one that holds itself, and objects of one set.
SHAPES = {
    "components": lambda number, count: f"T{number} ::= SEQUENCE {{ a INTEGER (0..255), b OCTET STRING OPTIONAL, c T{(number + 1) % count}Ref }}\n"
                                        f"T{number}Ref ::= UTF8String",
    "aliases": lambda number, count: f"A{number} ::= " + (f"A{number + 1}" if number + 1 < count else "INTEGER"),
    "values": lambda number, count: f"v{number} INTEGER ::= " + (f"v{number + 1}" if number % 50 < 49 and number + 1 < count else "5"),
    "names": lambda number, _: f"T{number} ::= SEQUENCE {{ a Missing{number}, b BOOLEAN }}",
    "circles": lambda number, _: f"T{number} ::= " + ("SEQUENCE { a INTEGER, b T0 OPTIONAL }" if number else "CHOICE { end NULL, link T0 }"),
    "objects": object_of,
}


def large_module(shape, count):
    """A module of this shape with as many definitions."""
    lines = "\n".join(SHAPES[shape](number, count) for number in range(count))
    return f"Large DEFINITIONS AUTOMATIC TAGS ::= BEGIN\n{lines}\nEND\n"


def seconds_of(words, folder):
    """How long a program runs in a folder."""
    start = time.monotonic()
    subprocess.run(words, cwd=folder, capture_output=True)
    return time.monotonic() - start


def time_large_modules():
    """Times large modules, each beside one with a tenth of its definitions."""
    for shape in SHAPES:
        took = []
        for count in 2000, 20000:
            with tempfile.TemporaryDirectory() as place:
                file = pathlib.Path(place) / "Large.asn1"
                file.write_text(large_module(shape, count))
                took.append(seconds_of([PROGRAM / "out" / "asn1_compile", "large", "--out", "large", file], place))
                others = [f"{words[0]} {seconds_of([*words, file], place):.2f} s" for words in (["asn1c"], ["erlc"])
                          if shutil.which(words[0])]
                print(f"{shape}, {count} definitions, {file.stat().st_size} octets: {took[-1]:.2f} s", *others, sep=", ")
        expect(f"{shape}: at most fifteen times as long for ten times the size", took[1] < 15 * max(took[0], 0.05), True)


WRONG = "M DEFINITIONS ::= BEGIN\nA ::= B\nC ::= SEQUENCE { a NULL, a NULL }\nEND\n"
RIGHT = "M DEFINITIONS ::= BEGIN\nA ::= SEQUENCE { a NULL }\nEND\n"
PARTS = "M DEFINITIONS ::= BEGIN\nA ::= SEQUENCE { a }\nB ::= SEQUENCE { a A }\nC ::= D\nEND\n"
TOGETHER = ("M DEFINITIONS ::= BEGIN\nA ::= SEQUENCE { a NULL b NULL }\nB ::= SEQUENCE { a Missing, b NULL OPTIONAL, c NULL }\n"
            "C ::= SEQUENCE { a NULL OPTIONAL, b NULL }\nD ::= CHOICE { a A, b A }\nE ::= CHOICE { a B, b B }\nF ::= VideotexString\n"
            "G ::= SEQUENCE { a INTEGER (0..many) }\nmany INTEGER ::= TRUE\nH {T} ::= SEQUENCE { a T OPTIONAL, b T }\nI ::= H {B}\nEND\n")
FRONT = "M DEFINITIONS ::= BEGIN\nA ::= SEQUENCE { a NULL OPTIONAL, b NULL, c B }\nC ::= SEQUENCE { a NULL OPTIONAL, b NULL }\nD ::= $\nB ::= A\n"
CIRCLES = ("M DEFINITIONS AUTOMATIC TAGS ::= BEGIN\nA ::= SEQUENCE { b B }\nB ::= SEQUENCE { a A }\nC ::= SET { c C OPTIONAL }\n"
           "D ::= CHOICE { d D, e SEQUENCE OF E }\nE ::= CHOICE { d D, e SEQUENCE OF E, f NULL }\nEND\n")
TABLES = ("M DEFINITIONS AUTOMATIC TAGS ::= BEGIN\nITEM ::= CLASS { &id INTEGER (0..255) UNIQUE, &Type } WITH SYNTAX { &Type BY &id }\n"
          "A ::= SEQUENCE { id ITEM.&id ({Same}), a ITEM.&Type ({Same}{@id}), b ITEM.&Type ({Less}{@id}), c ITEM.&Type ({Empty}{@id}) }\n"
          "Same ITEM ::= { a | b }\nLess ITEM ::= { a EXCEPT b }\nEmpty ITEM ::= { ... }\na ITEM ::= { NULL BY 1 }\nb ITEM ::= { BOOLEAN BY 1 }\nEND\n")
BESIDE = ("M DEFINITIONS AUTOMATIC TAGS ::= BEGIN\nTree ::= CHOICE { leaf NULL, trees SEQUENCE OF Tree }\nTreeReader ::= SEQUENCE { a NULL }\n"
          "TreeOf ::= SEQUENCE { a NULL }\nEND\n")
NUMBERED = ("M DEFINITIONS AUTOMATIC TAGS ::= BEGIN\nTree ::= CHOICE { leaf NULL, node Node }\n"
         "Node ::= SEQUENCE { args-x INTEGER, args SEQUENCE { x BOOLEAN, inner Tree OPTIONAL } }\nEND\n")
GROUPED = "M DEFINITIONS AUTOMATIC TAGS ::= BEGIN\nH ::= SEQUENCE { a NULL, ..., [[ b H OPTIONAL, c NULL ]] }\nEND\n"
CHOICES = ("M DEFINITIONS ::= BEGIN\nITEM ::= CLASS { &id INTEGER (0..255) UNIQUE, &Type } WITH SYNTAX { &Type BY &id }\n"
           "A ::= SEQUENCE { id ITEM.&id ({Set}), a [0] ITEM.&Type ({Set}{@id}) }\nSet ITEM ::= { { SET { b B, c C } BY 1 } }\n"
           "B ::= CHOICE { a NULL, ... }\nC ::= CHOICE { d BOOLEAN, ... }\nEND\n")
CLASH = "M DEFINITIONS ::= BEGIN\nA ::= SEQUENCE { a NULL OPTIONAL, b NULL }\nEND\n"


def try_arguments():
    """Runs the program on wrong arguments and modules, and on each way to write."""
    for arguments in [], ["9"], ["type"], ["std"], ["x", "--extern", "A=b"], ["x", "--extern", "A=type::B"], ["x", "--unknown"]:
        written, told, status = run(arguments, RIGHT)
        expect(f"{arguments}", (written, told != "", status), ("", True, 2))
    written, told, status = run(["x"], WRONG)
    expect("a module with errors", (written, [line[:7] for line in told.splitlines()], status), ("", ["-:2:7: ", "-:3:26:"], 1))
    expect("components that share a tag", run(["x"], CLASH),
           ("", "-:2:35: components 'a' and 'b' can both begin with [UNIVERSAL 5]; give one a tag, or the module AUTOMATIC TAGS\n", 1))
    expect("a byte order mark", run(["x", "--check"], "\ufeff" + RIGHT), ("", "", 0))
    written, told, status = run(["x"], PARTS)
    expect("errors in the notation and in names", ([line[:7] for line in told.splitlines()], status), (["-:2:20:", "-:4:7: "], 1))
    written, told, status = run(["x"], TOGETHER)
    expect("errors of all stages", ([line[:7] for line in told.splitlines()], status),
           (["-:2:25:", "-:3:20:", "-:4:35:", "-:7:7: ", "-:9:18:"], 1))
    written, told, status = run(["x"], FRONT)
    expect("errors in front of a wrong character", ([line[:7] for line in told.splitlines()], status), (["-:3:35:", "-:4:7: "], 1))
    expect("no module", run(["x"], ""), ("", "-:1:1: there is no module\n", 1))
    twice = RIGHT + RIGHT.replace("M", "N", 1)
    expect("a type of two modules that exists", run(["x", "--extern", "A=y::A"], twice),
           ("", "error: several modules define the type 'A'; name one as MODULE.A\n", 1))
    expect("one of them that exists", run(["x", "--check", "--extern", "N.A=y::A"], twice), ("", "", 0))
    expect("a module that exists", run(["x", "--check", "--extern-module", "N=y"], twice), ("", "", 0))
    expect("a module that is not there", run(["x", "--extern-module", "O=y"], twice),
           ("", "error: no module 'O' defines a type\n", 1))
    many = "M DEFINITIONS AUTOMATIC TAGS ::= BEGIN\nA ::= SEQUENCE { ..., " + ", ".join(f"a{i} NULL" for i in range(145)) + " }\nEND\n"
    expect("145 additions", run(["x"], many), ("", "-:2:23: a type of more than 144 components is not supported\n", 1))
    unnamed = "M DEFINITIONS ::= BEGIN\nA ::= SEQUENCE OF SEQUENCE { a NULL }\nB ::= [1] CHOICE { a NULL }\nEND\n"
    expect("types without a name", sorted(files_of(run(["x"], unnamed)[0])),
           ["proofs/a_element/a_element_has_one_spelling/Answers.antt", "proofs/b_content/b_content_has_one_spelling/Answers.antt",
            "src/a_element.rt", "src/aliases.rt", "src/b_content.rt", "src/lib.rt", "src/tags.rt"])
    completed = ("M DEFINITIONS ::= BEGIN\nT {A} ::= SEQUENCE { inner SEQUENCE { a A } }\n"
                 "X ::= SEQUENCE { COMPONENTS OF T {INTEGER} }\nY ::= SEQUENCE { COMPONENTS OF T {NULL} }\nEND\n")
    files = files_of(run(["x"], completed)[0])
    expect("types without a name in a template", [text in files.get(f"src/{name}.rt", "") for name, text in
                                                  (("x", "inner: XInner,"), ("x_inner", "a: Integer,"), ("y", "inner: YInner,"), ("y_inner", "a: (),"))],
           [True] * 4)
    written, told, status = run(["x"], CIRCLES)
    expect("circles that are not printed", (written, [line.split("; ")[0] for line in told.splitlines()], status),
           ("", ["-:2:1: no value of the types 'A', 'B' ends: each holds another", "-:4:1: no CHOICE or SEQUENCE without a tag is in each circle of the types 'C'",
                 "-:5:1: no CHOICE or SEQUENCE without a tag is in each circle of the types 'D', 'E'"], 1))
    written, told, status = run(["x"], GROUPED)
    expect("a circle through a group", (written, told.split(": ", 2)[-1].split(" is ")[0], status), ("", "a group of additions", 1))
    written, told, status = run(["x"], TABLES)
    expect("tables of object sets", (sorted(files_of(written)), [line.split(" warning: ")[-1] for line in told.splitlines()], status),
           (["proofs/a/a_has_one_spelling/Answers.antt", "proofs/same/Same/read/Answers.antt", "src/a.rt", "src/lib.rt", "src/same.rt"],
            ["object set 'Less' has no table: it has EXCEPT", "objects 'a' and 'b' have the same &id"], 0))
    expect("extensible CHOICEs of a SET in an object", run(["x"], CHOICES),
           ("", "-:4:29: a SET has at most one extensible CHOICE without a tag; give this one a tag\n", 1))
    expect("types with the names of files of a circle", sorted(path for path in files_of(run(["x"], BESIDE)[0]) if path.startswith("src/tree")),
           ["src/tree.rt", "src/tree_of.rt", "src/tree_of2.rt", "src/tree_parts.rt", "src/tree_reader.rt", "src/tree_reader2.rt"])
    parts = files_of(run(["x"], NUMBERED)[0]).get("src/tree_parts.rt", "")
    expect("two parts of a circle with one name", [line for line in parts.splitlines() if " struct " in line],
           [f"pub(crate) struct {name};" for name in ("NodeArgsXPart", "NodeArgsXPart2", "TreeOfLeafPart")])
    expect("--check", run(["x", "--check"], RIGHT), ("", "", 0))
    written, told, status = run(["x", "--help"])
    expect("--help", ("--extern" in written, told, status), (True, "", 0))
    if "--try" in sys.argv:
        return
    with tempfile.TemporaryDirectory() as place:
        folder = pathlib.Path(place) / "new" / "x"
        expect("--out after an error", (run(["x", "--out", str(folder)], WRONG)[2], folder.exists()), (1, False))
        expect("--out", run(["x", "--out", str(folder)], RIGHT), ("", "", 0))
        found = {str(path.relative_to(folder)): path.read_text() for path in folder.rglob("*") if path.is_file()}
        expect("the files of --out", found, files_of(run(["x"], RIGHT)[0]))
        two = [pathlib.Path(place) / name for name in ("a.asn1", "b.asn1")]
        two[0].write_text("M DEFINITIONS ::= BEGIN\nIMPORTS B FROM N;\nA ::= SEQUENCE { b B }\nEND\n")
        two[1].write_text("N DEFINITIONS ::= BEGIN\nB ::= NULL\nEND\n")
        expect("two files", run(["x", "--check", *map(str, two)]), ("", "", 0))
        expect("a file that is not there", run(["x", str(two[0]), f"{place}/none"])[2], 2)
        written, told, status = run(["x", "--out", str(two[0])], RIGHT)
        expect("a folder that is a file", (written, told.startswith(f"error: {two[0]}/src/"), status), ("", True, 2))


def named_by(option):
    """The module that an option names, if it is there."""
    return sys.argv[sys.argv.index(option) + 1] if option in sys.argv else None


def prove_or_run():
    """Proves the types of a module, and writes values of the types of one again, in a clone for each."""
    to_prove, to_run = named_by("--prove"), named_by("--round-trip")
    for name in dict.fromkeys(filter(None, [to_prove, to_run])):
        files = printed(name)
        with clone_with(name, files) as clone:
            if name == to_prove:
                prove(TABLE[name][0], files, clone)
            if name == to_run:
                round_trip(name, clone)


def main():
    if "--refuse" in sys.argv:
        refuse_growths()
    elif "--damaged" in sys.argv:
        compile_damaged(int(named_by("--damaged")))
    elif "--time" in sys.argv:
        time_large_modules()
    elif "--layout" in sys.argv:
        first = int(named_by("--layout"))
        for number in range(first, first + 4):
            lay_out(number)
    elif "--prove" in sys.argv or "--round-trip" in sys.argv:
        prove_or_run()
    else:
        for name, (crate, _, _) in TABLE.items():
            files = printed(name)
            if (CRATES / crate).is_dir():
                compare(crate, files)
        compare_beside()
        try_arguments()
    print(f"{faults} faults")
    return faults > 0


if __name__ == "__main__":
    sys.exit(main())
