#!/usr/bin/env python3
"""Compares the texts of test_texts with what Erlang's compiler makes of the same values.

    bench/texts.py

The JSON of each value has to be what Erlang's JSON encoding rules make of its DER, member by member. The text in X.680's notation,
as the value of a definition `v TYPE ::= TEXT`, has to be a value whose DER, as Erlang's compiler makes it, is the octets. asn1_compile,
run by `rt try`, has to take the definition too, but for numbers beyond 128 bits and strings that are lists of their parts.

Types are those of bench/samples.asn1. It needs erlc, escript and the library jiffy of Erlang. The status is 0 if all is as it has to be.
"""
import json
import pathlib
import re
import subprocess
import sys
import tempfile

import encoders

ROOT = pathlib.Path(__file__).resolve().parent.parent
STORED = ROOT / "crates" / "test_texts" / "stdout"
COMPILER = ROOT / "crates" / "asn1_compile"
MODULE = encoders.SAMPLES

# A module that JSON of Erlang's compiler asks for.
JSX = """-module(jsx).
-export([encode/1, decode/2]).
encode(Term) -> iolist_to_binary(jiffy:encode(form(Term))).
form([{}]) -> {[]};
form([{_, _} | _] = Members) -> {[{Name, form(Value)} || {Name, Value} <- Members]};
form(Members) when is_map(Members) -> maps:map(fun(_, Value) -> form(Value) end, Members);
form(Items) when is_list(Items) -> [form(Item) || Item <- Items];
form(Term) -> Term.
decode(Octets, _) -> jiffy:decode(Octets, [return_maps]).
"""

# Types of whose values Erlang's compiler makes none from some notations: with additions, a component of a SET that is absent, a SET
# whose tags are not in the order of the definition, a list of their own values, {1 39}, and a text with characters by group, plane, row
# and cell.
WITHOUT_VALUES = {"Profile", "Visit", "Badge", "PersonnelRecord", "Node", "Arcs", "Teletex", "Graphic", "Bmp", "Utf8"}

# Types of which Erlang makes no JSON: of octets beyond ASCII, and of a BMPString.
WITHOUT_JSON = {"Teletex", "Graphic", "Bmp"}

# Components that are their DEFAULT, which Erlang writes in JSON, since its reader of DER filled them in.
DEFAULTS = {"color": "red", "paid": False, "entry": {"key": 1, "note": 0}, "dnAttributes": False, "criticality": False}

SCRIPT = """#!/usr/bin/env escript
%%! -noshell -pa {folder} -pa {jiffy}
main(_) -> [io:format("~s~n", [try answer(Row) catch C:E -> io_lib:format("none ~w ~w", [C, E]) end]) || Row <- [{rows}]].
answer({{json, T, Octets}}) -> {{ok, V}} = 'Samples':decode(T, Octets), {{ok, J}} = 'SamplesJer':jer_encode(T, V), J;
answer({{der, T, M}}) -> {{ok, Octets}} = 'Samples':encode(T, M:v()), binary:encode_hex(Octets).
"""


def run(*words, folder):
    """Runs a program, and answers what it writes."""
    ran = subprocess.run([str(word) for word in words], cwd=folder, capture_output=True)
    if ran.returncode:
        raise SystemExit(ran.stdout.decode() + ran.stderr.decode())
    return ran.stdout.decode(errors="replace")


def rows():
    """The type, the octets and the two texts of each value that is stored."""
    lines = [line for line in STORED.read_text().splitlines() if line and not line.startswith("#")]
    starts = [place for place, line in enumerate(lines) if re.match(r"\S+ [0-9a-f]{2}( [0-9a-f]{2})* ; ", line)]
    for start, end in zip(starts, [*starts[1:], len(lines)]):
        name, digits = lines[start].split(" ; ")[0].split(" ", 1)
        yield name, bytes.fromhex(digits), "\n".join(lines[start + 1:end - 1]), lines[end - 1]


def compiled(folder, values):
    """Compiles the samples, with DER and with JSON, and a module of the values."""
    (folder / "jsx.erl").write_text(JSX)
    samples = encoders.MODULES[MODULE].read_text()
    (folder / "SamplesJer.asn1").write_text(samples.replace(f"{MODULE} DEFINITIONS", "SamplesJer DEFINITIONS"))
    (folder / f"{MODULE}.asn1").write_text(samples)
    run("erlc", "+der", "+jer", "SamplesJer.asn1", folder=folder)
    run("erlc", "+der", f"{MODULE}.asn1", folder=folder)
    run("erlc", "jsx.erl", folder=folder)
    for number, name, text in values:
        module = folder / f"Value{number}.asn1"
        module.write_text(
            f"Value{number} DEFINITIONS IMPLICIT TAGS ::= BEGIN\nIMPORTS {name} FROM {MODULE};\nv {name} ::= {text}\nEND\n")
        subprocess.run(["erlc", "+der", module.name], cwd=folder, capture_output=True)


def answers(folder, tuples):
    """What Erlang answers to rows."""
    jiffy = next(pathlib.Path("/usr/lib/erlang/lib").glob("jiffy-*/ebin"))
    script = folder / "rows.escript"
    script.write_text(SCRIPT.format(folder=folder, jiffy=jiffy, rows=",\n".join(tuples)))
    return run("escript", script, folder=folder).splitlines()


def refused_values(folder, stored):
    """The numbers of the values that asn1_compile refuses, of a module with a value in each line."""
    module = folder / "values.asn1"
    samples = encoders.MODULES[MODULE].read_text()
    head = samples[:samples.rindex("END")]
    values = [f"v{number} {name} ::= {' '.join(text.split())}\n" for number, (name, _, text, _) in enumerate(stored)]
    module.write_text(head + "".join(values) + "END\n")
    ran = subprocess.run(["rt", "try", "--", "values", "--check", str(module)], cwd=COMPILER, capture_output=True, text=True)
    lines = re.findall(rf"^{re.escape(str(module))}:(\d+):\d+: (?!warning)", ran.stdout + ran.stderr, re.MULTILINE)
    if "checked: ended" not in ran.stdout + ran.stderr:
        raise SystemExit(ran.stdout + ran.stderr)
    return {int(line) - 1 - head.count("\n") for line in lines}


def may_be_refused(text):
    """Whether a text is a number beyond 128 bits, or a string that is a list of its parts."""
    return bool(re.fullmatch(r"-?\d{39,}", text)) or text.startswith(('{"', "{{"))


def is_made_otherwise(name, text):
    """Whether Erlang's compiler makes other octets of a text: of characters by group, plane, row and cell, and of those beyond ASCII."""
    return name in WITHOUT_JSON and ("{0, 0, " in text or not text.isascii())


def parsed(text):
    """The JSON of a text; nothing if it is none."""
    try:
        return json.loads(text)
    except ValueError:
        return None


def same_members(ours, theirs):
    """Whether two values of JSON are the same, apart from components that are their DEFAULT."""
    if isinstance(ours, dict) and isinstance(theirs, dict):
        more = {name for name in theirs.keys() - ours.keys() if DEFAULTS.get(name, ...) != theirs[name]}
        return not more and all(name in theirs and same_members(ours[name], theirs[name]) for name in ours)
    if isinstance(ours, list) and isinstance(theirs, list):
        return len(ours) == len(theirs) and all(map(same_members, ours, theirs))
    return type(ours) is type(theirs) and ours == theirs


def main():
    if sys.argv[1:]:
        print(__doc__, file=sys.stderr)
        return 2
    stored = [(encoders.NAMES[name], octets, text, line) for name, octets, text, line in rows() if encoders.NAMES.get(name)]
    with tempfile.TemporaryDirectory() as folder:
        folder = pathlib.Path(folder)
        compiled(folder, [(number, name, text) for number, (name, _, text, _) in enumerate(stored)])
        asked = [f"{{json, '{name}', <<{','.join(map(str, octets))}>>}}" for name, octets, _, _ in stored]
        asked += [f"{{der, '{name}', 'Value{number}'}}" for number, (name, _, _, _) in enumerate(stored)]
        told = answers(folder, asked)
        refused = refused_values(folder, stored)
    if len(told) != 2 * len(stored):
        raise SystemExit(f"Erlang answers {len(told)} rows of {2 * len(stored)}")
    faults = unmade = 0
    for (name, octets, text, line), written, made in zip(stored, told[:len(stored)], told[len(stored):], strict=True):
        if name not in WITHOUT_JSON and not same_members(parsed(line), parsed(written)):
            faults += 1
            print(f"{name} {octets.hex(' ')}: JSON {line} and {written}")
        if name in WITHOUT_VALUES and (made.startswith("none") or is_made_otherwise(name, text)):
            unmade += 1
        elif made.lower() != octets.hex():
            faults += 1
            print(f"{name} {octets.hex(' ')}: {text!r} is {made}")
    for number in sorted(refused):
        name, octets, text, _ = stored[number]
        if not may_be_refused(text):
            faults += 1
            print(f"{name} {octets.hex(' ')}: asn1_compile refuses {text!r}")
    print(f"values: {len(stored)}, of which Erlang makes none from the notation: {unmade}, asn1_compile: {len(refused)}, faults: {faults}")
    return faults > 0


if __name__ == "__main__":
    sys.exit(main())
