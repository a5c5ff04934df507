#!/usr/bin/env python3
"""Prints the program that converts values of asn1_ldap, and compares the JSON that it writes with Erlang's.

    bench/convert.py

In a clone in a temporary folder `asn1_compile --program` prints the crate of examples/modules/ldap.asn1, which has to be the one that is
here, and its program, both by `rt try`. The program reads the messages of all conversations of examples/ldap, one after another, but
for those that are nested deeper than it reads, and writes them as JSON. Erlang's compiler makes JSON of each message too, and the two have to have the same members, as in bench/texts.py.
Then the program writes the messages as DER, and of that BER to the packed codec and back, from hexadecimal digits, which have to be the
same octets. It writes them in X.680's notation, and Erlang's compiler has to make a value of each text whose DER is that of the message.
At last it has to end with the right status after --check, --help and too few arguments.

It needs erlc, escript and the library jiffy of Erlang. The status is 0 if all is as it has to be.
"""
import pathlib
import re
import subprocess
import sys
import tempfile

import encoders
import texts

ROOT = pathlib.Path(__file__).resolve().parent.parent
# Each element can open two scopes, of which the program reads 64.
NESTED = 32
CONVERSATIONS = sorted((ROOT / "examples" / "ldap").glob("*.ber"))

SCRIPT = """#!/usr/bin/env escript
%%! -noshell -pa {folder} -pa {jiffy}
main([Path]) ->
    {{ok, Given}} = file:read_file(Path),
    [io:format("~s~n", [json(binary:decode_hex(Line))]) || Line <- binary:split(Given, <<"\\n">>, [global, trim])].
json(Octets) ->
    {{ok, V}} = '{module}':decode('LDAPMessage', Octets),
    {{ok, J}} = '{module}':jer_encode('LDAPMessage', V),
    J.
"""


VALUES = """#!/usr/bin/env escript
%%! -noshell -pa {folder}
main(_) -> [io:format("~s~n", [try der(N) catch _:_ -> "" end]) || N <- lists:seq(0, {last})].
der(N) ->
    M = list_to_atom("Value" ++ integer_to_list(N)),
    {{ok, Octets}} = '{module}':encode('LDAPMessage', M:v()),
    binary:encode_hex(Octets).
"""


def answered(folder, words, octets=b""):
    """The status of a program and what it writes, by `rt try` in its folder."""
    ran = subprocess.run(["rt", "try", "--seconds", "600", "--", *words], cwd=folder, input=octets, capture_output=True)
    output, status = ran.stdout, re.search(rb"checked: ended status=(\d+)", ran.stdout + ran.stderr)
    return status and int(status[1]), output[:output.rindex(b"checked: ended")] if b"checked: ended" in output else output


def tried(folder, words, octets=b""):
    """What a program writes."""
    return answered(folder, words, octets)[1]


def with_another_status(program, message):
    """The arguments with which the status is not as it has to be: --check of a message, of one that is cut off, too few, --help."""
    asked = [(["--check", "LDAPMessage"], message, 0), (["--check", "LDAPMessage"], message[:-1], 1),
             (["LDAPMessage", "ber"], message, 2), (["--help"], b"", 0)]
    return [words for words, octets, status in asked if answered(program, words, octets)[0] != status]


def printed(clone):
    """The folder of the program, which is printed beside the crate that is here already."""
    words = ["asn1_ldap", "--program", "--out", clone / "crates" / "asn1_ldap", ROOT / "examples" / "modules" / "ldap.asn1"]
    tried(clone / "crates" / "asn1_compile", [str(word) for word in words])
    changed = subprocess.run(["git", "status", "--short"], cwd=clone, capture_output=True, text=True).stdout.split("\n")
    wrong = [line for line in changed if line and line not in (" M crates.txt", "?? crates/asn1_ldap_convert/")]
    if wrong:
        raise SystemExit("asn1_ldap is not as it is printed:\n" + "\n".join(wrong))
    return clone / "crates" / "asn1_ldap_convert"


def values_of(written):
    """The texts of values of a SEQUENCE in X.680's notation, one after another."""
    lines = []
    for line in written.decode().splitlines():
        lines.append(line)
        if line == "}":
            yield "\n".join(lines)
            lines = []


def der_of_values(folder, values):
    """The DER of the values that Erlang's compiler makes of texts, one after another; of a text that it does not take, nothing."""
    folder.mkdir()
    (folder / f"{encoders.LDAP}.asn1").write_text(encoders.MODULES[encoders.LDAP].read_text())
    texts.run("erlc", "+der", f"{encoders.LDAP}.asn1", folder=folder)
    for number, text in enumerate(values):
        module = folder / f"Value{number}.asn1"
        module.write_text(f"Value{number} DEFINITIONS IMPLICIT TAGS ::= BEGIN\n"
                          f"IMPORTS LDAPMessage FROM {encoders.LDAP};\nv LDAPMessage ::= {text}\nEND\n")
        subprocess.run(["erlc", "+der", module.name], cwd=folder, capture_output=True)
    (folder / "values.escript").write_text(VALUES.format(folder=folder, module=encoders.LDAP, last=len(values) - 1))
    return bytes.fromhex(texts.run("escript", "values.escript", folder=folder))


def messages_in(octets):
    """The messages one after another, each an element of a definite length below 2^32 under a tag of one octet (X.690, 8.1)."""
    start = 0
    while start < len(octets):
        first = octets[start + 1]
        header = 2 if first < 0x80 else 2 + first - 0x80
        length = first if first < 0x80 else int.from_bytes(octets[start + 2:start + header], "big")
        yield octets[start:start + header + length]
        start += header + length


def nesting(octets):
    """How deep elements are inside one another in elements of definite lengths."""
    inner = (nesting(part[2 if part[1] < 0x80 else part[1] - 0x7e:]) for part in messages_in(octets) if part[0] & 0x20)
    return 1 + max(inner, default=0)


def by_erlang(folder, octets):
    """The JSON of each message, by Erlang."""
    folder.mkdir()
    (folder / "jsx.erl").write_text(texts.JSX)
    (folder / f"{encoders.LDAP}.asn1").write_text(encoders.MODULES[encoders.LDAP].read_text())
    texts.run("erlc", "jsx.erl", folder=folder)
    texts.run("erlc", "+ber", "+jer", f"{encoders.LDAP}.asn1", folder=folder)
    jiffy = next(pathlib.Path("/usr/lib/erlang/lib").glob("jiffy-*/ebin"))
    (folder / "given").write_text("".join(f"{message.hex()}\n" for message in messages_in(octets)))
    (folder / "rows.escript").write_text(SCRIPT.format(folder=folder, jiffy=jiffy, module=encoders.LDAP))
    return texts.run("escript", "rows.escript", "given", folder=folder).splitlines()


def main():
    if sys.argv[1:]:
        print(__doc__, file=sys.stderr)
        return 2
    messages = messages_in(b"".join(path.read_bytes() for path in CONVERSATIONS))
    octets = b"".join(message for message in messages if nesting(message) <= NESTED)
    with tempfile.TemporaryDirectory() as folder:
        clone = pathlib.Path(folder) / "clone"
        subprocess.run(["git", "clone", "-q", ROOT, clone], check=True)
        program = printed(clone)
        ours = tried(program, ["LDAPMessage", "ber", "json"], octets).decode().splitlines()
        der = tried(program, ["LDAPMessage", "ber", "der"], octets)
        packed = tried(program, ["LDAPMessage", "ber", "packed"], octets)
        again = tried(program, ["--hex", "LDAPMessage", "packed", "der"], packed.hex(" ").encode())
        theirs = by_erlang(pathlib.Path(folder) / "erlang", octets)
        values = list(values_of(tried(program, ["LDAPMessage", "ber", "text"], octets)))
        der_again = der_of_values(pathlib.Path(folder) / "values", values)
        wrong = with_another_status(program, next(messages_in(der)))
    faults = [(one, other) for one, other in zip(ours, theirs, strict=False) if not texts.same_members(texts.parsed(one), texts.parsed(other))]
    for one, other in faults:
        print(f"ours: {one}\ntheirs: {other}")
    same = len(ours) == len(theirs) == len(values) and der == again == der_again and len(der) > 0
    print(f"messages: {len(ours)} and {len(theirs)}, texts: {len(values)}, faults: {len(faults)}; the DER is "
          f"{'the same' if der == again else 'another'} behind the packed codec, and {'the same' if der == der_again else 'another'} by the texts")
    for words in wrong:
        print(f"another status: {' '.join(words)}")
    return bool(faults or wrong) or not same


if __name__ == "__main__":
    sys.exit(main())
