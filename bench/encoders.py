#!/usr/bin/env python3
"""Lines of test_vectors and test_module_types by other programs: what Erlang's asn1ct, asn1c and OpenSSL write in BER, and what they read.

    bench/encoders.py            compares with crates/test_vectors/stdout and crates/test_module_types/stdout
    bench/encoders.py --lines    prints the requests

Types are those of bench/samples.asn1 and examples/modules/ldap.asn1. asn1ct writes sets in the order of their definition or value,
asn1c components that are their DEFAULT, and OpenSSL streams: indefinite lengths, and strings in pieces. Compared are:

- the octets of each line here with those that the program writes now,
- the DER of each line in BER, of a type in the modules, with that of asn1ct, which reads the octets and writes the value, and the
  normal form of an open type with its elements of definite length,
- that DER with what asn1c writes after it has read it.

It needs erlc, escript, asn1c, cc and openssl. The status is 0 if all is as it has to be.
"""
import pathlib
import subprocess
import sys
import tempfile

ROOT = pathlib.Path(__file__).resolve().parent.parent
LINES = [ROOT / "crates" / name / "stdout" for name in ("test_vectors", "test_module_types")]
SAMPLES, LDAP = "Samples", "Lightweight-Directory-Access-Protocol-V3"
MODULES = {SAMPLES: ROOT / "bench" / "samples.asn1", LDAP: ROOT / "examples" / "modules" / "ldap.asn1"}

# The types of the lines that have another name in the modules (an open type has none), and those that have the same.
NAMES = {
    "bool": "Flag", "()": "Nothing", "ObjectIdentifier": "Arcs", "BitString": "Bits", "BitVec": "Bits", "OctetString": "Octets", "String": "Utf8",
    "VisibleString": "Visible", "Plate": "Visible", "PrintableString": "Printable", "NumericString": "Numeric",
    "TeletexString": "Teletex", "GraphicString": "Graphic", "BmpString": "Bmp", "Vec<bool>": "Flags", "Vec<Vec<bool>>": "Lists",
    "Vec<u8>": "Numbers", "[u8;2]": "Numbers", "SetOf<u8>": "SetOfNumbers", "SetOf<i32>": "SetOfNumbers",
    "[31]bool": "TaggedFlag", "[1]bool": "ExplicitFlag", "[0]BitString": "TaggedBits", "[0]TeletexString": "TaggedTeletex",
    "[0]BmpString": "TaggedBmp", "[0]SetOf<u8>": "TaggedSet", "[201]String": "WrappedUtf8", "LdapMessage": "LDAPMessage",
    "Any": "", "UtcTime": "Utc", "GeneralizedTime": "Generalized",
}
NUMBERS = {"Integer", "1..10", "Box<u8>", "Cow<u8>", "u8", "u16", "u32", "u64", "i8", "i16", "i32", "i64", "i128", "isize"}
SAME = {
    "Type2", "Type3", "Type4", "Type5", "Person", "Color", "Profile", "Visit", "Corner", "Shape", "Badge", "Ticket", "Gauge",
    "Menu", "Notice", "Labelled", "Settings", "Node", "Price", "PersonnelRecord", "Filter", "Mask",
}
NAMES |= {name: "Number" for name in NUMBERS} | {name: name for name in SAME}

# What asn1ct reads otherwise: it takes no string without pieces, nor bits before an empty piece, and sorts no SET without a label.
OTHERWISE = {
    ("BitString", "23 0b 23 80 03 02 00 0a 00 00 03 01 00"), ("BitString", "23 00"), ("OctetString", "24 00"),
    ("Badge", "31 05 05 00 02 01 07"), ("Badge", "31 80 02 01 07 05 00 00 00"),
}
# The longest number that asn1c reads, in octets of contents.
LONG = 8

SPOUSE = """{'Name',"Mary","T","Smith"}"""
RECORD = """{'PersonnelRecord',{'Name',"John","P","Smith"},"Director",51,"19710917",%s,[%s]}"""
CHILDREN = """{'ChildInformation',{'Name',"Ralph","T","Smith"},"19571111"},
    {'ChildInformation',{'Name',"Susan","B","Jones"},"19590717"}"""
EQUAL = """{equalityMatch,{'AttributeValueAssertion',<<"uid">>,<<"ann">>}}"""
RULE = """{extensibleMatch,{'MatchingRuleAssertion',asn1_NOVALUE,<<"cn">>,<<"Ann">>,%s}}"""
MESSAGE = "{'LDAPMessage',2,{%s},asn1_NOVALUE}"
SEARCH = MESSAGE % ("""searchRequest,{'SearchRequest',<<"dc=example">>,wholeSubtree,neverDerefAliases,0,30,false,
    {'or',[%s,{present,<<"cn">>},%s]},[]}""" % (RULE % "true", EQUAL))
ENTRY = MESSAGE % """searchResEntry,{'SearchResultEntry',<<"uid=ann,dc=example">>,
    [{'PartialAttribute',<<"mail">>,[<<"ann@example">>,<<"a@b">>,<<>>]}]}"""

# A type, its depth, a value for asn1ct, and what is in it.
BY_ASN1CT = [
    ("SetOf<u8>", 1, "[3,1,2]", "3, 1 and 2 in this order; X.690, 8.12.3"),
    ("SetOf<i32>", 1, "[300,-1,7,300]", "300, -1, 7 and 300 in this order; X.690, 8.12.3"),
    ("[0]SetOf<u8>", 1, "[2,1]", "2 and 1 in this order; X.690, 8.12.3 and 8.14.3"),
    ("Badge", 3, "{'Badge',7,\"Jones\",{dot,'NULL'}}", "the shape behind the label; X.690, 8.11.2"),
    ("Badge", 3, "{'Badge',7,\"Jones\",{inner,{right,<<1,2>>}}}", "a corner behind the label; X.690, 8.11.2"),
    ("Menu", 1, "{'Menu',1,2,true}", "the group of additions behind the soup; X.690, 8.11.2"),
    ("Menu", 1, "{'Menu',1,2,asn1_NOVALUE}", "a group without a sweet; X.690, 8.11.3"),
    ("Ticket", 1, "{'Ticket',7,<<\"Ann\">>,false}", "not paid, the DEFAULT, which is left out; X.690, 8.11.3"),
    ("PersonnelRecord", 4, RECORD % (SPOUSE, CHILDREN), "the example of X.690, A.3: the number behind the title"),
    ("PersonnelRecord", 4, RECORD % (SPOUSE, ""), "without children, the DEFAULT, which are left out; X.690, 8.11.3"),
    ("Filter", 6, "{'and',[%s,{'not',{present,<<\"a\">>}},{present,<<\"cn\">>}]}" % EQUAL, "a set in another order; X.690, 8.12.3"),
    ("LdapMessage", 8, ENTRY, "an entry with values in another order; X.690, 8.12.3"),
    ("LdapMessage", 8, SEARCH, "a search for a set of filters in another order; X.690, 8.12.3"),
]

NAME = "<{0}><givenName>{1}</givenName><initial>{2}</initial><familyName>Smith</familyName></{0}>"
# The same for asn1c, which writes what is there, in DER too.
BY_ASN1C = [
    ("Ticket", 1, "<Ticket><seat>7</seat><name>Ann</name><paid><false/></paid></Ticket>",
     "not paid, the DEFAULT, written; X.690, 8.11.3"),
    ("Profile", 1, "<Profile><nick>Ann</nick><level>7</level><color><red/></color></Profile>",
     "red, the DEFAULT, written; X.690, 8.9.3"),
    ("Settings", 2, "<Settings><entry><key>1</key><note>0</note></entry></Settings>",
     "the entry of key 1 and note 0, the DEFAULT, written; X.690, 8.9.3"),
    ("PersonnelRecord", 4, "<PersonnelRecord>" + NAME.format("name", "John", "P") + "<title>Director</title><number>51</number>"
     "<dateOfHire>19710917</dateOfHire>" + NAME.format("nameOfSpouse", "Mary", "T") + "<children></children></PersonnelRecord>",
     "no children, the DEFAULT, written; X.690, 8.11.3"),
    ("Filter", 2, "<Filter><extensibleMatch><type>63 6E</type><matchValue>41</matchValue><dnAttributes><false/></dnAttributes>"
     "</extensibleMatch></Filter>", "not by attributes of names, the DEFAULT, written; X.690, 8.9.3"),
]

# A type, what OpenSSL's cms makes of a text, the octets around what is taken of it, and what that is.
BY_OPENSSL = [
    ("OctetString", "-data_create", 15, 4, "the content of a stream, in one piece; X.690, 8.7.3"),
    ("Any", "-data_create", 0, 0, "a stream: an open type in normal form, in which a piece stays; X.690, 8.15"),
    ("Any", "-digest_create", 0, 0, "a stream with a digest: an open type in normal form; X.690, 8.15"),
]
TEXT = b"hello, world"

SCRIPT = """#!/usr/bin/env escript
%%! -noshell -pa {}
main(_) -> [io:format("~s~n", [try answer(Row) catch _:_ -> "none" end]) || Row <- [{}]].
answer({{encode, _, '', V}}) -> binary:encode_hex(asn1rt_nif:encode_ber_tlv(V));
answer({{encode, M, T, V}}) -> {{ok, Octets}} = M:encode(T, V), binary:encode_hex(iolist_to_binary(Octets));
answer({{decode, _, '', Octets}}) -> {{V, <<>>}} = asn1rt_nif:decode_ber_tlv(Octets), io_lib:format("~w", [V]);
answer({{decode, M, T, Octets}}) -> {{ok, V}} = M:decode(T, Octets), io_lib:format("~w", [V]).
"""


def run(*words, folder):
    """What a program writes."""
    return subprocess.run([str(word) for word in words], cwd=folder, check=True, capture_output=True).stdout


def compiled(folder, *options):
    """A folder with the modules as asn1ct compiles them."""
    folder.mkdir()
    for name, source in MODULES.items():
        (folder / f"{name}.asn1").write_text(source.read_text())
        run("erlc", *options, f"{name}.asn1", folder=folder)
    return folder


def asn1ct(folder, verb, rows):
    """What asn1ct answers to rows of a type and a term: a value to encode, or octets to decode."""
    tuples = [f"{{{verb}, '{LDAP if name == 'LdapMessage' else SAMPLES}', '{NAMES[name]}', {term}}}" for name, term in rows]
    script = folder / "rows.escript"
    script.write_text(SCRIPT.format(folder, ",\n".join(tuples)))
    return run("escript", script, folder=folder).decode().splitlines()


def octets_of(line):
    return None if line == "none" else bytes.fromhex(line)


def recoded(plain, der, rows):
    """The DER of what asn1ct reads from octets of types. Its readers for DER alone take a SET in another order than its writers."""
    values = asn1ct(plain, "decode", [(name, f"<<{','.join(map(str, octets))}>>") for name, octets in rows])
    return [octets_of(line) for line in asn1ct(der, "encode", [(name, value) for (name, _), value in zip(rows, values, strict=True)])]


def converter(folder):
    """The program that asn1c makes of the samples."""
    folder.mkdir()
    run("asn1c", "-pdu=all", MODULES[SAMPLES], folder=folder)
    files = sorted(path.name for path in folder.glob("*.c"))
    run("cc", "-w", "-DPDU=Person", "-DASN_PDU_COLLECTION", "-I.", "-o", "converter", *files, folder=folder)
    return folder / "converter"


def asn1c(program, name, source, octets):
    """The DER, by asn1c, of a value in XER or BER; nothing if it reads none."""
    given = program.parent / "given"
    given.write_bytes(octets)
    ran = subprocess.run([program, "-p", NAMES[name], source, "-oder", given], capture_output=True)
    return ran.stdout if ran.returncode == 0 else None


def made(work, erlang, program):
    """The requests, each with its octets."""
    given = work / "text"
    given.write_bytes(TEXT)
    written = asn1ct(erlang, "encode", [(name, value) for name, _, value, _ in BY_ASN1CT])
    for (name, depth, _, shown), line in zip(BY_ASN1CT, written, strict=True):
        yield name, depth, octets_of(line), f"{shown}; Erlang's asn1ct"
    for name, depth, value, shown in BY_ASN1C:
        yield name, depth, asn1c(program, name, "-ixer", value.encode()), f"{shown}; asn1c"
    for name, verb, before, behind, shown in BY_OPENSSL:
        octets = run("openssl", "cms", verb, "-stream", "-binary", "-outform", "DER", "-in", given, folder=work)
        yield name, 0, octets[before:len(octets) - behind], f"{shown}; openssl cms {verb} -stream"


def request(line):
    name, depth, octets, source = line
    return f"ber {name} {depth} read der {octets.hex(' ')} ; {source}, bench/encoders.py"


def stored():
    """The lines in BER that stand: the request with its source, the type, the octets, and the DER, if they are read."""
    for line in (line for lines in LINES for line in lines.read_text().splitlines()):
        asked, _, rest = line.partition(" -> ")
        words, (answer, _, source) = asked.split(" ", 5), rest.partition(" ; ")
        if words[0] == "ber" and words[3:5] == ["read", "der"]:
            der = None if answer.startswith("refused") else bytes.fromhex(answer)
            yield f"{asked} ; {source}", words[1], bytes.fromhex(words[5]), der


def differ(rows, octets):
    """The lines whose DER is not these octets."""
    return {line for (line, _, _, answer), found in zip(rows, octets, strict=True) if found != answer}


def main():
    if sys.argv[1:] not in ([], ["--lines"]):
        print(__doc__, file=sys.stderr)
        return 2
    with tempfile.TemporaryDirectory() as folder:
        work = pathlib.Path(folder)
        plain, der, program = compiled(work / "ber", "+ber"), compiled(work / "der", "+ber", "+der"), converter(work / "asn1c")
        requests = [request(line) for line in made(work, plain, program)]
        if sys.argv[1:]:
            print("\n".join(requests))
            return 0
        lines = list(stored())
        faults = set(requests) ^ {line for line, *_ in lines if line.endswith("bench/encoders.py")}
        known = [row for row in lines if row[1] in NAMES and row[3] is not None and (row[1], row[2].hex(" ")) not in OTHERWISE]
        faults |= differ(known, recoded(plain, der, [(name, octets) for _, name, octets, _ in known]))
        short = [row for row in known if row[1] not in NUMBERS or len(row[3]) <= 2 + LONG]
        again = [row for row in short if row[1] not in ("Any", "LdapMessage")]
        read = [(name, asn1c(program, name, "-iber", answer) or b"") for _, name, _, answer in again]
        faults |= differ(again, recoded(plain, der, read))
    for line in sorted(faults):
        print(line)
    print(f"lines: {len(requests)}, read by asn1ct: {len(known)}, by asn1c: {len(again)}, faults: {len(faults)}")
    return len(faults) > 0


if __name__ == "__main__":
    sys.exit(main())
