#!/usr/bin/env python3
"""Makes certificates that depart from DER (X.690), of those in examples/certificates.

    examples/departures/make.py

Each is one of ours with one change, whose lengths are then written anew; the signature is left as it is, and so is no longer valid.
Two keep to DER, and have PrintableStrings with characters outside their alphabet.
It writes answers.txt too: for each file what the program has to tell, with the position that the change has. bench/departures.py
compares what it tells with that. And it writes the lines of the stored run of crates/test_certificates that are about files: the
octets of each, and the status and the messages with no option, with --strict and with --der. They follow the lines that were
written by hand.
"""
import base64
import pathlib

HERE = pathlib.Path(__file__).resolve().parent
CERTIFICATES = HERE.parent / "certificates"
ROWS = HERE.parent.parent / "crates" / "test_certificates"
BASIC_CONSTRAINTS, KEY_USAGE = bytes([0x55, 0x1D, 19]), bytes([0x55, 0x1D, 15])


class Element:
    """An element: its first octet, and its contents octets, or the elements inside."""

    def __init__(self, first, contents, size=None):
        self.first, self.contents, self.size = first, contents, size

    def inside(self):
        """The contents octets."""
        return self.contents if isinstance(self.contents, bytes) else b"".join(e.octets() for e in self.contents)

    def octets(self):
        """The octets, with the shortest length, or with the length octets that were asked for."""
        inside = self.inside()
        return bytes([self.first]) + (self.size or length)(len(inside)) + inside


def position(element, wanted, start):
    """The position of an element that is another or inside it, where that begins at `start`; none if it is not there."""
    if element is wanted:
        return start
    if isinstance(element.contents, bytes):
        return None
    start += len(element.octets()) - len(element.inside())
    for inner in element.contents:
        found = position(inner, wanted, start)
        if found is not None:
            return found
        start += len(inner.octets())
    return None


def length(number):
    """The shortest length octets of a number."""
    if number < 0x80:
        return bytes([number])
    digits = number.to_bytes((number.bit_length() + 7) // 8, "big")
    return bytes([0x80 + len(digits)]) + digits


def long_length(number):
    """The same with one octet more than is needed."""
    digits = number.to_bytes((number.bit_length() + 7) // 8, "big")
    return bytes([0x81, number]) if number < 0x80 else bytes([0x81 + len(digits), 0]) + digits


def elements(octets):
    """The elements that octets are. Tags are below 31."""
    found = []
    while octets:
        start, size = 2, octets[1]
        if size >= 0x80:
            start, size = size - 0x80 + 2, int.from_bytes(octets[2 : size - 0x80 + 2], "big")
        inside = octets[start : start + size]
        found.append(Element(octets[0], elements(inside) if octets[0] & 0x20 else inside))
        octets = octets[start + size :]
    return found


class Certificate:
    """A certificate of ours, with its parts by name."""

    def __init__(self, name):
        self.whole = elements((CERTIFICATES / f"{name}.der").read_bytes())[0]
        self.signed = self.whole.contents[0]
        components = self.signed.contents
        first = 1 if components[0].first == 0xA0 else 0
        self.serial, self.algorithm, self.issuer, self.validity, self.subject, self.key = components[first : first + 6]
        self.extensions = components[-1].contents[0].contents if components[-1].first == 0xA3 else []

    def extension(self, number):
        """The extension whose object identifier has these contents octets."""
        return next(e for e in self.extensions if e.contents[0].contents == number)

    def octets(self):
        return self.whole.octets()


    def start(self, wanted):
        """The position of an element."""
        return position(self.whole, wanted, 0)

    def contents(self, wanted, index=0):
        """The position of a contents octet of an element, in front of which its header is."""
        return self.start(wanted) + len(wanted.octets()) - len(wanted.inside()) + index


# The texts of the rules, each with its clause of X.690.
LENGTH = "a length is not in its shortest form (X.690, 10.1)"
INDEFINITE = "a length is in the indefinite form (X.690, 10.1)"
INTEGER = "an integer is padded (X.690, 8.3.2)"
OBJECT = "a number of an object identifier is padded (X.690, 8.19.2)"
DEFAULT = "a component is present although it has its DEFAULT value (X.690, 11.5)"
TRUE = "the octet of a TRUE is not ff (X.690, 11.1)"
NAMED_BITS = "a list of named bits ends with a zero (X.690, 11.2.2)"
UNUSED_BIT = "an unused bit of a bit string is not zero (X.690, 11.2.1)"
SET = "the elements of a set are not in ascending order (X.690, 10.3 and 11.6)"
PARTS = "a string is in the constructed form (X.690, 10.2)"
UTC_TIME = "a UTCTime is not in the form of DER (X.690, 11.8)"
GENERALIZED_TIME = "a GeneralizedTime is not in the form of DER (X.690, 11.7)"

# The text about elements that lie inside more than 64 others.
TOO_DEEP = "elements are nested deeper than 64 levels there, and were not looked at"


# The text about a value that is a PrintableString and has other characters than those of X.680, 41.4.
OUTSIDE_ALPHABET = "has characters outside the alphabet of a PrintableString (X.680, 41.4)"


def long_length_outside():
    made = Certificate("leaf-ec")
    made.whole.size = long_length
    return made, LENGTH, 1


def long_length_inside():
    made = Certificate("leaf-ec")
    made.serial.size = long_length
    return made, LENGTH, made.start(made.serial) + 1


def indefinite_length():
    made = Certificate("leaf-ec")
    made.signed.size = lambda number: bytes([0x80])
    made.signed.contents.append(Element(0, b""))
    return made, INDEFINITE, made.start(made.signed) + 1


def padded_integer():
    made = Certificate("leaf-ec")
    made.serial.contents = b"\0" + made.serial.contents
    return made, INTEGER, made.contents(made.serial)


def padded_object():
    made = Certificate("leaf-ec")
    object_id = made.algorithm.contents[0]
    object_id.contents = object_id.contents[:1] + b"\x80" + object_id.contents[1:]
    return made, OBJECT, made.contents(object_id, 1)


def critical_false():
    made = Certificate("leaf-ec")
    extension = next(e for e in made.extensions if len(e.contents) == 2)
    critical = Element(1, b"\0")
    extension.contents.insert(1, critical)
    return made, DEFAULT, made.start(critical)


def other_true():
    made = Certificate("leaf-ec")
    critical = made.extension(KEY_USAGE).contents[1]
    critical.contents = b"\1"
    return made, TRUE, made.contents(critical)


def first_version_written():
    made = Certificate("first-version")
    version = Element(0xA0, [Element(2, b"\0")])
    made.signed.contents.insert(0, version)
    return made, DEFAULT, made.start(version)


def authority_false():
    made = Certificate("leaf-ec")
    value = made.extension(BASIC_CONSTRAINTS).contents[-1]
    value.contents = Element(0x30, [Element(1, b"\0")]).octets()
    return made, DEFAULT, made.contents(value, 2)


def authority_other_true():
    made = Certificate("root-rsa")
    value = made.extension(BASIC_CONSTRAINTS).contents[-1]
    constraints = elements(value.contents)[0]
    constraints.contents[0].contents = b"\1"
    value.contents = constraints.octets()
    return made, TRUE, made.contents(value, 4)


def usage_trailing_zero():
    made = Certificate("leaf-ec")
    value = made.extension(KEY_USAGE).contents[-1]
    bits = elements(value.contents)[0]
    bits.contents = bytes([bits.contents[0] - 1]) + bits.contents[1:]
    value.contents = bits.octets()
    return made, NAMED_BITS, made.contents(value, len(value.contents) - 1)


def usage_unused_bit():
    made = Certificate("leaf-ec")
    value = made.extension(KEY_USAGE).contents[-1]
    bits = elements(value.contents)[0]
    bits.contents = bits.contents[:-1] + bytes([bits.contents[-1] | 1])
    value.contents = bits.octets()
    return made, UNUSED_BIT, made.contents(value, len(value.contents) - 1)


def usage_long_length():
    made = Certificate("leaf-ec")
    value = made.extension(KEY_USAGE).contents[-1]
    bits = elements(value.contents)[0]
    bits.size = long_length
    value.contents = bits.octets()
    return made, LENGTH, made.contents(value, 1)


def unsorted_set():
    made = Certificate("names-ed25519")
    part = next(e for e in made.subject.contents if len(e.contents) > 1)
    part.contents.reverse()
    return made, SET, made.start(part.contents[1])


def octets_in_parts():
    made = Certificate("leaf-ec")
    value = made.extension(KEY_USAGE).contents[-1]
    octets = value.contents
    value.first, value.contents = value.first | 0x20, [Element(value.first, octets[:2]), Element(value.first, octets[2:])]
    return made, PARTS, made.start(value)


def time_without_seconds():
    made = Certificate("leaf-ec")
    time = made.validity.contents[0]
    time.contents = time.contents[:-3] + b"Z"
    return made, UTC_TIME, made.contents(time)


def midnight_as_24_hours():
    made = Certificate("leaf-ec")
    time = made.validity.contents[0]
    time.contents = time.contents[:6] + b"240000Z"
    return made, UTC_TIME, made.contents(time)


def midnight_as_24_hours_by_century():
    made = Certificate("leaf-ec")
    time = made.validity.contents[1]
    time.first, time.contents = 0x18, b"20260601240000Z"
    return made, GENERALIZED_TIME, made.contents(time)


def long_length_behind_a_time():
    made = time_without_seconds()[0]
    object_id = made.key.contents[0].contents[0]
    object_id.size = long_length
    return made, LENGTH, made.start(object_id) + 1


def inside_others(count, octets):
    """A certificate with octets inside this many elements, and the position of the first: in the value of an extension of no known
    kind, whose contents octets lie inside six elements, the others are SEQUENCEs."""
    made = Certificate("leaf-ec")
    extension = made.extension(KEY_USAGE)
    extension.contents[0].contents = bytes([0x2A, 3, 4])
    value = extension.contents[-1]
    value.contents = octets
    for _ in range(count - 6):
        value.contents = Element(0x30, value.contents).octets()
    return made, made.contents(value, len(value.contents) - len(octets))


def indefinite_length_inside_64():
    made, at = inside_others(64, bytes([0x30, 0x80, 0, 0]))
    return made, INDEFINITE, at + 1


def indefinite_length_inside_65():
    made, at = inside_others(65, bytes([0x30, 0x80, 0, 0]))
    return made, TOO_DEEP, at


def printable(part, text):
    """Makes the value of the attribute of a part a PrintableString."""
    part.contents[0].contents[1] = Element(0x13, text)
    return part.contents[0].contents[1]


def outside_alphabet(made, field, value, part, kind):
    """The warning about a PrintableString with characters outside its alphabet, and its position."""
    return f"in its {field} the value of attribute 0 in part {part} ({kind}) {OUTSIDE_ALPHABET}", made.start(value)


def printable_wildcard():
    made = Certificate("leaf-ec")
    value = printable(made.subject.contents[3], b"*.example.org")
    return made, [outside_alphabet(made, "subject", value, 3, "CN")]


def printable_in_both_names():
    made = Certificate("leaf-ec")
    issuer, subject = printable(made.issuer.contents[1], b"A & B_C"), printable(made.subject.contents[2], b"D @ E")
    return made, [outside_alphabet(made, "issuer", issuer, 1, "O"), outside_alphabet(made, "subject", subject, 2, "O")]


def strict(line):
    """A message with --strict: a departure from DER is an error, and a warning of an alphabet is none."""
    return line if OUTSIDE_ALPHABET in line else line.replace(" warning: ", " error: ")


def pem(octets):
    """A text with a certificate in base64."""
    text = base64.encodebytes(octets).decode().replace("\n", "")
    lines = [text[start : start + 64] for start in range(0, len(text), 64)]
    return "\n".join(["-----BEGIN CERTIFICATE-----", *lines, "-----END CERTIFICATE-----", ""])


# The certificates, each with whether the program reads it, and whether writing what was read makes the same octets, as it does where
# they depart from DER in a time or inside the value of an extension.
MADE = {
    "long-length-outside": (long_length_outside, False, False),
    "long-length-inside": (long_length_inside, False, False),
    "indefinite-length": (indefinite_length, False, False),
    "padded-integer": (padded_integer, False, False),
    "padded-object": (padded_object, False, False),
    "critical-false": (critical_false, True, False),
    "other-true": (other_true, False, False),
    "first-version-written": (first_version_written, True, False),
    "authority-false": (authority_false, True, True),
    "authority-other-true": (authority_other_true, True, True),
    "usage-trailing-zero": (usage_trailing_zero, True, True),
    "usage-unused-bit": (usage_unused_bit, True, True),
    "usage-long-length": (usage_long_length, True, True),
    "unsorted-set": (unsorted_set, False, False),
    "octets-in-parts": (octets_in_parts, False, False),
    "time-without-seconds": (time_without_seconds, True, True),
    "midnight-as-24-hours": (midnight_as_24_hours, True, True),
    "midnight-as-24-hours-by-century": (midnight_as_24_hours_by_century, True, True),
    "long-length-behind-a-time": (long_length_behind_a_time, False, False),
    "indefinite-length-inside-64": (indefinite_length_inside_64, True, True),
    "indefinite-length-inside-65": (indefinite_length_inside_65, True, True),
}

# The certificates whose names have such values.
OUTSIDE = {"printable-wildcard": printable_wildcard, "printable-in-both-names": printable_in_both_names}


def main():
    answers, as_der = [], []

    def add(line, is_written=True):
        answers.append(line)
        as_der.append(line if is_written else line.replace(" warning: ", " error: not written: "))

    for name, (make, is_read, is_written) in MADE.items():
        made, rule, at = make()
        (HERE / f"{name}.der").write_bytes(made.octets())
        text = f"byte {at} of its DER: {rule}"
        add(f"{name}.der: warning: {text}" if is_read else f"{name}.der: error: no certificate: {text}", is_written)
    for name, make in OUTSIDE.items():
        made, warnings = make()
        (HERE / f"{name}.der").write_bytes(made.octets())
        for text, at in warnings:
            add(f"{name}.der: warning: byte {at} of its DER: {text}")
    ours, departing = Certificate("leaf-ec").octets(), critical_false()[0].octets()
    at = critical_false()[2]
    several = "A chain of three, of which the second departs from DER.\n"
    several += pem(ours) + "\n" + pem(departing) + "\n" + pem(Certificate("root-rsa").octets())
    (HERE / "several.pem").write_text(several)
    add(f"several.pem: certificate 2: warning: byte {at} of its DER: {DEFAULT}", False)
    bad = pem(ours).replace("MII", "M%I", 1)
    broken = pem(ours) + bad + pem(Certificate("first-version").octets()) + "-----BEGIN CERTIFICATE-----\n"
    (HERE / "broken.pem").write_text(broken)
    add(f"broken.pem: certificate 2: error: no certificate: byte {broken.index('%')} is not base64")
    line = f"there is no line -----END CERTIFICATE----- after byte {len(broken) - 1}"
    add(f"broken.pem: certificate 4: error: no certificate: {line}")
    (HERE / "trailing-bytes.der").write_bytes(ours + bytes(2))
    (HERE / "certificate-and-text.der").write_bytes(ours + pem(ours).encode())
    for name in "trailing-bytes", "certificate-and-text":
        add(f"{name}.der: error: trailing bytes: the certificate ends before byte {len(ours)} of its DER")
    (HERE / "cut-off.der").write_bytes(ours[:100])
    add("cut-off.der: error: no certificate: byte 0 of its DER begins no element (more input is needed)")
    (HERE / "neither.txt").write_text("This is no certificate.\n")
    neither = "no SEQUENCE begins it, and there is no line -----BEGIN CERTIFICATE-----"
    add(f"neither.txt: error: neither DER nor PEM: {neither}")
    (HERE / "answers.txt").write_text("\n".join(answers) + "\n")
    write_rows(answers, as_der)


# The line of the stored run behind which the lines about files are.
FILES = "# Files, by examples/departures/make.py."

# Certificates of ours that keep to DER.
KEPT = ["leaf-ec.der", "leaf-ec.pem", "names-ed25519.der", "first-version.der", "root-rsa.der"]


def write_rows(answers, as_der):
    """Writes the lines about files in the stored run of test_certificates."""
    as_strict = [strict(line) for line in answers]
    names = dict.fromkeys(line.split(":")[0] for line in answers)
    given, wanted = [], []
    for path in [HERE / name for name in names] + [CERTIFICATES / name for name in KEPT]:
        source = f"examples/{path.parent.name}"
        given.append(f"file {path.name} {path.read_bytes().hex()} ; {source}")
        wanted.append(f"file {path.name} ; {source}")
        for option, lines in ("no option", answers), ("--strict", as_strict), ("--der", as_der):
            own = [line.split(": ", 1)[1] for line in lines if line.startswith(f"{path.name}: ")]
            status = int(any(line.startswith("error: ") or ": error: " in line for line in own))
            wanted.append("; ".join([f"    {option} -> status {status}", *own]))
    for name, lines in ("stdin", given), ("stdout", wanted):
        by_hand = (ROWS / name).read_text().split(FILES)[0]
        (ROWS / name).write_text(by_hand + "\n".join([FILES, *lines]) + "\n")


if __name__ == "__main__":
    main()
