#!/usr/bin/env python3
"""extensions.py: writes extensions.ber, messages of a client and a server with values of IANA's registry of LDAP (RFC 4520) that are
not in RFC 4511, and with filters that nest 64 deep."""
import pathlib

BASE = "dc=example,dc=org"


def element(tag, contents):
    """An element of BER with a definite length of the fewest octets (X.690, 8.1)."""
    size = len(contents)
    octets = size.to_bytes((size.bit_length() + 7) // 8, "big")
    length = bytes([size]) if size < 128 else bytes([0x80 | len(octets)]) + octets
    return bytes([tag]) + length + contents


def number(value, tag=0x02):
    """An INTEGER, or with the tag 0x0a an ENUMERATED."""
    return element(tag, value.to_bytes(value.bit_length() // 8 + 1, "big"))


def string(text, tag=0x04):
    return element(tag, text.encode("latin-1"))


def sequence(*parts, tag=0x30):
    return element(tag, b"".join(parts))


def item(value):
    return number(value, 0x0a)


def message(message_id, operation, *controls):
    return sequence(number(message_id), operation, *([sequence(*controls, tag=0xa0)] if controls else []))


def result(code, tag, text=""):
    return sequence(item(code), string(""), string(text), tag=tag)


def bind(authentication):
    return sequence(number(3), string(""), authentication, tag=0x60)


def search(scope, filter):
    return sequence(string(BASE), item(scope), item(0), number(0), number(0), element(0x01, b"\0"), filter, sequence(), tag=0x63)


def nested(count, filter):
    """The filter in as many NOTs."""
    for _ in range(count):
        filter = element(0xa2, filter)
    return filter


PRESENT = string("objectClass", 0x87)
SUBSTRINGS = sequence(string("cn"), sequence(string("A", 0x80)), tag=0xa4)
BIND_DONE, SEARCH_DONE, MODIFIED, EXTENDED = 0x61, 0x65, 0x67, 0x78

ASSERTION = sequence(string("1.3.6.1.1.12"), element(0x01, b"\xff"), string("\x87\x02cn"))
INCREMENT = sequence(item(3), sequence(string("uidNumber"), sequence(string("1"), tag=0x31)))

MESSAGES = [
    message(2, bind(string("", 0x80))),
    message(2, result(0, BIND_DONE)),
    # the scope of the subordinates alone
    message(3, search(3, PRESENT)),
    message(3, result(0, SEARCH_DONE)),
    # an assertion that fails (RFC 4528)
    message(4, search(2, PRESENT), ASSERTION),
    message(4, result(122, SEARCH_DONE)),
    # an increment (RFC 4525)
    message(5, sequence(string(BASE), sequence(INCREMENT), tag=0x66)),
    message(5, result(0, MODIFIED)),
    # a cancel (RFC 3909)
    message(6, sequence(string("1.3.6.1.1.8", 0x80), string("\x30\x03\x02\x01\x04", 0x81), tag=0x77)),
    message(6, result(119, EXTENDED)),
    # a refresh that is required (RFC 4533)
    message(7, search(2, PRESENT)),
    message(7, result(4096, SEARCH_DONE)),
    # filters that nest 64 deep
    message(10, search(2, nested(64, SUBSTRINGS))),
    message(10, result(0, SEARCH_DONE)),
    message(14, element(0x42, b"")),
]

pathlib.Path(__file__).with_name("extensions.ber").write_bytes(b"".join(MESSAGES))
