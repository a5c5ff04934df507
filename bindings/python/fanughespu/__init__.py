"""DER, BER, certificates and messages of LDAP by proved code.

A call takes `bytes` and answers values of Python. ctypes lets other threads run during a call, and calls share nothing.
"""

import ctypes
from enum import IntEnum
from pathlib import Path
from typing import NamedTuple

_OK, _FAULT, _ROOM, _MEMORY, _DEEP = range(5)
_library = ctypes.CDLL(str(Path(__file__).resolve().parent / "libfanughespu.so"))
_octets, _size = ctypes.c_char_p, ctypes.c_size_t
_to_size = ctypes.POINTER(_size)


class _RawElement(ctypes.Structure):
    _fields_ = [
        ("tag_class", ctypes.c_uint32),
        ("number", ctypes.c_uint32),
        ("constructed", ctypes.c_bool),
        ("header", _size),
        ("size", _size),
    ]


def _call(name, *arguments):
    call = getattr(_library, name)
    call.argtypes, call.restype = arguments, ctypes.c_int32
    return call


_der_check = _call("fan_der_check", _octets, _size, _to_size)
_der_element = _call("fan_der_element", _octets, _size, ctypes.POINTER(_RawElement))
_integer_text = _call("fan_integer_text", _octets, _size, _octets, _size, _to_size)
_ber_normal = _call("fan_ber_normal", _octets, _size, _octets, _size, _to_size)
_broken_rule = _call("fan_certificate_broken_rule", _octets, _size, ctypes.POINTER(ctypes.c_uint32), _to_size)
_part = _call("fan_certificate_part", _octets, _size, ctypes.c_uint32, _to_size, _to_size)
_report = _call("fan_certificate_report", _octets, _size, _octets, _size, _to_size)
_ldap_lines = _call("fan_ldap_lines", _octets, _size, _octets, _size, _to_size, _to_size)
_version = _call("fan_version")


class Fault(ValueError):
    """The octets are not what the call reads. `position` is the first octet, from 0, at which an element is due and none begins, if
    the call tells it."""

    def __init__(self, position: int | None = None, message: str = "the octets are not what is read"):
        super().__init__(message if position is None else f"no element begins at octet {position}")
        self.position = position


class Deep(ValueError):
    """Nested more than 64 deep: constructed elements, or scopes of a value."""


class Part(IntEnum):
    """A part of a certificate (RFC 5280, 4.1)."""

    SIGNED = 0
    SERIAL_NUMBER = 1
    ISSUER = 2
    SUBJECT = 3
    KEY = 4
    SIGNATURE = 5


class BrokenRule(NamedTuple):
    """A rule of DER that octets break: its number in fanughespu.h, and the position, from 0."""

    rule: int
    position: int


class LdapLines(NamedTuple):
    """The lines of the messages of LDAP with which octets begin, how many octets these have, and whether what is behind them begins no
    message. Else there is nothing, or they end inside an element."""

    text: str
    used: int
    is_damaged: bool


class Element(NamedTuple):
    """An element of DER: the class (0 universal, 1 application, 2 context-specific, 3 private) and the number of its tag, its form, its
    contents octets, and the octets after it."""

    tag_class: int
    number: int
    constructed: bool
    contents: bytes
    rest: bytes


def version() -> int:
    """The version of the calls that the library has."""
    return _version()


def der_check(octets: bytes) -> None:
    """Raises `Fault` or `Deep` unless the octets are elements of DER, one after another, and so on inside those that are constructed."""
    position = _size()
    _raise(_der_check(octets, len(octets), position), position.value)


def der_element(octets: bytes) -> Element:
    """The element with which the octets begin, whatever follows it. Raises `Fault` if none begins them."""
    raw = _RawElement()
    _raise(_der_element(octets, len(octets), raw), 0)
    end = raw.header + raw.size
    return Element(raw.tag_class, raw.number, raw.constructed, octets[raw.header : end], octets[end:])


def integer_text(octets: bytes) -> str:
    """The decimal digits of the INTEGER with these contents octets."""
    return _result(_integer_text, octets, 40).decode()


def ber_normal(octets: bytes) -> bytes:
    """The elements of BER that the octets are, with definite lengths of the fewest octets. Raises `Fault` or `Deep`."""
    return _result(_ber_normal, octets, len(octets))


def certificate_report(octets: bytes) -> str:
    """The lines of the report of the certificate that the octets are, also if they break a rule of DER and can be read.

    Raises `Fault` with the reason and the byte, or `Deep`.
    """
    status, text = _written(_report, octets, 4096)
    if status == _FAULT:
        raise Fault(None, text.decode(errors="replace"))
    _raise(status, None)
    return text.decode(errors="replace")


def ldap_lines(octets: bytes) -> LdapLines:
    """The lines of the messages of LDAP with which the octets begin, in BER."""
    used = _size()
    status, text = _written(_ldap_lines, octets, 4096, used)
    if status != _FAULT:
        _raise(status, None)
    return LdapLines(text.decode(errors="replace"), used.value, status == _FAULT)


def certificate_broken_rule(octets: bytes) -> BrokenRule | None:
    """A rule of DER that the octets of a certificate break, if they break one. Octets that are no certificate may break none."""
    rule, position = ctypes.c_uint32(), _size()
    status = _broken_rule(octets, len(octets), rule, position)
    if status == _FAULT:
        return BrokenRule(rule.value, position.value)
    return _raise(status, None)


def certificate_part(octets: bytes, part: Part) -> bytes:
    """The element that is this part of the certificate with these octets. Raises `Fault` if there is none."""
    position, size = _size(), _size()
    _raise(_part(octets, len(octets), part, position, size), None)
    return octets[position.value : position.value + size.value]


def _result(call, octets, room):
    status, out = _written(call, octets, room)
    _raise(status, None)
    return out


def _written(call, octets, room, *more):
    while True:
        size, out = _size(), ctypes.create_string_buffer(room)
        status = call(octets, len(octets), out, room, size, *more)
        if status != _ROOM:
            return status, out.raw[: size.value]
        room = size.value


def _raise(status, position):
    if status == _FAULT:
        raise Fault(position)
    if status == _DEEP:
        raise Deep("elements are nested deeper than 64")
    if status == _MEMORY:
        raise MemoryError
