"""What ../rows.txt says, and certificates beside OpenSSL, by the functions of the module."""

import re
import subprocess
import sys
import threading
from pathlib import Path

import fanughespu as fan


def element_text(octets):
    e = fan.der_element(octets)
    header = len(octets) - len(e.rest) - len(e.contents)
    return f"{e.tag_class} {e.number} {int(e.constructed)} {header} {len(e.contents)}"


CALLS = {
    "der_check": lambda octets: fan.der_check(octets) or "",
    "der_element": element_text,
    "integer_text": fan.integer_text,
    "ber_normal": lambda octets: fan.ber_normal(octets).hex().upper(),
}


def part_text(number, octets):
    """The number of a part is handed on as it is."""
    part = fan.certificate_part(octets, number)
    return f"{octets.index(part)} {len(part)}"


def answer_of(call, octets):
    try:
        if call.startswith("certificate_part_"):
            return "0", part_text(int(call.removeprefix("certificate_part_")), octets)
        if call == "certificate_broken_rule":
            broken = fan.certificate_broken_rule(octets)
            return ("0", "") if broken is None else ("1", f"{broken.rule} {broken.position}")
        return "0", CALLS[call](octets)
    except fan.Fault as fault:
        return "1", str(fault.position) if call == "der_check" else ""
    except fan.Deep:
        return "4", ""


def tell(what, passes):
    print("ok" if passes else "FAILED", "Python", what)


def try_rows(path):
    for number, row in enumerate(path.read_text().splitlines(), 1):
        if not row.startswith("#"):
            call, octets, status, answer, _source = row.split("|")
            told = answer_of(call, b"" if octets == "-" else bytes.fromhex(octets))
            tell(f"row {number} {call}", told == (status, "" if answer == "-" else answer))


def serial_number(certificate):
    serial = fan.der_element(fan.certificate_part(certificate, fan.Part.SERIAL_NUMBER))
    return int(fan.integer_text(serial.contents))


def openssl(certificate, *words):
    return subprocess.run(["openssl", *words, "-inform", "DER"], input=certificate, capture_output=True, check=True).stdout


def serial_of_openssl(certificate):
    return int(openssl(certificate, "x509", "-noout", "-serial").decode().strip().removeprefix("serial="), 16)


def parts_of_openssl(certificate):
    """Positions and lengths of the elements at the depths of parts, by asn1parse: lines such as "4:d=1  hl=4 l= 645 cons: SEQUENCE"."""
    inside = {1: [], 2: []}
    for line in openssl(certificate, "asn1parse").decode().splitlines():
        place, depth, header, size = re.match(r" *(\d+):d=(\d+) +hl=(\d+) +l= *(\d+)", line).groups()
        if int(depth) in inside and len(inside[1]) < 2 + (int(depth) == 1):
            inside[int(depth)].append(certificate[int(place) : int(place) + int(header) + int(size)])
    first = int(inside[2][0][0] == 0xA0)
    signed = inside[2][first:]
    return [inside[1][0], signed[0], signed[2], signed[4], signed[5], inside[1][2]]


def try_certificates(certificates):
    tell("certificates are DER", all(fan.der_check(c) is None for c in certificates))
    some = certificates[:20]
    tell("parts are those of OpenSSL", all([fan.certificate_part(c, part) for part in fan.Part] == parts_of_openssl(c) for c in some))
    tell("certificates break no rule", all(fan.certificate_broken_rule(c) is None for c in some))
    tell("serial numbers are those of OpenSSL", all(serial_number(c) == serial_of_openssl(c) for c in some))


def report_of(octets):
    try:
        return fan.certificate_report(octets)
    except fan.Fault as fault:
        return str(fault)


def try_texts(examples):
    certificates = sorted((examples / "certificates").glob("*.der"))
    tell("reports", certificates and all(report_of(c.read_bytes()) == c.with_suffix(".txt").read_text() for c in certificates))
    tell("a cut certificate", all("byte" in report_of(c.read_bytes()[:60]) for c in certificates))
    streams = sorted((examples / "ldap").glob("*.ber"))
    tell("lines of LDAP", streams and all(lines_of(s.read_bytes(), 10**6) == s.with_suffix(".txt").read_text() for s in streams))
    tell("lines of LDAP in pieces", all(lines_of(s.read_bytes(), 100) == s.with_suffix(".txt").read_text() for s in streams))


def lines_of(stream, piece):
    """The lines of a stream that comes in pieces of this length."""
    text, octets = "", b""
    for at in range(0, len(stream), piece):
        octets += stream[at : at + piece]
        lines = fan.ldap_lines(octets)
        text, octets = text + lines.text, octets[lines.used :]
        if lines.is_damaged:
            return text + "damaged"
    return text


def try_threads(certificates):
    wrong = []

    def check():
        for certificate in certificates * 20:
            if fan.ber_normal(certificate) != certificate:
                wrong.append(certificate)

    threads = [threading.Thread(target=check) for _ in range(4)]
    for thread in threads:
        thread.start()
    for thread in threads:
        thread.join()
    tell("four threads", not wrong)


if __name__ == "__main__":
    tell("version", fan.version() == 1)
    try_rows(Path(sys.argv[1]))
    try_texts(Path(sys.argv[2]))
    all_certificates = [Path(name).read_bytes() for name in sys.argv[3:]]
    try_certificates(all_certificates)
    try_threads(all_certificates)
