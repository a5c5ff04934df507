"""What rows.txt says, by the printed module."""

import sys
from pathlib import Path

import greetings


def answer_of(call, octets):
    try:
        answer = getattr(greetings, call)(octets)
    except greetings.Fault as fault:
        return "1", str(fault.position) if call.endswith("_check") and fault.cause else "-"
    except greetings.Deep:
        return "4", "-"
    if answer is None:
        return "0", "-"
    return "0", answer.hex().upper() if isinstance(answer, bytes) else answer.removesuffix("\n")


for number, row in enumerate(Path(sys.argv[1]).read_text().splitlines(), 1):
    if not row.startswith("#"):
        call, octets, status, answer, _source = row.split("|")
        told = answer_of(call, b"" if octets == "-" else bytes.fromhex(octets))
        print("ok" if told == (status, answer) else f"FAILED {told}", "greetings in Python row", number, call)
