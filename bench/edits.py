#!/usr/bin/env python3
"""Tries the edits that are not in the gate: the prover has to refuse each.

    python3 bench/edits.py [--ci] [CRATE..]

copies the crates of this checkout, puts bench/edits/CRATE in the place of each crate's must-fail/, and runs `rt must-fail` there, for
these crates or for all that have such edits. It prints what rt says of each edit as it comes, and at the end `N passed, M failed`; the
status is 0 if and only if M is 0. An edit that cannot be applied, compiled or read has failed, and so has one that was not tried.

`rt must-fail` begins with what `rt check` kept on this machine, in any checkout, and proves what is not there first; then an edit costs
some 20 seconds. With --ci, `rt ci` tries them, over what runs of `rt ci` kept; then a crate's first edit costs as much as its proof.
They are tried when their crate changes (docs/GATE.md).
"""
import collections
import os
import re
import shutil
import signal
import subprocess
import sys
import tempfile

ROOT = os.path.dirname(os.path.dirname(os.path.abspath(__file__)))
EDITS = os.path.join(ROOT, "bench", "edits")
ANSWER = re.compile(r"(?:rt: )?must-fail (\S+): (.*)")


def crates_with_edits():
    return sorted(name for name in os.listdir(EDITS) if os.path.isdir(os.path.join(EDITS, name)))


def copy_crates(room, chosen):
    """Makes a copy of the crates in the folder, in which these have the edits of bench/edits and no other."""
    for name in ("crates.txt", "HANDLES"):
        shutil.copy(os.path.join(ROOT, name), room)
    without = shutil.ignore_patterns("out", "must-fail")
    shutil.copytree(os.path.join(ROOT, "crates"), os.path.join(room, "crates"), ignore=without)
    for name in chosen:
        shutil.copytree(os.path.join(EDITS, name), os.path.join(room, "crates", name, "must-fail"))


def try_edits(room, verb, chosen):
    """Prints rt's lines. Returns the edits that were refused, those that have an answer, and the last lines of all."""
    refused, answered, last = set(), set(), collections.deque(maxlen=6)
    command = ["rt", verb, *chosen]
    with subprocess.Popen(command, cwd=room, stdout=subprocess.PIPE, stderr=subprocess.STDOUT, text=True, errors="replace") as run:
        try:
            for line in run.stdout:
                last.append(line)
                answer = ANSWER.match(line)
                if answer:
                    answered.add(answer[1])
                if answer and answer[2].startswith("refused"):
                    refused.add(answer[1])
                if answer or line.startswith("rt: "):
                    print(line.rstrip("\n"), flush=True)
        except BaseException:
            run.terminate()
            raise
    return refused, answered, last


def main():
    signal.signal(signal.SIGTERM, signal.default_int_handler)
    names = crates_with_edits()
    words = sys.argv[1:]
    verb = "ci" if words[:1] == ["--ci"] else "must-fail"
    chosen = sorted(set(words[verb == "ci":])) or names
    unknown = [name for name in chosen if name not in names]
    if unknown:
        sys.exit(f"bench/edits has no folder {unknown[0]}; edits in the gate are tried by rt must-fail")
    edits = {f"{name}/{edit}" for name in chosen for edit in os.listdir(os.path.join(EDITS, name))}
    with tempfile.TemporaryDirectory(prefix="edits-") as room:
        copy_crates(room, chosen)
        refused, answered, last = try_edits(room, verb, chosen)
    if not edits <= answered:
        print("".join(last), end="")
    for edit in sorted(edits - refused):
        print(f"{'not refused' if edit in answered else 'not tried'}: {edit}")
    refused &= edits
    print(f"{len(refused)} passed, {len(edits - refused)} failed")
    sys.exit(0 if refused == edits else 1)


if __name__ == "__main__":
    main()
