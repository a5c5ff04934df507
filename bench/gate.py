#!/usr/bin/env python3
"""Runs `rt ci`, and says what each crate of it cost: the rows of docs/GATE.md.

    python3 bench/gate.py [--anew | NAME..]

The processes below `rt ci` are read twice a second. A row is `crate | seconds | edits | MB`: processor seconds of the crate's proof
with its tests and programs, those of its edits, and the most memory that one process had. What `rt ci` took from an earlier run has
no row: --anew takes nothing. The last line has all processor minutes, also of processes that ended between two looks, and the time by
the clock. The rows come too if the run is ended. The status is that of `rt ci`, whose output goes to standard error.
"""
import collections
import os
import pathlib
import re
import resource
import signal
import subprocess
import sys
import tempfile
import time

ROOT = os.path.dirname(os.path.dirname(os.path.abspath(__file__)))
TICK = os.sysconf("SC_CLK_TCK")
PAGE = os.sysconf("SC_PAGE_SIZE")
CRATE = re.compile(rb"/crates/([a-z0-9_]+)")
# Where rt tries an edit: a folder whose name begins so.
EDITS = os.path.join(tempfile.gettempdir(), "rt-edit-").encode()


def processes():
    """Each process: its parent, its start, its processor seconds, its memory in MB, its words and its folder."""
    for entry in filter(str.isdigit, os.listdir("/proc")):
        try:
            stat = pathlib.Path(f"/proc/{entry}/stat").read_bytes().rpartition(b")")[2].split()
            words = pathlib.Path(f"/proc/{entry}/cmdline").read_bytes()
            folder = os.readlink(f"/proc/{entry}/cwd").encode()
        except OSError:
            continue
        seconds = (int(stat[11]) + int(stat[12])) / TICK
        yield int(entry), int(stat[1]), stat[19], seconds, int(stat[21]) * PAGE / 1e6, words, folder


class Costs:
    """What the processes below one have cost, by their number and start."""

    def __init__(self, root):
        self.root, self.found = root, {}

    def look(self):
        now = list(processes())
        parents = {pid: parent for pid, parent, *_ in now}
        for pid, _, start, seconds, memory, words, folder in now:
            if self.is_below(pid, parents):
                before = self.found.get((pid, start), (0, 0, b"", b""))
                self.found[pid, start] = max(before[0], seconds), max(before[1], memory), words or before[2], folder or before[3]

    def is_below(self, pid, parents):
        while pid in parents and pid != self.root:
            pid = parents[pid]
        return pid == self.root

    def rows(self):
        """Of each crate its seconds, those of its edits, and its memory; the seconds of no crate are those of `rt ci` itself."""
        rows = collections.defaultdict(lambda: [0.0, 0.0, 0.0])
        for seconds, memory, words, folder in self.found.values():
            row = rows[crate_of(words, folder)]
            row[1 if folder.startswith(EDITS) else 0] += seconds
            row[2] = max(row[2], memory)
        return rows


def crate_of(words, folder):
    """The crate that a process works on: the one that its words name, or in whose folder it runs."""
    _, named, after = words.partition(b"\0--crate-name\0")
    if named:
        return after.partition(b"\0")[0].decode()
    found = CRATE.search(folder) or CRATE.search(words)
    return found.group(1).decode() if found else "rt ci"


def print_rows(rows):
    print("| crate | s | edits | MB |\n|---|---|---|---|")
    for crate, (seconds, edits, memory) in sorted(rows.items()):
        print(f"| {crate} | {seconds:.0f} | {f'{edits:.0f}' if edits else ''} | {memory:.0f} |")


def main():
    signal.signal(signal.SIGTERM, signal.default_int_handler)
    started = time.monotonic()
    with subprocess.Popen(["rt", "ci", *sys.argv[1:]], cwd=ROOT, stdout=sys.stderr) as run:
        costs = Costs(run.pid)
        try:
            while run.poll() is None:
                costs.look()
                time.sleep(0.5)
        except KeyboardInterrupt:
            run.terminate()
            run.wait()
    print_rows(costs.rows())
    used = resource.getrusage(resource.RUSAGE_CHILDREN)
    total = (used.ru_utime + used.ru_stime) / 60
    print(f"{total:.0f} processor minutes, {(time.monotonic() - started) / 60:.0f} by the clock, {os.cpu_count()} processors")
    return run.returncode


if __name__ == "__main__":
    sys.exit(main())
