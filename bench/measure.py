"""What the scripts that measure share: programs that are built, their instructions, their processor time, and rows of tables."""
import os
import re
import resource
import subprocess
import tempfile

ROOT = os.path.dirname(os.path.dirname(os.path.abspath(__file__)))
# The processor for which `rt` builds.
PROCESSOR = "x86-64-v2"


def proved(name):
    """Proves and builds the program of a crate, and gives its path."""
    crate = os.path.join(ROOT, "crates", name)
    subprocess.run(["rt", "run"], cwd=crate, stdin=subprocess.DEVNULL, check=True)
    return os.path.join(crate, "out", name)


def link_ours(folder, names, given):
    """Puts links to programs of ours into a folder: to those of the folder that is given, if one is, and else to proved ones."""
    for name in names:
        program = os.path.join(os.path.abspath(given[0]), name) if given else proved(name)
        os.symlink(program, os.path.join(folder, name))


def plain_rust(folder, source, name=None, arguments=()):
    """Builds a program of bench/ in plain Rust, and gives its path."""
    program = os.path.join(folder, name or source)
    words = ["rustc", "-O", "-C", f"target-cpu={PROCESSOR}", "--edition", "2024", *arguments]
    subprocess.run([*words, os.path.join(ROOT, "bench", f"{source}.rs"), "-o", program], check=True)
    return program


def answer(words, path=os.devnull):
    """What a program writes about a file."""
    with open(path, "rb") as source:
        return subprocess.run(words, stdin=source, capture_output=True, check=True).stdout.decode()


def instructions(words, path=os.devnull):
    """How many instructions a program takes for a file."""
    with tempfile.NamedTemporaryFile() as log:
        answer(["valgrind", "--tool=cachegrind", "--cache-sim=no", f"--cachegrind-out-file={log.name}", *words], path)
        return next(int(line.split()[1]) for line in log if line.startswith(b"summary:"))


def allocations(words, path=os.devnull):
    """How often a program allocates for a file."""
    with open(path, "rb") as source:
        run = subprocess.run(["valgrind", *words], stdin=source, capture_output=True, check=True)
    return int(re.search(rb"total heap usage: ([\d,]+) allocs", run.stderr)[1].replace(b",", b""))


def seconds(words, path=os.devnull):
    """The processor time in seconds that a program takes for a file."""
    before = resource.getrusage(resource.RUSAGE_CHILDREN)
    with open(path, "rb") as source:
        subprocess.run(words, stdin=source, stdout=subprocess.DEVNULL)
    after = resource.getrusage(resource.RUSAGE_CHILDREN)
    return after.ru_utime + after.ru_stime - before.ru_utime - before.ru_stime


def print_head(titles):
    """Prints the head of a table in Markdown."""
    print_row(titles)
    print("|" + "---|" * len(titles), flush=True)


def print_row(texts):
    """Prints a row of a table in Markdown."""
    print("|", " | ".join(texts), "|", flush=True)
