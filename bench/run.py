#!/usr/bin/env python3
"""Times asn1_check on inputs of 1, 10 and 100 MB, and measures its peak memory; or compares it with plain Rust; or does the same
with the codecs over bytes, of which measure_codecs is the program, or with certificates; or tries the codecs, by try_codecs.

    python3 bench/run.py
    python3 bench/run.py --plain
    python3 bench/run.py --codecs
    python3 bench/run.py --codecs --values
    python3 bench/run.py --codecs --canonical
    python3 bench/run.py --stack
    python3 bench/run.py --damage SECONDS
    python3 bench/run.py --growths
    python3 bench/run.py --long
    python3 bench/run.py --certificates

proves and builds the program first, or with --built takes the one that `rt ci` built in this checkout. The first prints a line for
each kind of input and size: the rate in MB (10^6 bytes) a second, the best of three runs, and the peak memory of the process in MB.
The second builds bench/plain.rs, a program in plain Rust that does the same job, by `rustc -O`, and prints the seconds of processor
time that both take for 20 MB, the best of five.

The third builds bench/plain_codecs.rs, and prints for lists of values and chains of nodes, by each codec and both ways: the rate in
MB a second, the instructions for each byte, if valgrind is there, and the peak memory; the same of plain Rust that answers if memory
runs out, as the codecs do, and of plain Rust that aborts then, with the ratio of the times. The time is that of the processor, the
best of five, less what it takes to make the values. With --values it prints the instructions for each value of a list of 1000 and for
each node of a chain of 200, those of plain Rust, and how many times as many. Reading a Badge in packed form is compared a third time,
with plain Rust that makes a table of the tags of its CHOICE. With --canonical it prints the instructions for each of these values of
reading, of writing, and of canonical reading.

The next prints for each type that holds itself how many nested scopes a stack of 8 MiB holds in writing, reading and dropping.
The one after it damages the bytes of a value of each sample type for this long, by one seed after another. Then it refuses each
growth of memory in turn, while a value of each sample type is written and read and a list of tags is made, and writes an OCTET
STRING of 2^32 octets, which no item can hold. The last is bench/certificates.py.
"""
import os
import resource
import shutil
import subprocess
import sys
import tempfile
import time

import measure
from measure import ROOT

CRATE = os.path.join(ROOT, "crates", "asn1_check")
PROGRAM = os.path.join(CRATE, "out", "asn1_check")
SPEED = os.path.join(ROOT, "crates", "measure_codecs")
SPEED_PROGRAM = os.path.join(SPEED, "out", "measure_codecs")
TRIALS = os.path.join(ROOT, "crates", "try_codecs")
TRIALS_PROGRAM = os.path.join(TRIALS, "out", "try_codecs")
CERTIFICATES = os.path.join(ROOT, "bench", "certificates.py")
CERTIFICATES_PROGRAM = os.path.join(ROOT, "crates", "measure_certificates", "out", "measure_certificates")


def wide_tree(step):
    """A line with a tree of 700 leaves, all different, which ascend if the step is 1."""
    leaves = (divmod(place * step % 700, 175) for place in range(700))
    return ("tree t (" + " ".join(f"{'UACP'[number]}{value}" for number, value in leaves) + ")\n").encode()


def table(kind, fields):
    """A table of that kind with these fields, whose trees are given."""
    lines = [f"f{place} {presence} {tree}" for place, (presence, tree) in enumerate(fields)]
    return "\n".join([f"{kind} t", *lines, "end\n"]).encode()


def wide_field(place):
    """The tree of 100 leaves of the field at a place, in no order; no two such fields share a leaf."""
    return "(" + " ".join(f"C{100 * place + leaf * 37 % 100}" for leaf in range(100)) + ")"


KINDS = {
    "trees of 8 leaves": b"tree t (U0 U3 (A0 A1) (C0 C2) P0 P1)\n",
    "trees of 700 leaves that ascend": wide_tree(1),
    "trees of 700 leaves in no order": wide_tree(321),
    "lines that are not understood": b"tree t (U0 U3 (A0 A1) (C0 C2) P0 P1]\n",
    "sequences of 30 fields": table("sequence", (("optional", f"C{place}") for place in range(30))),
    "sets of 30 fields": table("set", (("required", f"C{place}") for place in range(30))),
    "sequences of 256 fields": table("sequence", (("optional", f"C{place}") for place in range(256))),
    "sets of 256 fields": table("set", (("required", f"C{place}") for place in range(256))),
    "sets of 256 fields of 100 leaves": table("set", (("required", wide_field(place)) for place in range(256))),
    "bounds": b"bound b -5..1000000 & 17..\n",
}


def peak_memory(process):
    """The peak memory of a running program so far in MB, as the system counts it since the program began."""
    with open(f"/proc/{process.pid}/status") as status:
        for line in status:
            if line.startswith("VmHWM:"):
                return int(line.split()[1]) / 1000
    return 0.0


def run(path):
    """Runs the program on a file, and gives its seconds and its peak memory in MB."""
    memory = 0.0
    with open(path, "rb") as source, open(os.devnull, "wb") as sink:
        began = time.monotonic()
        process = subprocess.Popen([PROGRAM], stdin=source, stdout=sink)
        while process.poll() is None:
            memory = max(memory, peak_memory(process))
            time.sleep(0.001)
        return time.monotonic() - began, memory


def write_lines(source, line, megabytes):
    """Fills the file with the line, over and over."""
    lines = line * max(1, 10**6 // len(line))
    for _ in range(megabytes):
        source.write(lines)
    source.flush()


def build(crate):
    """Proves and builds the program of a crate, unless the one that is there is to be taken."""
    if "--built" not in sys.argv:
        subprocess.run(["rt", "run"], cwd=crate, stdin=subprocess.DEVNULL, check=True)


def least_seconds(words, path=os.devnull):
    """The least processor time in seconds that a program takes for a file in five runs."""
    return min(measure.seconds(words, path) for _ in range(5))


def compare_with_plain():
    """Prints the processor time of asn1_check and of bench/plain.rs for 20 MB of each kind."""
    with tempfile.TemporaryDirectory() as folder:
        plain = measure.plain_rust(folder, "plain")
        for kind, line in KINDS.items():
            with tempfile.NamedTemporaryFile() as source:
                write_lines(source, line, 20)
                ours, theirs = (least_seconds([program], source.name) for program in (PROGRAM, plain))
            print(f"{kind}: {ours:.3f} s, plain Rust {theirs:.3f} s, ratio {ours / theirs:.2f}")


def memory_of(words):
    """The peak memory of a program in MB, as the system has it for as long as the program runs."""
    peak = 0
    with subprocess.Popen(words, stdin=subprocess.DEVNULL, stdout=subprocess.DEVNULL) as process:
        while process.poll() is None:
            with open(f"/proc/{process.pid}/status") as status:
                peak = next((int(line.split()[1]) for line in status if line.startswith("VmHWM:")), peak)
    return peak * 1024 / 10**6


def cost(count, words, times):
    """What one time of a job costs by a count, less what is done before it."""
    return (count([*words, str(times)]) - count([*words, "0"])) / times


# The codecs, and the lists with their lengths; of nodes the length of the chain. BER is compared with plain Rust for DER, which is what
# it writes.
CODECS = ("packed", "tag", "der", "ber")
LISTS = {"person": (10**4, 10**5), "profile": (10**4, 10**5), "badge": (10**4, 10**5), "node": (500, 2000)}

# The lists whose values are counted, and the chain whose nodes are.
COUNTED = {"person": (1000,), "profile": (1000,), "badge": (1000,), "node": (200,)}


def jobs_of(lists):
    """The words of each job: the codec, the action, the values and how many."""
    return [
        [codec, action, name, str(count)]
        for codec in CODECS
        for name, counts in lists.items()
        for action in ("write", "read")
        for count in counts
    ]


def plain_forms(job):
    """The forms of plain Rust with which a job is compared: one that answers if memory runs out, one that aborts then, and for a Badge,
    read in packed form, one that makes a table of the tags of its CHOICE."""
    form = "der" if job[0] == "ber" else job[0]
    forms = [form, f"{form}-aborting"]
    return [*forms, "packed-with-table"] if job[:3] == ["packed", "read", "badge"] else forms


def compare_codecs():
    """Prints rates, instructions and memory of the codecs over bytes, and of plain Rust."""
    with tempfile.TemporaryDirectory() as folder:
        plain = measure.plain_rust(folder, "plain_codecs")
        for job in jobs_of(LISTS):
            compare_job(plain, job)


def programs_for(plain, job):
    """The words of each program that does a job: that of the codecs first, and then plain Rust in each of its forms."""
    return [[SPEED_PROGRAM, *job], *([plain, form, *job[1:]] for form in plain_forms(job))]


def compare_job(plain, job):
    """Prints what a job costs, and what it costs each form of plain Rust."""
    ours, *others = programs_for(plain, job)
    said = measure.answer([*ours, "1"]).strip()
    for words in others:
        theirs = measure.answer([*words, "1"]).strip()
        if theirs != said:
            sys.exit(f"{' '.join(job)}: {said}, but plain Rust, {words[1]}: {theirs}")
    megabytes = int(said.split()[0]) / 10**6
    times = max(1, round(100 / megabytes))
    seconds, text = measured(ours, times, megabytes)
    print(f"{' '.join(job)}: {text}", flush=True)
    for words in others:
        theirs, text = measured(words, times, megabytes)
        print(f"    plain Rust, {words[1]}: {text}, ratio {seconds / theirs:.2f}", flush=True)


def measured(words, times, megabytes):
    """The seconds that a job takes a program; and in words its rate, its instructions for each byte, if valgrind is there, and its
    peak memory."""
    seconds = cost(least_seconds, words, times)
    text = f"{megabytes / seconds:.0f} MB/s"
    if shutil.which("valgrind"):
        text += f", {cost(measure.instructions, words, 1) / 10**6 / megabytes:.1f} instructions a byte"
    return seconds, f"{text}, peak memory {memory_of([*words, str(times)]):.1f} MB"


def count_instructions():
    """Prints the instructions that the codecs take for each value, those of plain Rust, and how many times as many."""
    with tempfile.TemporaryDirectory() as folder:
        plain = measure.plain_rust(folder, "plain_codecs")
        for job in jobs_of(COUNTED):
            count_job(plain, job)


def count_job(plain, job):
    """Prints the instructions that a job takes for each value, and those of each form of plain Rust."""
    ours, *others = (cost(measure.instructions, words, 1) / int(job[3]) for words in programs_for(plain, job))
    beside = ", ".join(f"{form} {theirs:.0f}: {ours / theirs:.2f}" for form, theirs in zip(plain_forms(job), others))
    print(f"{job[2]}, {job[0]}, {job[1]}: {ours:.0f}; plain Rust, {beside}", flush=True)


def count_canonical():
    """Prints the instructions of canonical reading for each value, and those of reading and of writing it."""
    for codec in CODECS:
        for name, (count,) in COUNTED.items():
            jobs = {action: [SPEED_PROGRAM, codec, action, name, str(count)] for action in ("read", "write", "canonical")}
            counts = {action: cost(measure.instructions, words, 1) / count for action, words in jobs.items()}
            text = ", ".join(f"{action} {steps:.0f}" for action, steps in counts.items())
            print(f"{name}, {codec}: {text}; {counts['canonical'] / counts['read']:.2f} times reading", flush=True)


def reaches(request, step):
    """Whether a request gets past a step on a stack of 8 MiB."""
    limit = lambda: resource.setrlimit(resource.RLIMIT_STACK, (8 << 20, 8 << 20))
    process = subprocess.run([TRIALS_PROGRAM], input=f"{request}\n".encode(), stdout=subprocess.PIPE, preexec_fn=limit)
    return step in process.stdout.decode()


def most_levels(request, step):
    """The most levels that get past a step, of which up to one in a thousand is missing. Where two million do, no more are tried."""
    low, high = 1, 2
    while high < 2**21 and reaches(f"{request} {high}", step):
        low, high = high, 2 * high
    while high - low > max(1, low // 1000):
        middle = (low + high) // 2
        low, high = (middle, high) if reaches(f"{request} {middle}", step) else (low, middle)
    return low


# How many nested scopes each level takes of the types that hold themselves, and how many the innermost takes.
SCOPES = {"node": (2, 2), "nested": (2, 1), "open": (3, 1)}


def measure_stack():
    """Prints how many nested scopes of each type that holds itself a stack of 8 MiB holds."""
    for name, (each, innermost) in SCOPES.items():
        for codec in CODECS:
            request = f"{codec} {name} {2**63}"
            steps = {step: most_levels(f"{request} nest", step) for step in ("written", "read")}
            steps["dropped"] = most_levels(f"{request} drop", "dropped")
            text = ", ".join(f"{step} {each * levels + innermost}" for step, levels in steps.items())
            print(f"{name} {codec}: {text}", flush=True)


def requests(action):
    """The lines of the stored run of try_codecs that have this action."""
    with open(os.path.join(TRIALS, "stdin")) as lines:
        return [line.rstrip("\n") for line in lines if line.split(" ")[3:4] == [action]]


def damage(seconds):
    """Damages bytes by one seed after another until the time is over, and stops where the program answers anything else than that
    each value comes back."""
    end, seed = time.monotonic() + seconds, 0
    lines = [line.split(" ", 5) for line in requests("damage")]
    while time.monotonic() < end:
        seed += 1
        asked = [" ".join([*words[:4], str(seed), *words[5:]]) for words in lines]
        process = subprocess.run([TRIALS_PROGRAM], input="\n".join(asked).encode(), stdout=subprocess.PIPE)
        said = process.stdout.decode().splitlines()
        if process.returncode != 0 or said != [f"comes back <- {line}" for line in asked]:
            sys.exit(f"seed {seed}: status {process.returncode}, {[line for line in said if not line.startswith('comes back')]}")
    print(f"{seed} seeds")


def refuse_growths():
    """Refuses each growth in turn, and stops where the program answers anything else than that a value comes back or that there is no
    memory, or where it does not answer that the value comes back once no growth is refused."""
    with tempfile.TemporaryDirectory() as folder:
        library = os.path.join(folder, "librefuse.so")
        source = os.path.join(ROOT, "bench", "refuse.rs")
        subprocess.run(["rustc", "-O", "--edition", "2024", "--crate-type", "cdylib", source, "-o", library], check=True)
        counts = {codec: 0 for codec in CODECS}
        for line in requests("growths"):
            counts[line.split(" ")[0]] += refused_growths(library, line)
        for codec, count in counts.items():
            print(f"{codec}: {count} growths", flush=True)
        for line in requests("table"):
            refuse_tags(library, line)


def refuse_tags(library, line):
    """Refuses each growth in turn while a list of tags is made with a table that does not fit, and stops where none is answered by the
    memory that is missing for the tags: it is asked for before the table is looked at."""
    number, answers = 1, []
    while True:
        environment = {**os.environ, "LD_PRELOAD": library, "REFUSED": str(number)}
        process = subprocess.run([TRIALS_PROGRAM], input=f"{line}\n".encode(), env=environment, capture_output=True)
        said = process.stdout.decode().splitlines()
        if b"a growth is refused" not in process.stderr:
            if process.returncode != 0 or said != [line, "table entry 1 does not fit"]:
                sys.exit(f"{line}, no growth refused: status {process.returncode}, {said}")
            break
        answers.append(said)
        number += 1
    if [line, "no memory"] not in answers:
        sys.exit(f"{line}: {answers}")
    print(f"table: {len(answers)} growths", flush=True)


def refused_growths(library, line):
    """How many growths a request has, each of which was refused."""
    number = 1
    while True:
        environment = {**os.environ, "LD_PRELOAD": library, "REFUSED": str(number)}
        process = subprocess.run([TRIALS_PROGRAM], input=f"{line}\n".encode(), env=environment, capture_output=True)
        said = process.stdout.decode().rstrip("\n")
        if b"a growth is refused" not in process.stderr:
            if process.returncode != 0 or said != f"comes back <- {line}":
                sys.exit(f"{line}, no growth refused: status {process.returncode}, {said}")
            return number - 1
        # a line that does not fit in memory is not understood, and with status 1 the program had no memory for its input or output
        allowed = {0: [f"{text} <- {line}" for text in ("comes back", "no memory")] + [f"not understood: {line}"], 1: [""]}
        if said not in allowed.get(process.returncode, ()):
            sys.exit(f"{line}, growth {number}: status {process.returncode}, {said}")
        number += 1


def write_long_contents():
    """Writes an OCTET STRING of 2^32 octets by the codecs over items, and stops where one answers anything else than that it is too
    long; and one of 2^32 - 1 octets, which is not."""
    for codec in ("packed", "tag"):
        for length, answer in ((2**32, "item too long"), (2**32 - 1, f"written: {2**32 + 10} bytes")):
            line = f"{codec} octets 0 long {length}"
            process = subprocess.run([TRIALS_PROGRAM], input=f"{line}\n".encode(), stdout=subprocess.PIPE)
            said = process.stdout.decode().splitlines()
            if process.returncode != 0 or said != [line, answer]:
                sys.exit(f"{line}: status {process.returncode}, {said}")
            print(f"{line}: {answer}", flush=True)


def measure_certificates():
    """Calls bench/certificates.py, with the program that was built if that is asked for."""
    built = [CERTIFICATES_PROGRAM] if "--built" in sys.argv else []
    sys.exit(subprocess.run([sys.executable, CERTIFICATES, *built]).returncode)


def main():
    if {"-h", "--help"} & set(sys.argv):
        print(__doc__.strip())
        return
    if "--certificates" in sys.argv:
        measure_certificates()
    if "--codecs" in sys.argv:
        build(SPEED)
        if "--canonical" in sys.argv:
            return count_canonical()
        return count_instructions() if "--values" in sys.argv else compare_codecs()
    if {"--stack", "--damage", "--growths", "--long"} & set(sys.argv):
        build(TRIALS)
        if "--damage" in sys.argv:
            return damage(float(sys.argv[-1]))
        if "--growths" in sys.argv:
            return refuse_growths()
        if "--long" in sys.argv:
            return write_long_contents()
        return measure_stack()
    build(CRATE)
    print(f"cores: {os.cpu_count()}")
    if "--plain" in sys.argv:
        compare_with_plain()
        return
    for kind, line in KINDS.items():
        for megabytes in (1, 10, 100):
            with tempfile.NamedTemporaryFile() as source:
                write_lines(source, line, megabytes)
                runs = [run(source.name) for _ in range(3)]
            seconds = min(seconds for seconds, _ in runs)
            memory = max(memory for _, memory in runs)
            print(f"{kind}, {megabytes} MB: {megabytes / seconds:.0f} MB/s, peak memory {memory:.1f} MB")


main()
