#!/usr/bin/env python3
"""docs/CLAUSES.md: every public call with a contract, and the names of its clauses, read from the sources.

    python3 bench/clauses.py            writes docs/CLAUSES.md
    python3 bench/clauses.py --check    says whether the page is what it would write (status 0 or 1)

Examples, tests, measures and programs without a library are left out, and so are calls that a crate's lib.rt does not hand out.
"""
import difflib
import pathlib
import re
import sys

ROOT = pathlib.Path(__file__).resolve().parent.parent
PAGE = ROOT / "docs" / "CLAUSES.md"
LEFT_OUT = {"examples", "tests", "measures"}

STRING = re.compile(r'"(?:[^"\\]|\\.)*"', re.S)
LONG_HEADER = re.compile(r"^(?:impl|pub trait)\b[^{;]*\{", re.M)
HEADER = re.compile(r"^(?:unsafe )?(?P<kind>impl|pub trait|trait)\b(?P<rest>.*)")
FUNCTION = re.compile(r'^(?P<indent> *)(?P<pub>pub(?:\(\w+\))? )?(?:(?:final|const|unsafe|extern "C") )*fn (?P<name>\w+)')
CLAUSE = re.compile(r"^ *(?P<kind>ensures|requires)\*? *(?P<name>\w+)? *\{")
PARAMETERS = re.compile(r"<(?:[^<>]|<(?:[^<>]|<[^<>]*>)*>)*>")
HANDED_OUT = re.compile(r"^\s*pub (?P<what>use|mod) (?P<names>[^;]*);", re.M)


def crates():
    """The libraries of each group of crates.txt."""
    group, found = None, {}
    for line in (ROOT / "crates.txt").read_text().splitlines():
        if line.startswith("#"):
            group = line.lstrip("# ").strip()
        elif ":" in line:
            name = line.split(":")[0].split()[0]
            if group not in LEFT_OUT and (ROOT / "crates" / name / "src" / "lib.rt").exists():
                found.setdefault(group, []).append(name)
    return found


def handed_out(source):
    """The modules, and the names, that the crate's lib.rt hands out."""
    modules, names = set(), set()
    for found in HANDED_OUT.finditer((source / "lib.rt").read_text()):
        (modules if found["what"] == "mod" else names).update(re.findall(r"\w+", found["names"]))
    return modules, names


def owner(rest, kind):
    """The type whose calls are in an `impl`, or the name of a trait; and whether the calls are a trait's."""
    rest = rest.split(" where ")[0].rstrip(" {")
    if kind.endswith("trait"):
        return re.match(r" *(\w+)", rest).group(1), kind == "pub trait"
    plain = PARAMETERS.sub("", rest.replace("->", "")).strip()
    if " for " not in plain:
        return plain, False
    of, ty = plain.split(" for ", 1)
    return f"{ty.strip()} as {of.strip()}", True


def lines_of(path):
    """The lines of a file without what its strings hold, a long header on one line, and no comments."""
    text = STRING.sub(lambda s: '"C"' if s[0] == '"C"' else '""' + "\n" * s[0].count("\n"), path.read_text())
    text = LONG_HEADER.sub(lambda header: " ".join(header[0].split()), text)
    return [line for line in text.splitlines() if not line.lstrip().startswith("//")]


def calls(path):
    """The calls of a file that are public in it, with their clauses: (type or trait, name, [(kind, name of the clause)])."""
    here, of_trait, found = None, False, None
    for line in lines_of(path):
        if header := HEADER.match(line):
            here, of_trait = owner(header["rest"], header["kind"])
        elif line.startswith("}"):
            here, of_trait = None, False
        if function := FUNCTION.match(line):
            if found and found[2]:
                yield found
            inside = here if function["indent"] else None
            is_public = function["pub"] == "pub " or (inside and of_trait and not function["pub"])
            found = (inside, function["name"], []) if is_public else None
        elif found and (clause := CLAUSE.match(line)):
            found[2].append((clause["kind"], clause["name"]))
    if found and found[2]:
        yield found


def public_calls(source):
    """The calls that a crate hands out."""
    modules, names = handed_out(source)
    for path in sorted(source.rglob("*.rt")):
        inside = path.relative_to(source).with_suffix("").parts
        for where, name, clauses in calls(path):
            words = re.findall(r"\w+", where) if where else [name]
            if path.name == "lib.rt" or modules & set(inside) or names & set(words) or 'extern "C"' in path.read_text():
                yield where, name, clauses


def row(where, name, clauses):
    title = f"{where}::{name}" if where else name
    named = list(dict.fromkeys(clause for kind, clause in clauses if kind == "ensures" and clause))
    asked = [f"`{clause}`" if clause else "one" for kind, clause in clauses if kind == "requires"]
    parts = [", ".join(f"`{clause}`" for clause in named)] if named else []
    if not named and any(kind == "ensures" for kind, _ in clauses):
        parts = ["one clause"]
    return f"- `{title}`: " + "; ".join(parts + ([f"requires {', '.join(asked)}"] if asked else []))


def page():
    lines, count, clauses_in_all, owed = [], 0, 0, 0
    for group, names in crates().items():
        lines += ["", f"## {group[0].upper()}{group[1:]}"]
        for name in names:
            found = list(public_calls(ROOT / "crates" / name / "src"))
            if found:
                lines += ["", f"**{name}**", "", *sorted({row(*call) for call in found})]
            count += len(found)
            clauses_in_all += sum(kind == "ensures" for _, _, clauses in found for kind, _ in clauses)
            owed += sum(any(kind == "requires" for kind, _ in clauses) for _, _, clauses in found)
    head = [
        "# Index of clauses",
        "",
        "Every public call with a contract, by crate, and the names of its clauses. `bench/clauses.py` prints this page from the",
        "sources; the contract is above the body of the call. A call with one clause without a name is marked so, and `requires`",
        "says what a caller owes. Laws that are ghost members of a trait (`lawful`, `one_record`) are not here: they are above the",
        "calls of the trait. [PROMISES.md](PROMISES.md) says what the clauses amount to.",
        "",
        f"{count:,} calls, {clauses_in_all:,} clauses; {owed} calls have a `requires`.",
    ]
    return "\n".join(head + lines) + "\n"


def main():
    text = page()
    if sys.argv[1:] == ["--check"]:
        there = PAGE.read_text() if PAGE.exists() else ""
        changes = list(difflib.unified_diff(there.splitlines(), text.splitlines(), "CLAUSES.md", "sources", lineterm=""))
        print("\n".join(changes[:40]) or "CLAUSES.md is what the sources say")
        return bool(changes)
    PAGE.write_text(text)
    return 0


if __name__ == "__main__":
    sys.exit(main())
