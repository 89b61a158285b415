#!/usr/bin/env python3
"""Looks for each name that the rows of docs/PROMISES.md cite in the sources, and prints those that are not there.

    docs/promise_names.py

A row is an item of a list in a section with a number; below it stand what carries it, if anything does, and whether it is proved. In what
carries it a crate stands before its functions, and a function, with a colon, before its clauses. A function has to be one of
the crate that was named last; a clause has to be a label behind `ensures` of a function that was named, or a name in some specs. The status
is 1 if a name is not there.
"""
import re
import sys
from pathlib import Path

ROOT = Path(__file__).resolve().parent.parent
CRATES = {path.name for path in (ROOT / "crates").iterdir()}
# The crates whose names stand in a section without them.
USUAL = {"3": ["amf_cli", "amf_commands", "amf_answer_laws", "amf_options", "amf_workers", "amf_main"], "5": ["amf_desk"]}
FUNCTION = re.compile(r"\bfn (\w+)")
TYPE = re.compile(r"\b(?:struct|enum|trait|type) ([A-Z]\w+)| as ([A-Z]\w+)")
LABEL = re.compile(r"\bensures (\w+) \{")
TOLD = re.compile(r"^\s*(?:unfoldable |abbrev )*(?:pub )?(?:record |data |abbrev )?([\w']+) [:({]", re.M)


def plain(name):
    """A name without its type, its folder and the ending of its file."""
    return re.sub(r"\.(antt|rt)$", "", re.split(r"::|/", name)[-1])


def functions_of(crate):
    """The names of a crate's functions, with the labels of their clauses."""
    functions = {}
    for path in (ROOT / f"crates/{crate}/src").rglob("*.rt"):
        parts = FUNCTION.split(path.read_text())
        for name, text in zip(parts[1::2], parts[2::2]):
            functions.setdefault(name, set()).update(LABEL.findall(text))
    return functions


def told_anywhere():
    """Every type of the code and every name that some specs define, the files, and the programs in bench."""
    code, specs = list(ROOT.glob("crates/*/src/**/*.rt")), list(ROOT.glob("crates/*/specs/*.antt"))
    types = {name for path in code for pair in TYPE.findall(path.read_text()) for name in pair}
    names = {name for path in specs for name in TOLD.findall(path.read_text())}
    return types | names | {path.stem for path in [*code, *specs, *ROOT.glob("bench/*")]}


def lost(row, usual, functions, told):
    """The names of a row that are not there."""
    crates, labels = usual, set()
    for part in row.split(";"):
        before, colon, clauses = part.partition("`: ")
        labels = set() if colon else labels
        for name in re.findall(r"`([^`]+)`", before + "`" if colon else before):
            here = [functions[crate][plain(name)] for crate in crates if plain(name) in functions[crate]]
            if name in functions:
                crates = [name]
            elif here:
                labels = labels.union(*here)
            elif plain(name) not in told:
                yield name
        for name in re.findall(r"`([^`]+)`", clauses):
            if plain(name) not in labels | told | set(functions) and not any(plain(name) in functions[crate] for crate in crates):
                yield name


def rows(text):
    """Of each row the section, the number of its line, and its parts: the promise, what carries it, and whether it is proved."""
    section, found, now = "", [], []
    for number, line in enumerate(text.splitlines(), 1):
        section = line[3:4] if line.startswith("## ") else section
        if section.isdigit() and line.startswith("- "):
            now = [line[2:]]
            found.append((section, number, now))
        elif now and line.startswith("  - "):
            now.append(line[4:])
        elif now and line.startswith("  "):
            now[-1] += " " + line.strip()
        else:
            now = []
    return found


def main():
    functions, told, good = {crate: functions_of(crate) for crate in CRATES}, told_anywhere(), True
    for section, number, parts in rows((ROOT / "docs/PROMISES.md").read_text()):
        if len(parts) not in [2, 3]:
            print(f"docs/PROMISES.md:{number}: a row of {len(parts)} parts")
            good = False
        for name in lost(parts[1], USUAL.get(section, []), functions, told) if len(parts) == 3 else []:
            print(f"docs/PROMISES.md:{number}: {name} is not there")
            good = False
    sys.exit(not good)


if __name__ == "__main__":
    main()
