#!/usr/bin/env python3
"""Whether the rows of docs/THEOREM.md name what exists.

Call it at the top of the repository. It prints each clause of `Watchexec::main` and of `wx_main` without a row, each row of another clause,
and each definition, test and edit that a row names and that doesn't exist; and ends with status 1 where there are some.
"""
import pathlib
import re
import subprocess
import sys

TOP = pathlib.Path(__file__).resolve().parent.parent
CRATES = TOP / "crates"
DATA = CRATES / "wx_examples/data"
QUOTED = re.compile(r"`([^`]+)`")


def clauses():
    """The labels of the ensures clauses of `main` and of `wx_main`."""
    found = []
    for path in list(CRATES.glob("*/src/watchexec_main.rt")) + list(CRATES.glob("*/src/*.rt")):
        text = path.read_text()
        for name in ("main<W: World", "wx_main<"):
            if f"pub fn {name}" in text:
                head = text.split(f"pub fn {name}", 1)[1].split("\n    {\n" if "main<W" in name else "\n{\n", 1)[0]
                found += re.findall(r"^ +ensures (\w+) \{", head, re.M)
    return set(found)


def rows():
    """The rows of the tables: their five cells each."""
    for line in (TOP / "docs/THEOREM.md").read_text().split("\n"):
        if line.startswith("| `"):
            yield [cell.strip() for cell in line.strip("|").split(" | ")]


def missing_definitions(cell):
    for group in cell.split("; "):
        names = QUOTED.findall(group)
        if not names:
            continue
        crate, _, name = names[-1].partition("/")
        path = CRATES / crate / "specs" / f"{name}.antt"
        if not path.exists():
            yield names[-1]
            continue
        for one in names[:-1]:
            if not re.search(rf"^(abbrev|data|record|pub record|pub data)( pub)? {one}\b|^pub (abbrev|data|record) {one}\b", path.read_text(), re.M):
                yield f"{one} in {names[-1]}"


def is_function(name, file):
    return any(re.search(rf"^#\[test\]\nfn {name}\(", path.read_text(), re.M) for path in CRATES.glob(f"*/src/{file}"))


def missing_tests(cell):
    # a heading may hold "; " itself
    for item in re.split(r"; (?=`)", cell):
        names = QUOTED.findall(item)
        if not names:
            continue
        if len(names) == 2:
            ok = is_function(*names)
        elif names[0].endswith(".cases"):
            heading = item.split(": ", 1)[1]
            path = DATA / names[0]
            ok = path.exists() and re.search(rf"^== \w+: {re.escape(heading)}$", path.read_text(), re.M)
        else:
            ok = (DATA / f"{names[0]}.txt").exists() and (DATA / f"{names[0]}.journal").exists()
        if not ok:
            yield item


def missing_edits(cell):
    for name, star in re.findall(r"`(\w+/\w+)`(\*?)", cell):
        crate, _, edit = name.partition("/")
        if not (CRATES / crate / ("more-edits" if star else "must-fail") / f"{edit}.edit").exists():
            yield name + star


def main():
    wrong, told = [], set()
    for clause, _, definition, test, body in rows():
        name = QUOTED.findall(clause)[0]
        told.add(name)
        for it in list(missing_definitions(definition)) + list(missing_tests(test)) + list(missing_edits(body)):
            wrong.append(f"{name}: there is no {it}")
    known = clauses()
    wrong += [f"no row: {it}" for it in sorted(known - told)] + [f"no such clause: {it}" for it in sorted(told - known)]
    print("\n".join(wrong) or "each clause has a row, and all that the rows name exists")
    sys.exit(bool(wrong))


if __name__ == "__main__":
    main()
