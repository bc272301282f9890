#!/usr/bin/env python3
"""Draws 600 scripts by chance, runs them, holds their journals to a second, slow reading of the rules, and compares them with the
cases drawn_*.cases in crates/wx_examples/data, which the gate replays; with `--write` it writes these.

Call it at the top of the repository: `tools/drawn_scripts.py [--write] [KIND..]`. Without a KIND all three are drawn: `changes`,
`jobs` and `files`. It proves nothing: it runs the files of tools/drawn_scripts as a program over the crates as they stand, by
`rt try`, in a copy, which takes some minutes. A script that fails the reading is named, and none behind it is drawn. It ends with 1
then, and where a file has other cases.
"""
import pathlib
import re
import shutil
import subprocess
import sys
import tempfile

ROW = "drawn_scripts: rand_pcg wx_text wx_words wx_bytes wx_replay\n"
TOP = pathlib.Path(__file__).resolve().parent.parent
DATA = TOP / "crates/wx_examples/data"
KINDS = {
    "changes": "a hundred scripts with two hundred changes of settings, and with quits in actions that make jobs again",
    "jobs": "three hundred scripts of events and jobs, with hooks, functions, graces and faults",
    "files": "two hundred scripts with turns about files and turns that listen, in trees that change",
}


def copied(to):
    """A copy of the crates, with the program among them."""
    shutil.copytree(TOP / "crates", to / "crates", ignore=shutil.ignore_patterns("out", "must-fail", "more-edits"))
    (to / "crates.txt").write_text((TOP / "crates.txt").read_text() + ROW)
    source = to / "crates/drawn_scripts/src"
    source.mkdir(parents=True)
    for file in (TOP / "tools/drawn_scripts").iterdir():
        shutil.copy(file, source / file.stem)
    return source.parent


def drawn(crate, kinds):
    """Of each of these kinds the text of its cases, each of which passed the slow reading."""
    to = crate.parent
    run = subprocess.run(["rt", "try", "--seconds", "3000", "--", str(to), *kinds], cwd=crate, capture_output=True, text=True)
    if run.returncode != 0:
        sys.exit(run.stdout + run.stderr)
    return {kind: (to / kind).read_text() for kind in kinds}


def main():
    kinds = [word for word in sys.argv[1:] if word != "--write"] or list(KINDS)
    others = 0
    with tempfile.TemporaryDirectory() as folder:
        found = drawn(copied(pathlib.Path(folder)), kinds)
    for kind, cases in found.items():
        file = DATA / f"drawn_{kind}.cases"
        text = f"# Drawn by chance: {KINDS[kind]}. `tools/drawn_scripts.py` writes them.\n{cases}"
        if "--write" in sys.argv[1:]:
            file.write_text(text)
        same = file.exists() and file.read_text() == text
        others += not same
        print(f"{file.name}: {len(re.findall('^== ', text, flags=re.M))} cases, {'the same' if same else 'OTHERS'}")
    sys.exit(others > 0)


main()
