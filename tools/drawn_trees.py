#!/usr/bin/env python3
"""Draws trees with what is to be owned there, and sequences of operations on the lists with an index, beside the gate.

Call it at the top of the repository. `tools/drawn_trees.py` says whether the lists in the tests are those that are drawn: 50 trees in
crates/wx_fs_tests/src/drawn.rt, and 200 sequences in crates/wx_recursor_tests/src/sequences.rt. `tools/drawn_trees.py trees N` and
`tools/drawn_trees.py sequences N` print so many, and with `--try` run the tests over so many instead. It proves nothing: the
texts of tools/drawn_trees are a program that `rt try` runs in a copy of the crates, and so are the tests. The trees are drawn in
draws.rt.txt, slow_walk.rt.txt says what is to be owned, and sequences.rt.txt draws operations.
"""
import pathlib
import shutil
import subprocess
import sys
import tempfile

ROW = "drawn_trees: rand_pcg wx_text\n"
TOP = pathlib.Path(__file__).resolve().parent.parent
LISTS = {
    "trees": ("crates/wx_fs_tests", "drawn.rt", 50, "drawn_trees_are_walked"),
    "sequences": ("crates/wx_recursor_tests", "sequences.rt", 200, "sequences_of_operations"),
}


def copied(to):
    """A copy of the crates, with the program among them."""
    shutil.copytree(TOP / "crates", to / "crates", ignore=shutil.ignore_patterns("out", "must-fail", "more-edits"))
    (to / "crates.txt").write_text((TOP / "crates.txt").read_text() + ROW)
    source = to / "crates/drawn_trees/src"
    source.mkdir(parents=True)
    for text in (TOP / "tools/drawn_trees").glob("*.rt.txt"):
        shutil.copy(text, source / text.name.removesuffix(".txt"))
    return source.parent


def drawn(program, name, many):
    """The list of so many."""
    made = subprocess.run(["rt", "try", "--seconds", "600", "--", name, str(many)], cwd=program, capture_output=True, text=True)
    if made.returncode != 0:
        sys.exit(made.stdout + made.stderr)
    return made.stdout


def parts(source):
    """The text of a file before the list, the list, and what stands behind it."""
    before, rest = source.read_text().split('"\\\n', 1)
    listed, behind = rest.split('";\n', 1)
    return before + '"\\\n', listed, '";\n' + behind


def tried(folder, name, listed):
    """Runs the test over this list."""
    crate, file, _, test = LISTS[name]
    source = folder / crate / "src" / file
    before, _, behind = parts(source)
    source.write_text(before + listed + behind)
    made = subprocess.run(["rt", "try", "--test", "--seconds", "3000"], cwd=folder / crate, capture_output=True, text=True)
    print(made.stdout + made.stderr)
    return f"{test} ... ok" in made.stdout


def same(program, name):
    """Whether the list in the tests is that which is drawn."""
    crate, file, many, _ = LISTS[name]
    is_same = parts(TOP / crate / "src" / file)[1] == drawn(program, name, many)
    print(f"{name}: {crate}/src/{file} has {'just' if is_same else 'not'} the {many} that are drawn")
    return is_same


def main(words):
    with tempfile.TemporaryDirectory() as folder:
        program = copied(pathlib.Path(folder))
        if not words:
            return all([same(program, name) for name in LISTS])
        name, many = words[0], int(words[1])
        listed = drawn(program, name, many)
        if "--try" in words:
            return tried(pathlib.Path(folder), name, listed)
        print(listed, end="")
        return True


sys.exit(0 if main(sys.argv[1:]) else 1)
