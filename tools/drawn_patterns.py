#!/usr/bin/env python3
"""Draws patterns and paths of a small alphabet, and says of each path by a slow reading of the rules whether it is ignored: it tries
each choice. It proves nothing.

Call it at the top of the repository. `tools/drawn_patterns.py` says whether crates/wx_control_tests/src/drawn_patterns.rt has the 150
cases that are drawn; with `--write` it writes them. `tools/drawn_patterns.py N` draws N cases, which begin with these, and runs the
tests over them by `rt try`, in a copy of the crates.
"""
import pathlib
import random
import shutil
import subprocess
import sys
import tempfile

TOP = pathlib.Path(__file__).resolve().parent.parent
LIST = "crates/wx_control_tests/src/drawn_patterns.rt"
MANY = 150
HEAD = """// Patterns and paths that `tools/drawn_patterns.py` drew, with what its slow reading says of them.

pub(crate) const DRAWN: &str = "\\
"""
NAMES = ["a", "b", "ab", "ba", "aab", "a.b"]
TEST = "drawn_patterns_ignore"


def part_matches(part, name):
    """Whether a part of a pattern matches a name."""
    if not part:
        return not name
    if part[0] == "*":
        return any(part_matches(part[1:], name[i:]) for i in range(len(name) + 1))
    return bool(name) and part[0] in ("?", name[0]) and part_matches(part[1:], name[1:])


def matches(parts, names):
    """Whether the parts of a pattern match a list of names."""
    if not parts:
        return not names
    if parts == ["**"]:
        return bool(names)
    if parts[0] == "**":
        return any(matches(parts[1:], names[i:]) for i in range(len(names) + 1))
    return bool(names) and part_matches(parts[0], names[0]) and matches(parts[1:], names[1:])


def parts_of(line):
    """Of a line that is a pattern whether it has no `!`, and its parts; None of another line."""
    hides = not line.startswith("!")
    line = line.removeprefix("!")
    fixed = line.startswith("/")
    left = line.removeprefix("/").removesuffix("/")
    parts = left.split("/")
    if any(part in ("", ".", "..") for part in parts):
        return None
    return hides, parts if fixed or len(parts) > 1 else ["**", *parts]


def components(path):
    """The components of an absolute path."""
    return [part for part in path.split("/") if part not in ("", ".")]


def ignored(base, patterns, path):
    """Whether a path is ignored."""
    base, names = components(base), components(path)
    if names[: len(base)] != base:
        return False
    below = names[len(base) :]
    for count in range(1, len(below) + 1):
        words = [hides for hides, parts in patterns if matches(parts, below[:count])]
        if words and words[-1]:
            return True
    return False


def drawn_part(draw):
    kind = draw.random()
    if kind < 0.25:
        return "**"
    if kind < 0.55:
        return draw.choice(NAMES)
    return "".join(draw.choice("aab**?") for _ in range(draw.randint(1, 3)))


def drawn_line(draw):
    """A line that may be a pattern."""
    parts = [drawn_part(draw) for _ in range(draw.choice([1, 1, 1, 2, 2, 3]))]
    marks = ["!" if draw.random() < 0.35 else "", "/" if draw.random() < 0.25 else ""]
    return "".join(marks) + "/".join(parts) + ("/" if draw.random() < 0.15 else "")


def drawn_path(draw, base):
    """A path that mostly lies below the base."""
    names = [draw.choice([*NAMES, *NAMES, "..", "."]) for _ in range(draw.choice([0, 1, 2, 2, 3, 3, 4, 5]))]
    front = base.rstrip("/") if draw.random() < 0.9 else draw.choice(["", "/a", "/b/a", "//b", "/./b"])
    return (front + "".join("/" * draw.choice([1, 1, 1, 1, 2]) + name for name in names)) or "/"


def drawn_case(seed):
    """A case as a line: the base, the patterns, and each path behind `-` where it is ignored, and else behind `+`."""
    draw = random.Random(seed)
    base = draw.choice(["/", "/b", "/b", "/b/a"])
    lines = [line for line in (drawn_line(draw) for _ in range(draw.randint(1, 5))) if parts_of(line)]
    patterns = [parts_of(line) for line in lines]
    paths = [drawn_path(draw, base) for _ in range(8)]
    answers = [("-" if ignored(base, patterns, path) else "+") + path for path in paths]
    return ", ".join([base, *lines]) + " = " + ", ".join(answers) + "\n"


def text_of(many):
    return HEAD + "".join(drawn_case(seed) for seed in range(many)) + '";\n'


def tried(many):
    """Runs the test over so many."""
    with tempfile.TemporaryDirectory() as folder:
        to = pathlib.Path(folder)
        shutil.copytree(TOP / "crates", to / "crates", ignore=shutil.ignore_patterns("out", "must-fail", "more-edits"))
        shutil.copy(TOP / "crates.txt", to)
        (to / LIST).write_text(text_of(many))
        crate = (to / LIST).parent.parent
        made = subprocess.run(["rt", "try", "--test", "--seconds", "3000"], cwd=crate, capture_output=True, text=True)
    print(made.stdout + made.stderr)
    return f"{TEST} ... ok" in made.stdout


def main(words):
    if words == ["--write"]:
        (TOP / LIST).write_text(text_of(MANY))
        return True
    if words:
        return tried(int(words[0]))
    is_same = (TOP / LIST).read_text() == text_of(MANY)
    print(f"{LIST} has {'just' if is_same else 'not'} the {MANY} cases that are drawn")
    return is_same


sys.exit(0 if main(sys.argv[1:]) else 1)
