#!/usr/bin/env python3
"""Prints what it takes `Patterns` to answer of hostile patterns and paths whose lengths are n, 2 n and 4 n: the milliseconds of
`check_dir` and of `check_event`, and beside them those of a matcher in plain Rust, tools/hostile_patterns.rs. Where both lengths are
doubled, a time that is linear in their product rises fourfold.

Call it at the top of the repository: `tools/hostile_patterns.py [PROGRAM]`. PROGRAM is tools/hostile_patterns_program.txt over the
crates, built by LLVM; 4 n is 4,096 then. Where it isn't given, `rt try` runs it over the crates as they stand, in a copy: each access is
checked there, so the times are a hundred times as long, and 4 n is 1,024. It proves nothing. All times are of a processor.
"""
import pathlib
import re
import shutil
import subprocess
import sys
import tempfile

NAME = "hostile_patterns"
ROW = f"{NAME}: wx_text wx_words wx_events wx_error wx_config wx_patterns\n"
TOP = pathlib.Path(__file__).resolve().parent.parent


def stars(n):
    """A path and a pattern of n bytes: a part that could begin anywhere in a long name, and fits nowhere."""
    return "/" + "a" * (n - 2) + "b", "/" + "*a" * ((n - 1) // 2)


def deep(n):
    """A path of n bytes, and a quarter as many parts `**`."""
    return "/a" * (n // 2), "/".join(["**"] * (n // 4))


def deep_names(n):
    """A path and a pattern of n bytes: names that could stand anywhere in the path, and one that it doesn't have."""
    return "/a" * (n // 2), "**/a/" * (n // 5) + "c"


KINDS = {"*a*a..": stars, "**/**/..": deep, "**/a/**/a/..": deep_names}


def cases(n):
    """Of each case, by name, its kind, its path and its pattern."""
    return {f"{k}.{times}": (kind, *KINDS[kind](times * n)) for k, kind in enumerate(KINDS) for times in (1, 2, 4)}


def tried(folder, files):
    """What the program printed of each file, by name, by `rt try`."""
    shutil.copytree(TOP / "crates", folder / "crates", ignore=shutil.ignore_patterns("out", "must-fail", "more-edits"))
    (folder / "crates.txt").write_text((TOP / "crates.txt").read_text() + ROW)
    source = folder / "crates" / NAME / "src"
    source.mkdir(parents=True)
    shutil.copy(TOP / f"tools/{NAME}_program.txt", source / "main.rt")
    words = ["rt", "try", "--seconds", "600", "--cases", str(files)]
    made = subprocess.run(words, cwd=source.parent, capture_output=True, text=True)
    texts = re.split(r"^== (.*)\n", made.stdout, flags=re.M)[1:]
    if made.returncode != 0:
        sys.exit(made.stdout + made.stderr)
    return dict(zip(texts[::2], texts[1::2]))


def printed(program, files):
    """What this program printed of each file, by name."""
    def of(file):
        return subprocess.run([program], stdin=file.open(), capture_output=True, text=True, check=True).stdout

    return {file.name: of(file) for file in files.iterdir()}


def told(ours, peer):
    """Of each of the texts the times in milliseconds. The answers must be the same."""
    is_dir, of_dir, is_event, of_event = ours.split()
    is_peer, of_peer = peer.split()
    if not is_dir == is_event == is_peer:
        sys.exit(f"other answers: {ours} {peer}")
    return int(of_dir) / 1e6, int(of_event) / 1e6, int(of_peer) / 1e6


def main():
    program = sys.argv[1] if len(sys.argv) > 1 else None
    asked = cases(1024 if program else 256)
    with tempfile.TemporaryDirectory() as folder:
        to = pathlib.Path(folder)
        files = to / "files"
        files.mkdir()
        for name, (_, path, pattern) in asked.items():
            (files / name).write_text(f"{path}\n{pattern}\n")
        subprocess.run(["rustc", "-O", "-o", to / "peer", TOP / f"tools/{NAME}.rs"], check=True)
        peer = printed(to / "peer", files)
        ours = printed(program, files) if program else tried(to, files)
    print(f"{'pattern':14} {'bytes':>6} {'of the path':>11} {'check_dir':>10} {'check_event':>11} {'plain Rust':>10}  (milliseconds)")
    for name, (kind, path, pattern) in asked.items():
        times = told(ours[name], peer[name])
        print(f"{kind:14} {len(pattern):6} {len(path):11} {times[0]:10.2f} {times[1]:11.2f} {times[2]:10.2f}")


main()
