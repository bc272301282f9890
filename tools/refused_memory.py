#!/usr/bin/env python3
"""Replays the example scripts with the Nth allocation refused, for some dozens of N, and holds each to what may come of it: its
journal and its status, where it did without; nothing and the status 6; or another journal in which a backend brought that there was
no memory.

Call it at the top of the repository: `tools/refused_memory.py [N..]`. It proves nothing: it makes wx_run by `rt try` anew for each N,
which takes a minute or two. It prints how many scripts ended in each of these ways, and names any other, and ends with 1 then.

`tools/refused_memory.py --sends` takes the test of crates/wx_handles_tests/src/memory_tests.rt in place of the scripts, which makes
handles and sends by them, and refuses each allocation that it makes, one a run. It is made once, by `rt try --test`, in a copy: each
run first takes as much memory as puts the refused allocation at its number. It prints how many allocations there are, and by which of
them the test failed, and ends with 1 then.
"""
import pathlib
import re
import shutil
import subprocess
import sys
import tempfile

TOP = pathlib.Path(__file__).resolve().parent.parent
DATA = TOP / "crates/wx_examples/data"
NUMBERS = [*range(1, 12), *range(12, 60, 6), *range(60, 200, 20), *range(200, 600, 50)]
SENDS = "crates/wx_handles_tests/src"
SENDS_TEST = "nothing_is_lost_where_memory_is_refused"
SENDS_BOUNDS = "R: AllocGlobal + Abort + Wait + Copy"
SENDS_MOST = 100
SENDS_ROOT = """//! One test, where memory is refused.
#![tactic(auto)]

#[cfg(test)]
mod memory_tests;
#[cfg(test)]
mod trial;
"""
SENDS_RUNS = f"""
fn take(alloc: Global, times: u32) -> bool {{
    for _ in 0..times {{
        if Box::new(alloc, 0u64).is_err() {{
            return false;
        }}
    }}
    true
}}

fn run<{SENDS_BOUNDS}>(rt: R, refused: u32) {{
    assert!(rt; take(rt.alloc(), {SENDS_MOST} - refused), "too soon");
    {SENDS_TEST}(rt);
    assert!(rt; take(rt.alloc(), 1), "behind the end");
}}
"""


def written(n, folder):
    """Of each script, by name, the status and what was written."""
    words = ["rt", "try", "--fail-alloc", str(n), "--seconds", "60", "--cases", folder, "--", "replay"]
    run = subprocess.run(words, cwd=TOP / "crates/wx_run", capture_output=True)
    texts = re.split(rb"^== (.*)\n", run.stdout, flags=re.M)[1:]
    statuses = dict(re.findall(rb"^case=(\S+) run=ended status=(\d+)", run.stderr, flags=re.M))
    return {name.decode(): (int(statuses.get(name, -1)), text) for name, text in zip(texts[::2], texts[1::2])}


def way_of(script, found):
    """In which of the ways this script ended, with this status and text: 0, 1 or 2, and 3 in no such."""
    status, text = found
    journal = script.with_suffix(".journal").read_bytes()
    if found == (0 if b"\nend ok " in journal else 1, journal):
        return 0
    if found == (6, b""):
        return 1
    is_told = status < 2 and re.search(rb"^brought \d+ \d+ fail memory 0$", text, flags=re.M)
    return 2 if is_told else 3


def sends_tried():
    """What was printed by a run for each allocation that the test of sends may make, in which that one is refused."""
    with tempfile.TemporaryDirectory() as folder:
        to = pathlib.Path(folder)
        shutil.copytree(TOP / "crates", to / "crates", ignore=shutil.ignore_patterns("out", "must-fail", "more-edits"))
        shutil.copy(TOP / "crates.txt", to)
        for file in (to / SENDS).glob("*.rt"):
            if file.name not in ("memory_tests.rt", "trial.rt"):
                file.unlink()
        (to / SENDS / "lib.rt").write_text(SENDS_ROOT)
        tests = to / SENDS / "memory_tests.rt"
        runs = [f"\n#[test]\nfn refused_{n}(rt: HostRuntime) {{\n    run(rt, {n});\n}}\n" for n in range(1, SENDS_MOST + 1)]
        text = tests.read_text().replace(f"#[test]\nfn {SENDS_TEST}(rt: HostRuntime)", f"fn {SENDS_TEST}<{SENDS_BOUNDS}>(rt: R)")
        tests.write_text(text + SENDS_RUNS + "".join(runs))
        words = ["rt", "try", "--test", "--fail-alloc", str(SENDS_MOST), "--seconds", "60"]
        return subprocess.run(words, cwd=tests.parent.parent, stdout=subprocess.PIPE, stderr=subprocess.STDOUT, text=True).stdout


def sends():
    """Whether the test of sends passed by each allocation that it makes."""
    printed = sends_tried()
    ended = {int(n): rest for n, rest in re.findall(r"^test \S+::refused_(\d+) \.\.\. (.*\n(?: .*\n)*)", printed, flags=re.M)}
    ends = [n for n, rest in ended.items() if "behind the end" in rest]
    if len(ended) != SENDS_MOST or len(ends) != 1:
        sys.exit(printed)
    made = ends[0] - 1
    failed = [n for n in range(1, made + 1) if not ended[n].startswith("ok")]
    print(f"{made} allocations: nothing was lost by {made - len(failed)}")
    for n in failed:
        print(f"{n}: {ended[n]}")
    return not failed


def main():
    if sys.argv[1:] == ["--sends"]:
        sys.exit(not sends())
    scripts = sorted(DATA.glob("*.txt"))
    odd = 0
    with tempfile.TemporaryDirectory() as folder:
        for script in scripts:
            shutil.copy(script, folder)
        for n in map(int, sys.argv[1:] or NUMBERS):
            found = written(n, folder)
            ways = [way_of(script, found.get(script.name, (-1, b""))) for script in scripts]
            others = [script.name for script, way in zip(scripts, ways) if way == 3]
            odd += len(others)
            print(f"{n}: {ways.count(0)} did without, {ways.count(1)} refused, {ways.count(2)} told", *others, flush=True)
    sys.exit(odd > 0)


main()
