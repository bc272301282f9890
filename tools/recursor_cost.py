#!/usr/bin/env python3
"""Prints what it takes a recursor to settle on trees of about N, 2 N and 4 N directories: watches, looks at files, steps, seconds of
processor time, and the same by the clock.

Call it at the top of the repository: `tools/recursor_cost.py [N]`. N is 2500 where it isn't given. It proves nothing: it runs
tools/recursor_cost_program.txt over the crates as they stand, by `rt try`, in a copy. Each access is checked there, so the seconds
are many times those of a proved program: what they tell is how they grow. The tree is computed, so they are those of the
recursor alone. The processor time is that of a run less that of a run over one directory, which is the time of the building.
"""
import math
import pathlib
import resource
import shutil
import subprocess
import sys
import tempfile

ROW = "recursor_cost: wx_text wx_words wx_events wx_watch wx_error wx_paths wx_notify wx_tree wx_scan wx_recursor wx_recursor_lists wx_index wx_holding wx_step wx_rebuild wx_walk wx_settle wx_fs\n"
TOP = pathlib.Path(__file__).resolve().parent.parent


def copied(to):
    """A copy of the crates, with the program among them."""
    shutil.copytree(TOP / "crates", to / "crates", ignore=shutil.ignore_patterns("out", "must-fail"))
    (to / "crates.txt").write_text((TOP / "crates.txt").read_text() + ROW)
    source = to / "crates/recursor_cost/src"
    source.mkdir(parents=True)
    shutil.copy(TOP / "tools/recursor_cost_program.txt", source / "main.rt")
    return source.parent


def run(crate, wide):
    """The numbers that the program prints for so wide a tree, and the processor time of building and running it."""
    before = resource.getrusage(resource.RUSAGE_CHILDREN)
    made = subprocess.run(["rt", "try", "--seconds", "600", "--", str(wide)], cwd=crate, capture_output=True, text=True)
    after = resource.getrusage(resource.RUSAGE_CHILDREN)
    words = made.stdout.split("\n")[0].split()
    if made.returncode != 0 or len(words) != 4:
        sys.exit(made.stdout + made.stderr)
    return [int(word) for word in words], after.ru_utime - before.ru_utime + after.ru_stime - before.ru_stime


def main():
    directories = int(sys.argv[1]) if len(sys.argv) > 1 else 2500
    print(f"{'watches':>9} {'looks':>9} {'steps':>9} {'seconds':>9} {'by clock':>9}")
    with tempfile.TemporaryDirectory() as folder:
        crate = copied(pathlib.Path(folder))
        _, building = run(crate, 1)
        for times in (1, 2, 4):
            (watches, looks, steps, millis), took = run(crate, math.isqrt(times * directories))
            print(f"{watches:9} {looks:9} {steps:9} {took - building:9.2f} {millis / 1000:9.2f}", flush=True)


main()
