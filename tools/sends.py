#!/usr/bin/env python3
"""Prints how many sends a second come through a queue of 64 that four threads send into, each again while it is full, while one thread
takes: of 100,000 keys by handles that a world takes as turns, of as many numbers through the queue alone, and of as many items through
a channel in plain Rust, tools/sends.rs.

Call it at the top of the repository: `tools/sends.py [HANDLES QUEUE]`, on a machine that does nothing else. The two are the tests of
crates/wx_handles_tests and crates/wx_queue_tests as programs; where they aren't given, out/NAME_tests in their folders, which
`rt test` makes. Of each ten runs are timed by the clock, each whole, with the look at what came at its end.
"""
import pathlib
import statistics
import subprocess
import sys
import tempfile
import time

COUNT = 100_000
RUNS = 10
TOP = pathlib.Path(__file__).resolve().parent.parent
TESTS = {"wx_handles_tests": "load_tests::nothing_is_lost_under_load", "wx_queue_tests": "thread_tests::four_threads_send_a_hundred_thousand"}


def timed(words):
    """The seconds of each run."""
    seconds = []
    for _ in range(RUNS):
        start = time.monotonic()
        subprocess.run(words, check=True, stdout=subprocess.DEVNULL)
        seconds.append(time.monotonic() - start)
    return seconds


def tell(name, seconds):
    least, middle = min(seconds), statistics.median(seconds)
    print(f"{name:16} {1000 * least:9.1f} {1000 * middle:9.1f} {COUNT / least:12,.0f} {COUNT / middle:12,.0f}", flush=True)


def main():
    programs = sys.argv[1:] or [TOP / f"crates/{name}/out/{name}_tests" for name in TESTS]
    print(f"{'':16} {'least ms':>9} {'median ms':>9} {'most a s':>12} {'median a s':>12}")
    for program, (name, test) in zip(programs, TESTS.items()):
        tell(name, timed([program, test]))
    with tempfile.TemporaryDirectory() as folder:
        peer = f"{folder}/sends"
        subprocess.run(["rustc", "-O", "-o", peer, TOP / "tools/sends.rs"], check=True)
        tell("plain Rust", timed([peer]))


main()
