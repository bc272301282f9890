#!/usr/bin/env python3
"""Prints how the processor time of replays grows with what waits in them: the seconds for N, 2 N and 4 N, and by which factor they
rose. A factor of about 2 is linear, one of about 4 quadratic. "What calls cost" in docs/DESIGN.md tells which list each kind is about.

Call it at the top of the repository: `tools/growth.py [PROGRAM] [KIND..]`. PROGRAM is crates/wx_run/out/wx_run where it isn't
given, which `rt run` makes. Without a KIND all are run. N is doubled from 250 on until a replay takes a tenth of a second.
"""
import resource
import subprocess
import sys

LATE = 10**12
MOST_EVENTS = 65536
MOST_BYTES = 2**24


def each(n, *turns):
    """These turns for each of N numbers."""
    return [f"turn 0 {turn.format(k)}" for k in range(n) for turn in turns]


def asking(acts):
    """The action handler asks for these acts in one call."""
    return [f"action {' '.join(acts)}", "turn 0 arrive urgent 0", "turn 0 work"]


def jobs(n, act=""):
    """N jobs are made in one call, and this is asked of each."""
    return asking([f"create exec ---- 1 a{act.format(k)}" for k in range(n)])


def window(n):
    """N events pass within one throttle, each taken by a turn."""
    turns = [f"turn {at} {kind}" for at in range(n) for kind in ("arrive normal 0", "work")]
    return [f"set throttle {LATE}", "set size 1", *turns]


def settled(n):
    """A directory is watched, in a tree with N files in it. So many events may wait."""
    files = [f"node file /w/{k} 0" for k in range(n)]
    return [f"set size {max(n, 1)}", "set path n /w", "node dir /w", *files, *each(9, "file")]


def brought(n, *changes):
    """N changes are made in a directory that is watched, these by turns, and each is brought at once."""
    turns = [line for k in range(n) for line in (changes[k % len(changes)].format(k + 1), "turn 0 listen")]
    return [f"set size {n}", *settled(1)[1:], *turns]


def polled(n):
    """N files change in a directory that is watched, and are brought one by one."""
    return [*settled(n), *(f"node file /w/{k} 1" for k in range(n)), *each(n, "listen")]


def roots(n):
    """N paths are watched, and settings applied twice."""
    return [*(f"set path n /p/{k}" for k in range(n)), *each(1, "file", "change throttle 5", "file")]


# Of each kind: a script in which there are N, how a line of its journal begins, and of how many it must, where it isn't N.
KINDS = {
    "turns": (lambda n: each(n, "work"), "word idle"),
    "lost": (window, "take"),
    "handed": (lambda n: [*window(n), f"turn {LATE} work"], "take"),
    "queued": (lambda n: ["set throttle 0", f"set size {n}", *each(n, "arrive normal 0"), *each(n, "work")], "take"),
    "acts": (lambda n: asking(["create exec ---- 1 a", *["ask 0 stop"] * n]), "asked"),
    "made": (jobs, "made"),
    "asked": (lambda n: jobs(n, " ask {} stop"), "asked"),
    "again": (lambda n: asking([*["create exec ---- 1 a"] * n, *(f"getcreate {k} exec ---- 1 a" for k in range(n))]), "made"),
    "stepped": (lambda n: jobs(n) + each(n, "job {}"), "word idle"),
    "ended": (lambda n: jobs(n, " ask {} start") + each(n, "job {}") + each(n, "ended {}"), "wait"),
    "quitting": (lambda n: jobs(n) + asking(["quitgracefully terminate 0"]) + each(n, *["job {0}"] * 3), "gone"),
    "controls": (lambda n: jobs(1) + each(n, "ask 0 stop") + each(n, "job 0"), "raise"),
    "parked": (lambda n: jobs(1, " ask 0 start") + each(1, "job 0") + each(n, "ask 0 towait", "job 0") + each(1, "ended 0"), "raise"),
    "brought": (lambda n: brought(n, "node file /w/0 {}") + each(n, "file"), "offer"),
    "heard": (lambda n: brought(n, "node file /w/b 0", "gone /w/b") + each(1, "change throttle 5") + each(3 * n + 2, "file"), "heard"),
    "polled": (polled, "brought"),
    "roots": (roots, "applied", 2),
    "failing": (lambda n: [f"fail scan {LATE} 5"] * n + settled(1) + each(n, "listen"), "word quiet"),
}


def script_of(kind, n):
    """The script for N, or nothing where there can't be so many."""
    script = "".join(f"{line}\n" for line in KINDS[kind][0](n)).encode()
    fits = len(script) <= MOST_BYTES and (n <= MOST_EVENTS or f"set size {n}\n".encode() not in script)
    return script if fits else None


def seconds_of(program, kind, n):
    """The seconds of a replay. Stops where its journal hasn't what it should."""
    before = resource.getrusage(resource.RUSAGE_CHILDREN)
    run = subprocess.run([program, "replay"], input=script_of(kind, n), stdout=subprocess.PIPE, check=True)
    behind = resource.getrusage(resource.RUSAGE_CHILDREN)
    _, word, *least = KINDS[kind]
    if run.stdout.count(f"\n{word}".encode()) < (least or [n])[0]:
        sys.exit(f"{kind}: the journal for {n} has too few lines '{word}'")
    return behind.ru_utime - before.ru_utime + behind.ru_stime - before.ru_stime


def grow(program, kind):
    """Prints the seconds for three sizes."""
    n = 250
    last = seconds_of(program, kind, n)
    while last < 0.1 and script_of(kind, 8 * n):
        n *= 2
        last = seconds_of(program, kind, n)
    print(f"{kind:>9} {n:8} {last:8.2f}", flush=True)
    for times in (2, 4):
        seconds = seconds_of(program, kind, times * n)
        print(f"{kind:>9} {times * n:8} {seconds:8.2f} {seconds / last:7.1f}", flush=True)
        last = seconds


def main():
    program = sys.argv[1] if len(sys.argv) > 1 else "crates/wx_run/out/wx_run"
    print(f"{'kind':>9} {'n':>8} {'seconds':>8} {'factor':>7}")
    for kind in sys.argv[2:] or KINDS:
        grow(program, kind)


main()
