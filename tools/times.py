#!/usr/bin/env python3
"""Runs the gate, and prints when each of its steps ended and what each part of it cost.

`tools/times.sh` calls it at the top of the repository, for the whole gate or, with names, for these crates and those below them. Behind the output of `rt ci` come the processor seconds, own and those of children, of
libraries (programs too), of tests and of edits with the checks that they begin with, of what ran, and of `rt` itself; then the longest way
from a lowest library to a last test, which one processor goes along, and a table of the ten dearest crates of each kind. With `--kept` what
earlier runs on this machine passed is taken, and costs nothing. A run that is ended by `kill` prints what it counted so far.
"""
import collections
import importlib.machinery
import importlib.util
import os
import resource
import signal
import subprocess
import sys
import threading
import time

RT = os.path.realpath(subprocess.run(["sh", "-c", "command -v rt"], capture_output=True, text=True, check=True).stdout.strip())
SPENT, LOCK = collections.defaultdict(collections.Counter), threading.Lock()
KINDS = ("libraries", "tests", "edits", "runs")


def kind_of(words, folder):
    """Returns what a command of the gate is for, and of which crate: a check in a copy of the crate is an edit's."""
    if not any(os.path.basename(it) == "rattle" for it in words[:6]):
        return "runs", os.path.basename(os.path.dirname(os.path.dirname(words[-1]))) if words else ""
    name = words[words.index("--crate-name") + 1] if "--crate-name" in words else ""
    is_edit = os.path.basename(folder).startswith("rt-edit-")
    return "edits" if is_edit else "tests" if "--test" in words else "libraries", name


class Popen(subprocess.Popen):
    """A process whose processor time is counted when it ends."""

    def __init__(self, args, *more, **named):
        self.told = kind_of([str(it) for it in args] if isinstance(args, (list, tuple)) else [], str(named.get("cwd") or ""))
        super().__init__(args, *more, **named)

    def counted(self, pid, flags):
        """Waits for the process as os.waitpid does, and counts what it used."""
        pid, status, used = os.wait4(pid, flags)
        if pid:
            with LOCK:
                SPENT[self.told[0]][self.told[1]] += used.ru_utime + used.ru_stime
        return pid, status

    def _try_wait(self, wait_flags):
        try:
            return self.counted(self.pid, wait_flags)
        except ChildProcessError:
            return self.pid, 0

    def _internal_poll(self, _deadstate=None, _waitpid=None, **named):
        return super()._internal_poll(_deadstate, _waitpid=self.counted, **named)


def loaded():
    """Returns the command `rt` as a module."""
    sys.dont_write_bytecode = True
    sys.path.insert(0, os.path.dirname(RT))
    loader = importlib.machinery.SourceFileLoader("rt", RT)
    module = importlib.util.module_from_spec(importlib.util.spec_from_loader("rt", loader))
    sys.modules["rt"] = module
    loader.exec_module(module)
    return module


class Clocked:
    """Standard output, with the minutes and seconds since the begin before each line in which a step ended."""

    def __init__(self, out):
        self.out, self.begin, self.line, self.buffer = out, time.time(), "", out.buffer

    def write(self, text):
        *lines, self.line = (self.line + text).split("\n")
        for line in lines:
            if line.startswith("rt: ") or " passed, " in line:
                past = int(time.time() - self.begin)
                self.out.write(f"{past // 60:3}:{past % 60:02} {line}\n")
        return len(text)

    def flush(self):
        self.out.flush()


def table():
    """Returns the ten dearest crates of each kind, as rows of a page."""
    ranked = [[(name, seconds) for name, seconds in SPENT[it].most_common() if name][:10] for it in KINDS[:3]]
    rows = ["| Library | s | Tests | s | Edits | s |", "|---|---|---|---|---|---|"]
    for at in range(max(len(it) for it in ranked)):
        cells = [cell for of in ranked for cell in ((f"`{of[at][0]}`", f"{of[at][1]:.0f}") if at < len(of) else ("", ""))]
        rows.append(f"| {' | '.join(cells)} |")
    return "\n".join(rows)


def longest_way():
    """Returns the dearest chain of crates of crates.txt, each above the one before, and its seconds: libraries, and the tests of the last."""
    lines = [line.split("#")[0].partition(":") for line in open("crates.txt", encoding="utf-8")]
    below, ways = {name.split()[0]: names.split() for name, _, names in lines if name.strip()}, {}

    def way(name):
        if name not in ways:
            seconds, names = max((way(it) for it in below[name] if it in below), default=(0, []))
            ways[name] = seconds + SPENT["libraries"][name], [*names, name]
        return ways[name]

    return max((way(it)[0] + SPENT["tests"][it], way(it)[1]) for it in below)


def main(words):
    rt = loaded()
    flags = [] if "--kept" in words or "--anew" not in (rt.__doc__ or "") else ["--anew"]
    signal.signal(signal.SIGTERM, lambda *_: sys.exit(143))
    subprocess.Popen, was = Popen, sys.stdout
    sys.stdout = Clocked(was)
    try:
        status = rt.main(["ci", *flags, *[it for it in words if not it.startswith("--")]])
    except SystemExit as it:
        status = it.code
    sys.stdout.flush()
    past, sys.stdout = time.time() - sys.stdout.begin, was
    own = resource.getrusage(resource.RUSAGE_SELF)
    sums = {it: sum(SPENT[it].values()) for it in KINDS}
    sums["rt itself"] = own.ru_utime + own.ru_stime
    print(f"\nminutes by the clock {past / 60:.1f}; processor seconds {sum(sums.values()):.0f}:")
    print("; ".join(f"{it} {seconds:.0f}" for it, seconds in sums.items()))
    seconds, names = longest_way()
    print(f"the longest way takes {seconds / 60:.1f} minutes of one processor: {' '.join(names)}")
    print(table())
    return status


if __name__ == "__main__":
    sys.exit(main(sys.argv[1:]))
