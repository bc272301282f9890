#!/usr/bin/env python3
"""Tries `wx_run live` as a user does, in real folders, and prints for each trial its seconds and what was seen.

Call it so: `tools/live_tour.py PROGRAM [NAME..]`, where PROGRAM is wx_run, built by LLVM. Without names all trials run, but for `rest`,
`reaction` and `large`, which take minutes. Each trial makes a folder, starts `PROGRAM live -- COMMAND` in it, changes files there, and reads
what the command wrote beside the folder, and the journal that the program wrote at its end. The status is 1 where a trial failed.
"""
import os
import pathlib
import pty
import shutil
import signal
import statistics
import subprocess
import sys
import tempfile
import time

PROGRAM = ""
QUIET = 0.6  # seconds after which a small folder is watched whole


class Unseen(Exception):
    """What should have been seen wasn't."""


def expect(is_so, what):
    """Fails the trial where it isn't so."""
    if not is_so:
        raise Unseen(what)


class Live:
    """A run in a folder of its own. Its command writes a line into the file `started` beside the folder, and then does `then`."""

    def __init__(self, then="exec sleep 1000", fill=None, words=(), command=None, before=(), **more):
        self.room = pathlib.Path(tempfile.mkdtemp(prefix="live_tour_"))
        os.chmod(self.room, 0o777)
        self.folder, self.started = self.room / "watched", self.room / "started"
        self.folder.mkdir()
        self.started.touch()
        os.chmod(self.started, 0o666)
        if fill:
            fill(self.folder)
        program = PROGRAM
        if before:
            program = shutil.copy(PROGRAM, self.room / "wx_run")
            os.chmod(self.room, 0o755)
        command = command or ["sh", "-c", f"echo $$ >> {self.started}; {then}"]
        named = {"stdin": subprocess.PIPE, "stdout": open(self.room / "out", "wb"), "stderr": open(self.room / "err", "wb"), **more}
        self.begin = time.time()
        self.process = subprocess.Popen([*before, program, "live", *words, "--", *command], cwd=self.folder, **named)

    def __enter__(self):
        return self

    def __exit__(self, *failed):
        self.process.kill()
        self.process.wait()
        for pid in self.pids():
            if is_alive(pid):
                os.kill(pid, signal.SIGKILL)
        shutil.rmtree(self.room, ignore_errors=True)

    def pids(self):
        """The ids of the commands that were started, in order."""
        return [int(it) for it in self.started.read_text().split()]

    def starts(self, count, seconds=5.0):
        """Waits until the command was started so often, and returns how long that took."""
        begin = time.time()
        while len(self.pids()) < count:
            expect(time.time() - begin < seconds, f"{len(self.pids())} starts in place of {count} after {seconds} s")
            expect(self.process.poll() is None, f"the program ended with {self.process.returncode}")
            time.sleep(0.002)
        return time.time() - begin

    def settled(self):
        """Waits until the command wasn't started for a while, and returns how often it was."""
        count = -1
        while count < len(self.pids()):
            count = len(self.pids())
            time.sleep(2 * QUIET)
        return count

    def ready(self):
        """Waits until the command was started once, and the folder is watched."""
        self.starts(1)
        time.sleep(QUIET)

    def write(self, name, text="x"):
        """Writes a file of the folder."""
        (self.folder / name).write_text(text)

    def key(self, keys):
        """Types keys."""
        self.process.stdin.write(keys)
        self.process.stdin.flush()

    def ended(self, seconds=15.0):
        """Waits for the end of the program. Returns its status and the lines of its journal."""
        self.process.wait(seconds)
        return self.process.returncode, (self.room / "out").read_text().splitlines()

    def quit(self):
        """Types `q`. Returns the lines of the journal, whose run ended well."""
        self.key(b"q")
        status, lines = self.ended()
        expect(status == 0, f"status {status}: {(self.room / 'err').read_text()}")
        expect(lines[-1].startswith("end ok lost"), lines[-1])
        return lines


def is_alive(pid):
    """Whether a process is there and is no zombie."""
    try:
        return pathlib.Path(f"/proc/{pid}/stat").read_text().rsplit(")", 1)[1].split()[0] != "Z"
    except OSError:
        return False


def spent(pid):
    """The seconds of processor time that a process used."""
    ticks = pathlib.Path(f"/proc/{pid}/stat").read_text().rsplit(")", 1)[1].split()[11:13]
    return sum(int(it) for it in ticks) / os.sysconf("SC_CLK_TCK")


def tree(folders, files):
    """Fills a folder with so many folders of so many files each."""
    def fill(folder):
        for k in range(folders):
            (folder / f"d{k:04}").mkdir()
            for n in range(files):
                (folder / f"d{k:04}" / f"f{n}").touch()
    return fill


# ---- trials: each returns what was seen


def a_file_is_written():
    with Live() as run:
        run.ready()
        run.write("a")
        first = run.starts(2)
        time.sleep(QUIET)
        run.write("a", "other")
        second = run.starts(3)
        lines = run.quit()
    expect(sum(it.startswith("spawn ") for it in lines) == 3, "three spawns")
    return f"the command starts again after {first:.3f} s, and where it is written again after {second:.3f} s"


def change_and_write(run, change, name):
    """Makes a change, waits until the command was started for it, and writes this file. Returns how long the next start took."""
    run.ready()
    change()
    run.starts(2)
    count = run.settled()
    run.write(name, "other")
    seconds = run.starts(count + 1)
    run.quit()
    return seconds


def a_directory_is_made():
    with Live() as run:
        seconds = change_and_write(run, lambda: (run.folder / "d").mkdir(), "d/f")
    return f"it starts again, and for a file in it after {seconds:.3f} s"


def a_directory_is_renamed():
    with Live(fill=tree(1, 1)) as run:
        seconds = change_and_write(run, lambda: (run.folder / "d0000").rename(run.folder / "e"), "e/f0")
    return f"it starts again, and for a file under the new name after {seconds:.3f} s"


def the_folder_is_removed():
    with Live(fill=tree(1, 1)) as run:
        run.ready()
        shutil.rmtree(run.folder)
        run.starts(2)
        run.settled()
        run.folder.mkdir()
        count = run.settled()
        run.write("a")
        seconds = run.starts(count + 1)
        run.quit()
    return f"it starts again where the folder goes, and {seconds:.3f} s after a file is written in the new one"


def a_thousand_files_change():
    with Live(fill=tree(10, 100)) as run:
        run.starts(1)
        time.sleep(8)
        for name in run.folder.rglob("f*"):
            name.write_text("other")
        count = run.settled() - 1
        lines = run.quit()
    expect(1 <= count <= 20, f"{count} starts")
    first, last, paths = offered(lines)
    expect(paths == 1000, f"{paths} paths of 1,000 were offered")
    return f"all are offered within {(last - first) / 1e9:.2f} s, with {count} starts"


def offered(lines):
    """The moments of the first and of the last offer of a file, and how many paths were offered."""
    moment, moments, paths = 0, [], set()
    for line in lines:
        words = line.split(" ")
        if words[0] == "turn":
            moment = int(words[1])
        elif words[0] == "offer" and " path " in line:
            moments.append(moment)
            paths.add(line.split(" path ", 1)[1])
    expect(moments, "no offer")
    return moments[0], moments[-1], len(paths)


def the_command_ignores_terminate():
    with Live(then="trap '' TERM; while :; do sleep 0.1; done") as run:
        run.ready()
        run.write("a")
        seconds = run.starts(2, 8)
        expect(4.8 < seconds < 6, f"after {seconds:.2f} s")
        expect(not is_alive(run.pids()[0]), "the first is left")
        run.key(b"q")
        status, lines = run.ended(15)
        expect(status == 0 and lines[-1].startswith("end ok"), f"status {status}")
    return f"it is killed, and starts again after {seconds:.2f} s; with q it is killed too"


def the_command_ends_by_itself():
    with Live(then="true") as run:
        run.ready()
        run.write("a")
        seconds = run.starts(2)
        run.quit()
    return f"it starts at the next change, after {seconds:.3f} s"


def q_ends_it():
    with Live() as run:
        run.ready()
        begin = time.time()
        run.quit()
        seconds = time.time() - begin
        expect(not any(is_alive(it) for it in run.pids()), "the command is left")
    with Live(then="sleep 987 & wait") as run:
        run.ready()
        run.quit()
        expect(not any(is_alive(it) for it in run.pids()), "the shell is left")
        left = subprocess.run(["pkill", "-f", "^sleep 987$"]).returncode == 0
    return f"after {seconds:.2f} s no child is left; what a shell started by itself is {'left' if left else 'gone too'}"


def the_input_ends():
    with Live(words=["--turns", "400"]) as run:
        run.ready()
        run.process.stdin.close()
        time.sleep(QUIET)
        run.write("a")
        run.starts(2)
        status, lines = run.ended(30)
    expect(status == 0 and lines[-1].startswith("end ok"), f"status {status}")
    return "the run goes on, and ends with its turns"


def an_interrupt():
    keyboard, terminal = pty.openpty()
    with Live(stdin=terminal, start_new_session=True, preexec_fn=lambda: take_terminal(terminal)) as run:
        run.ready()
        os.write(keyboard, b"\x03")
        run.process.wait(10)
        time.sleep(0.2)
        status, left = run.process.returncode, [it for it in run.pids() if is_alive(it)]
        text = (run.room / "out").read_text()
    return f"the program ends by signal {-status}, {'no journal' if not text else 'a journal'}, {len(left)} children left"


def take_terminal(terminal):
    """Makes a terminal that of this session, and takes interrupts as usual, also where this tool runs in the background."""
    import fcntl
    import termios
    signal.signal(signal.SIGINT, signal.SIG_DFL)
    fcntl.ioctl(terminal, termios.TIOCSCTTY, 0)


def no_such_command():
    with Live(command=["/no/such/command"]) as run:
        time.sleep(QUIET)
        lines = run.quit()
    spawns = [it for it in lines if it.startswith("spawn ")]
    expect(len(spawns) == 1 and " fault " in spawns[0], f"{spawns}")
    return f"one line `{spawns[0]}`, and the run goes on"


def a_folder_that_cannot_be_read():
    def fill(folder):
        tree(2, 1)(folder)
        os.chmod(folder / "d0000", 0)
        os.chmod(folder, 0o777)
    user = ["setpriv", "--reuid", "65534", "--regid", "65534", "--clear-groups"]
    with Live(fill=fill, before=user) as run:
        run.ready()
        run.write("d0001/f0", "other")
        run.starts(2)
        lines = run.quit()
    shown = [it for it in lines if it.startswith("show ")]
    return f"the other is watched; {len(shown)} errors shown"


def names():
    with Live() as run:
        run.ready()
        for name in [b"a b", b"a\nb", "\u00e4".encode()]:
            count = run.settled()
            with open(os.fsencode(run.folder) + b"/" + name, "w") as file:
                file.write("x")
            run.starts(count + 1)
        count = run.settled()
        open(os.fsencode(run.folder) + b"/\xff", "w").close()
        is_seen = run.settled() > count
        run.write("last")
        run.starts(count + is_seen + 1)
        run.quit()
    return f"with a space, a line feed, and an umlaut they are seen; one that isn't UTF-8 {'is' if is_seen else 'is not'}, and the others still are"


def an_atomic_save():
    with Live(fill=tree(1, 1)) as run:
        run.ready()
        count = len(run.pids())
        run.write("d0000/.f0.tmp", "other")
        (run.folder / "d0000/.f0.tmp").rename(run.folder / "d0000/f0")
        seconds = run.starts(count + 1)
        count = run.settled() - count
        lines = run.quit()
    expect(any("/d0000/f0 " in it or it.endswith("/d0000/f0") for it in lines if it.startswith("offer ")), "no offer of the file")
    return f"it starts again after {seconds:.3f} s, {count} times in all, and the file is among what changed"


def the_output_is_full():
    seen = []
    for out in (open("/dev/full", "wb"), None):
        more = {"stdout": out} if out else {"preexec_fn": lambda: os.close(1)}
        with Live(**more) as run:
            run.ready()
            run.key(b"q")
            run.process.wait(15)
            seen.append(f"{run.process.returncode} `{(run.room / 'err').read_text().strip()}`")
    return f"full: status {seen[0]}; closed: status {seen[1]}"


def reaction():
    told = []
    for name, folders, files in (("empty", 0, 0), ("1,000 files", 10, 100), ("10,000 files", 100, 100)):
        with Live(then="true", fill=tree(folders, files), words=["--turns", "4194304"]) as run:
            run.starts(1)
            time.sleep(2 if files == 0 else 10 if folders == 10 else 60)
            took = []
            for k in range(50):
                count = len(run.pids())
                run.write("a", f"{k}")
                took.append(run.starts(count + 1, 30))
                time.sleep(0.5 + 0.013 * (k % 7))
            used = spent(run.process.pid)
            time.sleep(10)
            used = spent(run.process.pid) - used
            run.quit()
        told.append(f"{name}: median {statistics.median(took) * 1000:.0f} ms, worst {max(took) * 1000:.0f} ms, at rest {used * 10:.1f} %")
    return "; ".join(told)


def large():
    told = []
    for name, folders in (("1,000 files", 10), ("10,000 files", 100)):
        with Live(then="true", fill=tree(folders, 100), words=["--turns", "4194304"]) as run:
            run.starts(1)
            count = 0
            while len(run.pids()) < 2:
                expect(time.time() - run.begin < 200, "not seen")
                run.write(f"d{folders - 1:04}/f99", f"{count}")
                count += 1
                time.sleep(0.1)
            seconds = time.time() - run.begin
            used = spent(run.process.pid)
            run.quit()
        told.append(f"{name}: {seconds:.1f} s, {used:.1f} s of a processor")
    return "; ".join(told)


# A command that writes into an ignored folder, and a file beside its sources.
WRITES = "mkdir -p target/deep; date > target/out; date > target/deep/out; date > built.tmp; true"


def ignoring(*patterns):
    """The words that say what is ignored."""
    return [word for pattern in patterns for word in ("--ignore", pattern)]


def starts_for(run, name):
    """Whether the command starts again where this file is written."""
    count = run.settled()
    (run.folder / name).parent.mkdir(parents=True, exist_ok=True)
    run.write(name, str(time.time()))
    return run.settled() > count


def what_it_writes_is_ignored():
    with Live(then=WRITES, words=ignoring("target", "*.tmp")) as run:
        run.ready()
        expect(run.settled() == 1, f"{len(run.pids())} starts where nothing else changed")
        expect(starts_for(run, "a.txt"), "no start for a source")
        expect(not starts_for(run, "b.tmp"), "a start for an ignored file")
        expect(not starts_for(run, "target/c.txt"), "a start for a file in an ignored folder")
        lines = run.quit()
    expect(any(it.startswith("dir ") and it.endswith("/target reject") for it in lines), "the folder was judged")
    expect(not any("/target/" in it for it in lines if it.startswith("offer ")), "an offer from below it")
    with Live(then=WRITES) as run:
        run.ready()
        time.sleep(2)
        count = len(run.pids())
        run.quit()
    expect(count > 3, f"{count} starts without patterns")
    return f"one start, and again for a source alone; without patterns {count} starts in the same while"


def two_folders(folder):
    """Fills a folder with a folder in a folder, and one more."""
    (folder / "d/e").mkdir(parents=True)
    (folder / "e").mkdir()


def patterns():
    """Each row: the patterns, files for which the command starts, and files for which it doesn't."""
    rows = [
        (["*.log", "!keep.log"], ["keep.log", "d/keep.log"], ["a.log", "d/a.log"]),
        (["/out"], ["d/out", "outer"], ["out"]),
        (["out/"], ["outer"], ["out", "d/out", "e/out/f"]),
        (["**/made"], ["maker"], ["made", "d/made", "d/e/made"]),
        (["d/**/made"], ["made", "e/made"], ["d/made", "d/e/made"]),
        (["d/**"], ["f"], ["d/f", "d/e/f"]),
        (["a b*"], ["ab"], ["a b", "d/a bc"]),
    ]
    count = 0
    for lines, seen, unseen in rows:
        with Live(then="true", fill=two_folders, words=ignoring(*lines)) as run:
            run.ready()
            for name in seen:
                expect(starts_for(run, name), f"{lines}: no start for {name}")
            for name in unseen:
                expect(not starts_for(run, name), f"{lines}: a start for {name}")
            run.quit()
        count += len(seen) + len(unseen)
    return f"{count} files, each as the patterns say"


def an_ignored_folder_costs_nothing():
    def fill(folder):
        (folder / "target").mkdir()
        tree(100, 100)(folder / "target")
    used, first = [], []
    for words in (ignoring("target"), []):
        with Live(then="true", fill=fill, words=words) as run:
            run.ready()
            time.sleep(2 if words else 30)
            before = spent(run.process.pid)
            first.append(before)
            time.sleep(10)
            used.append((spent(run.process.pid) - before) * 10)
            lines = run.quit()
            if words:
                expect(not any("/target/" in it for it in lines), "something below it was looked at")
    expect(used[0] < 2 and used[0] * 3 < used[1], f"{used[0]:.1f} % of a processor at rest, and {used[1]:.1f} % without patterns")
    return f"10,000 files: {first[0]:.2f} s until it rests and {used[0]:.1f} % at rest; without patterns {first[1]:.1f} s and {used[1]:.1f} %"


def bad_patterns():
    told = []
    for line in ("/", "a//b", "../a"):
        ran = subprocess.run([PROGRAM, "live", "--ignore", "fine", "--ignore", line, "--", "true"], capture_output=True, text=True, stdin=subprocess.DEVNULL)
        expect(ran.returncode == 2 and not ran.stdout and line in ran.stderr and ran.stderr.count("\n") == 1, f"{line}: {ran}")
        told.append(ran.stderr.strip())
    return "; ".join(told)


SHORT = [
    a_file_is_written, a_directory_is_made, a_directory_is_renamed, the_folder_is_removed, a_thousand_files_change,
    the_command_ignores_terminate, the_command_ends_by_itself, q_ends_it, the_input_ends, an_interrupt, no_such_command,
    a_folder_that_cannot_be_read, names, an_atomic_save, the_output_is_full, what_it_writes_is_ignored, patterns, bad_patterns,
    an_ignored_folder_costs_nothing,
]
TRIALS = {it.__name__: it for it in [*SHORT, reaction, large]}


def main(words):
    global PROGRAM
    if not words or any(it not in TRIALS for it in words[1:]):
        sys.exit(__doc__ + "\nTrials: " + ", ".join(TRIALS))
    PROGRAM = os.path.abspath(words[0])
    failed = 0
    for trial in [TRIALS[it] for it in words[1:]] or SHORT:
        begin = time.time()
        try:
            seen = trial()
        except (Unseen, subprocess.TimeoutExpired, OSError) as error:
            failed, seen = failed + 1, f"FAILED: {error}"
        print(f"{time.time() - begin:6.1f} s  {trial.__name__}: {seen}", flush=True)
    return 1 if failed else 0


if __name__ == "__main__":
    sys.exit(main(sys.argv[1:]))
