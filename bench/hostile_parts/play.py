"""Plays the built program in a folder, and keeps what was tried and found."""
import os
import resource
import shutil
import signal
import subprocess
import sys
import tempfile
import time

SECONDS = 300  # that one run may take
STACK = 8 * 1024 * 1024
EVERY = 1000  # rounds from which on all is tried, and nothing drawn by chance or left out


class Played:
    """One run of the program: its exit status (less than 0: the signal that ended it, None: it was ended for its time), and what it said."""

    def __init__(self, words, status, said):
        self.words, self.status, self.said = words, status, said

    @property
    def lines(self):
        """The whole lines, without their line feeds."""
        return self.said.decode(errors="replace").split("\n")[:-1]

    def __str__(self):
        said = self.said if len(self.said) < 200 else self.said[:100] + b" .. " + self.said[-60:]
        words = " ".join(self.words)[:200].encode(errors="surrogateescape")
        return f"{words!r} ended with {self.status} and said {said!r}"


def limit(kind, most):
    resource.setrlimit(kind, (most, resource.getrlimit(kind)[1]))


class Limits:
    """What a run may have, each as `resource` takes it; and the user who runs it."""

    def __init__(self, stack=None, file=None, space=None, opened=None, user=None, closed=(), no_signal=False):
        self.stack, self.file, self.space, self.opened = stack, file, space, opened
        self.user, self.closed, self.no_signal = user, closed, no_signal

    def take(self):
        """Runs in the new process, before the program."""
        pairs = [(resource.RLIMIT_STACK, self.stack), (resource.RLIMIT_FSIZE, self.file), (resource.RLIMIT_AS, self.space)]
        for kind, most in [*pairs, (resource.RLIMIT_NOFILE, self.opened)]:
            if most is not None:
                limit(kind, most)
        if self.no_signal:
            signal.signal(signal.SIGXFSZ, signal.SIG_IGN)
        if self.user is not None:
            os.setgroups([])
            os.setgid(self.user)
            os.setuid(self.user)
        for number in self.closed:
            os.close(number)


class Program:
    """The built program; `shim` is the library that stands between it and the C library, None where it can't be had; `view` is the program that
    only looks, where it is played too."""

    def __init__(self, path, shim, view=None):
        self.path, self.shim, self.view = path, shim, view

    @staticmethod
    def leave_no_cores():
        """No run of this process leaves a core."""
        limit(resource.RLIMIT_CORE, 0)

    def play(self, folder, words, shim=None, limits=None, stdout=None, kill_after=None, seconds=SECONDS):
        """Runs the program with these words in the folder. `shim` has what the library is asked for, by the names of its source without HOSTILE_.
        What it says goes to a file, or to `stdout`, which then keeps it."""
        env = {"PATH": os.environ.get("PATH", "")}
        if shim:
            env["LD_PRELOAD"] = self.shim
            env.update({f"HOSTILE_{name}": str(value) for name, value in shim.items()})
        with tempfile.TemporaryFile() as told:
            # A process without limits of its own starts much faster.
            take = limits.take if limits else None
            process = subprocess.Popen([self.path, *words], cwd=folder, env=env, stdin=subprocess.DEVNULL, stdout=stdout or told, stderr=subprocess.DEVNULL, preexec_fn=take)
            try:
                if kill_after is not None:
                    time.sleep(kill_after)
                    process.kill()
                status = process.wait(seconds)
            except subprocess.TimeoutExpired:
                process.kill()
                process.wait()
                status = None
            told.seek(0)
            return Played(words, status, told.read())

    def counts(self, folder, words):
        """How many requests for memory and calls to the outside a run makes; None where the library is not asked."""
        if self.shim is None:
            return None
        with tempfile.TemporaryDirectory() as place:
            self.play(folder, words, shim={"TELL": f"{place}/tell"})
            if not os.path.exists(f"{place}/tell"):
                return None
            with open(f"{place}/tell") as told:
                requests, calls = map(int, told.read().split())
        return {"requests": requests, "calls": calls} if requests and calls else None

    def has(self, words):
        """Whether the program understands these words, in an empty folder."""
        with tempfile.TemporaryDirectory() as folder:
            return self.play(folder, words).status != 2


class Table:
    """What was tried and what was found, a row for each kind of trial."""

    def __init__(self, is_silent=False):
        self.rows, self.findings, self.notes, self.is_silent = [], 0, [], is_silent
        self.begun = time.monotonic()

    def row(self, part, what):
        row = Row(self, part, what)
        self.rows.append(row)
        return row

    def note(self, text):
        self.notes.append(text)

    def add(self, other):
        """Takes in the rows and notes of another table."""
        self.rows += other.rows
        self.notes += other.notes
        self.findings += other.findings

    def print(self):
        print(f"\n{'part':7} {'what':92} {'tries':>6} {'stopped':>7} {'midway':>6} {'findings':>8}")
        for row in self.rows:
            print(f"{row.part:7} {row.what:92} {row.tries:6} {row.stopped or '':>7} {row.midway or '':>6} {row.found:8}")
        for text in self.notes:
            print(f"note: {text}")
        self.print_sums()

    def print_sums(self):
        """The sums of each part, as the table of `docs/HOSTILE.md` has them."""
        print(f"\nOn {time.strftime('%d %B %Y')}, after {self.seconds():,} seconds:\n")
        print("| Part | Tries | Killed, stopped or refused | Of these with a part of the records kept | Findings |\n|---|---|---|---|---|")
        for part in dict.fromkeys(row.part for row in self.rows):
            rows = [row for row in self.rows if row.part == part]
            sums = [sum(getattr(row, name) for row in rows) for name in ("tries", "stopped", "midway", "found")]
            print("| `{}` | {:,} | {:,} | {:,} | {:,} |".format(part, *sums))

    def seconds(self):
        return round(time.monotonic() - self.begun)


class Row:
    """One kind of trial: how often it was tried, how many runs were stopped in it, how many of these with a part of their records kept, and
    what was found; and, where memory was refused, how often a parcel was lost for it."""

    def __init__(self, table, part, what):
        self.table, self.part, self.what = table, part, what
        self.tries = self.stopped = self.midway = self.found = self.late = 0

    def find(self, text):
        self.found += 1
        self.table.findings += 1
        if self.table.is_silent:
            return
        if self.found <= 20:
            print(f"FOUND {self.part}, {self.what}: {text}", flush=True)
        elif self.found == 21:
            print(f"FOUND {self.part}, {self.what}: more of them", flush=True)

    def expect(self, holds, text):
        if not holds:
            self.find(text)
        return holds


class Folder:
    """A fresh folder with these files, removed at the end."""

    def __init__(self, files=None):
        self.files = files or {}

    def __enter__(self):
        self.path = tempfile.mkdtemp(prefix="hostile-")
        for name, text in self.files.items():
            put(self.path, name, text)
        return self.path

    def __exit__(self, *_):
        shutil.rmtree(self.path, ignore_errors=True)


def put(folder, name, text):
    with open(os.path.join(folder, name), "wb") as file:
        file.write(text)


def bytes_of(folder, name):
    """The bytes of a file, none where it is not there."""
    try:
        with open(os.path.join(folder, name), "rb") as file:
            return file.read()
    except FileNotFoundError:
        return b""


def progress(text):
    print(text, file=sys.stderr, flush=True)
