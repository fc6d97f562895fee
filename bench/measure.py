"""What the scripts that measure speed share: commands that are run in turn, what they took, and a table of rows."""
import os
import re
import shutil
import statistics
import subprocess
import tempfile
import time

GNU_TIME = "/usr/bin/time"


class Tool:
    """A command by a name. `before` is called before each run and not measured; `folder` is where it runs, `statuses` how it may end."""

    def __init__(self, name, command, folder=None, statuses=(0,), before=None):
        self.name, self.command, self.folder, self.statuses, self.before = name, command, folder, statuses, before

    def run(self, stdout=subprocess.DEVNULL, around=()):
        """One run inside the command `around`: the seconds of the clock and of the processor (user and system)."""
        if self.before:
            self.before()
        begin = time.perf_counter()
        process = subprocess.Popen([*around, *self.command], cwd=self.folder, stdin=subprocess.DEVNULL, stdout=stdout, stderr=subprocess.DEVNULL)
        _, status, used = os.wait4(process.pid, 0)
        wall = time.perf_counter() - begin
        process.returncode = os.waitstatus_to_exitcode(status)
        if process.returncode not in self.statuses:
            raise SystemExit(f"{self.name}: status {process.returncode} of {self.command}")
        return wall, used.ru_utime + used.ru_stime

    def output(self):
        with tempfile.TemporaryFile() as told:
            self.run(told)
            told.seek(0)
            return told.read()

    def memory(self):
        """The greatest resident memory of a run in bytes; None where GNU time is missing."""
        if not os.access(GNU_TIME, os.X_OK):
            return None
        with tempfile.NamedTemporaryFile("r") as told:
            self.run(around=[GNU_TIME, "-f", "%M", "-o", told.name])
            return int(told.read().split()[-1]) * 1024

    def instructions(self):
        """The instructions of a run, which a busy machine does not change; None where valgrind is missing."""
        if not shutil.which("valgrind"):
            return None
        with tempfile.NamedTemporaryFile("r") as told:
            self.run(around=["valgrind", "--tool=callgrind", "--callgrind-out-file=/dev/null", f"--log-file={told.name}"])
            counted = re.search(r"Collected : (\d+)", told.read())
            return int(counted[1]) if counted else None


class Figures:
    """The medians of the runs of a tool, in seconds of the clock and of the processor."""

    def __init__(self, taken):
        self.wall, self.cpu = (statistics.median(column) for column in zip(*taken))


def in_turn(tools, rounds):
    """The figures of each tool, by name: all tools once, then all once again, so that what else the machine does meets all alike."""
    taken = {tool.name: [] for tool in tools}
    for _ in range(rounds):
        for tool in tools:
            taken[tool.name].append(tool.run())
    return {name: Figures(runs) for name, runs in taken.items()}


def agree(tools):
    """Stops where the tools don't all say the same."""
    first = tools[0].output()
    for tool in tools[1:]:
        if tool.output() != first:
            raise SystemExit(f"{tool.name} says something else than {tools[0].name}")


def milliseconds(seconds):
    return f"{seconds * 1000:.1f} ms"


def ratio(one, other):
    return f"{one / other:.2f}" if other else "-"


class Report:
    """What was measured: lines as it goes, and at the end the rows of a table."""

    def __init__(self):
        self.rows = []

    def say(self, line):
        print(line, flush=True)

    def figures(self, what, figures):
        """A line for each tool, with the first one's ratio to it."""
        self.say(f"{what}")
        first = next(iter(figures.values()))
        for name, one in figures.items():
            ratios = f"the first takes {ratio(first.cpu, one.cpu)} of its processor, {ratio(first.wall, one.wall)} of its clock"
            self.say(f"  {name:32} processor {milliseconds(one.cpu):>11}  clock {milliseconds(one.wall):>11}  {ratios}")

    def row(self, what, goal, measured):
        self.rows.append((what, goal, measured))

    def print(self):
        self.say("\n| What | Goal | Measured |\n|---|---|---|")
        for row in self.rows:
            self.say(f"| {' | '.join(row)} |")
