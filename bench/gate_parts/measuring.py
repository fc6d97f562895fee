"""Runs `rt ci` and notes what each process that it starts takes."""
import datetime
import os
import signal
import subprocess
import time

import kit
import processes
from log import Crate, Task

# The seconds between two looks, and the looks between two in which shared memory is counted.
PAUSE, LOOKS = 0.25, 4
# The memory from which on a second process of a task counts, in bytes.
MUCH = 50_000_000


class Seen:
    """A process that `rt` started, as it was last seen."""

    def __init__(self, at):
        self.begin, self.seconds, self.memory = at, 0.0, 0
        self.told, self.jobs = None, 1

    def look(self, it, children, shares):
        """Notes what the process and those below it have taken so far."""
        family = processes.family(it, children)
        self.seconds = max(self.seconds, sum(one.own + one.ended for one in family))
        if self.told is None:
            words = processes.words_of(it.number)
            self.told = processes.told(words, processes.folder_of(it.number))
            jobs = processes.value(words, "--jobs", "1")
            self.jobs = int(jobs) if jobs.isdigit() else 1
        self.memory = max([self.memory, *(processes.highest(one.number) for one in family)])
        if shares and sum(one.memory > MUCH for one in family) > 1:
            self.memory = max(self.memory, sum(processes.share(one.number) for one in family))


class Run:
    """One run of `rt ci`, and what was seen of it."""

    def __init__(self, started, log):
        self.started, self.log, self.begun = started, log, time.monotonic()
        self.seen, self.ended, self.unseen, self.looks = {}, 0.0, 0.0, 0

    def write(self, *fields):
        print(*fields, sep="\t", file=self.log, flush=True)

    def snapshot(self):
        """The process `rt` and all processes by their parent, of one moment: no process of `rt`'s was taken into its sum meanwhile."""
        for _ in range(20):
            before = processes.process(self.started.pid)
            children = processes.by_parent()
            after = processes.process(self.started.pid)
            if before.ended == after.ended:
                break
        return after, children

    def look(self):
        """Looks once: notes what runs, and writes a line for each process that ended since the last look."""
        rt, children = self.snapshot()
        at, self.looks = time.monotonic() - self.begun, self.looks + 1
        there = {(it.number, it.start): it for it in children.get(rt.number, [])}
        for key, it in there.items():
            self.seen.setdefault(key, Seen(at)).look(it, children, self.looks % LOOKS == 0)
        gone = [self.seen.pop(key) for key in [*self.seen] if key not in there]
        # what the system has added to rt's sum is what those took that ended: as last seen, and a rest that nothing else tells apart
        rest = rt.ended - self.ended - sum(it.seconds for it in gone)
        self.ended = rt.ended
        named = [it for it in gone if it.told]
        for it in named:
            self.write(*Task(*it.told, it.begin, at, max(it.seconds + rest / len(named), 0), it.memory, it.jobs).line())
        self.unseen += sum(it.seconds for it in gone if not it.told) + (0 if named else rest)
        return rt

    def watch(self):
        """Looks until `rt` ends, and returns its status."""
        how = os.WEXITED | os.WNOHANG | os.WNOWAIT
        while not os.waitid(os.P_PID, self.started.pid, how):
            self.look()
            time.sleep(PAUSE)
        # (its process still stands, with its sums, until it is waited for)
        rt = self.look()
        _, status, used = os.wait4(self.started.pid, 0)
        total = used.ru_utime + used.ru_stime
        self.started.returncode = os.waitstatus_to_exitcode(status)
        self.write("itself", f"{rt.own:.2f}")
        self.write("unseen", f"{self.unseen + total - rt.own - rt.ended:.2f}")
        self.write("total", f"{total:.2f}")
        self.write("clock", f"{time.monotonic() - self.begun:.2f}")
        self.write("status", self.started.returncode)
        return self.started.returncode


def crates_of(rt, root):
    """What `rt` plans by, of each crate, in the order of crates.txt."""
    rt.Crate.allowed, rt.rtlib.Crate = rt.handles_of(str(root)), rt.Crate
    with open(root / "crates.txt", encoding="utf-8") as file:
        order = [line.split(":")[0].split()[0] for line in file if ":" in line and not line.startswith("#")]
    crates = {it.name: it for it in rt.rtlib.crates_below(str(root))}
    for it in (crates[name] for name in order):
        edits = len(rt.edits_of(it)[0])
        yield Crate(it.name, it.count(rb"\n"), rt.need(it), it.has_tests(), edits, it.is_program, [dep.name for dep in it.deps])


def measure(root, path, names):
    """Runs `rt ci` at the top of the repository, writes the log, and returns the status that `rt` ended with (128 and the signal's number, if one ended it)."""
    rt = kit.loaded()
    os.chdir(root)
    with open(path, "w", encoding="utf-8") as log:
        facts = {"kit": rt.rtlib.text_of(f"{rt.KIT}/KIT-ID").strip(), "processors": rt.processors(), "free": rt.free()}
        facts["began"] = datetime.datetime.now(datetime.timezone.utc).strftime("%Y-%m-%d %H:%M:%S UTC")
        facts["load"] = f"{os.getloadavg()[0]:.2f}"
        facts["of"] = " ".join(names) or "all"
        for fact in facts.items():
            print(*fact, sep="\t", file=log)
        for crate in crates_of(rt, root):
            print(*crate.line(), sep="\t", file=log)
        log.flush()
        started = subprocess.Popen(["rt", "ci", *names], stdin=subprocess.DEVNULL)
        for number in (signal.SIGTERM, signal.SIGINT, signal.SIGHUP):
            signal.signal(number, lambda number, _: started.send_signal(number))
        status = Run(started, log).watch()
    return status if status >= 0 else 128 - status
