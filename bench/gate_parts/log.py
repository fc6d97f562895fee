"""The log of a run of the gate: lines of fields separated by tabs, the first of which says what the line is."""
import collections
import dataclasses

# The columns of the table, and the kinds of tasks in each.
COLUMNS = {"proof": ("proof", "format"), "tests": ("tests", "tests link", "tests run"), "edits": ("seed", "edit"), "programs": ("compile", "link", "run")}


@dataclasses.dataclass
class Task:
    """A process that `rt ci` started, with all that it started itself."""

    kind: str
    crate: str
    # The compiler of `compile`; of `edit` its number, or `whole` for one that was tried from nothing.
    detail: str
    # Seconds since the run began, by the clock.
    begin: float
    end: float
    # Processor seconds.
    seconds: float
    # The greatest memory that was seen, in bytes.
    memory: int
    jobs: int

    def line(self):
        return ["task", self.kind, self.crate, self.detail, f"{self.begin:.2f}", f"{self.end:.2f}", f"{self.seconds:.2f}", str(self.memory), str(self.jobs)]

    @staticmethod
    def of(fields):
        kind, crate, detail, begin, end, seconds, memory, jobs = fields
        return Task(kind, crate, detail, float(begin), float(end), float(seconds), int(memory), int(jobs))


@dataclasses.dataclass
class Crate:
    """What `rt` plans by: lines of code, bytes of memory, whether there are tests, how many must-fail edits, and the libraries right below."""

    name: str
    lines: int
    memory: int
    has_tests: bool
    edits: int
    is_program: bool
    below: list

    def line(self):
        flags = [str(int(it)) for it in (self.has_tests, self.edits, self.is_program)]
        return ["crate", self.name, str(self.lines), str(self.memory), *flags, ",".join(self.below)]

    @staticmethod
    def of(fields):
        name, lines, memory, has_tests, edits, is_program, below = fields
        return Crate(name, int(lines), int(memory), has_tests == "1", int(edits), is_program == "1", below.split(",") if below else [])


@dataclasses.dataclass
class Log:
    crates: dict = dataclasses.field(default_factory=dict)
    tasks: list = dataclasses.field(default_factory=list)
    # kit, processors, free (bytes when it began), began, itself (seconds of rt), unseen, total, clock, status
    facts: dict = dataclasses.field(default_factory=dict)

    @staticmethod
    def read(path):
        log = Log()
        with open(path, encoding="utf-8") as file:
            for line in file:
                what, *fields = line.rstrip("\n").split("\t")
                if what == "crate":
                    log.crates[fields[0]] = Crate.of(fields)
                elif what == "task":
                    log.tasks.append(Task.of(fields))
                elif len(fields) == 1:
                    log.facts[what] = fields[0]
        return log

    def seconds(self):
        """The seconds of each crate in each column."""
        columns = {kind: column for column, kinds in COLUMNS.items() for kind in kinds}
        found = collections.Counter()
        for task in self.tasks:
            found[task.crate, columns.get(task.kind, "other")] += task.seconds
        return found

    def all_below(self, name):
        """The names of the libraries below a crate, near and far."""
        found, left = [], list(self.crates[name].below)
        while left:
            it = left.pop()
            if it in self.crates and it not in found:
                found.append(it)
                left += self.crates[it].below
        return found
