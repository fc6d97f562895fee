"""Full disks, limits of the system, files without permission, closed outputs, folders in the place of files."""
import os
import signal
import subprocess
import tempfile

from .books import short
from .journal import ENGINE, MOST, agent_file
from .play import Folder, Limits, Played, bytes_of, progress, put
from .reference import FAULTS, Reference
from .stops import NO_MEMORY, numbers

NOBODY = 65534
DISK_FAILED = (8, ["disk failed"])
UNSAID = 9


class Trials:
    """Trials of one kind with one case."""

    def __init__(self, program, case, table, what):
        self.program, self.row = program, table.row("disk", what)
        self.reference = Reference(program, case, self.row)
        self.case = case

    def play(self, folder, how, allowed, words=None, **more):
        """One run under hard conditions: it ends with one of the statuses, or as it would have; then the files are good."""
        self.row.tries += 1
        played = self.program.play(folder, words or self.case.stages[0], **more)
        right = self.reference.played[0]
        same = (played.status, played.said) == (right.status, right.said)
        self.row.stopped += not same
        self.row.expect(same or played.status in allowed, f"{how}: {played}")
        return played

    def then(self, folder, played, how):
        """Without the hard conditions the run goes on to its end."""
        self.reference.look(folder, [played], how)
        self.reference.goes_on(folder, how)

    def once(self, how, allowed, **more):
        with Folder(self.case.files) as folder:
            self.then(folder, self.play(folder, how, allowed, **more), how)

    def says(self, folder, how, words, status, lines, **more):
        self.row.tries += 1
        played = self.program.play(folder, words, **more)
        self.row.expect((played.status, played.lines) == (status, lines), f"{how}: {played}, where {status} and {lines} are right")
        return played


# -- full ----------------------------------------------------------------------------------------------------------------------------------


def piped(program, folder, words, **more):
    """A run whose output is a pipe: a limit on the length of files is none on it."""
    end, begin = os.pipe()
    with os.fdopen(begin, "wb") as stdout:
        played = program.play(folder, words, stdout=stdout, **more)
    with os.fdopen(end, "rb") as told:
        return Played(words, played.status, told.read())


def file_limit(program, case, table, rounds, draw):
    trials = Trials(program, case, table, f"no file may be longer than L bytes: {case.name}")
    with Folder(case.files) as folder:
        program.play(folder, case.stages[0])
        longest = os.path.getsize(f"{folder}/{ENGINE}")
    for limit in [0, *numbers(draw, longest, rounds)]:
        for ignored, allowed in [(True, (8,)), (False, (-signal.SIGXFSZ,))]:
            how = f"with at most {limit} bytes of a file, {'an error' if ignored else 'a signal'} past it"
            trials.row.tries += 1
            with Folder(case.files) as folder:
                played = piped(program, folder, case.stages[0], limits=Limits(file=limit, no_signal=ignored))
                trials.row.stopped += played.status in allowed
                trials.row.expect(played.status in (*allowed, trials.reference.played[0].status), f"{how}: {played}")
                trials.reference.lines_agree(played, 0, how)
                trials.then(folder, played, how)


def full_disk(program, case, table):
    trials = Trials(program, case, table, f"a file system of 4 MiB that is full but for P pages: {case.name}")
    with tempfile.TemporaryDirectory() as top:
        made = subprocess.run(["mount", "-t", "tmpfs", "-o", "size=4m", "none", top], stderr=subprocess.DEVNULL, check=False) if os.geteuid() == 0 else None
        if made is None or made.returncode:
            return table.note("disk: no small file system may be mounted here, so no full disk was tried")
        try:
            for pages in [0, 1, 2, *range(4, 320, 6)]:
                full_once(trials, top, pages)
        finally:
            subprocess.run(["umount", top], check=True)
    return None


def full_once(trials, top, pages):
    for name in os.listdir(top):
        os.remove(f"{top}/{name}")
    for name, text in trials.case.files.items():
        put(top, name, text)
    told = os.statvfs(top)
    put(top, "filler", bytes(max(0, told.f_bavail - pages) * told.f_bsize))
    how = f"with {pages} pages left"
    played = trials.play(top, how, (8,))
    os.remove(f"{top}/filler")
    trials.then(top, played, how)


# -- limits of the system ------------------------------------------------------------------------------------------------------------------


def few_files(program, case, table):
    trials = Trials(program, case, table, f"at most F files may be open: {case.name}")
    for opened in range(3, 24):
        limits = Limits(opened=opened)
        with Folder() as folder:
            if program.play(folder, [], limits=limits).status != 2:
                continue
        trials.once(f"with at most {opened} files open", (3, 8), limits=limits)
        with Folder(case.files) as folder:
            program.play(folder, [*case.stages[0], "--steps", "5"])
            for agent in range(1, 17):
                if not os.path.exists(f"{folder}/{agent_file(agent)}"):
                    put(folder, agent_file(agent), b"CACAOJ1\n\0")
            how = f"with at most {opened} files open, and 17 files there"
            played = trials.play(folder, how, (3, 8, trials.reference.played[0].status), limits=limits)
            trials.reference.lines_agree(played, 0, how)
            trials.then(folder, played, how)


def little_memory(program, case, table):
    """The system gives the process at most so many pages: a coarse refusal of memory that needs no library."""
    trials = Trials(program, case, table, f"at most M bytes of memory from the system: {case.name}")
    with Folder() as folder:
        least = next(at for at in range(1, 4096) if program.play(folder, [], limits=Limits(space=at << 14)).status == 2)
    for pages in range(least, least + 320, 5):
        # The loader, and not the program, may be what wants memory right past the least.
        trials.once(f"with {pages << 14} bytes", (NO_MEMORY,) if pages > least + 8 else (NO_MEMORY, 127, -11), limits=Limits(space=pages << 14))


# -- permission ----------------------------------------------------------------------------------------------------------------------------


def set_modes(folder, file, mode):
    """All files may be read and written, but for one, or the folder (`.`), which may be what the mode says."""
    for name in os.listdir(folder):
        os.chmod(f"{folder}/{name}", 0o666)
    os.chmod(folder, 0o777)
    if file:
        os.chmod(f"{folder}/{file}", mode)


def journals(folder):
    return {name: bytes_of(folder, name) for name in os.listdir(folder) if name.endswith(".journal")}


def without_leave(trials, how, file, mode, steps, right, words=None):
    """A run after some records, by a user whom one file, or the folder, is closed to; with `right` the status and the lines it has to have."""
    limits = Limits(user=NOBODY if os.geteuid() == 0 else None)
    with Folder(trials.case.files) as folder:
        if steps:
            trials.program.play(folder, [*trials.case.stages[0], "--steps", str(steps)])
        set_modes(folder, file, mode)
        before = journals(folder) if os.geteuid() == 0 else None
        played = trials.says(folder, how, words or trials.case.stages[0], *right, limits=limits)
        trials.row.expect(before is None or len(right[1]) > 1 or journals(folder) == before, f"{how}: a file was written")
        set_modes(folder, None, None)
        trials.then(folder, played, how)


def permission(program, case, table):
    trials = Trials(program, case, table, f"files and folders without permission: {case.name}")
    book = next(name for name in case.stages[0] if name.endswith(".json"))
    records, last = trials.reference.records, trials.reference.played[-1].lines[-1]
    unread = (3, [f"shelf failed: {book}"])
    first = agent_file(1)
    for trial in [
        ("a folder that may not be written", ".", 0o555, 0, DISK_FAILED),
        ("`show` in a folder that may not be written", ".", 0o555, 0, (0, ["no run"]), ["show"]),
        ("the playbook may not be read", book, 0, 0, unread),
        ("`canon` of a file that may not be read", book, 0, 0, unread, ["canon", book]),
        ("engine.journal may not be read", ENGINE, 0, 6, DISK_FAILED),
        ("agent-01.journal may not be read", first, 0, 6, DISK_FAILED),
        ("`show`, where the file may not be read", ENGINE, 0, 6, DISK_FAILED, ["show"]),
        ("`rules`, where the file may not be read", first, 0, 6, DISK_FAILED, ["rules", "1"]),
        ("a file that may only be read, and the run goes on", ENGINE, 0o444, 6, DISK_FAILED),
        ("a file that may only be read, and the run has ended", ENGINE, 0o444, len(records), (0, [last])),
        ("a filter's file that may only be read, after its last act", first, 0o444, 6, (0, [*records[6:], last])),
    ]:
        without_leave(trials, *trial)


# -- outputs -------------------------------------------------------------------------------------------------------------------------------


def outputs(program, case, table):
    """Standard output takes no line: each run keeps one record more, which it could not say, until the run has ended."""
    for what in ("closed", "closed with all others", "/dev/full", "a pipe that nobody reads", "a file opened to be read"):
        trials = Trials(program, case, table, f"standard output is {what}: {case.name}")
        for steps in (0, 3):
            with Folder(case.files) as folder:
                if steps:
                    program.play(folder, [*case.stages[0], "--steps", str(steps)])
                for number in range(len(trials.reference.records) + 3):
                    with stdout_of(what) as (stdout, limits):
                        played = trials.play(folder, f"run {number}, from {steps} records on", (UNSAID,), stdout=stdout, limits=limits)
                    trials.reference.look(folder, [], f"run {number}, from {steps} records on")
                    trials.row.expect(played.status == UNSAID, f"run {number} said its lines to nobody: {played}")
                trials.reference.goes_on(folder, "with an output again")
        reports_unsaid(trials, what)


def reports_unsaid(trials, what):
    book = next(name for name in trials.case.stages[0] if name.endswith(".json"))
    with Folder(trials.case.files) as folder:
        trials.program.play(folder, trials.case.stages[0])
        for words in (["canon", book], ["check", book], ["show"], ["rules", "1"], ["canon", "none.json"], ["no"], []):
            with stdout_of(what) as (stdout, limits):
                trials.row.tries += 1
                played = trials.program.play(folder, words, stdout=stdout, limits=limits)
                trials.row.expect(played.status == UNSAID, f"{played}")
        trials.reference.look(folder, [], "after reports to nobody")


class stdout_of:
    """What a run is given as its standard output, and its limits."""

    def __init__(self, what):
        self.what, self.file = what, None

    def __enter__(self):
        closed = {"closed": (1,), "closed with all others": (0, 1, 2)}.get(self.what, ())
        if self.what == "/dev/full":
            self.file = open("/dev/full", "wb")
        elif self.what == "a pipe that nobody reads":
            end, begin = os.pipe()
            os.close(end)
            self.file = os.fdopen(begin, "wb")
        elif self.what == "a file opened to be read":
            self.file = open("/dev/null", "rb")
        return self.file, Limits(closed=closed)

    def __exit__(self, *_):
        if self.file:
            self.file.close()


def closed_and_failing(program, case, table, rounds, draw):
    """Standard output is closed, so that a file of the disk may get its number, and a call to the outside fails."""
    trials = Trials(program, case, table, f"the Nth call fails, with standard output closed: {case.name}")
    for steps in (0, 3, 5):
        with Folder(case.files) as folder:
            if steps:
                program.play(folder, [*case.stages[0], "--steps", str(steps)])
            counts = program.counts(folder, case.stages[0])
        for number in numbers(draw, counts["calls"] if counts else 0, rounds):
            for closed in ((1,), (0, 1, 2)):
                how = f"call {number} fails, from {steps} records on, with {closed} closed"
                with Folder(case.files) as folder:
                    if steps:
                        program.play(folder, [*case.stages[0], "--steps", str(steps)])
                    played = trials.play(folder, how, tuple(FAULTS), shim={"FAIL": number}, limits=Limits(closed=closed))
                    trials.then(folder, Played([], played.status, b""), how)


# -- other things in the place of files ----------------------------------------------------------------------------------------------------


def too_long(path):
    with open(path, "wb") as file:
        file.truncate(MOST + 1)


def places(program, case, table):
    trials = Trials(program, case, table, f"folders, links and devices in the place of files: {case.name}")
    book = next(name for name in case.stages[0] if name.endswith(".json"))
    words, records = case.stages[0], trials.reference.records

    def tried(how, name, make, status, lines, played_words=None, remove=os.remove):
        with Folder({at: text for at, text in case.files.items() if at != name}) as folder:
            make(f"{folder}/{name}")
            played = trials.says(folder, how, played_words or words, status, lines)
            remove(f"{folder}/{name}")
            if name in case.files:
                put(folder, name, case.files[name])
            trials.then(folder, played, how)

    def link(target):
        return lambda path: os.symlink(target, path)

    shelf = [f"shelf failed: {book}"]
    tried("the playbook is a folder", book, os.mkdir, 3, shelf, remove=os.rmdir)
    tried("the playbook is a link to itself", book, link(book), 3, shelf)
    tried("the playbook is a link to nothing", book, link("nothing"), 4, [f"no such file: {book}"])
    tried("the playbook is /dev/zero", book, link("/dev/zero"), 11, ["limit: file 1048576"])
    tried("the playbook is /dev/null", book, link("/dev/null"), 5, [f"not readable: {book} not json"])
    for name in (ENGINE, agent_file(1), agent_file(16)):
        tried(f"{name} is a folder", name, os.mkdir, *DISK_FAILED, remove=os.rmdir)
        tried(f"{name} is a link to itself", name, link(name), *DISK_FAILED)
    tried("`show`, and engine.journal is a folder", ENGINE, os.mkdir, *DISK_FAILED, ["show"], os.rmdir)
    tried("engine.journal is a link into no folder", ENGINE, link("none/engine"), *DISK_FAILED)
    tried("engine.journal is /dev/full", ENGINE, link("/dev/full"), *DISK_FAILED)
    for number, name in [(0, ENGINE), (16, agent_file(16))]:
        tried(f"{name} is longer than any", name, too_long, 13, [f"damaged: file {number} place {MOST}"])
    sends = next(number for number, line in enumerate(records) if line.split(" ")[2] == "send") + 1
    tried("agent-01.journal is a link into no folder", agent_file(1), link("none/agent"), 8, [*records[:sends], "disk failed"])
    with Folder(case.files) as folder:
        trials.says(folder, "a name that is too long for the system", ["canon", "a" * 1024], 3, ["shelf failed: " + "a" * 1024])
        trials.says(folder, "a name of 1,025 bytes", ["canon", "a" * 1025], 2, ["words not understood"])


def disk(program, cases, table, rounds, draw):
    one, long = short(cases), cases[-1]
    for trial, case in [(few_files, one), (little_memory, long), (permission, one), (outputs, one), (places, one)]:
        progress(f"disk: {trial.__name__}")
        trial(program, case, table)
    for case in (one, long):
        progress(f"disk: {case.name}: a limit on files")
        file_limit(program, case, table, rounds, draw)
    progress("disk: a full file system")
    full_disk(program, long, table)
    progress("disk: closed and failing")
    closed_and_failing(program, one, table, rounds, draw)
