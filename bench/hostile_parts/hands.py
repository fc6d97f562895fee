"""Several programs in one folder at one time: two that write, and some that read beside one that writes."""
import fcntl
import os
import signal
import subprocess
import tempfile
import time

from .books import END, action, deny, identifier, loop, playbook, starts, text_of
from .journal import ENGINE, Damaged, Kept, agent_file, disagreement, kinds
from .play import Folder, Limits, Played, bytes_of, progress, put
from .reference import is_record
from .stops import KILLED

DISK_FAILED = (8, ["disk failed"])
NOBODY = 65534
LOCK = "engine.lock"
# That of the files of all filters.
AGENTS_LOCK = "agents.lock"


class Started:
    """A run of the program that goes on beside others."""

    def __init__(self, program, folder, words):
        self.words, self.told = words, tempfile.TemporaryFile()
        env = {"PATH": os.environ.get("PATH", "")}
        quiet = subprocess.DEVNULL
        # In a session of its own, so that the system gives it a share of the processors that is its own too.
        how = {"cwd": folder, "env": env, "stdin": quiet, "stdout": self.told, "stderr": quiet, "start_new_session": True}
        self.process = subprocess.Popen([program.path, *words], **how)

    def goes_on(self):
        return os.waitid(os.P_PID, self.process.pid, os.WEXITED | os.WNOHANG | os.WNOWAIT) is None

    def kill(self):
        """Ends it by a signal. It is not waited for (as `Popen.kill` does where it has ended), so that `end` can."""
        os.kill(self.process.pid, signal.SIGKILL)

    def end(self):
        _, code, used = os.wait4(self.process.pid, 0)
        self.process.returncode = os.waitstatus_to_exitcode(code)
        self.processor = used.ru_utime + used.ru_stime
        self.told.seek(0)
        with self.told:
            return Played(self.words, self.process.returncode, self.told.read())


def external():
    """A playbook that denies the net that its bindings name."""
    block = identifier("action", 1)
    steps = {**starts(block), block: action(deny("__net__:value"), {"on_completion": END}, out_args=["__status__"])}
    return playbook(steps, {"__net__": {"type": "string", "external": True}, "__status__": {"type": "integer"}})


def bound(net):
    return text_of({"variables": {"__net__": net}})


# -- two that write ------------------------------------------------------------------------------------------------------------------------


class Pairs:
    """Two programs that are started at one time in one folder, again and again."""

    def __init__(self, program, table, what, files, one, other, before=None):
        self.program, self.row = program, table.row("hands", what)
        self.files, self.words, self.before = files, (one, other), before

    def play(self, rounds):
        for number in range(rounds):
            self.row.tries += 1
            with Folder(self.files) as folder:
                if self.before:
                    self.program.play(folder, self.before)
                was = len(Kept(folder).engine) if self.before else 0
                # The one that is begun first is not always the same.
                words = self.words if number % 2 else self.words[::-1]
                self.judge(folder, [one.end() for one in [Started(self.program, folder, one) for one in words]], was)

    def judge(self, folder, played, was):
        """One run has its records, each said once, and its end; the other wrote nothing and said why. The files agree."""
        how = " and ".join(map(str, played))
        try:
            kept = Kept(folder)
        except Damaged as place:
            return self.row.find(f"{how}: a file is damaged at {place}")
        ended = [one for one in played if one.status == 0]
        said = [line for one in played for line in one.lines if is_record(line)]
        self.row.stopped += sum((one.status, one.lines) == DISK_FAILED for one in played)
        self.row.expect(disagreement(kept) is None, f"{how}: {disagreement(kept)}")
        self.row.expect([int(line.split(" ")[0]) for line in said] == list(range(was, len(kept.engine))), f"{how}: {len(kept.engine)} records are kept")
        self.row.expect(1 <= len(ended) and sum(bool(list(filter(is_record, one.lines))) for one in played) == 1, how)
        # What did not end well came while the other was at work, or behind it.
        late = [one.lines[-1:] for one in played if one.status not in (0, 8)]
        self.row.expect(all(one.status in (0, 8, 12) for one in played) and all(line[0].startswith("other ") for line in late), how)
        words = ["audit", ENGINE, *(word for agent in kept.agents() for word in (str(agent), agent_file(agent)))]
        acts = sum(map(len, kept.filters.values()))
        told = self.program.play(folder, words)
        return self.row.expect((told.status, told.lines) == (0, [f"audit ok {len(kept.engine)} {acts}"]), f"{how}: {told}")


def pairs(program, table, rounds):
    run = ["run", "--run"]
    books = {"one.json": text_of(loop(3)), "other.json": text_of(loop(5)), "net.json": text_of(external())}
    binds = {"a.json": bound("10.0.0.0/24"), "b.json": bound("10.0.1.0/24")}
    Pairs(program, table, "two runs of different numbers and playbooks", books, [*run, "1", "one.json"], [*run, "2", "other.json"]).play(rounds)
    two = [[*run, str(number), "--bind", bind, "net.json"] for number, bind in ((1, "a.json"), (2, "b.json"))]
    Pairs(program, table, "one playbook with two bindings, runs 1 and 2", {**books, **binds}, *two).play(rounds)
    Pairs(program, table, "the same words twice", books, [*run, "1", "one.json"], [*run, "1", "one.json"]).play(rounds)
    progress("hands: two longer runs")
    long = {"one.json": text_of(loop(300)), "other.json": text_of(loop(300)).replace(b'"n"', b'"o"')}
    Pairs(program, table, "two runs of 1,504 records", long, [*run, "1", "one.json"], [*run, "2", "other.json"]).play(rounds)


def answers(program, table, rounds, examples):
    """An operator's question is answered in two ways at one time."""
    with open(f"{examples}/ask-an-operator.json", "rb") as file:
        book = file.read()
    files = {"book.json": book, "a.txt": b"7 0 200 done\n", "b.txt": b"7 0 403 refused\n"}
    ask = ["run", "--run", "7", "book.json"]
    row = table.row("hands", "a question that is answered 200 and 403")
    for number in range(rounds):
        row.tries += 1
        with Folder(files) as folder:
            program.play(folder, ask)
            names = ["a.txt", "b.txt"] if number % 2 else ["b.txt", "a.txt"]
            played = [one.end() for one in [Started(program, folder, [*ask, "--answers", name]) for name in names]]
            how = " and ".join(map(str, played))
            kept = Kept(folder)
            told = [line for one in played for line in one.lines if is_record(line) and line.split(" ")[2] == "told"]
            row.stopped += sum((one.status, one.lines) == DISK_FAILED for one in played)
            row.expect(len(told) == 1 and kinds(kept)[0].get("told") == 1, how)
            row.expect(all(one.status in (0, 6) or (one.status, one.lines) == DISK_FAILED for one in played), how)
            row.expect(disagreement(kept) is None, f"{how}: {disagreement(kept)}")


# -- one that writes, and some that read ----------------------------------------------------------------------------------------------------


READERS = {
    "show": (["show"], lambda lines: lines and lines[0] == "run 1"),
    "rules 1": (["rules", "1"], lambda lines: all(" deny both net4 " in line for line in lines)),
    "decide 1 p.txt": (["decide", "1", "p.txt"], lambda lines: len(lines) == 1 and lines[0].startswith("deny ")),
    "shadow 1": (["shadow", "1"], lambda lines: True),
    "audit": (["audit", ENGINE, "1", agent_file(1)], lambda lines: len(lines) == 1 and lines[0].startswith("audit ok ")),
    "audit, with a -- among its words": (["audit", ENGINE, "--", "1", agent_file(1)], lambda lines: lines[0].startswith("audit ok ")),
}


def beside(program, table, rounds, turns):
    """Each reader beside a long run, which is begun anew where it has ended."""
    files = {"book.json": text_of(loop(turns)), "p.txt": b"0 egress tcp 10.0.0.5 40000 198.51.100.7 443\n"}
    for name, (words, is_right) in READERS.items():
        progress(f"hands: {name}")
        row = table.row("hands", f"`{name}` beside a run of {5 * turns + 4:,} records")
        while row.tries < rounds:
            with Folder(files) as folder:
                run = Started(program, folder, ["run", "--run", "1", "book.json"])
                while run.goes_on() and len(bytes_of(folder, agent_file(1))) < 1000:
                    time.sleep(0.001)
                names = set(os.listdir(folder))
                while run.goes_on() and row.tries < rounds:
                    played = program.play(folder, words)
                    row.tries += 1
                    row.stopped += run.goes_on()
                    row.expect(played.status == 0 and is_right(played.lines), f"{played}")
                row.expect(set(os.listdir(folder)) <= names, "a reader made a file")
                if row.tries >= rounds:
                    run.kill()
                ended = run.end()
                row.expect(ended.status in (0, KILLED), f"{ended}")


# -- locks ---------------------------------------------------------------------------------------------------------------------------------


def killed(program, table, rounds, draw):
    row = table.row("hands", "a run that is killed leaves no lock")
    files, words = {"book.json": text_of(loop(300))}, ["run", "--run", "1", "book.json"]
    for _ in range(rounds):
        row.tries += 1
        with Folder(files) as folder:
            first = program.play(folder, words, kill_after=draw.random() / 10)
            row.stopped += first.status == KILLED
            then = program.play(folder, [*words, "--steps", "1"])
            row.expect(then.status in (0, 7), f"killed, and then {then}")


def held(program, table):
    """A lock that another program holds, or that can't be had: nothing is written, and readers go on."""
    row = table.row("hands", "a lock that is held, or can't be had")
    files, words = {"book.json": text_of(loop(3))}, ["run", "--run", "1", "book.json"]

    def refused(folder, how, limits=None, lines=DISK_FAILED[1]):
        row.tries += 1
        before = {name: bytes_of(folder, name) for name in os.listdir(folder) if name.endswith(".journal")}
        played = program.play(folder, words, limits=limits)
        row.expect((played.status, played.lines) == (8, lines), f"{how}: {played}")
        after = {name: bytes_of(folder, name) for name in os.listdir(folder) if name.endswith(".journal")}
        row.expect(before == after, f"{how}: a file was written")

    for name in (LOCK, AGENTS_LOCK):
        with Folder(files) as folder, open(f"{folder}/{name}", "wb") as lock:
            fcntl.flock(lock, fcntl.LOCK_EX)
            refused(folder, f"{name} is held")
            left = [one for one in os.listdir(folder) if one.endswith(".lock")]
            row.expect(left == [name], f"{name} is held: of lock files there are {left}")
            played = program.play(folder, ["show"])
            row.expect((played.status, played.lines) == (0, ["no run"]), f"{name} is held: {played}")
            fcntl.flock(lock, fcntl.LOCK_UN)
            played = program.play(folder, words)
            row.expect(played.status == 0, f"{name} is held no more: {played}")
    with Folder(files) as folder:
        os.mkdir(f"{folder}/{LOCK}")
        refused(folder, "the lock file is a folder")
    with Folder(files) as folder:
        os.symlink("none/lock", f"{folder}/{LOCK}")
        refused(folder, "the lock file is a link into no folder")
    if os.geteuid() == 0:
        with Folder(files) as folder:
            program.play(folder, [*words, "--steps", "3"])
            os.chmod(folder, 0o777)
            for name in (LOCK, AGENTS_LOCK):
                open(f"{folder}/{name}", "wb").close()
            for name in os.listdir(folder):
                os.chmod(f"{folder}/{name}", 0o600 if name.endswith(".lock") else 0o666)
            refused(folder, "the lock files are another user's", Limits(user=NOBODY))
    with Folder(files) as folder:
        played = program.play(folder, ["show"])
        row.tries += 1
        row.expect(played.status == 0 and set(os.listdir(folder)) == set(files), f"a reader made a file: {os.listdir(folder)}")
    with Folder(files) as folder:
        program.play(folder, words)
        left = [name for name in os.listdir(folder) if name.endswith(".lock")]
        row.expect(not left, f"a run that ended left lock files: {left}")


def modes(program, table):
    """Who may read and write what a run makes, where the umask takes nothing away."""
    row = table.row("hands", "the modes of journals and of lock files")
    with Folder({"book.json": text_of(loop(2000))}) as folder:
        umask = os.umask(0)
        try:
            run = Started(program, folder, ["run", "--run", "1", "book.json"])
        finally:
            os.umask(umask)
        while run.goes_on() and not bytes_of(folder, agent_file(1)):
            time.sleep(0.001)
        for name in os.listdir(folder):
            if name.endswith((".journal", ".lock")):
                row.tries += 1
                found, right = os.stat(f"{folder}/{name}").st_mode & 0o777, 0o666 if name.endswith(".journal") else 0o660
                row.expect(found == right, f"{name} has the mode {found:o}, where {right:o} is right")
        row.expect(run.end().status == 0, "the run did not end well")


def hands(program, cases, table, rounds, draw):
    examples = os.path.join(os.path.dirname(os.path.dirname(os.path.dirname(os.path.realpath(__file__)))), "examples")
    held(program, table)
    modes(program, table)
    killed(program, table, rounds, draw)
    pairs(program, table, rounds)
    answers(program, table, rounds, examples)
    beside(program, table, rounds, 3000)
