"""Fleets and other programs in one folder at one time."""
import fcntl
import os
import time

from .books import loop, text_of
from .fleets import Kept, journal_of
from .hands import AGENTS_LOCK, DISK_FAILED, LOCK, Started
from .journal import ENGINE, Damaged, agent_file, line_front
from .play import Folder, bytes_of, progress
from .processes import Watched, left_in
from .reference import is_record
from .stops import KILLED

SHORT, LONG = 6, 400  # turns of a loop
MOST_PLACES = 3


class Beside:
    """Two programs that are started at one time in one folder, again and again, of which one at least is a fleet."""

    def __init__(self, program, table, what, one, other, turns=SHORT):
        self.program, self.row, self.words = program, table.row("beside", what), (one, other)
        self.files = {"one.json": text_of(loop(turns)), "other.json": text_of(loop(turns)).replace(b'"n"', b'"o"')}

    def play(self, rounds):
        for number in range(rounds):
            self.row.tries += 1
            with self.folder() as folder:
                # The one that is begun first is not always the same.
                words = self.words if number % 2 else self.words[::-1]
                self.judge(folder, [one.end() for one in [Started(self.program, folder, one) for one in words]])

    def folder(self):
        return Folder(self.files)

    def judge(self, folder, played):
        """Each record is said once, by who wrote it; who came second said `disk failed` and wrote nothing, or came behind the end of the first.
        No lock is left, and the files of each run agree."""
        how = " and ".join(map(str, played))
        if self.whole(folder, how, played) is None:
            return
        second = [one for one in played if (one.status, one.lines) == DISK_FAILED]
        late = [one for one in played if one.status == 12 and len(one.lines) == 1]
        ended = [one for one in played if one.status == 0]
        self.row.stopped += len(second)
        self.row.expect(len(ended) >= 1 and len(ended) + len(second) + len(late) == 2, how)
        self.row.expect(all(one.lines[0].startswith(("other ", "run used ")) for one in late), how)
        left = [name for name in os.listdir(folder) if name.endswith(".lock")]
        self.row.expect(not left, f"{how}: left {left}")

    def whole(self, folder, how, played):
        """What the files have, of which none is damaged: of each run the records that were said, each once; and `audit` finds them right."""
        try:
            kept = Kept(folder, MOST_PLACES)
        except (Damaged, ValueError) as error:
            return self.row.find(f"{how}: a file is damaged: {error}")
        numbers = {str(records[0]["run"]): place for place, records in enumerate(kept.runs) if records}
        said = [[] for _ in kept.runs]
        for one in played:
            for line in filter(is_record, one.lines):
                front, _, text = line.partition(" ")
                place = numbers.get(front) if one.words[0] == "fleet" else 0
                said[place if place is not None else 0].append(text if one.words[0] == "fleet" else line)
        for place, records in enumerate(kept.runs):
            right = len(said[place]) == len(records) and all(line.startswith(line_front(at, one)) for at, (line, one) in enumerate(zip(said[place], records)))
            self.row.expect(right, f"{how}: {journal_of(place)} keeps {len(records)} records")
            if records:
                acts = [agent for agent, found in kept.acts.items() if found]
                words = ["audit", journal_of(place), *(word for agent in acts for word in (str(agent), agent_file(agent)))]
                told = self.program.play(folder, words)
                wanted = f"audit ok {len(records)} {sum(map(len, kept.acts.values()))}"
                self.row.expect((told.status, told.lines) == (0, [wanted]), f"{how}, and then {told}")
        return kept


TWO = ["fleet", "1", "one.json", "2", "other.json"]


class BesidePair(Beside):
    """A `pair` and a fleet that are started at one time. Either may be refused a file: that of the engine, or those of filters, which the `filters` of
    the `pair` locks."""

    def folder(self):
        return Watched(self.row, self.files)

    def judge(self, folder, played):
        """The files are whole and have what was said. Behind both, the fleet goes on to its end, or is refused the journal of the `pair`."""
        how = " and ".join(map(str, played))
        left_in(folder)
        self.whole(folder, how, played)
        self.row.stopped += sum((one.status, one.lines) == DISK_FAILED for one in played)
        self.row.expect(all(one.status in (0, 6, 8, 12, 17) for one in played), how)
        last = self.program.play(folder, TWO)
        self.row.expect(last.status in (0, 6, 12), f"{how}, and then {last}")
        self.whole(folder, f"{how}, and then {last}", [*played, last])


def held(program, table):
    """A lock that another program holds, or that can't be had: the fleet writes nothing, and goes on when it is held no more."""
    row = table.row("beside", "a lock of a fleet that is held, or can't be had")
    files = {"one.json": text_of(loop(3)), "other.json": text_of(loop(4))}

    def journals(folder):
        return {name: bytes_of(folder, name) for name in os.listdir(folder) if name.endswith(".journal")}

    def refused(folder, how):
        row.tries += 1
        before, played = journals(folder), program.play(folder, TWO)
        row.expect((played.status, played.lines) == DISK_FAILED, f"{how}: {played}")
        row.expect(before == journals(folder), f"{how}: a file was written")

    for name in (LOCK, "engine-01.lock", AGENTS_LOCK):
        for steps in ([], ["--steps", "9"]):
            with Folder(files) as folder:
                if steps:
                    program.play(folder, ["fleet", *steps, *TWO[1:]])
                with open(f"{folder}/{name}", "wb") as lock:
                    fcntl.flock(lock, fcntl.LOCK_EX)
                    refused(folder, f"{name} is held")
                played = program.play(folder, TWO)
                row.expect(played.status == 0, f"{name} is held no more: {played}")
                left = [one for one in os.listdir(folder) if one.endswith(".lock")]
                row.expect(not left, f"a fleet that ended left {left}")
        with Folder(files) as folder:
            os.mkdir(f"{folder}/{name}")
            refused(folder, f"{name} is a folder")
    with Folder(files) as folder, open(f"{folder}/engine-02.lock", "wb") as lock:
        fcntl.flock(lock, fcntl.LOCK_EX)
        row.tries += 1
        played = program.play(folder, TWO)
        row.expect(played.status == 0, f"the lock of a place that is not named is held: {played}")
    with Folder(files) as folder, open(f"{folder}/engine-01.lock", "wb") as lock:
        fcntl.flock(lock, fcntl.LOCK_EX)
        row.tries += 1
        played = program.play(folder, ["run", "--run", "1", "one.json"])
        row.expect(played.status == 0, f"a `run` and the lock of a second place: {played}")


READERS = {
    "show": (["show"], lambda lines: lines and lines[0] in ("run 1", "no run")),
    "rules 1": (["rules", "1"], lambda lines: all(" deny both net4 " in line for line in lines)),
    "shadow 1": (["shadow", "1"], lambda lines: True),
    "audit of the first run": (["audit", ENGINE, "1", agent_file(1)], lambda lines: lines[0].startswith("audit ok ")),
    "audit of the second run": (["audit", journal_of(1), "1", agent_file(1)], lambda lines: lines[0].startswith("audit ok ")),
}


def readers(program, table, rounds, turns):
    """Each reader in a loop beside a fleet, which is begun anew where it has ended."""
    files = {"one.json": text_of(loop(turns)), "other.json": text_of(loop(turns))}
    for name, (words, is_right) in READERS.items():
        progress(f"beside: {name}, beside a fleet")
        row = table.row("beside", f"`{name}` beside a fleet of two runs of {5 * turns + 4:,} records")
        while row.tries < rounds:
            with Folder(files) as folder:
                fleet = Started(program, folder, TWO)
                while fleet.goes_on() and len(bytes_of(folder, agent_file(1))) < 1000:
                    time.sleep(0.001)
                names = set(os.listdir(folder))
                while fleet.goes_on() and row.tries < rounds:
                    played = program.play(folder, words)
                    row.tries += 1
                    row.stopped += fleet.goes_on()
                    row.expect(played.status == 0 and is_right(played.lines), f"{played}")
                row.expect(set(os.listdir(folder)) <= names, "a reader made a file")
                if row.tries >= rounds:
                    fleet.kill()
                ended = fleet.end()
                row.expect(ended.status in (0, KILLED), f"{ended}")


def beside(program, cases, table, rounds, draw):
    if not program.has(["fleet", "1", "book.json"]):
        return table.note("beside: this program has no `fleet`")
    held(program, table)
    run = ["run", "--run"]
    for what, one, other in (
        ("a `run` beside a fleet that has the same run first", [*run, "1", "one.json"], TWO),
        ("a `run` of a third run beside a fleet", [*run, "3", "one.json"], TWO),
        ("two fleets with the same words", TWO, TWO),
        ("two fleets of different runs", TWO, ["fleet", "3", "one.json", "4", "other.json"]),
        ("two fleets with the same runs in another order", TWO, ["fleet", "2", "other.json", "1", "one.json"]),
        ("a fleet of one run beside one of three", ["fleet", "1", "one.json"], [*TWO, "3", "one.json"]),
    ):
        progress(f"beside: {what}")
        Beside(program, table, what, one, other).play(rounds)
    progress("beside: two longer fleets, and a longer run beside one")
    Beside(program, table, f"two fleets of runs of {5 * LONG + 4:,} records", TWO, ["fleet", "3", "other.json", "4", "one.json"], LONG).play(rounds)
    Beside(program, table, f"a `run` beside a fleet of runs of {5 * LONG + 4:,} records", [*run, "1", "one.json"], TWO, LONG).play(rounds)
    pair = ["pair", "--run"]
    for what, one in (("has the first run of the fleet", [*pair, "1", "one.json"]), ("has another run", [*pair, "3", "one.json"])):
        progress(f"beside: a `pair` that {what}")
        BesidePair(program, table, f"a `pair` that {what}, beside it", one, TWO).play(rounds)
    readers(program, table, rounds, 1500)
    return None
