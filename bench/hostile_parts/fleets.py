"""Fleets: random runs side by side over the same filter, which are killed, stopped, refused and failed, and go on."""
import json
import os
import time

from .books import END, action, deny, fails, identifier, loop, playbook, starts, text_of
from .filter_model import Filter
from .journal import AGENTS, ENGINE, Damaged, act, agent_file, entries, record
from .play import Folder, Limits, bytes_of, progress
from .random_books import random_book
from .stops import KILLED
from .workflow_model import Run

MOST_SESSIONS = 40
FAULTS = (3, 8, 9, 10)  # the shelf, the disk, standard output, memory
ENDS = (0, 6, 7)  # ended well, ended failed, paused


def journal_of(place):
    """The file of the run at a place."""
    return ENGINE if place == 0 else f"engine-{place:02}.journal"


def chain(draw):
    """One action after another, each with a command of its own; some with a delay, some that the filter refuses."""
    keys = [identifier("action", place) for place in range(draw.randrange(1, 5))] + [END]
    steps = {}
    for place, key in enumerate(keys[:-1]):
        net = f"10.{draw.randrange(3)}.{draw.randrange(3)}.0/24"
        command = draw.choice([deny(net), deny(net), {"action": "allow", "target": {"ipv4_net": net}}, {"action": "delete", "target": {"slpf:rule_number": draw.randrange(1, 6)}}])
        steps[key] = action(command, {"on_success": keys[place + 1], "on_failure": keys[place + 1]}, delay=draw.randrange(3))
    return playbook({**starts(keys[0]), **steps})


def book(draw):
    kind = draw.randrange(8)
    if kind == 0:
        return loop(draw.randrange(1, 6))
    if kind == 1:
        return fails()
    return chain(draw) if kind < 5 else random_book(draw)


class Fleet:
    """A random fleet of two to five runs: the words and the files that they name."""

    def __init__(self, draw):
        count = draw.randrange(2, 6)
        self.runs = draw.sample(range(1, 100), count)
        self.books = [book(draw) for _ in range(count)]
        self.files = {f"book-{place}.json": text_of(one) for place, one in enumerate(self.books)}
        self.pairs = [word for place, run in enumerate(self.runs) for word in (str(run), f"book-{place}.json")]

    def words(self, steps=None):
        return ["fleet", *(["--steps", str(steps)] if steps else []), *self.pairs]


def one_session(program, fleet, folder, draw, usual):
    """One session of the fleet, which is killed, stopped, refused or failed at some moment, or has short files or few records, or is left alone. `usual` is the
    seconds of a session that is left alone. Its opening takes some 170 calls of the system, and each record some 12."""
    kind = draw.randrange(8)
    if kind == 0:
        return program.play(folder, fleet.words(), kill_after=draw.random() * 1.5 * usual)
    if kind == 1 or program.shim is None:
        return program.play(folder, fleet.words(draw.randrange(1, 12)))
    if kind == 6:
        return program.play(folder, fleet.words())
    if kind == 7:
        return program.play(folder, fleet.words(), limits=Limits(file=draw.randrange(1, 20_000), no_signal=True))
    number = draw.choice([draw.randrange(1, 170), draw.randrange(150, 400), draw.randrange(150, 900)])
    shims = [{"STOP": number}, {"STOP": number, "TEAR": draw.getrandbits(40) | 1}, {"FAIL": number}, {"REFUSE": 5 * number}]
    return program.play(folder, fleet.words(), shim=shims[kind - 2])


def is_disturbed(played):
    return played.status == KILLED or played.status in FAULTS


def usual_seconds(program):
    """The seconds of a session that is left alone."""
    words = ["fleet", "1", "one.json", "2", "one.json"]
    with Folder({"one.json": text_of(loop(6))}) as folder:
        begun = time.monotonic()
        program.play(folder, words)
        return time.monotonic() - begun


class Kept:
    """The records of each run of a fleet, and the acts of each filter."""

    def __init__(self, folder, count):
        self.runs = [[record(entry) for entry in entries(bytes_of(folder, journal_of(place)))] for place in range(count)]
        self.acts = {agent: [act(entry) for entry in entries(bytes_of(folder, agent_file(agent)))] for agent in AGENTS}

    def lines(self, place, book):
        """The lines of the records of a run, up to the first that may not come next, by the model; and whether the run has ended."""
        records = self.runs[place]
        if not records:
            return [], False
        run = Run(records[0]["run"], book, records[0]["moment"])
        for number, one in enumerate(records[1:], 1):
            if not run.takes(one):
                return run.lines[:number], False
        return run.lines, run.outcome is not None

    def wrong_act(self):
        """The first act of filter 1 whose reply is another than the table's, by the model; None where there is none."""
        table = Filter()
        for one in self.acts[1]:
            told = json.loads(one["reply"])
            reply = told["status"], told.get("results", {}).get("slpf", {}).get("rule_number", 0), told.get("status_text", "")
            if one["moment"] < table.moment or table.answer(one["run"], one["issue"], json.loads(one["command"]), one["moment"]) != reply:
                return one
        return None


class Round:
    """One fleet, from its first session to its end."""

    def __init__(self, program, row, draw, usual):
        self.program, self.row, self.draw, self.usual, self.fleet = program, row, draw, usual, Fleet(draw)
        self.said = [set() for _ in self.fleet.runs]

    def play(self):
        self.row.tries += 1
        with Folder(self.fleet.files) as folder:
            for session in range(self.draw.randrange(1, 6)):
                played = one_session(self.program, self.fleet, folder, self.draw, self.usual)
                self.row.stopped += is_disturbed(played)
                self.row.expect(played.status in (KILLED, *FAULTS, *ENDS), f"session {session}: {played}")
                self.look(folder, played)
            for _ in range(MOST_SESSIONS):
                played = self.program.play(folder, self.fleet.words())
                self.look(folder, played)
                if played.status in (0, 6):
                    return self.ends(folder, played)
            return self.row.find(f"after {MOST_SESSIONS} sessions: {played}")

    def look(self, folder, played):
        """The files are good, each line said is that of its record behind its run's number, in order, and each run's files agree."""
        how = str(played)
        try:
            kept = Kept(folder, len(self.fleet.runs))
        except (Damaged, ValueError) as error:
            return self.row.find(f"{how}: a file is damaged: {error}")
        modelled = [kept.lines(place, book) for place, book in enumerate(self.fleet.books)]
        right, ended = zip(*modelled)
        self.row.midway += is_disturbed(played) and any(kept.runs) and not all(ended)
        for place, records in enumerate(kept.runs):
            self.row.expect(len(right[place]) == len(records), f"{how}: record {len(right[place])} of {journal_of(place)} may not come there")
        self.row.expect(kept.wrong_act() is None, f"{how}: the filter answers otherwise than {kept.wrong_act()}")
        last = [-1] * len(self.fleet.runs)
        lines = played.lines
        for line in lines:
            front, _, text = line.partition(" ")
            number = text.split(" ")[0]
            if not front.isdigit() or int(front) not in self.fleet.runs or not number.isdigit():
                self.row.expect(line == lines[-1] and not front.isdigit(), f"{how}: said {line!r}")
                continue
            place = self.fleet.runs.index(int(front))
            number = int(number)
            self.row.expect(text in right[place][number : number + 1] and last[place] < number, f"{how}: said {line!r}")
            self.row.expect(number not in self.said[place], f"{how}: said {line!r} again")
            last[place] = number
            self.said[place].add(number)
        self.acts_agree(kept, how)
        for place, records in enumerate(kept.runs):
            if records:
                self.audit(folder, place, kept, how)
        return None

    def acts_agree(self, kept, how):
        """Each act is that of one command of a run of the fleet, once."""
        sends = {(records[0]["run"], told["issue"]): told for records in kept.runs if records for told in records if told["kind"] == "send"}
        seen = set()
        for agent, acts in kept.acts.items():
            for one in acts:
                send = sends.get((one["run"], one["issue"]))
                self.row.expect(send is not None and (send["agent"], send["command"]) == (agent, one["command"]), f"{how}: an act of run {one['run']} without its send")
                self.row.expect((one["run"], one["issue"]) not in seen, f"{how}: run {one['run']} issue {one['issue']} has two acts")
                seen.add((one["run"], one["issue"]))

    def audit(self, folder, place, kept, how):
        acts = [agent for agent in AGENTS if kept.acts[agent]]
        words = ["audit", journal_of(place), *(word for agent in acts for word in (str(agent), agent_file(agent)))]
        told = self.program.play(folder, words)
        right = f"audit ok {len(kept.runs[place])} {sum(len(kept.acts[agent]) for agent in acts)}"
        self.row.expect((told.status, told.lines) == (0, [right]), f"{how}, and then {told}, where {right} is right")

    def ends(self, folder, played):
        """Each run has ended; the last line names the first that failed; the same words say it again."""
        again = self.program.play(folder, self.fleet.words())
        self.row.expect((again.status, again.lines) == (played.status, played.lines[-1:]), f"{played}, and then {again}")
        if played.status == 6:
            run = played.lines[-1].removeprefix("ended failed ")
            self.row.expect(run.isdigit() and int(run) in self.fleet.runs, f"{played}")
        else:
            self.row.expect(played.lines[-1:] == ["ended ok"], f"{played}")
        for place in range(len(self.fleet.runs), 16):
            self.row.expect(not os.path.exists(f"{folder}/{journal_of(place)}"), f"{played}: {journal_of(place)} was made")


def fleets(program, cases, table, rounds, draw):
    if not program.has(["fleet", "1", "book.json"]):
        return table.note("fleet: this program has no `fleet`")
    row = table.row("fleet", "fleets of two to five runs, killed, stopped, refused, failed, or with few records, and taken on")
    for number in range(rounds):
        if number % 100 == 0:
            progress(f"fleet: {number} of {rounds} rounds")
            usual = usual_seconds(program)
        Round(program, row, draw, usual).play()
    return None
