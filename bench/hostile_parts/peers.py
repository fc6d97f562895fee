"""`pair` and `filters`: two processes that are killed, refused and failed on either side, and others beside them in one folder."""
import errno
import statistics
import time

from .books import AGENTS, END, action, deny, identifier, playbook, short, starts, text_of
from .filters import alone
from .hands import DISK_FAILED
from .journal import ENGINE, Damaged, Kept, agent_file, disagreement, is_answered, line_front, record
from .play import Folder, progress
from .processes import Watched, children, end, ends_by_a_connection, goes_on, holds_nothing, is_waiting, left_in, resident, told_of
from .reference import is_record, reports
from .stops import KILLED, numbers
from .wires import DENY, PEERS_FAILED, Filters, Limited, clients, reading, send, servers

ENDED = (0, 6)
# What a `pair` may end with where calls and requests of either end fail.
FAULTY = (0, 3, 6, 8, 9, 10, 17)
UNSAID = (9, [])
LONG = 1800  # the seconds that a `pair` of many commands may take


def sturdy(turns):
    """A loop of so many turns over an action that blocks a net; where one expires, the run ends failed (one that went on would have no end)."""
    ask, block = identifier("while-condition", 1), identifier("action", 1)
    condition = {"type": "while-condition", "condition": f"__rule__:value < {turns}", "on_true": block, "on_success": END}
    steps = {ask: condition, block: action(deny("10.0.0.0/24"), {"on_success": END}, out_args=["__status__", "__rule__"])}
    variables = {"__status__": {"type": "integer"}, "__rule__": {"type": "integer", "value": "0"}}
    return playbook({**starts(ask), **steps}, variables)


def spread(width, depth):
    """A parallel step of so many branches of actions on four filters."""
    fork, steps, heads = identifier("parallel", 1), {}, []
    for branch in range(width):
        keys = [identifier("action", branch * 64 + place) for place in range(depth)] + [END]
        heads.append(keys[0])
        for place, key in enumerate(keys[:-1]):
            steps[key] = action(deny(f"10.{branch}.{place}.0/24"), {"on_success": keys[place + 1]}, branch % 4, out_args=["__status__"])
    steps[fork] = {"type": "parallel", "next_steps": heads, "on_completion": END}
    return playbook({**starts(fork), **steps}, {"__status__": {"type": "integer"}})


SPREAD = {"spread.json": text_of(spread(6, 4)), "bind.json": text_of({"agents": {agent: place + 1 for place, agent in enumerate(AGENTS)}})}
BOOKS = {
    "a loop of 40 turns": ({"loop.json": text_of(sturdy(40))}, ["--run", "7", "loop.json"]),
    "6 branches of 4 actions on 4 filters": (SPREAD, ["--run", "7", "--bind", "bind.json", "spread.json"]),
}


def acts_of(kept):
    """The acts of each filter without their moments, which the clock of `filters` gives."""
    return {agent: [entry[:13] + entry[21:] for entry in entries] for agent, entries in kept.filters.items()}


class Both:
    """A `pair` that goes on, and the `filters` that it started, once that is there."""

    def __init__(self, program, folder, words):
        self.engine = Limited(program, folder, words)

    def filters(self, seconds=5.0):
        """The process of its `filters`; None where there is none yet, or no more."""
        until = time.monotonic() + seconds
        while self.engine.goes_on() and time.monotonic() < until:
            for pid in children(self.engine.process.pid):
                return pid
        return None


class Round:
    """A run that `pair` and `run` take on from each other, and that is killed on either side."""

    def __init__(self, program, row, files, words, draw, seconds):
        self.program, self.row, self.files, self.words = program, row, files, words
        self.draw, self.seconds = draw, seconds
        self.saids, self.kills, self.waiting, self.expires = [], 0, 0, False

    def play(self, folder, number):
        """Sessions until one ends by itself: the first is a `pair`, and they take turns from then on."""
        for turn in range(100):
            word = "pair" if turn == 0 or (turn + number) % 2 else "run"
            # Of the `filters` of a run that is killed the commands expire, so the first sessions are killed at the engine's end.
            at_filters = word == "pair" and self.draw.random() < 0.15
            ended = self.session(folder, word, at_filters)
            if ended.status in ENDED:
                return True
            # The `filters` of the session before may hold their locks yet, or those of this one were killed before they said a port.
            self.row.expect(ended.status in (KILLED, *(status for status, _ in (DISK_FAILED, PEERS_FAILED))), f"after {self.kills} kills: {ended}")
        return self.row.find("100 sessions, and no end")

    def session(self, folder, word, at_filters):
        """One session that is killed at a random moment, on one side; what it said."""
        both = Both(self.program, folder, [word, *self.words])
        filters = both.filters() if word == "pair" else None
        after = self.seconds * self.draw.choice([self.draw.random(), self.draw.random() / 3, self.draw.random() / 10])
        time.sleep(after)
        if at_filters and filters and goes_on(filters):
            end(filters)
            self.kills += 1
            self.expires = True
        elif both.engine.goes_on():
            end(both.engine.process.pid)
            self.kills += 1
        ended = both.engine.end()
        self.saids.append(ended)
        self.gone(folder, ended.status == KILLED)
        self.look(folder, f"{word} killed after {after:.6f} s{', at the filters' if at_filters else ''}")
        return ended

    def gone(self, folder, may_wait):
        """Each process of a session has ended, or does by itself. But where its `pair` could not end it (`may_wait`), a `filters` with which
        nobody connected may wait for a connection, holding no lock: it is counted, and has to end by a connection that is closed again."""
        for pid in left_in(folder):
            if self.row.expect(may_wait and is_waiting(pid) and holds_nothing(pid, folder), told_of(pid)):
                self.waiting += 1
                self.row.expect(ends_by_a_connection(pid), f"a connection that is closed again does not end it: {told_of(pid)}")
            end(pid)

    def look(self, folder, how):
        """The files are sound and agree, and have what was said."""
        try:
            kept = Kept(folder)
        except Damaged as place:
            return self.row.find(f"{how}: a file is damaged at {place}")
        self.row.midway += bool(kept.engine)
        self.row.expect(disagreement(kept) is None, f"{how}: {disagreement(kept)}")
        for line in (line for played in self.saids for line in played.lines if is_record(line)):
            number = int(line.split(" ")[0])
            right = number < len(kept.engine) and line.startswith(line_front(number, record(kept.engine[number])))
            self.row.expect(right, f"{how}: said {line!r}, and {len(kept.engine)} records are kept")
        shown = self.program.play(folder, ["show"])
        counted = f"records {len(kept.engine)}" if kept.engine else "no run"
        self.row.expect(shown.status == 0 and counted in shown.lines, f"{how}: {shown}")
        if kept.engine:
            words = ["audit", ENGINE, *(word for agent in kept.agents() for word in (str(agent), agent_file(agent)))]
            told = self.program.play(folder, words)
            right = (0, [f"audit ok {len(kept.engine)} {sum(map(len, kept.filters.values()))}"])
            self.row.expect((told.status, told.lines) == right, f"{how}: {told}")
        return kept

    def ended(self, folder, wanted):
        """The end: the same words say it again, each Send is answered or expired; without a kill at the filters all is as in the undisturbed run."""
        for word in ("run", "pair"):
            played = self.program.play(folder, [word, *self.words])
            self.row.expect(played.status in ENDED and len(played.lines) == 1, f"at the end: {played}")
        kept = Kept(folder)
        self.row.expect(is_answered(kept), "at the end a send has neither a reply nor an expiry")
        if not self.expires:
            self.row.expect((kept.engine, acts_of(kept)) == wanted[:2], "at the end other records or acts than the undisturbed run's")
            told = [report.said for report in reports(self.program, folder, kept.agents())]
            self.row.expect(told == wanted[2], f"at the end {told} where the undisturbed run has {wanted[2]}")


def undisturbed(program, row, files, words):
    """What a `run` leaves, and a `pair` the same but for the moments of acts; and the seconds that a `pair` takes."""
    found, taken = [], []
    for word in ("run", "pair", "pair", "pair"):
        with Watched(row, files) as folder:
            begin = time.perf_counter()
            played = program.play(folder, [word, *words])
            taken.append(time.perf_counter() - begin)
            kept = Kept(folder)
            found.append((kept.engine, acts_of(kept), [report.said for report in reports(program, folder, kept.agents())], played.said, played.status))
    row.expect(found[0][4] == 0 and all(one == found[0] for one in found), f"undisturbed: `run` and `pair` differ, or end with {[one[4] for one in found]}")
    return found[0], statistics.median(taken[1:])


def killed(program, table, rounds, draw):
    """`pair` is killed at random moments on either side, and taken on by `run` and by `pair` in turns."""
    for what, (files, words) in BOOKS.items():
        progress(f"pair: killed: {what}")
        row = table.row("pair", f"killed on either side, taken on by `run` and `pair`: {what}")
        wanted, seconds = undisturbed(program, row, files, words)
        waiting = 0
        for number in range(max(1, rounds // len(BOOKS))):
            row.tries += 1
            with Watched(row, files) as folder:
                one = Round(program, row, files, words, draw, seconds)
                if one.play(folder, number):
                    one.ended(folder, wanted)
                row.stopped += one.kills
                waiting += one.waiting
        table.note(f"pair: {what}: {waiting} `filters` waited for a connection, since their `pair` was killed before it connected; a connection ended each")


def blocks(program, case, table):
    """The playbook that blocks a host by `run` and by `pair`: the same is said, its rule is in force, and the files agree."""
    row, wanted = table.row("pair", "the playbook that blocks a host, and then `rules 1` and `audit`"), []
    for word in ("run", "pair"):
        row.tries += 1
        with Watched(row, case.files) as folder:
            played = program.play(folder, [word, *case.stages[0][1:]])
            rules = program.play(folder, ["rules", "1"])
            audit = program.play(folder, ["audit", ENGINE, "1", agent_file(1)])
            wanted = wanted or played.lines
            row.expect(played.status == 0 and played.lines == wanted and is_acted(Kept(folder)), f"{played}")
            # (the moment of the act stands between)
            right = rules.said.startswith(b"1 deny both conn4 - - - 198.51.100.7/32 - ") and rules.said.endswith(b" - none\n")
            row.expect(rules.status == 0 and len(rules.lines) == 1 and right, f"{rules}")
            row.expect((audit.status, audit.lines) == (0, ["audit ok 9 1"]), f"{audit}")


# -- in one folder ---------------------------------------------------------------------------------------------------------------------


def beside(program, table, rounds):
    """Two programs that are begun at one time in one folder: no file is harmed, and none but their own ends."""
    files, run = BOOKS["a loop of 40 turns"]
    for what, two in {
        "two `pair` with the same words": (["pair", *run], ["pair", *run]),
        "two `pair` of different runs": (["pair", *run], ["pair", "--run", "8", *run[2:]]),
        "a `pair` and a `run`": (["pair", *run], ["run", *run]),
    }.items():
        progress(f"pair: {what}")
        row, alone = table.row("pair", f"begun at one time: {what}"), 0
        for number in range(rounds):
            row.tries += 1
            with Watched(row, files) as folder:
                begun = [Limited(program, folder, words) for words in (two if number % 2 else two[::-1])]
                played = [one.end() for one in begun]
                how = " and ".join(map(str, played))
                one = Round(program, row, files, run, None, 0)
                one.saids = played
                kept = one.look(folder, how)
                row.expect(all(ended.status in (*ENDED, 8, 12, 17) for ended in played), how)
                row.stopped += sum(ended.status == 8 for ended in played)
                alone += kept is not None and not is_acted(kept)
                # Behind both, the run is taken on to its end, or has one.
                last = program.play(folder, ["pair", *run])
                row.expect(last.status in (*ENDED, 12), f"{how}, and then {last}")
        table.note(f"pair: {what}: {alone} of {rounds} ended without some reply, since the filters' files were locked by another process")


def is_acted(kept):
    """Whether each Send has its Reply."""
    return all(record(entry)["kind"] != "expire" for entry in kept.engine)


def filters_beside(program, table, rounds):
    """A `filters` beside a `run`: whoever comes second to a file of a filter ends with `disk failed`."""
    row = table.row("pair", "a `filters` beside a `run`")
    files, words = BOOKS["a loop of 40 turns"]
    for _ in range(rounds):
        row.tries += 1
        with Watched(row, files) as folder:
            filters = Filters(program, folder)
            run = Limited(program, folder, ["run", *words])
            with filters.connect() as client:
                came, reader = reading(client)
                send(client, [b"c 2 9 0 " + DENY + b"\n"], 0)
                reader.join(60)
            ended = [filters.end(), run.end()]
            how = " and ".join(map(str, ended))
            row.stopped += sum(one.status == 8 for one in ended)
            row.expect(all(one.status in (0, 8, 17) for one in ended), how)
            one = Round(program, row, files, words, None, 0)
            one.saids = ended[1:]
            one.look(folder, how)
            row.expect(came[0] == b"" or came[0].startswith(b"r 2 9 0 "), f"{how}: came {came}")


# -- refused memory and failing calls ---------------------------------------------------------------------------------------------------


def counts(program, folder, words, word):
    """How many requests and calls the process of a `pair` makes that has this word first."""
    tell = f"{folder}/tell"
    program.play(folder, words, shim={"TELL": tell, "ONLY": word})
    with open(tell, encoding="ascii") as told:
        return dict(zip(("requests", "calls"), map(int, told.read().split())))


def faulty(program, case, table, rounds, draw):
    """The Nth request for memory and the Nth call to the outside of either end fails, alone and with all later ones; or the Nth moves one byte."""
    if program.shim is None:
        return table.note("pair: there is no library that stands between the program and the C library, so nothing was refused or failed")
    words = ["pair", *case.stages[0][1:]]
    for word in ("pair", "filters"):
        with Folder(case.files) as folder:
            most = counts(program, folder, words, word)
        progress(f"pair: faults of {word}: {most}")
        row = table.row("pair", f"requests and calls of `{word}` that fail ({most['requests']} requests, {most['calls']} calls)")
        shims = [{kind: number} for kind in ("REFUSE", "REFUSE_FROM") for number in numbers(draw, most["requests"], rounds)]
        for number in numbers(draw, most["calls"], rounds):
            shims += [{"FAIL": number, "ERRNO": code} for code in (errno.EIO, errno.ECONNRESET, errno.EINTR)]
            shims += [{"FAIL_FROM": number}, {"SHORT": number}]
        waiting = sum(fault_once(program, case, row, words, {**shim, "ONLY": word}) for shim in shims)
        if word == "pair":
            table.note(f"pair: {waiting} `filters` waited for a connection, since all calls of their `pair` failed, that which ends them too; a connection ended each")
    return None


def fault_once(program, case, row, words, shim):
    """One such fault; how many `filters` it left that wait for a connection."""
    row.tries += 1
    with Watched(row, case.files) as folder:
        played, how = program.play(folder, words, shim=shim), f"{shim}"
        one = Round(program, row, case.files, words[1:], None, 0)
        one.saids = [played]
        row.stopped += played.status != 0
        # Where the calls by which `pair` connects fail, and all behind them, it can neither end its `filters` nor say a line.
        one.gone(folder, shim["ONLY"] == "pair" and "FAIL_FROM" in shim and (played.status, played.lines) == UNSAID)
        row.expect(played.status in FAULTY and ("SHORT" not in shim or played.status == 0), f"{how}: {played}")
        kept = one.look(folder, how)
        row.expect("SHORT" not in shim or kept is None or is_acted(kept), f"{how}: an issue expired")
        for word in ("pair", "run"):
            last = program.play(folder, [word, *words[1:]])
            row.expect(last.status in ENDED, f"{how}, and then {last}")
        one.look(folder, f"{how}, and at the end")
    return one.waiting


# -- many commands -----------------------------------------------------------------------------------------------------------------------


def steady(program, table, most):
    """So many commands over one connection: the memory of `filters` grows by what it keeps of each, and of a `pair` too."""
    row = table.row("pair", f"{most:,} commands over one connection")
    row.tries += 1
    with Watched(row) as folder:
        filters, held = Filters(program, folder), []
        with filters.connect() as client, client.makefile("rb") as answers:
            for issue in range(most):
                client.sendall(b'c 1 7 %d {"action":"query","target":{"features":[]}}\n' % issue)
                row.expect(answers.readline().startswith(b"r 1 7 %d " % issue), f"issue {issue} has no answer")
                if (issue + 1) % (most // 10) == 0:
                    held.append(resident(filters.process.pid))
        ended = filters.end()
        row.expect(ended.status == 0, f"{ended}")
        grown = (held[-1] - held[0]) / (most * 0.9)
        row.what += f": from {held[0]:,} bytes to {held[-1]:,}, {grown:.0f} a command"
        row.expect(grown < 1_500, f"the memory grew by {grown:.0f} bytes a command: {held}")
    files, words = {"loop.json": text_of(sturdy(most))}, ["--run", "7", "loop.json"]
    with Watched(row, files) as folder:
        both, held = Both(program, folder, ["pair", *words]), []
        pid, until = both.filters(), time.monotonic() + LONG
        while both.engine.goes_on():
            if time.monotonic() > until:
                end(both.engine.process.pid)
            held.append((resident(both.engine.process.pid), resident(pid)))
            time.sleep(0.05)
        ended = both.engine.end()
        row.tries += 1
        row.expect(ended.status == 0 and len(ended.lines) == 5 * most + 5, f"{ended}, {len(ended.lines)} lines")
        row.what += f"; a `pair` of as many held at most {max(one for one, _ in held):,} and {max(one for _, one in held):,}"


def pair(program, cases, table, rounds, draw):
    if not program.has(["pair", "--run", "1", "book.json"]):
        return table.note("pair: this program has no `pair` and `filters`")
    clients(program, table, rounds, draw)
    servers(program, short(cases), table)
    if short(cases).name.endswith("block-a-host.json"):
        blocks(program, short(cases), table)
    killed(program, table, rounds, draw)
    beside(program, table, min(rounds, 200))
    filters_beside(program, table, min(rounds, 200))
    faulty(program, short(cases), table, rounds, draw)
    alone(program, table, rounds, draw)
    progress("pair: many commands")
    return steady(program, table, 10_000 if rounds >= 100 else 1_000)
