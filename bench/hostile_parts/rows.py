"""Bad input: cut files, broken bytes, texts at the edge of a limit, words that nobody wrote."""
import json
import os

from .books import RUN, short
from .depth import condition, identifier, text_of
from .journal import ENGINE, HEADER, Damaged, Kept, agent_file, disagreement, entries, gates
from .play import Folder, bytes_of, progress, put
from .stops import numbers

# The statuses that a command may end with, whatever it is given, where no fault is met.
CANON, CHECK, RUNS = {0, 5, 11}, {0, 1, 5, 11}, {0, 1, 5, 6, 7, 11, 12, 13, 15, 16}
SHOW, RULES, DECIDE, AUDITS = {0, 11, 13}, {0, 13}, {0, 5, 13}, {0, 11, 18}
AUDIT = ["audit", ENGINE, "1", agent_file(1)]


class Rows:
    """Trials of bad input, over the files of one run."""

    def __init__(self, program, case, table, rounds, draw):
        self.program, self.case, self.table, self.rounds, self.draw = program, case, table, rounds, draw
        self.has_audit = program.has(["audit", ENGINE])
        self.book = next(name for name in case.stages[0] if name.endswith(".json"))
        with Folder(case.files) as folder:
            self.said = program.play(folder, case.stages[0])
            self.engine, self.filter = bytes_of(folder, ENGINE), bytes_of(folder, agent_file(1))
            self.shown, self.rules = program.play(folder, ["show"]), program.play(folder, ["rules", "1"])

    def says(self, row, folder, words, status, lines):
        row.tries += 1
        played = self.program.play(folder, words)
        row.expect((played.status, played.lines) == (status, lines), f"{played}, where {status} and {lines} are right")

    def ends(self, row, folder, words, statuses, how):
        row.tries += 1
        played = self.program.play(folder, words)
        row.expect(played.status in statuses, f"{how}: {played}")
        return played

    def row(self, what):
        progress(f"rows: {what}")
        return self.table.row("rows", what)

    def lengths(self, most):
        """0 to `most`, or some of them, and `most`, by the number of rounds."""
        return sorted({0, most, *numbers(self.draw, most, self.rounds)})

    # -- cut files ---------------------------------------------------------------------------------------------------------------------

    def prefixes(self):
        row = self.row("each front of a playbook that ends before its last brace")
        text = self.case.files[self.book]
        unread = ["not readable: x.json not json"]
        with Folder() as folder:
            for length in self.lengths(text.rindex(b"}")):
                put(folder, "x.json", text[:length])
                self.says(row, folder, ["canon", "x.json"], 5, unread)
                if length % 50 == 0:
                    self.says(row, folder, ["check", "x.json"], 5, unread)
                    self.says(row, folder, ["run", "--run", str(RUN), "x.json"], 5, unread)
            row.expect(not os.path.exists(f"{folder}/{ENGINE}"), "a file was written")

    def cut_files(self):
        row = self.row("engine.journal cut to each length, and `show`")
        with Folder(self.case.files) as folder:
            put(folder, agent_file(1), self.filter)
            for length in self.lengths(len(self.engine)):
                put(folder, ENGINE, self.engine[:length])
                self.cut_engine(row, folder, length)
        row = self.row("agent-01.journal cut to each length, and `rules 1`")
        with Folder() as folder:
            for length in self.lengths(len(self.filter)):
                put(folder, agent_file(1), self.filter[:length])
                status, lines = (13, [f"damaged: file 1 place {place_of(self.filter[:length])}"]) if 9 < length < len(self.filter) else (0, [])
                self.says(row, folder, ["rules", "1"], status, self.rules.lines if length == len(self.filter) else lines)

    def cut_engine(self, row, folder, length):
        place = place_of(self.engine[:length])
        if length == len(self.engine):
            return self.says(row, folder, ["show"], 0, self.shown.lines)
        if length <= 9:
            self.says(row, folder, ["show"], 0, ["no run"])
            return self.says(row, folder, self.case.stages[0], 12, ["run used 1"])
        self.says(row, folder, ["show"], 13, [f"damaged: file 0 place {place}"])
        if length % 20 == 0:
            self.says(row, folder, self.case.stages[0], 13, [f"damaged: file 0 place {place}"])
        return row.expect(bytes_of(folder, ENGINE) == self.engine[:length], "a file that was damaged was written")

    def long_entry(self):
        row = self.row("a first entry of 17,829,889 bytes, and of 17,829,888")
        for length, there in [(17_829_889, 4), (17_829_889, 17_829_900), (2**32 - 1, 100), (17_829_888, 17_829_900)]:
            with Folder({ENGINE: HEADER + b"\x01" + length.to_bytes(4, "big") + bytes(there)}) as folder:
                self.says(row, folder, ["show"], 13, ["damaged: file 0 place 8"])

    def texts(self):
        row = self.row("127 and 128 nested lists; 1,000 parentheses, and one of them not closed")
        with Folder() as folder:
            put(folder, "x.json", b"[" * 127 + b"]" * 127)
            self.says(row, folder, ["canon", "x.json"], 0, ["[" * 127 + "]" * 127])
            put(folder, "x.json", b"[" * 128 + b"]" * 128)
            self.says(row, folder, ["canon", "x.json"], 5, ["not readable: x.json not json"])
            put(folder, "x.json", text_of(condition("(" * 1000 + "__a__:value = 1" + ")" * 1000)))
            self.says(row, folder, ["check", "x.json"], 0, ["accepted"])
            put(folder, "x.json", text_of(condition("(" * 1000 + "__a__:value = 1" + ")" * 999)))
            self.says(row, folder, ["check", "x.json"], 1, [f"refused: book 0 step {identifier('if-condition', 1)} rule K21"])

    # -- broken bytes ------------------------------------------------------------------------------------------------------------------

    def broken_files(self):
        """Each byte of the file of the engine or of a filter is another one."""
        for file, name, image, words, statuses in [
            (0, ENGINE, self.engine, ["show"], SHOW),
            (1, agent_file(1), self.filter, ["rules", "1"], RULES),
        ]:
            row = self.row(f"each byte of {name} changed, and `{' '.join(words)}`")
            with Folder(self.case.files) as folder:
                put(folder, ENGINE, self.engine)
                put(folder, agent_file(1), self.filter)
                for place in self.lengths(len(image) - 1):
                    for mask in (1, 0xFF, self.draw.randrange(1, 256)):
                        broken = image[:place] + bytes([image[place] ^ mask]) + image[place + 1 :]
                        put(folder, name, broken)
                        played = self.ends(row, folder, words, statuses, f"byte {place} changed by {mask}")
                        self.place_is_right(row, played, file, broken, f"byte {place} changed by {mask}")
                    self.audit_is_right(row, folder, file, broken, f"byte {place} changed by {mask}")
                    if place % 50 == 0:
                        self.ends(row, folder, self.case.stages[0], RUNS, f"byte {place} changed by {mask}")

    def place_is_right(self, row, played, file, broken, how):
        """Where a layout is broken its place is told; where it is not, but the entries are wrong, the place of a gate."""
        place = place_of(broken)
        if place is not None:
            row.expect(played.lines == [f"damaged: file {file} place {place}"], f"{how}: {played}, where place {place} is right")
        elif played.status == 13:
            told = {f"damaged: file {file} place {gate}" for gate in gates(broken)[:-1]}
            row.expect(set(played.lines) <= told, f"{how}: {played}, where the place is that of a gate")

    def audit_is_right(self, row, folder, file, broken, how):
        """An audit names the place where a layout is broken, and says yes of no files that disagree."""
        if not self.has_audit:
            return
        told, place = self.ends(row, folder, AUDIT, AUDITS, how), place_of(broken)
        if place is not None:
            row.expect(told.lines == [f"audit no file {file} place {place}"], f"{how}: {told}, where place {place} is right")
        elif told.status == 0:
            row.expect(disagreement(Kept(folder)) is None, f"{how}: {told}, but {disagreement(Kept(folder))}")

    def changed(self, text):
        """A text with a few bytes changed, taken out, doubled or put in."""
        text = bytearray(text)
        for _ in range(self.draw.choice([1, 1, 2, 4, 16])):
            place, length = self.draw.randrange(len(text) + 1), self.draw.choice([1, 1, 2, 8, 60])
            other = bytes(self.draw.choice(b'{}[]",:0123456789_-eE.\\unltrfa \n\x00\xff\xc3') for _ in range(length))
            text[place : place + self.draw.choice([0, length])] = self.draw.choice([b"", other, text[place : place + length] * 2])
        return bytes(text)

    def broken_books(self):
        row = self.row("playbooks with some bytes changed: `canon`, `check`, `run`")
        for _ in range(self.rounds):
            text = self.changed(self.case.files[self.book])
            with Folder({**self.case.files, self.book: text}) as folder:
                told = self.ends(row, folder, ["canon", self.book], CANON, f"{text!r}")
                if told.status == 0:
                    row.expect(same_json(told.said, text), f"the canonical text of {text!r} has another value: {told}")
                checked = self.ends(row, folder, ["check", self.book], CHECK, f"{text!r}")
                ran = self.ends(row, folder, self.case.stages[0], RUNS, f"{text!r}")
                row.expect(checked.status == 0 or ran.status == checked.status, f"{text!r}: {checked} and {ran}")
                self.ends(row, folder, ["show"], SHOW - {13}, f"{text!r}")

    def broken_others(self):
        row = self.row("packets, bindings and answers with some bytes changed")
        packets = b"0 egress tcp 10.0.0.5 40000 198.51.100.7 443\n9000000000000000 ingress icmp 2001:db8::1 - 2001:db8::2 0\n"
        bind = json.dumps({"agents": {identifier("net-address", 32): 2}, "variables": {"__host__": "192.0.2.77"}}).encode()
        answers = f"{RUN} 0 200 done\n{RUN} 1 404\n{RUN + 1} 0 500 x\n".encode()
        for _ in range(self.rounds):
            with Folder(self.case.files) as folder:
                put(folder, agent_file(1), self.filter)
                put(folder, "p.txt", self.changed(packets))
                self.ends(row, folder, ["decide", "1", "p.txt"], DECIDE, f"{bytes_of(folder, 'p.txt')!r}")
                os.remove(f"{folder}/{agent_file(1)}")
                put(folder, "bind.json", self.changed(bind))
                put(folder, "answers.txt", self.changed(answers))
                words = [*self.case.stages[0], "--bind", "bind.json", "--answers", "answers.txt"]
                self.ends(row, folder, words, RUNS, f"{bytes_of(folder, 'bind.json')!r}, {bytes_of(folder, 'answers.txt')!r}")

    def words(self):
        row = self.row("words by chance")
        parts = "canon check run show rules decide shadow rehearse audit -- - --run --run=7 --steps --steps=0 7 07 1 17 --bind --bind=".split(" ")
        parts += "--help -h --version -V help \u00e9 18446744073709551616 --answers=x x=y".split(" ")
        parts += ["", self.book, "a" * 1025, "\n", os.fsdecode(b"\xff")]
        with Folder(self.case.files) as folder:
            for _ in range(self.rounds):
                words = [self.draw.choice(parts) for _ in range(self.draw.randrange(7))]
                played = self.ends(row, folder, words, range(19), f"{words}")
                row.expect((played.status == 2) == (played.lines == ["words not understood"]), f"{words}: {played}")
            many = ["x.json"] * 20_000
            self.says(row, folder, ["check", *many], 11, ["limit: books 16"])
            self.says(row, folder, ["run", "--run", "7", *many], 11, ["limit: books 16"])
            self.says(row, folder, ["canon", *many], 2, ["words not understood"])
            self.says(row, folder, ["rules", "1" * 100_000], 2, ["words not understood"])


def place_of(image):
    """The place at which the bytes of a file are damaged; None where they are not."""
    try:
        entries(image)
    except Damaged as damage:
        return damage.args[0]
    return None


def same_json(said, text):
    """Whether a canonical text has the value of a text, but for the signatures."""
    told, right = json.loads(said), json.loads(text)
    if isinstance(right, dict):
        right.pop("signatures", None)
    return told == right


def rows(program, cases, table, rounds, draw):
    trials = Rows(program, short(cases), table, rounds, draw)
    trials.prefixes()
    trials.cut_files()
    trials.long_entry()
    trials.texts()
    trials.broken_files()
    trials.broken_books()
    trials.broken_others()
    trials.words()
