"""The second program, which only looks, over hostile texts and over journals that are cut, changed or still written."""
import json
import os
import time

from .books import RUN, loop, short, text_of
from .hands import LOCK, Started
from .journal import ENGINE, agent_file
from .play import Folder, bytes_of, progress, put
from .stops import numbers, refuse_in_report, refusals

# The words that read a playbook, each with the statuses that it may have.
BOOKS = {"explain": {0, 1, 5, 11}, "graph": {0, 1, 5, 11}, "preflight": {0, 1, 5, 11}}
# Names that turn a line, end it, or are long; and what stands in place of a text.
STRANGE = ["a\nb", "\x1b[2J", "\x7f", "\u0085\u202e", '"]}\\', "_" * 5000, "__", "__a__b__", "\ufffe", "\x00"]


class Looks:
    """Trials of the second program beside the first, over the files of one run."""

    def __init__(self, program, case, table, rounds, draw):
        self.program, self.view, self.case, self.table, self.rounds, self.draw = program, program.view, case, table, rounds, draw
        self.book = next(name for name in case.stages[0] if name.endswith(".json"))
        self.text = case.files[self.book]

    def row(self, what):
        progress(f"looks: {what}")
        return self.table.row("looks", what)

    def changed(self):
        """The playbook with a piece changed, doubled, cut out or made strange by chance."""
        draw, text = self.draw, self.text
        kind, at = draw.randrange(5), draw.randrange(len(text))
        if kind == 0:
            return text[:at] + bytes([draw.randrange(256)]) + text[at + 1 :]
        if kind == 1:
            return text[:at] + text[at + draw.randrange(1, 40) :]
        if kind == 2:
            return text[:at] + text[at : at + draw.randrange(1, 40)] + text[at:]
        book = json.loads(text)
        places = list(objects_of(book))
        place = draw.choice(places)
        name = draw.choice(list(place) or ["x"])
        if kind == 3:
            place[name] = draw.choice([*STRANGE, None, 1, [], {}, [[]], {"type": 1}])
        else:
            place[draw.choice(STRANGE)] = place.get(name)
        return text_of(book)

    def texts(self):
        row = self.row("playbooks changed by chance: `explain`, `preflight`, `graph` beside `check`")
        with Folder(self.case.files) as folder:
            for _ in range(self.rounds):
                put(folder, "x.json", self.changed())
                checked = self.program.play(folder, ["check", "x.json"])
                for word, statuses in BOOKS.items():
                    row.tries += 1
                    told = self.view.play(folder, [word, "x.json"])
                    row.expect(told.status in statuses, str(told))
                    row.expect(is_plain(told.said), f"a control character: {told}")
                    if word != "preflight":
                        row.expect(told.status == checked.status, f"{told}, where {checked}")
                        row.expect(word == "graph" and told.status == 0 or told.lines[-1:] == checked.lines[-1:], f"{told}, where {checked}")

    def journals(self):
        row = self.row("engine.journal cut to each length, and changed: `log`, `log --json`, `log FILE`, `graph` beside `show`")
        with Folder(self.case.files) as folder:
            said = self.program.play(folder, self.case.stages[0])
            image = bytes_of(folder, ENGINE)
            row.expect(self.view.play(folder, ["log"]).lines == said.lines[:-1], "`log` after a run says other lines than the run")
            for length in sorted({0, len(image), *numbers(self.draw, len(image), self.rounds)}):
                self.journal(row, folder, image[:length])
            for at in numbers(self.draw, len(image) - 1, self.rounds):
                self.journal(row, folder, image[:at] + bytes([image[at] ^ (1 << self.draw.randrange(8))]) + image[at + 1 :])

    def journal(self, row, folder, image):
        put(folder, ENGINE, image)
        shown = self.program.play(folder, ["show"])
        for words in (["log"], ["log", "--json"], ["log", ENGINE], ["graph"]):
            row.tries += 1
            told = self.view.play(folder, words)
            row.expect(told.status == shown.status, f"{told}, where {shown}")
            row.expect(told.status != 13 or told.lines == shown.lines, f"{told}, where {shown}")
            row.expect(is_plain(told.said), f"a control character: {told}")
        row.expect(bytes_of(folder, ENGINE) == image, "the journal was written")

    def large(self):
        row = self.row("texts at the limit that cost a search much: each ends within a minute")
        underscores = {"description": "_" * 1_000_000}
        book = json.loads(self.text)
        step = next(key for key in book["workflow"] if key.startswith("action"))
        long = json.loads(self.text)
        long["workflow"][step].update(underscores, out_args=["__none__"])
        many = {**book, "agent_definitions": {f"organization--{n:08}-0000-4000-8000-000000000000": {"type": "organization", "name": "x"} for n in range(9000)}}
        names = "{" + ",".join(f'"n{n:07}":0' for n in [*range(70_000), 0]) + "}"
        for what, text in (("a million underscores", text_of(long)), ("9,000 agents", text_of(many)), ("70,001 names, one twice", names.encode())):
            with Folder({"x.json": text}) as folder:
                for word in BOOKS:
                    row.tries += 1
                    begun = time.monotonic()
                    told = self.view.play(folder, [word, "x.json"])
                    row.expect(told.status in BOOKS[word] and time.monotonic() - begun < 60, f"{what}: {word} ended with {told.status} after {time.monotonic() - begun:.0f} s")

    def beside(self):
        row = self.row("`log`, `log --json`, `log FILE` and `graph` beside a run of 15,004 records")
        with Folder({"book.json": text_of(loop(3000))}) as folder:
            for words in (["log"], ["log", "--json"], ["log", ENGINE], ["graph"]):
                for name in (ENGINE, agent_file(1)):
                    if os.path.exists(f"{folder}/{name}"):
                        os.remove(f"{folder}/{name}")
                run = Started(self.program, folder, ["run", "--run", str(RUN), "book.json"])
                while run.goes_on() and not bytes_of(folder, agent_file(1)):
                    time.sleep(0.001)
                for _ in range(max(1, self.rounds // 10)):
                    row.tries += 1
                    row.stopped += run.goes_on()
                    told = self.view.play(folder, words)
                    row.expect(told.status == 0, str(told))
                row.expect(run.end().status == 0, "the run did not end well")
            row.expect(LOCK not in os.listdir(folder), "a lock is left")

    def memory(self):
        with Folder(self.case.files) as folder:
            self.program.play(folder, self.case.stages[0])
            before = {name: os.path.getmtime(f"{folder}/{name}") for name in os.listdir(folder)}
            for words in (["help"], ["explain", "K22"], *([word, self.book] for word in BOOKS), ["log"], ["log", "--json"], ["log", ENGINE], ["graph"], []):
                row = self.row(f"each request for memory refused: `{' '.join(words)}`")
                right, counts = self.view.play(folder, words), self.view.counts(folder, words)
                for number in numbers(self.draw, counts["requests"] if counts else 0, self.rounds):
                    for shim, how in refusals(number):
                        refuse_in_report(self.view, folder, words, row, shim, right, how)
                after = {name: os.path.getmtime(f"{folder}/{name}") for name in os.listdir(folder)}
                row.expect(after == before, "a file was written")


def objects_of(value):
    """Each object in a value of JSON."""
    if isinstance(value, dict):
        yield value
    for item in value.values() if isinstance(value, dict) else value if isinstance(value, list) else []:
        yield from objects_of(item)


def is_plain(said):
    """Whether no control character stands in what was said, but the ends of lines."""
    return not any(byte < 32 and byte != 10 or byte == 127 for byte in said)


def looks(program, cases, table, rounds, draw):
    """The second program, where there is one."""
    if program.view is None:
        return table.note("looks: no second program was named, so nothing was played")
    trials = Looks(program, short(cases), table, rounds, draw)
    trials.texts()
    trials.journals()
    trials.large()
    trials.beside()
    trials.memory()
