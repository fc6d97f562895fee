"""Undisturbed fleets of random playbooks, against a model of their own: each line that comes, in its order, what is kept, and the rules."""
import os

from .books import text_of
from .fleet_model import MOST, Endless, Session, Site
from .fleets import Kept, journal_of
from .journal import Damaged, agent_file, line_front
from .play import Folder, progress, put
from .random_books import random_book

MOST_RECORDS = 250  # of a run


class Play:
    """A fleet, and what is played of it: words, each with the status and the lines that have to come, in one folder."""

    def __init__(self, draw):
        count = draw.randrange(2, 6)
        asks = draw.random() < 0.25
        self.books = [random_book(draw, asks, with_loops=True) for _ in range(count)]
        numbers = draw.sample(range(1, 100), count) if draw.random() < 0.9 else draw.sample(range(9_007_199_254_740_900, 9_007_199_254_740_991), count)
        self.pairs = list(zip(numbers, self.books))
        self.files = {f"book-{place}.json": text_of(book) for place, book in enumerate(self.books)}
        self.site, self.steps, self.removed = Site(MOST_RECORDS), [], None
        # some in one call; some in pieces, all of one size or each of another
        size = draw.choice([None, None, 1, 2, 3, draw.randrange(4, 40), "any"])
        for _ in range(draw.randrange(8) if size else 0):
            self.fleet(draw.randrange(1, 12) if size == "any" else size, draw.choice([count, count, draw.randrange(1, count + 1)]))
            if draw.random() < 0.2:
                self.run(draw, 0 if draw.random() < 0.5 else draw.randrange(1, 6))
        for _ in range(10):
            status = self.fleet(None, count)
            if status != 16 or self.run(draw, 0) == 16:
                break
        self.fleet(None, count)
        self.wrong(draw)

    def words(self, pairs, steps):
        named = [word for number, book in pairs for word in (str(number), f"book-{self.books.index(book)}.json")]
        return ["fleet", *(["--steps", str(steps)] if steps else []), *named]

    def fleet(self, steps, count, pairs=None):
        """One more call of `fleet`, over the first runs."""
        pairs = (pairs or self.pairs)[:count]
        status, lines = Session(self.site, pairs, steps or MOST).play()
        self.steps.append((self.words(pairs, steps), None, status, lines))
        return status

    def run(self, draw, steps):
        """One call of `run` over the first run, with an answer to each question."""
        number, answers = self.pairs[0][0], {issue: draw.choice([200, 200, 403]) for issue in range(60)}
        text = "".join(f"{number} {issue} {status}\n" for issue, status in answers.items())
        words = ["run", "--run", str(number), *(["--steps", str(steps)] if steps else []), "--answers", "answers.txt", "book-0.json"]
        status, lines = Session(self.site, self.pairs[:1], steps or MOST, answers, numbered=False).play()
        self.steps.append((words, text.encode(), status, lines))
        return status

    def wrong(self, draw):
        """One call that is refused, in most cases: runs in another order, another playbook, or another number at a place; or a journal is gone, and
        perhaps another number stands at another place."""
        one, other = draw.sample(range(len(self.pairs)), 2)
        pairs = list(self.pairs)
        kind = draw.randrange(5)
        if kind == 0:
            pairs[one], pairs[other] = pairs[other], pairs[one]
        elif kind == 1:
            pairs[one] = (pairs[one][0], pairs[other][1])
        elif kind < 4:
            pairs[one] = (9_007_199_254_740_991, pairs[one][1])
        if kind > 2:
            self.removed = journal_of(other)
            del self.site.runs[other]
        self.fleet(None, len(pairs), pairs)


def drawn(draw):
    """A fleet all of whose runs come to an end, or wait for an operator, within the records that are wanted."""
    while True:
        try:
            return Play(draw)
        except Endless:
            continue


class Round:
    def __init__(self, program, row, draw, number):
        self.program, self.row, self.play, self.number = program, row, drawn(draw), number

    def go(self):
        self.row.tries += 1
        with Folder(self.play.files) as folder:
            for place, (words, answers, status, lines) in enumerate(self.play.steps):
                if answers:
                    put(folder, "answers.txt", answers)
                if self.play.removed and place + 1 == len(self.play.steps):
                    os.remove(f"{folder}/{self.play.removed}")
                played = self.program.play(folder, words)
                self.row.stopped += status == 7
                if not self.row.expect((played.status, played.lines) == (status, lines), self.differs(place, played, status, lines)):
                    return
            self.kept(folder)

    def differs(self, place, played, status, lines):
        at = next((at for at, pair in enumerate(zip(played.lines, lines)) if pair[0] != pair[1]), min(len(played.lines), len(lines)))
        return f"round {self.number}, call {place}: {played}; status {status} and, from line {at} on, {lines[at:at + 3]} were to come, not {played.lines[at:at + 3]}"

    def kept(self, folder):
        """Each journal has the records of its run, each filter's file its acts, and `rules` tells the rules."""
        site, how = self.play.site, f"round {self.number}"
        try:
            kept = Kept(folder, len(self.play.pairs))
        except (Damaged, ValueError) as error:
            return self.row.find(f"{how}: a file is damaged: {error}")
        acts = [(one["run"], one["issue"]) for one in kept.acts[1]]
        self.row.expect(acts == list(site.filter.acts), f"{how}: the acts are {acts}, and {list(site.filter.acts)} were to be")
        for place, run in site.runs.items():
            records = kept.runs[place]
            right = len(records) == len(run.lines) and all(line.startswith(line_front(at, one)) for at, (line, one) in enumerate(zip(run.lines, records)))
            self.row.expect(right, f"{how}: {journal_of(place)} keeps other records than were said")
            words = ["audit", journal_of(place), *(["1", agent_file(1)] if acts else [])]
            told = self.program.play(folder, words)
            self.row.expect((told.status, told.lines) == (0, [f"audit ok {len(records)} {len(acts)}"]), f"{how}: {told}")
        told = self.program.play(folder, ["rules", "1"])
        return self.row.expect((told.status, told.lines) == (0, site.filter.lines()), f"{how}: {told}, and {site.filter.lines()} were to come")


def turns(program, cases, table, rounds, draw):
    if not program.has(["fleet", "1", "book.json"]):
        return table.note("turns: this program has no `fleet`")
    row = table.row("turns", "fleets of random playbooks, whole and in pieces, each line as a model has it")
    for number in range(rounds):
        if number % 100 == 0:
            progress(f"turns: {number} of {rounds} rounds")
        Round(program, row, draw, number).go()
    return None
