"""Sessions of runs side by side over one filter, by docs/PROGRAM.md ("Fleets"), by itself: each line that `fleet` and `run` say where nothing
fails, and what is kept then."""
import collections

from .filter_model import Filter
from .workflow_model import Run

MOST = 1_000_000_000


class Endless(Exception):
    """More records than are wanted of a play."""


class Site:
    """A folder: the runs that have begun, each at its place, and the filter."""

    def __init__(self, most_records):
        self.runs, self.filter, self.most_records = {}, Filter(), most_records


class Session:
    """One call over the first places of a folder. `answers` has what an operator told, by issue, of the run at place 0."""

    def __init__(self, site, pairs, steps=MOST, answers=None, numbered=True):
        self.site, self.pairs, self.left, self.answers, self.numbered = site, pairs, steps, answers or {}, numbered
        self.link, self.said, self.now, self.turn = collections.deque(), [], 0, 0

    def at(self, place):
        return self.site.runs.get(place)

    def line(self, run):
        """Says the line of the run's last record, which counts."""
        self.said.append(f"{run.number} {run.lines[-1]}" if self.numbered else run.lines[-1])
        self.left -= 1
        if len(run.lines) > self.site.most_records:
            raise Endless

    def play(self):
        """The exit status, and the lines."""
        status, last = self.opened() or self.goes_on()
        return status, [*self.said, last]

    def opened(self):
        for place, (number, book) in enumerate(self.pairs):
            run = self.at(place)
            if run and run.number != number:
                return 12, f"other run {run.number} {number}"
            if run and run.book != book:
                return 12, f"other playbook {number} 0" if self.numbered else "other playbook 0"
        for place, (number, _) in enumerate(self.pairs):
            if not self.at(place) and any(run == number for run, _ in self.site.filter.acts):
                return 12, f"run used {number} 1" if self.numbered else "run used 1"
        self.now = max([self.at(place).last for place in range(len(self.pairs)) if self.at(place)], default=0)
        for place, (number, book) in enumerate(self.pairs):
            if not self.at(place):
                if not self.left:
                    return 7, "paused"
                self.site.runs[place] = Run(number, book, self.now)
                self.line(self.at(place))
            for issue in self.at(place).waiting(of_operator=False):
                self.put(self.at(place), issue)
        return None

    def put(self, run, issue):
        self.link.append(("command", run, issue, None))

    def goes_on(self):
        runs = [self.at(place) for place in range(len(self.pairs))]
        while True:
            if all(run.outcome is not None for run in runs):
                failed = next((run for run in runs if run.outcome is False), None)
                return (0, "ended ok") if failed is None else (6, f"ended failed {failed.number}" if self.numbered else "ended failed")
            if not self.left:
                return 7, "paused"
            if self.link:
                self.takes()
            elif not (self.moves(runs) or self.tells(runs[0])):
                due = min([one for one in map(Run.due, runs) if one is not None], default=None)
                if due is None:
                    run = next(run for run in runs if run.waiting(of_operator=True))
                    asked = run.waiting(of_operator=True)[0]
                    return 16, f"asked {run.number} {asked}" if self.numbered else f"asked {asked}"
                self.now = max(self.now, due)

    def takes(self):
        kind, run, issue, reply = self.link.popleft()
        if kind == "command":
            reply = self.site.filter.answer(run.number, issue, run.issues[issue]["command"], self.now)
            return self.link.append(("reply", run, issue, reply))
        if run.issues[issue]["waits"]:
            run.answered(issue, *reply, self.now)
            self.line(run)
        return None

    def moves(self, runs):
        """The next run in the circle that has a move makes it."""
        for place in [*range(self.turn, len(runs)), *range(self.turn)]:
            moved, issue = runs[place].move(self.now)
            if moved:
                self.turn = (place + 1) % len(runs)
                self.line(runs[place])
                if issue is not None:
                    self.put(runs[place], issue)
                return True
        return False

    def tells(self, run):
        """An operator's answer is taken."""
        issue = next((one for one in sorted(self.answers) if one < len(run.issues) and run.issues[one]["waits"]), None)
        if issue is None:
            return False
        if run.upgraded:
            run.answered(issue, self.answers[issue], 0, "", self.now, word="told")
        else:
            run.upgrade(self.now)
        self.line(run)
        return True
