"""What an undisturbed run of a case does, and whether a disturbed one agrees with it."""
import hashlib
import os

from .journal import ENGINE, Damaged, Kept, agent_file, disagreement, is_answered, is_late, kinds, line_front, record
from .play import Folder, bytes_of, put

ENDED = (0, 6)
ASKED = 16
# Statuses of faults: the shelf, the disk, standard output, memory.
FAULTS = {3: "shelf failed: ", 8: "disk failed", 9: None, 10: None}


def is_record(line):
    words = line.split(" ")
    return len(words) > 2 and words[0].isdigit() and words[1].isdigit()


def reports(program, folder, agents):
    """What `show` says, and `rules` of these agents."""
    return [program.play(folder, ["show"])] + [program.play(folder, ["rules", str(agent)]) for agent in agents]


def state_of(folder):
    """A digest of all files of a folder, with their names."""
    digest = hashlib.blake2b()
    for name in sorted(os.listdir(folder)):
        text = bytes_of(folder, name)
        digest.update(f"{name} {len(text)} ".encode() + text)
    return digest.digest()


class Reference:
    """The undisturbed run: what each of its stages said and ended with, what the files then stand for, and what the reports say."""

    def __init__(self, program, case, row):
        self.program, self.case, self.row = program, case, row
        self.has_audit = program.has(["audit", ENGINE])
        # Of each state of the files from which all was well: how many records they have.
        self.known = {}
        with Folder(case.files) as folder:
            self.played = []
            while len(self.played) < len(case.stages):
                self.played.append(program.play(folder, case.stages[len(self.played)]))
                if self.played[-1].status == ASKED and len(self.played) == len(case.stages) < 8:
                    name, text = case.answered(int(self.played[-1].lines[-1].split(" ")[1]))
                    put(folder, name, text)
            self.kept = Kept(folder)
            self.agents = self.kept.agents()
            self.reports = [report.said for report in reports(program, folder, self.agents)]
        self.records = [line for played in self.played for line in played.lines if is_record(line)]
        row.expect(self.played[-1].status in ENDED, f"undisturbed: {self.played[-1]}")
        row.expect(len(self.records) == len(self.kept.engine), "undisturbed: not as many record lines as records")
        row.expect(disagreement(self.kept) is None, f"undisturbed: {disagreement(self.kept)}")

    def may_end(self, stage):
        """How a session may end that is given the words of a stage: as the undisturbed one, or with the run ended."""
        return {(played.status, played.lines[-1]) for played in (self.played[stage], self.played[-1])}

    def lines_agree(self, played, stage, how):
        """Each line said is the record line of its number, but for the last line; a rest of a line is the front of one."""
        *lines, rest = played.said.decode(errors="replace").split("\n")
        for place, line in enumerate(lines):
            number = int(line.split(" ")[0]) if is_record(line) else None
            right = number is not None and number < len(self.records) and self.records[number] == line
            if not right and not (place + 1 == len(lines) and self.is_last(line, played.status, stage)):
                return self.row.find(f"{how}: said {line!r}, which the undisturbed run did not")
        if rest and not any(line.startswith(rest) for line in [*self.records, *(line for _, line in self.may_end(stage))]):
            self.row.find(f"{how}: the rest {rest!r} is the front of no line")
        return None

    def is_last(self, line, status, stage):
        fault = FAULTS.get(status)
        return line in {last for _, last in self.may_end(stage)} or (fault is not None and line.startswith(fault))

    def look(self, folder, saids, how):
        """The files as they stand now: not damaged, the front of the undisturbed run, with all that was said, and in agreement."""
        try:
            kept = Kept(folder)
        except Damaged as place:
            return self.row.find(f"{how}: a file is damaged at {place}")
        self.row.expect(kept.engine == self.kept.engine[: len(kept.engine)], f"{how}: the records are not the front of the undisturbed ones")
        for agent, acts in kept.filters.items():
            self.row.expect(acts == self.kept.filters[agent][: len(acts)], f"{how}: the acts of agent {agent} are not the front of the undisturbed ones")
        self.row.expect(disagreement(kept) is None, f"{how}: {disagreement(kept)}")
        self.row.expect(kept.engine or not kept.agents(), f"{how}: there are acts, and there is no run")
        self.said_is_kept(saids, len(kept.engine), how)
        shown = self.program.play(folder, ["show"])
        counted = f"records {len(kept.engine)}" if kept.engine else "no run"
        self.row.expect(shown.status == 0 and counted in shown.lines, f"{how}: {shown}, with {len(kept.engine)} records")
        for agent in kept.agents():
            listed = self.program.play(folder, ["rules", str(agent)])
            self.row.expect(listed.status == 0, f"{how}: {listed}")
        return self.audit(folder, kept, how)

    def said_is_kept(self, saids, kept, how):
        said = [int(line.split(" ")[0]) for played in saids for line in played.lines if is_record(line)]
        self.row.midway += 0 < kept < len(self.kept.engine)
        self.row.expect(not said or max(said) < kept, f"{how}: record {max(said, default=0)} was said, and {kept} are kept")

    def settles(self, folder, played, how):
        """The files are good, with all that was said, and the run goes on to its end. The program does the same from the same files and words, so
        from a state that was seen before, and from which all was well, nothing is played again."""
        state, found = state_of(folder), self.row.found
        if state in self.known:
            return self.said_is_kept([played], self.known[state], how)
        kept = len(Kept(folder).engine)
        self.look(folder, [played], how)
        kept = len(Kept(folder).engine) if self.row.found == found else None
        self.goes_on(folder, how)
        if self.row.found == found:
            self.known[state] = kept
        return None

    def audit(self, folder, kept, how):
        if not self.has_audit:
            return
        words = ["audit", ENGINE]
        for agent in kept.agents():
            words += [str(agent), agent_file(agent)]
        told = self.program.play(folder, words)
        count = sum(map(len, kept.filters.values()))
        # A file that is not there can't be named.
        if kept.engine:
            self.row.expect(told.lines == [f"audit ok {len(kept.engine)} {count}"] and told.status == 0, f"{how}: {told}")

    def may_differ(self, folder, played):
        """Whether a parcel was lost for want of memory, so that a command was answered later: the run then has other moments, perhaps another
        order, and other answers where two commands go to one filter. What holds then is tested: each line is that of its record, records and
        acts agree, each Send is answered, `show` and `audit` take the files."""
        kept, how = Kept(folder), "a parcel was lost"
        if not is_late(kept):
            return False
        for line in filter(is_record, played.lines):
            number = int(line.split(" ")[0])
            right = number < len(kept.engine) and line.startswith(line_front(number, record(kept.engine[number])))
            self.row.expect(right, f"{how}: said {line!r}")
        self.row.expect(disagreement(kept) is None, f"{how}: {disagreement(kept)}")
        shown = self.program.play(folder, ["show"])
        self.row.expect(shown.status == 0 and f"records {len(kept.engine)}" in shown.lines, f"{how}: {shown}")
        self.audit(folder, kept, how)
        if played.status in ENDED:
            self.row.expect(is_answered(kept), f"{how}: a send has no reply: {kinds(kept)}")
        return True

    def goes_on(self, folder, how):
        """The same words again, stage by stage: the run ends as the undisturbed one did, and the files and the reports are its own."""
        for stage, words in enumerate(self.case.stages):
            played = self.program.play(folder, words)
            ended = (played.status, played.lines[-1] if played.lines else None)
            self.row.expect(ended in self.may_end(stage), f"{how}, and then {played}")
            self.lines_agree(played, stage, f"{how}, and then")
        try:
            kept = Kept(folder)
        except Damaged as place:
            return self.row.find(f"{how}, and at the end a file is damaged at {place}")
        self.row.expect(kept == self.kept, f"{how}, and at the end other records or acts than the undisturbed run's")
        told = [report.said for report in reports(self.program, folder, self.agents)]
        self.row.expect(told == self.reports, f"{how}, and at the end {told} where the undisturbed run has {self.reports}")
        return self.audit(folder, kept, f"{how}, and at the end")
