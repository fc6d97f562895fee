"""Runs that are killed, whose memory is refused, and whose calls to the outside fail."""
import errno
import os
import signal
import statistics
import time

from .books import short
from .journal import ENGINE
from .play import EVERY, Folder, Table, progress, put
from .reference import FAULTS, Reference

KILLED = -signal.SIGKILL
NO_MEMORY = 10


def references(program, cases, table, part):
    """The undisturbed runs; a case that does not end undisturbed is played no further."""
    found = []
    for case in cases:
        row = table.row(part, case.name)
        reference = Reference(program, case, row)
        if row.found == 0:
            found.append(reference)
    return found


def numbers(draw, count, rounds):
    """1 to `count`; with fewer than `EVERY` rounds, a fifth as many of them as there are rounds, by chance."""
    most = count if rounds >= EVERY else max(1, rounds // 5)
    return range(1, count + 1) if count <= most else sorted(draw.sample(range(1, count + 1), most))


def counts_of(program, case, table, part):
    """What `Program.counts` tells of the first session of a case; None, and a note, where it can't tell."""
    with Folder(case.files) as folder:
        counts = program.counts(folder, case.stages[0])
    if counts is None:
        table.note(f"{part}: the library can't stand between this program and the C library, so nothing was tried")
    else:
        progress(f"{part}: {case.name}: {counts['requests']} requests, {counts['calls']} calls")
    return counts


def counted(program, cases, table, part, what):
    """Each undisturbed run, with how many requests for memory, or calls to the outside, its first session makes."""
    for reference in references(program, cases, table, part):
        counts = counts_of(program, reference.case, table, part)
        if counts is None:
            return
        reference.row.what += f" ({counts[what]} {what})"
        yield reference, counts[what]


# -- killed at a random moment ------------------------------------------------------------------------------------------------------------


def seconds_of(program, case):
    taken = []
    for _ in range(3):
        with Folder(case.files) as folder:
            begin = time.perf_counter()
            program.play(folder, case.stages[0])
            taken.append(time.perf_counter() - begin)
    return statistics.median(taken)


def kill_round(reference, draw, seconds):
    """One run that is killed at random moments, at least once, until one of its stages ends by itself; and then goes on to its end."""
    case, row, kills = reference.case, reference.row, 0
    with Folder(case.files) as folder:
        saids, stage = [], 0
        for _ in range(100):
            # Two of three kills come early in the run, so that a run is killed several times.
            after = seconds * draw.choice([draw.random(), draw.random() / 3, draw.random() / 3])
            played = reference.program.play(folder, case.stages[stage], kill_after=after)
            reference.lines_agree(played, stage, "killed")
            saids.append(played)
            if played.status == KILLED:
                kills += 1
                reference.look(folder, saids, f"killed {kills} times, the last time after {after:.6f} s")
            elif (played.status, played.lines[-1] if played.lines else "") not in reference.may_end(stage):
                row.find(f"after {kills} kills: {played}")
                break
            elif stage + 1 < len(case.stages):
                stage += 1
            elif kills == 0:
                return 0
            else:
                break
        reference.goes_on(folder, f"killed {kills} times")
    return kills


def kill(program, cases, table, rounds, draw):
    """`rounds` runs that are killed at least once, shared among the cases."""
    found = references(program, cases, table, "kill")
    for place, reference in enumerate(found):
        share = rounds // len(found) + (place < rounds % len(found))
        progress(f"kill: {reference.case.name}: {share} rounds")
        seconds = seconds_of(program, reference.case)
        # A run that ended before its first kill was no round.
        for _ in range(20 * share):
            if reference.row.tries < share:
                kills = kill_round(reference, draw, seconds)
                reference.row.tries += kills > 0
                reference.row.stopped += kills


# -- stopped before a call to the outside --------------------------------------------------------------------------------------------------


def stop_once(reference, shims, how):
    """A run that is stopped as each of the shims says, one session after another, and then goes on to its end."""
    case, row = reference.case, reference.row
    row.tries += 1
    with Folder(case.files) as folder:
        saids = []
        for shim in shims:
            saids.append(reference.program.play(folder, case.stages[0], shim=shim))
            reference.lines_agree(saids[-1], 0, how)
            row.stopped += saids[-1].status == KILLED
            # A later session may have fewer calls than that.
            ended = saids[-1].status in {status for status, _ in reference.may_end(0)}
            row.expect(saids[-1].status == KILLED or ended and len(saids) > 1, f"{how}: {saids[-1]}")
            reference.look(folder, saids, how)
        reference.goes_on(folder, how)


def stop(program, cases, table, rounds, draw):
    """Each run is stopped before its Nth call, for every N; and again, with what was not synced yet torn by chance; and the session after that
    is stopped and torn as well."""
    for reference, calls in counted(program, cases, table, "stop", "calls"):
        for number in numbers(draw, calls, rounds):
            stop_once(reference, [{"STOP": number}], f"stopped before call {number}")
            torn = [{"STOP": at, "TEAR": draw.getrandbits(40) | 1} for at in (number, draw.randrange(1, calls + 1))]
            stop_once(reference, torn[:1], f"stopped as {torn[:1]}")
            stop_once(reference, torn, f"stopped as {torn}")


def lies(program, cases, table, rounds, draw):
    """The comparison itself: on a disk that syncs nothing a run that is stopped loses what it said, and that has to be found."""
    hidden, row = Table(is_silent=True), table.row("lies", "a disk that syncs nothing, where something has to be found")
    reference = Reference(program, short(cases), hidden.row("lies", "hidden"))
    counts = counts_of(program, reference.case, table, "lies")
    if counts is None:
        return
    for number in numbers(draw, counts["calls"], max(100, min(rounds, 200))):
        stop_once(reference, [{"STOP": number, "TEAR": draw.getrandbits(40) | 1, "LIES": 1}], "stopped")
    row.tries, row.stopped, row.midway = reference.row.tries, reference.row.stopped, reference.row.midway
    row.expect(hidden.findings > 0, "nothing was found")
    table.note(f"lies: {hidden.findings} findings, as there have to be some; they are not counted")


# -- memory refused ------------------------------------------------------------------------------------------------------------------------


def as_refused(played, right, row):
    """Whether a run whose memory was refused ended as it may: as it would have, or with status 10, where what it said is the front of what is right."""
    if (played.status, played.said) == (right.status, right.said):
        return True
    row.stopped += 1
    return played.status == NO_MEMORY and right.said.startswith(played.said)


def refuse_in_run(reference, shim, how):
    """A run whose memory is refused ends as it may; then the files are good, and the run goes on to its end."""
    case, row = reference.case, reference.row
    row.tries += 1
    with Folder(case.files) as folder:
        played = reference.program.play(folder, case.stages[0], shim=shim)
        if reference.may_differ(folder, played):
            row.late += 1
            return row.expect(played.status in (NO_MEMORY, reference.played[0].status), f"{how}: {played}")
        row.expect(as_refused(played, reference.played[0], row), f"{how}: {played}")
        return reference.settles(folder, played, how)


def refuse_in_report(program, folder, words, row, shim, right, how):
    row.tries += 1
    played = program.play(folder, words, shim=shim)
    row.expect(as_refused(played, right, row), f"{how}: {played}")


def refusals(number):
    return [({"REFUSE": number}, f"request {number} refused"), ({"REFUSE_FROM": number}, f"all requests from {number} on refused")]


def memory(program, cases, table, rounds, draw):
    """Every request for memory of each run is refused, alone and with all later ones; and those of the commands that only read."""
    for reference, requests in counted(program, cases, table, "memory", "requests"):
        for number in numbers(draw, requests, rounds):
            for shim, how in refusals(number):
                refuse_in_run(reference, shim, how)
    memory_of_reports(program, short(cases), table, rounds, draw)
    table.note(f"memory: {sum(row.late for row in table.rows)} refusals lost a parcel, which was put again later")


def reading_words(case):
    """Words of commands that only read, over the files of a case after its run."""
    book = case.stages[0][3]
    audit = ["audit", ENGINE, "1", "agent-01.journal"]
    reports = [["show"], ["rules", "1"], ["rules", "2"], ["shadow", "1"], ["decide", "1", "p.txt"], audit, ["rehearse", "7"]]
    return [["canon", book], ["check", book], *reports, ["canon", "none.json"], ["canon", "bad.json"], ["no", "such", "words"], []]


def memory_of_reports(program, case, table, rounds, draw):
    with Folder(case.files) as folder:
        put(folder, "p.txt", b"0 egress tcp 10.0.0.5 40000 198.51.100.7 443\n" * 3)
        put(folder, "bad.json", b'{"a":1,"a":[2')
        program.play(folder, case.stages[0])
        before = {name: os.path.getmtime(f"{folder}/{name}") for name in os.listdir(folder)}
        for words in reading_words(case):
            row = table.row("memory", f"`{' '.join(words)}`")
            right, counts = program.play(folder, words), program.counts(folder, words)
            requests = counts["requests"] if counts else 0
            row.what += f" ({requests} requests, status {right.status})"
            for number in numbers(draw, requests, rounds):
                for shim, how in refusals(number):
                    refuse_in_report(program, folder, words, row, shim, right, how)
            after = {name: os.path.getmtime(f"{folder}/{name}") for name in os.listdir(folder)}
            row.expect(after == before, "a file was written")


# -- a call to the outside that fails -----------------------------------------------------------------------------------------------------


def fault_once(reference, shim, how, may_fail):
    """A run in which one call fails ends with the status of a fault, or as it would have; one in which a call is short ends as it would have."""
    case, row = reference.case, reference.row
    row.tries += 1
    with Folder(case.files) as folder:
        played = reference.program.play(folder, case.stages[0], shim=shim)
        right = reference.played[0]
        same = (played.status, played.said) == (right.status, right.said)
        row.stopped += not same
        row.expect(same or may_fail and played.status in FAULTS, f"{how}: {played}")
        reference.lines_agree(played, 0, how)
        reference.look(folder, [played], how)
        reference.goes_on(folder, how)


def faults(program, cases, table, rounds, draw):
    """The Nth call to the outside fails, for every N, with each of three errors; or it fails with all later ones; or it moves only one byte."""
    for reference, calls in counted(program, cases, table, "fault", "calls"):
        for number in numbers(draw, calls, rounds):
            for code in (errno.EIO, errno.ENOSPC, errno.EINTR):
                fault_once(reference, {"FAIL": number, "ERRNO": code}, f"call {number} fails with {errno.errorcode[code]}", True)
            fault_once(reference, {"FAIL_FROM": number}, f"all calls from {number} on fail", True)
            fault_once(reference, {"SHORT": number}, f"call {number} moves one byte", False)
