"""The time of a long run with a reader in a loop beside it."""
import functools
import os
import statistics
import subprocess
import threading
import time

from .books import loop, text_of
from .hands import READERS, Started
from .journal import agent_file
from .play import Folder, bytes_of, progress

MOST = 1.1  # of the run's time alone
RUN = ["run", "--run", "1", "book.json"]
NOTHING = "true"  # the program that does nothing: what it costs a run is the machine's part


def timed(program, folder, meanwhile):
    """The seconds of a run by the clock and of the processor, how often `meanwhile` was done until it ended, and how it ended."""
    begin, count, ends = time.perf_counter(), 0, []
    run = Started(program, folder, RUN)
    waiter = threading.Thread(target=lambda: ends.append((run.end(), time.perf_counter())))
    waiter.start()
    while not ends:
        count += meanwhile()
    waiter.join()
    return ends[0][1] - begin, run.processor, count, ends[0][0]


def taken():
    """What other guests of this machine's host took of its processors so far, and all that there was to take."""
    with open("/proc/stat", encoding="ascii") as stat:
        spent = [int(word) for word in stat.readline().split()[1:9]]
    return spent[7], sum(spent)


def rest():
    """What is done where nothing is read."""
    time.sleep(0.01)
    return 0


def reading(program, folder, name, row):
    """One reading of a reader, once there is something to read; how many there were. Its lines go nowhere: a file that takes them would be
    work for the disk on which the run's files stand."""
    if len(bytes_of(folder, agent_file(1))) < 1000:
        return rest()
    words = [NOTHING] if name == NOTHING else [program.path, *READERS[name][0]]
    quiet = subprocess.DEVNULL
    ended = subprocess.run(words, cwd=folder, env={"PATH": os.environ.get("PATH", "")}, stdin=quiet, stdout=quiet, stderr=quiet, check=False)
    row.expect(ended.returncode == 0, f"{name} ended with {ended.returncode}")
    return 1


def beside(program, table, turns, times, name):
    """The time of a run alone, and with this reader in a loop beside it, in turn, so many times each. What the machine does besides comes
    and goes, and what a reader costs a run comes each time: so the least times are compared too, and a finding has both."""
    files, records = {"book.json": text_of(loop(turns))}, 5 * turns + 4
    progress(f"loop: {name} beside {records:,} records")
    row = table.row("loop", f"{records:,} records, `{name}` in a loop beside them")
    alone, beside_one, reads, began = [], [], 0, taken()
    for _ in range(times):
        for seconds in (alone, beside_one):
            with Folder(files) as folder:
                once = rest if seconds is alone else functools.partial(reading, program, folder, name, row)
                clock, processor, count, ended = timed(program, folder, once)
            seconds.append((clock, processor))
            reads += count
            row.expect(ended.status == 0, f"{ended}")
            row.tries += 1
    quotients, processors = ([one[at] / other[at] for one, other in zip(beside_one, alone)] for at in (0, 1))
    middle, least = statistics.median(quotients), min(beside_one)[0] / min(alone)[0]
    lost, there_was = (now - then for now, then in zip(taken(), began))
    told = f"{middle:.2f} of its time ({min(quotients):.2f} to {max(quotients):.2f}), the least of {times} {least:.2f} ({min(alone)[0]:.2f} s alone)"
    row.what += f": {told}, {statistics.median(processors):.2f} of its processor's; {reads} reads; the host took {100 * lost // there_was} %"
    row.expect(name == NOTHING or min(middle, least) <= MOST, f"the run took {middle:.3f} of its time alone, at the least {least:.3f}")


def loops(program, cases, table, rounds, draw):
    """Runs of 5,004 records; from 20 rounds on of 30,004 too, and from 100 on of 100,004."""
    for from_rounds, turns, times in ((0, 1_000, 15), (20, 6_000, 9), (100, 20_000, 5)):
        for name in (NOTHING, "show", "rules 1", "audit"):
            if rounds >= from_rounds:
                beside(program, table, turns, times, name)
