"""Records of sixteen runs of one loop side by side, and of one of them alone, on files in memory and on the disk."""
import os
import tempfile

from measure import Tool, in_turn, ratio
from speed_parts.books import endless
from speed_parts.durable import PAUSED, clear

RUNS = 16
FILES = ["engine.journal"] + [f"engine-{place:02}.journal" for place in range(1, RUNS)]


def tool(bench, name, runs, records, book, folder):
    pairs = [word for run in range(1, runs + 1) for word in (str(run), book)]
    words = [bench.program, "fleet", "--steps", str(records), *pairs]
    return Tool(name, words, folder, [PAUSED], lambda: clear(*(os.path.join(folder, file) for file in FILES)))


def measure(bench):
    book = bench.write("loop.json", endless(0))
    # A folder of its own on the disk too: other rows leave the acts of a run, whose number would then be used.
    shared = "/dev/shm" if os.path.isdir("/dev/shm") else None
    with tempfile.TemporaryDirectory(dir=shared) as memory, tempfile.TemporaryDirectory(dir=bench.folder) as disk:
        for where, folder, records in (("files in memory", memory, 400 if bench.small else 40_000), ("on the disk", disk, 100 if bench.small else 2_000)):
            tools = [tool(bench, "fleet of 16 runs", RUNS, records, book, folder), tool(bench, "fleet of one run", 1, records, book, folder)]
            figures = in_turn(tools, min(bench.rounds, 5))
            bench.report.figures(f"{records} records of a loop, {where}", figures)
            all_of_them, one = (figures[each.name] for each in tools)
            ratios = f"{ratio(all_of_them.cpu, one.cpu)} of the processor and {ratio(all_of_them.wall, one.wall)} of the time of as many of one run"
            told = f"{records / all_of_them.wall:,.0f} records a second, all runs together, {ratios}"
            bench.report.row(f"`fleet` of 16 runs, {where}", "within 1.1 of one run", told)
