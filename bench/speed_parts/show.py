"""`show` and taking on a run with a long journal."""
import os
import sys

from measure import Tool, in_turn, milliseconds, ratio
from speed_parts.books import endless, run
from speed_parts.durable import PAUSED

BENCH = os.path.dirname(os.path.dirname(os.path.realpath(__file__)))
MOST = 67_108_864
FRONT = 3  # records before the first turn
PYTHON = """
import sys
from hostile_parts.journal import entries, record
with open("engine.journal", "rb") as file:
    print("records", sum(1 for entry in entries(file.read()) if record(entry)))
"""


def walk(task):
    """A Walk of a task at moment 0, behind its gate."""
    return b"\1\0\0\0\x0d\2" + task.to_bytes(4, "big") + bytes(8)


def image(front, walks, turns):
    """The journal of a run of the endless loop, so many turns behind its front."""
    return b"".join([front, *(walk(0) + (walk(turn) * (walks + 1)) for turn in range(1, turns + 1)), b"\0"])


def places(journal):
    """The gates of the entries of a journal, and of the closed one."""
    gate, found = 8, []
    while journal[gate] == 1:
        found.append(gate)
        gate += 5 + int.from_bytes(journal[gate + 1 : gate + 5], "big")
    return [*found, gate]


def long_journal(bench, book, walks, part):
    """The journal of a run that is as long as a part of what a file may have; it is first seen that the program writes its front."""
    folder = os.path.join(bench.folder, f"show-{part}")
    os.mkdir(folder)
    turns = 3
    Tool("cacao run", run(bench.program, book, 2 + turns * (walks + 2)), folder, [PAUSED]).run()
    path = os.path.join(folder, "engine.journal")
    with open(path, "rb") as file:
        journal = file.read()
    front = journal[: places(journal)[2]]
    if image(front, walks, turns) != journal:
        raise SystemExit("the program writes another journal")
    turns = (MOST // part - len(front) - 1_000_000 // part) // len(walk(0) * (walks + 2))
    with open(path, "wb") as file:
        file.write(image(front, walks, turns))
    return folder, 2 + turns * (walks + 2)


def measure(bench):
    walks, part = 3, 64 if bench.small else 1
    book = bench.write("long.json", endless(walks))
    whole, records = long_journal(bench, book, walks, part)
    half, _ = long_journal(bench, book, walks, 2 * part)
    show = Tool("cacao show", [bench.program, "show"], whole)
    if f"\nrecords {records}\n".encode() not in show.output():
        raise SystemExit("show: another number of records")
    python = Tool("Python", [sys.executable, "-c", f"import sys; sys.path.insert(0, {BENCH!r}){PYTHON}"], whole)
    if python.output() != f"records {records}\n".encode():
        raise SystemExit("Python: another number of records")
    on = Tool("cacao run, one record more", run(bench.program, book, 1), whole, [PAUSED])
    tools = [
        show,
        Tool("cacao show, half the journal", [bench.program, "show"], half),
        on,
        Tool("wc -c", ["sh", "-c", "cat engine.journal | wc -c"], whole),
        python,
    ]
    held = {tool.name: tool.memory() for tool in (show, on)}
    length = os.path.getsize(os.path.join(whole, "engine.journal"))
    figures = in_turn(tools, min(bench.rounds, 5))
    bench.report.figures(f"a journal of {length:,} bytes, {records:,} records", figures)
    for tool in (show, on):
        one = figures[tool.name]
        against = f"{ratio(one.cpu, figures['Python'].cpu)} of the Python parser's, {ratio(one.wall, figures['wc -c'].wall)} times `wc -c` by the clock"
        halves = f"; {ratio(one.cpu, figures['cacao show, half the journal'].cpu)} times half the journal" if tool is show else ""
        memory = f"; at most {ratio(held[tool.name], length)} times the file in memory" if held[tool.name] else ""
        bench.report.row(
            f"{'`show`' if tool is show else '`run`, one record more'}, a journal of {records:,} records",
            "at most 0.3 s a million records, linear, in at most 2.5 times the file",
            f"{milliseconds(one.cpu * 1e6 / records)} of the processor a million records, {against}{halves}{memory}",
        )
