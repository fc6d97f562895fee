"""Records that are kept on real files, two syncs each."""
import os
import sys

from measure import Tool, in_turn, ratio
from speed_parts.books import endless, run

HERE = os.path.dirname(os.path.realpath(__file__))
PAUSED = 7


def clear(*paths):
    for path in paths:
        if os.path.exists(path):
            os.remove(path)


def measure(bench):
    count = 100 if bench.small else 2000
    book, journal = bench.write("loop.json", endless(0)), bench.path("engine.journal")
    program = Tool("cacao run", run(bench.program, book, count), bench.folder, [PAUSED], lambda: clear(journal))
    program.run()
    model, bare, base = bench.path("model.journal"), bench.path("bare.journal"), bench.path("rows.sqlite")
    os.rename(journal, model)
    loop = Tool("bare loop", [sys.executable, f"{HERE}/bare_loop.py", model, bare], before=lambda: clear(bare))
    rows = [
        Tool(f"SQLite, {mode}", [sys.executable, f"{HERE}/sqlite_rows.py", model, base, mode], before=lambda: clear(base, f"{base}-wal", f"{base}-shm"))
        for mode in ("delete", "wal")
    ]
    loop.run()
    with open(model, "rb") as one, open(bare, "rb") as other:
        if one.read() != other.read():
            raise SystemExit("the bare loop writes other bytes")
    figures = in_turn([program, loop, *rows], min(bench.rounds, 5))
    bench.report.figures(f"{count} records of a loop, durable", figures)
    ours = figures[program.name].wall
    told = [f"{ratio(ours, one.wall)} of the time of {name}" for name, one in figures.items() if name != program.name]
    bench.report.row("durable records", "within 1.2 of the bare loop", f"{count / ours:,.0f} a second; {', '.join(told)}")
