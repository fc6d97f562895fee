"""Commands and replies of a run whose filters are another process, over a socket on this machine."""
import os
import sys

from hostile_parts.books import loop, text_of
from measure import Tool, in_turn, milliseconds, ratio
from speed_parts.books import RUN
from speed_parts.durable import clear

HERE = os.path.dirname(os.path.realpath(__file__))
FILES = "engine.journal", "agent-01.journal"


def measure(bench):
    turns = 20 if bench.small else 400
    book, kept = bench.write("turns.json", text_of(loop(turns))), [bench.path(name) for name in FILES]
    program = Tool("cacao pair", [bench.program, "pair", "--run", str(RUN), book], bench.folder, before=lambda: clear(*kept))
    if not program.output().endswith(b"\nended ok\n"):
        raise SystemExit("pair did not end well")
    models, bare = [bench.path(f"model-{name}") for name in FILES], [bench.path(f"bare-{name}") for name in FILES]
    for one, other in zip(kept, models):
        os.rename(one, other)
    alone = Tool("cacao run", [bench.program, "run", "--run", str(RUN), book], bench.folder, before=lambda: clear(*kept))
    two = Tool("bare pair", [sys.executable, f"{HERE}/bare_pair.py", *models, *bare], before=lambda: clear(*bare))
    two.run()
    for one, other in zip(models, bare):
        with open(one, "rb") as left, open(other, "rb") as right:
            if left.read() != right.read():
                raise SystemExit("the bare pair writes other bytes")
    figures = in_turn([program, two, alone], min(bench.rounds, 5))
    bench.report.figures(f"{turns} commands and replies over a socket, durable", figures)
    ours, theirs, one = (figures[tool.name].wall for tool in (program, two, alone))
    told = f"{milliseconds(ours / turns)} a turn of five records and an act, {ratio(ours, theirs)} of the time of the bare pair, {ratio(ours, one)} of that of `run`"
    bench.report.row(f"`pair`, {turns} commands", "within 1.5 of a bare pair", told)
