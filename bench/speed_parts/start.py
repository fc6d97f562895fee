"""A short run from start to exit, in memory, where a sync costs nothing, and on the disk."""
import os
import shutil
import tempfile

from measure import Tool, in_turn, milliseconds, ratio
from speed_parts.durable import clear

EXAMPLE = os.path.join(os.path.dirname(os.path.dirname(os.path.dirname(os.path.realpath(__file__)))), "examples/block-a-host.json")
FILES = "engine.journal", "agent-01.journal"


def measure(bench):
    with tempfile.TemporaryDirectory(dir="/dev/shm" if os.path.isdir("/dev/shm") else None) as memory:
        tools = [play(bench, "cacao run, files in memory", memory), play(bench, "cacao run, files on the disk", bench.folder), Tool("true", ["true"])]
        if shutil.which("jq"):
            tools.append(Tool("jq", ["jq", ".", EXAMPLE]))
        for tool in tools[:2]:
            if not tool.output().endswith(b"\nended ok\n"):
                raise SystemExit(f"{tool.name} did not end well")
        figures = in_turn(tools, bench.rounds)
    bench.report.figures("run of a short playbook, from start to exit", figures)
    one, disk = figures[tools[0].name], figures[tools[1].name]
    told = [f"{ratio(one.wall, figures[tool.name].wall)} of the time of {tool.name}" for tool in tools[2:]]
    alone = f"{milliseconds(one.wall)} by the clock with files in memory, {milliseconds(one.cpu)} of the processor"
    measured = f"{alone}; {', '.join(told)}; {milliseconds(disk.wall)} with files on the disk"
    bench.report.row("`run` of a short playbook", "under 20 ms but for the syncs", measured)


def play(bench, name, folder):
    files = [os.path.join(folder, file) for file in FILES]
    return Tool(name, [bench.program, "run", "--run", "7", EXAMPLE], folder, before=lambda: clear(*files))
