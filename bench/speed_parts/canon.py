"""The canonical text of a playbook of 2,500 actions, about 1 MB."""
import json
import os
import shutil
import sys

from make_playbook import playbook
from measure import Tool, agree, in_turn, ratio

RUST = os.path.join(os.path.dirname(os.path.dirname(os.path.realpath(__file__))), "canon_rust/target/release/canon_rust")
PYTHON = """
import json, sys
book = json.load(open(sys.argv[1], encoding="utf-8"))
book.pop("signatures", None)
print(json.dumps(book, ensure_ascii=False, separators=(",", ":"), sort_keys=True))
"""


def tools(bench, book):
    found = [Tool("cacao canon", [bench.program, "canon", book])]
    if os.access(RUST, os.X_OK):
        found.append(Tool("Rust, serde_json", [RUST, book]))
    if shutil.which("jq"):
        found.append(Tool("jq -cS", ["jq", "-cS", "del(.signatures)", book]))
    return [*found, Tool("Python json", [sys.executable, "-c", PYTHON, book])]


def measure(bench):
    report = bench.report
    data = json.dumps(playbook(250 if bench.small else 2500), ensure_ascii=False).encode()
    compared = tools(bench, bench.write("book.json", data))
    agree(compared)
    figures = in_turn(compared, bench.rounds)
    report.figures(f"canon of {len(data):,} bytes", figures)
    memory = {tool.name: tool.memory() for tool in compared}
    instructions = {tool.name: tool.instructions() for tool in compared if tool.name != "Python json"}
    for name, found in memory.items():
        counted = f", {instructions[name]:,} instructions" if instructions.get(name) else ""
        report.say(f"  {name:32} greatest memory {(found or 0) / len(data):.1f} times the file{counted}")
    first, *others = compared
    told = [against(figures, memory, first.name, other.name) for other in others]
    report.row(f"`canon` of {len(data):,} bytes", "at most 0.75 of the Rust program's time, 0.8 of its memory", "; ".join(told))


def against(figures, memory, one, other):
    """What one tool takes of another's time and memory."""
    times = f"{ratio(figures[one].cpu, figures[other].cpu)} of its processor time, {ratio(figures[one].wall, figures[other].wall)} of its time by the clock"
    held = f", {ratio(memory[one], memory[other])} of its memory" if memory[other] else ""
    return f"{other}: {times}{held}"
