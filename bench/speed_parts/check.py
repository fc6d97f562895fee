"""`check` of long and of costly playbooks, and of those with half as many steps."""
import sys

from make_hostile import KINDS, text
from measure import Tool, in_turn, milliseconds, ratio

PYTHON = "import json, sys; json.load(open(sys.argv[1], encoding='utf-8'))"


BOOKS = 16  # that one call may name


def measure(bench):
    for kind in KINDS:
        measure_kind(bench, kind, 8 if bench.small else 1)
    for kind in KINDS:
        measure_together(bench, kind, 8 if bench.small else 1)


def told(kind, part):
    return KINDS[kind].what if part == 1 else f"1/{part} of {KINDS[kind].what}"


def measure_kind(bench, kind, part):
    """A playbook of this kind, with this part of the steps that a limit allows, and one with half of its steps."""
    whole, half = text(kind, part=part).encode(), text(kind, part=2 * part).encode()
    names = bench.write(f"{kind}.json", whole), bench.write(f"{kind}-half.json", half)
    checks = [Tool(f"cacao check, {what}", [bench.program, "check", name]) for what, name in zip(("whole", "half"), names)]
    for tool in checks:
        if tool.output() != b"accepted\n":
            raise SystemExit(f"{tool.name} of {kind}: not accepted")
    figures = in_turn([*checks, Tool("Python json", [sys.executable, "-c", PYTHON, names[0]])], bench.rounds)
    bench.report.figures(f"check of {len(whole):,} bytes: {told(kind, part)}", figures)
    twice = figures[checks[0].name], figures[checks[1].name]
    counted = [tool.instructions() for tool in checks]
    growth = f", {ratio(*counted)} times the instructions" if all(counted) else ""
    bench.report.row(
        f"`check` of {len(whole):,} bytes: {told(kind, part)}",
        "under 200 ms; twice the steps at most 2.2 times the time",
        f"{milliseconds(twice[0].cpu)} of the processor, {ratio(twice[0].cpu, figures['Python json'].cpu)} of Python's reading; "
        f"{ratio(twice[0].cpu, twice[1].cpu)} times the half{growth}",
    )


def measure_together(bench, kind, part):
    """As many playbooks of this kind as one call may name."""
    names = [bench.write(f"{kind}-{number}.json", text(kind, number, part).encode()) for number in range(1, BOOKS + 1)]
    tool = Tool(f"cacao check of {BOOKS} together", [bench.program, "check", *names])
    bench.report.figures(f"check of {BOOKS} playbooks: {told(kind, part)}", in_turn([tool], 1))
