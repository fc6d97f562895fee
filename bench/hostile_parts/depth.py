"""The longest chains and the deepest nests that the limits allow, on a stack of 8 MiB."""
import json

from .books import AGENTS, END, NUMBER, START, action, deny, identifier, loop, playbook, starts, text_of
from .play import EVERY, STACK, Folder, Limits, progress, put

STEPS = 4096
STACKED = Limits(stack=STACK)
LONG = 1800  # seconds that one run may take
MOST_TASKS = 1_000_000
MANY = 500  # records of a run, for each round


def chain(count):
    """If-conditions one after another that take no branch."""
    keys = [identifier("if-condition", place) for place in range(count)] + [END]
    steps = {}
    for place, key in enumerate(keys[:-1]):
        steps[key] = {"type": "if-condition", "condition": "__n__:value = 1", "on_true": END, "on_completion": keys[place + 1]}
    return playbook({**starts(keys[0]), **steps}, {"__n__": NUMBER})


def nest(kind, depth, last=END, number=1, steps=None):
    """Control steps of one kind, each in the branch of the one before; in the innermost one's branch the step `last`."""
    keys = [identifier(kind, place) for place in range(depth)] + [last]
    made = dict(steps or {})
    for place, key in enumerate(keys[:-1]):
        made[key] = {"type": kind, **branch(kind, keys[place + 1]), "on_completion": END}
    return playbook({**starts(keys[0]), **made}, {"__n__": {"type": "integer", "value": "1"}}, number)


def branch(kind, key):
    return {
        "parallel": {"next_steps": [key]},
        "if-condition": {"condition": "__n__:value = 1", "on_true": key},
        "switch-condition": {"switch": "__n__:value", "cases": {"1": key}},
    }[kind]


def callers(count, depth):
    """Playbooks, each a nest of parallel steps whose innermost branch calls the next playbook."""
    call, found = identifier("playbook-action", 1), []
    for number in range(1, count):
        step = {"type": "playbook-action", "playbook_id": identifier("playbook", number + 1), "on_completion": END}
        found.append(nest("parallel", depth, call, number, {call: step}) if depth else playbook({**starts(call), call: step}, number=number))
    return [*found, nest("parallel", depth, number=count) if depth else playbook(starts(END), number=count)]


def wide():
    """Four parallel steps of 64 equal branches, one in another."""
    keys = [identifier("parallel", place) for place in range(4)] + [END]
    steps = {key: {"type": "parallel", "next_steps": [keys[place + 1]] * 64, "on_completion": END} for place, key in enumerate(keys[:-1])}
    return playbook({**starts(keys[0]), **steps})


def condition(text):
    ask = identifier("if-condition", 1)
    step = {"type": "if-condition", "condition": text, "on_true": END, "on_completion": END}
    return playbook({**starts(ask), ask: step}, {"__a__": {"type": "integer", "value": "1"}})


def nested_content(levels):
    """An action whose command is an object of so many levels; its filter carries it out."""
    block, inner = identifier("action", 1), []
    for _ in range(levels - 3):
        inner = [inner]
    return playbook({**starts(block), block: action(deny("10.0.0.0/8", actuator={"x": inner}), {"on_success": END})})


def many_deep(width, depth):
    """16 playbooks, each a nest of parallel steps whose innermost branch calls the next playbook; the outermost step of all has more branches."""
    first, *others = callers(16, depth)
    fork, steps = identifier("parallel", depth), first["workflow"]
    steps[fork] = {"type": "parallel", "next_steps": [steps[START]["on_completion"]] * width, "on_completion": END}
    steps[START]["on_completion"] = fork
    return [first, *others]


def many_records(width, depth):
    """Records of a run of `many_deep` up to the limit of tasks: Begin; the Walks of the first start and of the outermost step, which makes `width`
    tasks; a Walk for each further task; and, in each branch, one of the start of each playbook that was come to. The branches go on in turn."""
    further = MOST_TASKS - 1 - width
    return 3 + further + sum((further + width - 1 - branch) // width // (depth + 1) for branch in range(width))


class Depth:
    """Trials of depth."""

    def __init__(self, program, table, rounds):
        self.program, self.table, self.rounds = program, table, rounds

    def play(self, folder, row, words, status, count=None, last=None, limits=STACKED):
        """One run: its status, how many lines it says, and the last of them."""
        row.tries += 1
        played = self.program.play(folder, words, limits=limits, seconds=LONG)
        lines = played.lines
        right = played.status == status and (count is None or len(lines) == count) and (last is None or lines[-1:] == [last])
        row.expect(right, f"{played}, {len(lines)} lines; status {status}, {count} lines and {last!r} at the end are right")
        return played

    def run(self, what, books, records, last="ended ok", status=0):
        """`canon` of the first playbook, `check`, `run`, the same words again, `show`. A run of many records is played where there are many rounds."""
        if self.rounds < EVERY and records > MANY * self.rounds:
            return self.table.note(f"depth: too few rounds for {what}")
        row = self.table.row("depth", what)
        progress(f"depth: {what}")
        names = [f"b{place:02}.json" for place in range(len(books))]
        with Folder({name: text_of(book) for name, book in zip(names, books)}) as folder:
            self.play(folder, row, ["canon", names[0]], 0, 1)
            self.play(folder, row, ["check", *names], 0, 1, "accepted")
            self.play(folder, row, ["run", "--run", "7", *names], status, records + 1, last)
            self.play(folder, row, ["run", "--run", "7", *names], status, 1, last)
            shown = self.play(folder, row, ["show"], 0)
            return row.expect(f"records {records}" in shown.lines[:3], f"{shown}, where {records} records are right")

    def refused(self, what, book, line):
        row = self.table.row("depth", what)
        with Folder({"b.json": text_of(book)}) as folder:
            self.play(folder, row, ["check", "b.json"], 1, 1, line)
            self.play(folder, row, ["run", "--run", "7", "b.json"], 1, 1, line)

    def texts(self):
        row = self.table.row("depth", "JSON texts of 127 and 128 levels, and of 1,048,576 bytes")
        unread = "not readable: x.json not json"
        for text, status, line in [
            ("[" * 127 + "]" * 127, 0, "[" * 127 + "]" * 127),
            ("[" * 128 + "]" * 128, 5, unread),
            ('{"a":' * 126 + "[]" + "}" * 126, 0, '{"a":' * 126 + "[]" + "}" * 126),
            ('{"a":' * 127 + "[]" + "}" * 127, 5, unread),
            ("[" * 1_048_576, 5, unread),
            ('{"a":' * 209_715, 5, unread),
            ("{" * 1_048_576, 5, unread),
            ('"' + "x" * 1_048_574 + '"', 0, '"' + "x" * 1_048_574 + '"'),
            ('"' + "\\u0001" * 174_762 + '"', 0, '"' + "\\u0001" * 174_762 + '"'),
            ("[" + "0," * 524_286 + "0]", 0, "[" + "0," * 524_286 + "0]"),
            (" " * 1_048_575 + "1", 0, "1"),
            (" " * 1_048_576 + "1", 11, "limit: file 1048576"),
            (json.dumps({f"{place:06}": [] for place in range(80_000)}, separators=(",", ":")), 0, None),
        ]:
            with Folder({"x.json": text.encode()}) as folder:
                self.play(folder, row, ["canon", "x.json"], status, 1, line)
                self.play(folder, row, ["check", "x.json"], {0: 1}.get(status, status), 1)


def depth(program, cases, table, rounds, draw):
    trials = Depth(program, table, rounds)
    trials.texts()
    trials.run("4,096 steps one after another", [chain(STEPS - 2)], STEPS + 1)
    for kind in ("parallel", "if-condition", "switch-condition"):
        trials.run(f"{STEPS - 2:,} control steps, each in the branch of the one before: {kind}", [nest(kind, STEPS - 2)], deep_records(1, STEPS - 2))
    parentheses = "(" * 1000 + "__a__:value = 1" + ")" * 1000
    trials.run("a condition of 1,000 parentheses", [condition(parentheses)], 6)
    ask = identifier("if-condition", 1)
    trials.refused("a condition of 1,000 parentheses, one of them not closed", condition(parentheses[:-1]), f"refused: book 0 step {ask} rule K21")
    trials.run("a command of 127 levels", [nested_content(127)], 6)
    trials.run("16 playbooks, each called by the one before", callers(16, 0), deep_records(16, 0))
    trials.run("16 playbooks of 4,000 nested parallel steps, each called in the innermost of the one before", callers(16, 4000), deep_records(16, 4000))
    trials.run("a loop of 4,000 turns, 20,005 records", [loop(4000)], 5 * 4000 + 4)
    limit = f"limit: tasks {MOST_TASKS}"
    trials.run("four parallel steps of 64 equal branches, one in another", [wide()], 15_626, limit, 11)
    trials.run("1,000,000 tasks: 16 branches of those 16 playbooks", many_deep(16, 4000), many_records(16, 4000), limit, 11)


def deep_records(count, levels):
    """Records of a run of `callers`: Begin; a Walk of each start; of each control step and each call a Walk into it, one out of it and one of the end
    behind it; and one of the end in the innermost branch."""
    return 1 + count + 3 * (count * levels + count - 1) + 1
