"""Random playbooks that `run` accepts: actions, conditions, loops, branches, delays, exceptions, commands that filters refuse."""
import json

from .books import AGENTS, END, deny, identifier, playbook, starts

NETS = ("10.0.0.0/8", "10.1.2.0/24", "192.0.2.77", "198.51.100.0/25", "203.0.113.9/32")
STATUSES, RULES, TEXTS, NUMBERS = "__status__", "__rule__", "__text__", "__n__"


class Maker:
    """Makes one playbook; `most` is how many steps it may have beside its start and its end."""

    def __init__(self, draw, most, with_questions, with_loops):
        self.draw, self.left, self.with_questions, self.with_loops, self.steps, self.made = draw, most, with_questions, with_loops, {}, 0

    def key(self, kind):
        self.made += 1
        return identifier(kind, 100 + self.made)

    def book(self):
        head = self.sequence(3, self.draw.randrange(1, 5))
        more = {"workflow_exception": self.sequence(1, 1)} if self.draw.random() < 0.4 else {}
        variables = {
            STATUSES: {"type": self.draw.choice(["integer", "string", "long"])},
            RULES: {"type": "integer", **self.draw.choice([{}, {"value": "0"}, {"value": "1"}])},
            TEXTS: {"type": "string", **self.draw.choice([{}, {"value": "none"}])},
            NUMBERS: {"type": "integer", "value": str(self.draw.randrange(4))},
        }
        return playbook({**starts(head), **self.steps}, variables, number=self.draw.randrange(1, 1000), **more)

    def sequence(self, depth, length):
        """Steps one after another; the key of the first."""
        key = END
        for _ in range(length):
            key = self.step(depth, key)
        return key

    def step(self, depth, following):
        self.left -= 1
        controls = ["parallel"] * 3 + ["if-condition", "switch-condition", *(["while-condition"] if self.with_loops else [])]
        kind = self.draw.choice(["action"] * 4 + (controls if depth and self.left > 0 else []))
        key = self.key(kind)
        self.steps[key] = {"type": kind, **self.of_kind(kind, depth), **self.links(kind, following), **self.times(), **self.variables()}
        return key

    def links(self, kind, following):
        """Where the step leads; a control step may lead nowhere, and a failure anywhere ahead."""
        ways = [{"on_completion": following}, {"on_success": following}, {"on_success": following, "on_failure": self.draw.choice([following, END])}]
        return self.draw.choice(ways + ([{}] if kind != "action" else []))

    def times(self):
        delay = self.draw.choice([0, 0, 0, 0, 1, 2, 3, 7, 5000, 60_000])
        timeout = self.draw.choice([None, None, None, 0, 1, 3000])
        return {**({"delay": delay} if delay else {}), **({"timeout": timeout} if timeout is not None else {})}

    def variables(self):
        """Sometimes names of its own, which hide those of the playbook."""
        if self.draw.random() < 0.8:
            return {}
        name = self.draw.choice([STATUSES, RULES, NUMBERS])
        return {"step_variables": {name: {"type": "integer", **self.draw.choice([{}, {"value": "1"}])}}}

    def of_kind(self, kind, depth):
        branch = lambda: self.sequence(depth - 1, self.draw.randrange(1, 3))
        if kind == "action":
            return self.action()
        if kind == "parallel":
            return {"next_steps": [branch() for _ in range(self.draw.choice([1, 2, 2, 3, 4]))]}
        if kind == "if-condition":
            return {"condition": self.condition(), "on_true": branch(), **({"on_false": branch()} if self.draw.random() < 0.5 else {})}
        if kind == "while-condition":
            return {"condition": f"{self.draw.choice([RULES, RULES, NUMBERS])}:value < {self.draw.randrange(1, 6)}", "on_true": branch()}
        cases = {case: branch() for case in self.draw.sample(["200", "404", "1", "2", "none", "default"], self.draw.randrange(1, 4))}
        return {"switch": f"{self.draw.choice([STATUSES, RULES, TEXTS, NUMBERS])}:value", "cases": cases}

    def condition(self):
        joined = self.draw.choice([" AND ", " OR "])
        return joined.join(self.compared() for _ in range(self.draw.choice([1, 1, 2])))

    def compared(self):
        constant = self.draw.choice(["0", "1", "2", "3", "200", "404", "500", "'none'", "'rule not held'", "'200'"])
        name = self.draw.choice([STATUSES, RULES, TEXTS, NUMBERS])
        return f"{name}:value {self.draw.choice(['=', '!=', '<', '<=', '>', '>='])} {constant}"

    def action(self):
        commands = [self.command() for _ in range(self.draw.choice([1, 1, 1, 2, 3]))]
        targets = {"targets": self.draw.sample(AGENTS, self.draw.randrange(1, 3))} if self.draw.random() < 0.3 else {}
        names = self.draw.choice([[], [STATUSES], [STATUSES, RULES], [STATUSES, RULES], [STATUSES, RULES, TEXTS], [NUMBERS], [STATUSES, NUMBERS, TEXTS]])
        return {"agent": self.draw.choice(AGENTS), "commands": commands, **targets, **({"out_args": names} if names else {})}

    def command(self):
        if self.with_questions and self.draw.random() < 0.2:
            return {"type": "manual", "command": f"Is rule {RULES}:value held, at {NUMBERS}:value?"}
        return {"type": "openc2-http", "content": json.dumps(self.content())}

    def content(self):
        draw, number = self.draw, self.draw.randrange(1, 6)
        net = draw.choice(NETS)
        slpf = draw.choice([{}, {"insert_rule": number}, {"direction": "ingress"}, {"drop_process": "reject"}, {"direction": "both", "insert_rule": number + 3}])
        times = draw.choice([{}, {"duration": number}, {"start_time": 5, "stop_time": 9}, {"stop_time": 100, "duration": 3}, {"start_time": number}])
        return draw.choice(
            [
                *[deny(net)] * 6,
                *[{"action": "allow", "target": {"ipv4_net": net}}] * 3,
                {"action": draw.choice(["deny", "allow"]), "target": {"ipv4_net": net}, "args": {**times, **({"slpf": slpf} if slpf else {})}},
                {"action": "delete", "target": {"slpf:rule_number": draw.choice([number, f"{RULES}:value"])}},
                {"action": "delete", "target": {"slpf:rule_number": f"{RULES}:value"}},
                {"action": "update", "target": {"file": {"name": draw.choice(["empty.rules", "other.rules"])}}},
                {"action": "query", "target": {"features": draw.choice([[], ["versions"], ["pairs", "profiles"]])}},
                deny(f"nowhere {TEXTS}:value"),
                {"action": "scan", "target": {"file": {}}},
                {"action": "delete", "target": {"slpf:rule_number": number}, "args": {"duration": 3}},
                {"action": "deny", "target": {"file": {"name": "a"}}},
            ]
        )


def random_book(draw, with_questions=False, with_loops=False):
    return Maker(draw, draw.randrange(1, 14), with_questions, with_loops).book()
