"""Playbooks that are made by chance: accepted ones, with names that no picture expects."""
import json
import random

KINDS = ("action", "parallel", "if-condition", "while-condition", "switch-condition")
HOSTILE = [
    '"', "\\", "\\\\", '\\"', "\\N", "\\G\\E\\L", "&", "&amp;", "&#34;", "&lt;b&gt;", "<b>bold</b>", "<", ">", "]", "[", "}", "{", ";", "|",
    "->", "--", "\n", "\r", "\r\n", "\t", "\0", "\x01", "\x1b[31m", "\x7f", "\u00e9", "\u20ac", "\U0001f600", "\u202e", "\ufeff", "\u2028",
    "\ud7ff", "\ufffe", "\uffff", "\ufffd", "\uffef\u10ff", "strict", "digraph {", "subgraph", '"]; evil [label="', "// x", "/* x */", "# x",
    " ", "%s%n", "label=x", "\\l\\r", "a" * 300,
]


def identifier(kind, number):
    return f"{kind}--00000000-0000-4000-8000-{number:012x}"


class Making:
    """One playbook."""

    def __init__(self, seed):
        self.draw = random.Random(seed)
        self.steps, self.count = {}, 0

    def key(self, kind):
        self.count += 1
        return identifier(kind, self.count)

    def name(self):
        return "".join(self.draw.choice(HOSTILE) for _ in range(self.draw.randint(1, 4)))

    def named(self, step):
        return {**step, "name": self.name()} if self.draw.random() < 0.7 else step

    def end(self):
        key = self.key("end")
        self.steps[key] = self.named({"type": "end"})
        return key

    def chain(self, depth, last):
        """Some steps one behind the other, the last of which goes on to this one; the key of the first."""
        for _ in range(self.draw.randint(1, 2)):
            last = self.step(depth, last)
        return last

    def step(self, depth, following):
        kind = self.draw.choice(KINDS if depth < 2 else KINDS[:1])
        key = self.key(kind)
        branches = [self.chain(depth + 1, self.end()) for _ in range(self.draw.randint(1, 2))] if kind != "action" else []
        made = {"type": kind, **self.rest(kind, branches)}
        links = self.draw.choice([("on_completion",), ("on_success",), ("on_success", "on_failure")])
        self.steps[key] = self.named({**made, **{link: following for link in links}})
        return key

    def rest(self, kind, branches):
        if kind == "action":
            return {"agent": identifier("net-address", 1), "commands": [self.command() for _ in range(self.draw.randint(1, 3))]}
        if kind == "parallel":
            return {"next_steps": branches}
        if kind == "while-condition":
            return {"condition": "__n__:value < 3", "on_true": branches[0]}
        if kind == "if-condition":
            return {"condition": "__n__:value = '" + self.draw.choice(["x", "&", "<", ">"]) + "'", "on_true": branches[0], **({"on_false": branches[1]} if branches[1:] else {})}
        return {"switch": "__n__:value", "cases": {self.name() + str(number): branch for number, branch in enumerate(branches)}}

    def command(self):
        if self.draw.random() < 0.3:
            return {"type": "manual", "command": self.name()}
        content = {"action": self.draw.choice(["deny", "allow", self.name()]), "target": {self.draw.choice(["ipv4_net", self.name()]): "10.0.0.0/8"}}
        return {"type": self.draw.choice(["openc2-http", "openc2-http", "bash", self.name()]), "content": json.dumps(content)}

    def book(self):
        start = self.key("start")
        self.steps[start] = self.named({"type": "start", "on_completion": self.chain(0, self.end())})
        made = {
            "type": "playbook",
            "spec_version": "cacao-2.0",
            "id": identifier("playbook", 1),
            "name": self.name(),
            "created_by": identifier("identity", 1),
            "created": "2024-01-02T03:04:05.000Z",
            "modified": "2024-01-02T03:04:05.000Z",
            "workflow_start": start,
            "playbook_variables": {"__n__": {"type": "string", "value": "0"}},
            "agent_definitions": {identifier("net-address", 1): {"type": "net-address"}},
            "workflow": self.steps,
        }
        return {**made, "workflow_exception": self.end()} if self.draw.random() < 0.3 else made


def book(seed):
    return Making(seed).book()
