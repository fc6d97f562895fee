"""Reads the files of a run by the layout of docs/FORMATS.md, by itself."""
import json
import struct

from .play import bytes_of

HEADER = b"CACAOJ1\n"
MOST = 67_108_864  # bytes of a file
LONGEST = 17_829_888  # bytes of an entry
ENGINE = "engine.journal"
AGENTS = range(1, 17)


def agent_file(agent):
    return f"agent-{agent:02}.journal"


class Damaged(Exception):
    """The bytes stand for no list; its one argument is the place."""


def entries(image):
    """The entries of the bytes of a file."""
    if len(image) > MOST:
        raise Damaged(MOST)
    if len(image) <= 9:
        return []
    for place, byte in enumerate(HEADER):
        if image[place] != byte:
            raise Damaged(place)
    found, gate = [], len(HEADER)
    while True:
        if gate >= len(image):
            raise Damaged(gate)
        if image[gate] != 1:
            return found
        if gate + 5 > len(image):
            raise Damaged(gate)
        (length,) = struct.unpack_from(">I", image, gate + 1)
        if length > LONGEST or gate + 5 + length > len(image):
            raise Damaged(gate)
        found.append(image[gate + 5 : gate + 5 + length])
        gate += 5 + length


def gates(image):
    """The places of the gates of the entries of a whole image, and that of the closed one behind them."""
    places, gate = [], len(HEADER)
    for entry in entries(image):
        places.append(gate)
        gate += 5 + len(entry)
    return [*places, gate]


class Fields:
    """The fields of an entry, taken from its front."""

    def __init__(self, entry):
        self.rest = entry

    def bytes(self, count):
        taken, self.rest = self.rest[:count], self.rest[count:]
        if len(taken) < count:
            raise ValueError("an entry ends early")
        return taken

    def number(self, width):
        return int.from_bytes(self.bytes(width), "big")

    def text(self):
        return self.bytes(self.number(4))

    def end(self, value):
        if self.rest:
            raise ValueError("an entry has more than its fields")
        return value


def record(entry):
    """The record of an entry of the engine's file, as a dictionary."""
    fields = Fields(entry)
    tag = fields.number(1)
    if tag == 1:
        told = {"kind": "begin", "run": fields.number(8), "moment": fields.number(8)}
        told["books"] = [fields.text() for _ in range(fields.number(1))]
        return fields.end({**told, "bind": fields.text()})
    if tag == 2:
        return fields.end({"kind": "walk", "task": fields.number(4), "moment": fields.number(8)})
    if tag == 3:
        told = {"kind": "send", "task": fields.number(4), "issue": fields.number(4), "agent": fields.number(1)}
        return fields.end({**told, "moment": fields.number(8), "command": fields.text()})
    if tag == 4:
        told = {"kind": "reply", "issue": fields.number(4), "moment": fields.number(8), "status": fields.number(2)}
        return fields.end({**told, "rule": fields.number(4), "text": fields.text()})
    if tag == 5:
        return fields.end({"kind": "expire", "issue": fields.number(4), "moment": fields.number(8)})
    if tag == 6:
        return fields.end({"kind": "upgrade", "version": fields.number(1), "moment": fields.number(8)})
    if tag == 7:
        told = {"kind": "ask", "task": fields.number(4), "issue": fields.number(4), "moment": fields.number(8)}
        return fields.end({**told, "question": fields.text()})
    if tag == 8:
        told = {"kind": "told", "issue": fields.number(4), "moment": fields.number(8), "status": fields.number(2)}
        return fields.end({**told, "text": fields.text()})
    raise ValueError(f"no record has the tag {tag}")


def line_front(number, told):
    """The line of a record, or its front: of a Walk all but the step, which the state has."""
    words = {
        "begin": lambda: [told["run"]],
        "walk": lambda: [told["task"], ""],
        "send": lambda: [told["issue"], told["agent"]],
        "reply": lambda: [told["issue"], told["status"]],
        "expire": lambda: [told["issue"]],
        "upgrade": lambda: [told["version"]],
        "ask": lambda: [told["issue"], ""],
        "told": lambda: [told["issue"], told["status"]],
    }[told["kind"]]()
    return " ".join(map(str, [number, told["moment"], told["kind"], *words]))


def act(entry):
    """The act of an entry of a filter's file, as a dictionary."""
    fields = Fields(entry)
    if fields.number(1) != 16:
        raise ValueError("no act has this tag")
    told = {"run": fields.number(8), "issue": fields.number(4), "moment": fields.number(8)}
    return fields.end({**told, "command": fields.text(), "reply": fields.text()})


class Kept:
    """What the files of a folder stand for: the entries of the engine's file, and those of each filter's."""

    def __init__(self, folder):
        self.engine = entries(bytes_of(folder, ENGINE))
        self.filters = {agent: entries(bytes_of(folder, agent_file(agent))) for agent in AGENTS}

    def __eq__(self, other):
        return self.engine == other.engine and self.filters == other.filters

    def agents(self):
        return [agent for agent in AGENTS if self.filters[agent]]


def disagreement(kept):
    """The first thing in which records and acts don't agree, as a text; None where they do. Acts of another run than that of the records may stand
    beside them."""
    try:
        records = [record(entry) for entry in kept.engine]
        acts = {agent: [act(entry) for entry in kept.filters[agent]] for agent in AGENTS}
    except ValueError as error:
        return str(error)
    run = records[0]["run"] if records else None
    sends = {told["issue"]: told for told in records if told["kind"] == "send"}
    done = {}
    for agent, one in ((agent, one) for agent in AGENTS for one in acts[agent]):
        if (agent, one["run"], one["issue"]) in done:
            return f"issue {one['issue']} has two acts"
        done[agent, one["run"], one["issue"]] = one
        send = sends.get(one["issue"])
        if one["run"] == run and (send is None or (send["agent"], send["command"]) != (agent, one["command"])):
            return f"the act of issue {one['issue']} of agent {agent} has no send"
    for told in (told for told in records if told["kind"] == "reply"):
        agent = sends[told["issue"]]["agent"] if told["issue"] in sends else None
        if answer(done.get((agent, run, told["issue"]))) != (told["status"], told["rule"], told["text"]):
            return f"the reply to issue {told['issue']} is not that of its act"
    return None


def answer(one):
    """The status, the rule and the text of the reply of an act."""
    if one is None:
        return None
    reply = json.loads(one["reply"])
    rule = reply.get("results", {}).get("slpf", {}).get("rule_number", 0)
    return reply["status"], rule, reply.get("status_text", "").encode()


RESEND = 5_000  # milliseconds from the put of a command to the next


def is_late(kept):
    """Whether a command was answered only when it was put again: a parcel was lost."""
    records = [record(entry) for entry in kept.engine]
    sent = {told["issue"]: told["moment"] for told in records if told["kind"] == "send"}
    return any(told["kind"] == "reply" and told["moment"] >= sent[told["issue"]] + RESEND for told in records)


def kinds(kept):
    """How many records there are of each kind, and how many acts."""
    told = [record(entry)["kind"] for entry in kept.engine]
    return {kind: told.count(kind) for kind in told}, sum(map(len, kept.filters.values()))


def is_answered(kept):
    """Whether each Send has its Reply, or its issue expired."""
    told, _ = kinds(kept)
    return told.get("send", 0) == told.get("reply", 0) + told.get("expire", 0)
