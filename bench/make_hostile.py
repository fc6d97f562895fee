#!/usr/bin/env python3
"""Writes a playbook that is long or costly to check, of at most 1 MiB, to standard output.

usage: make_hostile.py plain | arguments | names | nested | branches [NUMBER]
  plain       4,096 steps, nearly all actions one after another
  arguments   playbook-actions with 64 different arguments each, at the end of a deep chain of control steps
  names       control steps that each declare a name, all of them arguments at the end of their chain
  nested      4,096 steps, nearly all parallel steps, each in the region of the one before it
  branches    a chain of parallel steps with 64 equal branches each
NUMBER is that of the playbook, 1 if it is not given: playbooks with different numbers have different identifiers.
"""
import collections
import json
import sys


def identifier(kind, number):
    return f"{kind}--00000000-0000-4000-8000-{number:012x}"


START, END, AGENT = identifier("start", 1), identifier("end", 1), identifier("a", 1)


def playbook(number, steps, variables):
    return {
        "type": "playbook",
        "spec_version": "cacao-2.0",
        "id": identifier("playbook", number),
        "name": "n",
        "created_by": identifier("identity", 1),
        "created": "2024-01-01T00:00:00Z",
        "modified": "2024-01-01T00:00:00Z",
        "workflow_start": START,
        "agent_definitions": {AGENT: {}},
        "playbook_variables": variables,
        "workflow": {**steps, END: {"type": "end"}},
    }


def nested(count):
    keys = [identifier("p", n) for n in range(count)] + [END]
    steps = {START: {"type": "start", "on_completion": keys[0]}}
    for n in range(count):
        steps[keys[n]] = {"type": "parallel", "next_steps": [keys[n + 1]], "on_completion": END}
    return steps


def branches(count, width):
    keys = [identifier("p", n) for n in range(count)] + [END]
    steps = {START: {"type": "start", "on_completion": keys[0]}}
    for n in range(count):
        steps[keys[n]] = {"type": "parallel", "next_steps": [keys[n + 1]] * width, "on_completion": END}
    return steps


def arguments(depth, calls):
    steps = nested(depth)
    keys = [identifier("q", n) for n in range(calls)] + [END]
    steps[identifier("p", depth - 1)]["next_steps"] = [keys[0]]
    declared = {}
    for n in range(calls):
        names = [f"__{n * 64 + k:x}__" for k in range(64)]
        for name in names:
            declared[name] = {"type": "x"}
        steps[keys[n]] = {"type": "playbook-action", "playbook_id": identifier("playbook", 999), "in_args": names, "on_completion": keys[n + 1]}
    names = list(declared)
    for at in range(0, len(names), 1000):
        key = identifier("p", at // 1000)
        steps[key]["step_variables"] = {name: declared[name] for name in names[at : at + 1000]}
    return steps


def names(count):
    steps = nested(count)
    declared = [f"__{n:x}__" for n in range(count)]
    for n, name in enumerate(declared):
        steps[identifier("p", n)]["step_variables"] = {name: {"type": "x"}}
    taken = [declared[at : at + 64] for at in range(0, count, 64)]
    keys = [identifier("q", n) for n in range(len(taken))] + [END]
    steps[identifier("p", count - 1)]["next_steps"] = [keys[0]]
    for n, these in enumerate(taken):
        steps[keys[n]] = {"type": "playbook-action", "playbook_id": identifier("playbook", 999), "in_args": these, "on_completion": keys[n + 1]}
    return steps


def plain(count):
    keys = [identifier("a", n) for n in range(count)] + [END]
    steps = {START: {"type": "start", "on_completion": keys[0]}}
    for n in range(count):
        command = {"type": "openc2-http", "content": '{"a":"__x__:value"}'}
        taken = {"out_args": ["__y__"]} if n % 2 else {}
        steps[keys[n]] = {"type": "action", "agent": AGENT, "commands": [command], **taken, "on_completion": keys[n + 1]}
    return steps


# What the playbooks of a kind are, the steps of the whole one or of a part of it, and the variables that they declare.
Kind = collections.namedtuple("Kind", "what steps variables")
KINDS = {
    "plain": Kind("4,096 steps one after another", lambda part: plain(4094 // part), {"__x__": {"type": "string"}, "__y__": {"type": "string"}}),
    "arguments": Kind("16,000 arguments below 1,500 control steps", lambda part: arguments(1500 // part, 250 // part), {}),
    "names": Kind("3,400 control steps that each declare a name, all asked for at the end", lambda part: names(3400 // part), {}),
    "nested": Kind("4,096 steps, each in the branch of the one before", lambda part: nested(4094 // part), {}),
    "branches": Kind("280 steps of 64 equal branches", lambda part: branches(280 // part, 64), {}),
}


def text(kind, number=1, part=1):
    """The text of the playbook of a kind, with a number; with a half, a third and so on of the steps where `part` is 2, 3 and so on."""
    made = json.dumps(playbook(number, KINDS[kind].steps(part), KINDS[kind].variables), separators=(",", ":"))
    assert len(made) <= 1_048_576, len(made)
    return made


if __name__ == "__main__":
    print(text(sys.argv[1], int(sys.argv[2]) if len(sys.argv) > 2 else 1))
