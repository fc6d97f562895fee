#!/usr/bin/env python3
"""Writes a playbook that denies N nets one after another to standard output: make_many.py N    (at most 2,000)"""
import json
import sys


def key(kind, number):
    return f"{kind}--00000000-0000-4000-8000-{number:012x}"


def action(number, following):
    net = f"10.{number // 256}.{number % 256}.0/24"
    content = json.dumps({"action": "deny", "target": {"ipv4_net": net}})
    commands = [{"type": "openc2-http", "command": "POST /openc2 HTTP/1.1", "content": content}]
    return {"type": "action", "agent": key("net-address", 0), "commands": commands, "on_completion": following}


def playbook(count):
    steps = {key("start", 0): {"type": "start", "on_completion": key("action", 1)}}
    for number in range(count):
        following = key("action", number + 2) if number + 1 < count else key("end", count + 1)
        steps[key("action", number + 1)] = action(number, following)
    steps[key("end", count + 1)] = {"type": "end"}
    return {
        "type": "playbook",
        "spec_version": "cacao-2.0",
        "id": key("playbook", 6),
        "name": f"Block {count} nets",
        "created_by": key("identity", 2),
        "created": "2024-01-02T03:04:05.000Z",
        "modified": "2024-01-02T03:04:05.000Z",
        "workflow_start": key("start", 0),
        "agent_definitions": {key("net-address", 0): {"type": "net-address", "name": "Edge filter"}},
        "workflow": steps,
    }


if __name__ == "__main__":
    words = sys.argv[1:]
    if len(words) != 1 or not words[0].isdecimal() or not 1 <= int(words[0]) <= 2_000:
        sys.exit("make_many.py N, with N from 1 to 2000")
    json.dump(playbook(int(words[0])), sys.stdout, indent=1)
