#!/usr/bin/env python3
"""Writes a playbook of N action steps, which block N nets one after another, to standard output.

usage: make_playbook.py N    (2500 steps: about 1 MB)
"""
import json
import random
import sys


def identifier(kind, number):
    return f"{kind}--00000000-0000-4000-8000-{number:012x}"


def action(number, agent, following):
    target = {"ipv4_net": f"10.{number // 256 % 256}.{number % 256}.0/24"}
    content = {"action": "deny", "target": target}
    return {
        "type": "action",
        "name": f'Blockieren \u00e9 "{number}" \u20ac',
        "delay": number,
        "commands": [{"type": "openc2-http", "command": "POST /openc2 HTTP/1.1", "content": json.dumps(content)}],
        "agent": agent,
        "on_completion": following,
    }


def playbook(count):
    draw = random.Random(1)
    actions = [identifier("action", (draw.getrandbits(36) << 12 | n % 4096) % 2**48) for n in range(count)]
    start, end, agent = identifier("start", 1), identifier("end", 1), identifier("net-address", 1)
    keys = [*actions, end]
    steps = {start: {"type": "start", "on_completion": keys[0]}, end: {"type": "end"}}
    for number, key in enumerate(actions):
        steps[key] = action(number, agent, keys[number + 1])
    return {
        "type": "playbook",
        "spec_version": "cacao-2.0",
        "id": identifier("playbook", 1),
        "name": "many blocks",
        "created_by": identifier("identity", 1),
        "created": "2024-01-02T03:04:05.000Z",
        "modified": "2024-01-02T03:04:05.000Z",
        "workflow_start": start,
        "agent_definitions": {agent: {"type": "net-address"}},
        "workflow": steps,
        "signatures": [{"value": "x" * 64}],
    }


if __name__ == "__main__":
    json.dump(playbook(int(sys.argv[1])), sys.stdout, ensure_ascii=False)
