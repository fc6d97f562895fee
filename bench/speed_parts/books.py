"""The playbooks that are run."""
from hostile_parts.books import END, identifier, playbook, starts, text_of

RUN = 7


def endless(walks):
    """A loop without end: a turn has a Walk into the body, one for each of so many steps in it, and one for the end of it."""
    ask = identifier("while-condition", 1)
    keys = [identifier("if-condition", place) for place in range(walks)] + [END]
    steps = {ask: {"type": "while-condition", "condition": "__n__:value < 2", "on_true": keys[0], "on_completion": END}}
    for place, key in enumerate(keys[:-1]):
        steps[key] = {"type": "if-condition", "condition": "__n__:value = 1", "on_true": END, "on_completion": keys[place + 1]}
    return text_of(playbook({**starts(ask), **steps}, {"__n__": {"type": "integer", "value": "0"}}))


def forks(depth, following, heads):
    """So many parallel steps: each has 64 branches at the next one, and the last one these branches."""
    keys = [identifier("parallel", 11 + place) for place in range(depth)]
    branches = [[key] * 64 for key in keys[1:]] + [heads]
    return starts(keys[0]) | {
        key: {"type": "parallel", "next_steps": branch, "on_completion": following} for key, branch in zip(keys, branches)
    }


def mixed():
    """Three parallel steps, one in the other, of 64, 64 and 50 branches, the last of which have other delays each: 208,961 tasks."""
    ends = {identifier("end", number): {"type": "end", "delay": number * 40_503 % 1_009} for number in range(30, 80)}
    steps = forks(3, next(iter(ends)), list(ends))
    for key, delay in zip(steps, (0, 0, 7, 3)):
        if delay:
            steps[key]["delay"] = delay
    return text_of(playbook({}, workflow=steps | ends))


def deep():
    """Four parallel steps of 64 equal branches, one in the other: 17,043,521 tasks if all were made."""
    return text_of(playbook({}, workflow=forks(4, END, [END] * 64) | {END: {"type": "end"}}))


def run(program, book, records):
    """The words that take a run on for so many records."""
    return [program, "run", "--run", str(RUN), "--steps", str(records), book]
