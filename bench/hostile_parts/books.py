"""The playbooks that are played: those of `examples/`, and others that are made here."""
import json
import os

RUN = 7
VARIABLE, NUMBER = {"type": "string"}, {"type": "integer"}


def identifier(kind, number):
    return f"{kind}--00000000-0000-4000-8000-{number:012x}"


START, END = identifier("start", 1), identifier("end", 1)
AGENTS = [identifier("net-address", number) for number in range(1, 5)]


def playbook(steps, variables=None, number=1, **more):
    return {
        "type": "playbook",
        "spec_version": "cacao-2.0",
        "id": identifier("playbook", number),
        "name": "n",
        "created_by": identifier("identity", 1),
        "created": "2024-01-01T00:00:00Z",
        "modified": "2024-01-01T00:00:00Z",
        "workflow_start": START,
        "agent_definitions": {agent: {"type": "net-address"} for agent in AGENTS},
        "playbook_variables": variables or {},
        "workflow": {**steps, END: {"type": "end"}},
        **more,
    }


def text_of(book):
    return json.dumps(book, separators=(",", ":")).encode()


def starts(key):
    return {START: {"type": "start", "on_completion": key}}


def action(command, following, agent=0, **more):
    """An action of one command; `following` has the links."""
    commands = [{"type": "openc2-http", "content": json.dumps(command)}]
    return {"type": "action", "agent": AGENTS[agent], "commands": commands, **following, **more}


def deny(net, **more):
    return {"action": "deny", "target": {"ipv4_net": net}, **more}


def loop(turns):
    """A while-condition over an action that blocks a net: five records a turn, as many acts as turns."""
    ask, block = identifier("while-condition", 1), identifier("action", 1)
    condition = {"type": "while-condition", "condition": f"__rule__:value < {turns}", "on_true": block, "on_completion": END}
    command = deny("10.0.0.0/24")
    steps = {ask: condition, block: action(command, {"on_completion": END}, out_args=["__status__", "__rule__"])}
    variables = {"__status__": NUMBER, "__rule__": {"type": "integer", "value": "0"}}
    return playbook({**starts(ask), **steps}, variables)


def branches(width, depth):
    """A parallel step of `width` branches of `depth` actions each, on four filters, with delays; the last action of each asks for what is not there."""
    fork, steps, heads = identifier("parallel", 1), {}, []
    for branch in range(width):
        keys = [identifier("action", branch * 64 + place) for place in range(depth)]
        heads.append(keys[0])
        for place, key in enumerate(keys):
            command = deny(f"10.{branch}.{place}.0/24") if place + 1 < depth else {"action": "delete", "target": {"slpf:rule_number": 4_000}}
            following = {"on_completion": keys[place + 1]} if place + 1 < depth else {"on_success": END, "on_failure": END}
            steps[key] = action(command, following, branch % 4, delay=(branch * 7 + place * 3) % 20, out_args=["__status__"])
    steps[fork] = {"type": "parallel", "next_steps": heads, "on_completion": END}
    return playbook({**starts(fork), **steps}, {"__status__": NUMBER})


def fails():
    """A run that ends failed: an action that its filter refuses, in a branch, and then the exception of the playbook, which is refused too."""
    ask, refused, again = identifier("if-condition", 1), identifier("action", 1), identifier("action", 2)
    steps = {
        ask: {"type": "if-condition", "condition": "__n__:value = 1", "on_true": refused, "on_success": END},
        refused: action({"action": "scan", "target": {"file": {}}}, {"on_success": END}),
        again: action({"action": "update", "target": {"file": {"name": "other.rules"}}}, {"on_success": END}),
    }
    return playbook({**starts(ask), **steps}, {"__n__": {"type": "integer", "value": "1"}}, workflow_exception=again)


def long_commands(count, size):
    """Actions one after another whose commands have about `size` bytes each, so that a write is long."""
    keys = [identifier("action", place) for place in range(count)] + [END]
    steps = {}
    for place, key in enumerate(keys[:-1]):
        steps[key] = action(deny(f"10.1.{place}.0/24", actuator={"x": "y" * size}), {"on_completion": keys[place + 1]})
    return playbook({**starts(keys[0]), **steps})


class Case:
    """Words that are played one after another, over files that they name, until the run has ended."""

    def __init__(self, name, files, words):
        self.name, self.files, self.stages = name, files, [words]

    def answered(self, issue):
        """Adds a stage in which an operator's issue is answered, too; answers the name and the text of its file."""
        name = f"answers-{len(self.stages)}.txt"
        told = b"".join(self.files.get(f"answers-{stage}.txt", b"") for stage in range(1, len(self.stages)))
        self.files[name] = told + f"{RUN} {issue} 200 done\n".encode()
        self.stages.append([*self.stages[0], "--answers", name])
        return name, self.files[name]


def case(name, book, *libraries, bind=None):
    files, words = {"book.json": text_of(book)}, ["run", "--run", str(RUN)]
    if bind:
        files["bind.json"] = text_of(bind)
        words += ["--bind", "bind.json"]
    names = [f"library-{place}.json" for place in range(len(libraries))]
    files.update({at: text_of(library) for at, library in zip(names, libraries)})
    return Case(name, files, [*words, "book.json", *names])


def made_cases():
    four = {"agents": {agent: place + 1 for place, agent in enumerate(AGENTS)}}
    return [
        case("made: a loop of 60 turns, 304 records", loop(60)),
        case("made: 8 branches of 4 actions on 4 filters, with delays", branches(8, 4), bind=four),
        case("made: a run that ends failed", fails()),
        case("made: 6 commands of 60,000 bytes", long_commands(6, 60_000)),
    ]


def called_by(book):
    return {step["playbook_id"] for step in book["workflow"].values() if "playbook_id" in step}


REFUSED = {"tour-misspelt.json"}  # by the rules, as the tour shows: it has no run


def example_cases(folder):
    """A case for each playbook of the folder, with those that it calls as libraries."""
    texts = {}
    for name in sorted(os.listdir(folder)):
        if name.endswith(".json"):
            with open(os.path.join(folder, name), "rb") as file:
                texts[name] = file.read()
    books = {name: json.loads(text) for name, text in texts.items()}
    names_of = {book["id"]: name for name, book in books.items() if "id" in book}
    found = []
    for name, book in books.items():
        if book.get("type") != "playbook" or name in REFUSED:
            continue
        wanted, seen = [name], {name}
        for at in wanted:
            for called in sorted(called_by(books[at]) & set(names_of)):
                if names_of[called] not in seen:
                    seen.add(names_of[called])
                    wanted.append(names_of[called])
        found.append(Case(f"examples/{name}", {at: texts[at] for at in wanted}, ["run", "--run", str(RUN), *wanted]))
    return found


def short(cases):
    """The case of the shortest run that ends well with one act, which most trials of a single case take."""
    return next((case for case in cases if case.name.endswith("block-a-host.json")), cases[0])
