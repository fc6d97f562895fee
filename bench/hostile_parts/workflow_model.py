"""A run of a playbook, by docs/WORKFLOW.md, by itself: which record comes next, and what it changes. It takes playbooks as `turns` makes them:
conditions without parentheses, no calls of other playbooks, and each agent is filter 1."""
import json
import re

from .journal import line_front

REFERENCE = re.compile(r"(__[A-Za-z0-9_-]{1,60}__):value")
COMPARED = re.compile(r"(__[A-Za-z0-9_-]{1,60}__):value (=|!=|<|<=|>|>=) (.*)")
WHOLE = re.compile(r"-?(0|[1-9][0-9]*)")
ORDERS = {"<": lambda a, b: a < b, "<=": lambda a, b: a <= b, ">": lambda a, b: a > b, ">=": lambda a, b: a >= b}
OPERATOR = 0  # the agent of an issue that an operator is asked


class Task:
    def __init__(self, parent, scope, step, moment):
        self.parent, self.scope, self.excepted = parent, scope, False
        self.go(step, moment)

    def go(self, step, moment):
        self.step, self.inner, self.phase = step, None, ("at", moment)


class Run:
    """A run that has begun: its tasks, scopes and issues, and the lines of its records."""

    def __init__(self, number, book, moment):
        self.number, self.book, self.steps = number, book, book["workflow"]
        self.scopes, self.issues, self.lines, self.upgraded = [], [], [], False
        self.tasks = [Task(None, self.open(None, book.get("playbook_variables", {})), book["workflow_start"], moment)]
        self.told(moment, f"begin {number}")

    # -- values ------------------------------------------------------------------------------------------------------------------------------

    def open(self, around, variables):
        """A new scope: each name's kind and its text, None where it has none."""
        self.scopes.append((around, {name: [one["type"], one.get("value")] for name, one in variables.items()}))
        return len(self.scopes) - 1

    def home(self, scope, name):
        """The kind and the text of a name, where it is declared first from a scope outwards."""
        while scope is not None:
            around, names = self.scopes[scope]
            if name in names:
                return names[name]
            scope = around
        return [None, None]

    def filled(self, value, scope):
        """A content with its references replaced."""
        if isinstance(value, dict):
            return {name: self.filled(one, scope) for name, one in value.items()}
        if isinstance(value, list):
            return [self.filled(one, scope) for one in value]
        if not isinstance(value, str):
            return value
        whole = REFERENCE.fullmatch(value)
        kind, text = self.home(scope, whole[1]) if whole else (None, None)
        if kind in ("integer", "long") and text is not None and WHOLE.fullmatch(text):
            return int(text)
        return REFERENCE.sub(lambda found: self.home(scope, found[1])[1] or "", value)

    def holds(self, condition, scope):
        return any(all(self.compares(one, scope) for one in part.split(" AND ")) for part in condition.split(" OR "))

    def compares(self, text, scope):
        name, order, constant = COMPARED.fullmatch(text).groups()
        kind, value = self.home(scope, name)
        is_whole = kind in ("integer", "long")
        if value is None or (value == "" and is_whole):
            return False
        if is_whole and WHOLE.fullmatch(constant):
            same, pair = int(value) == int(constant), (int(value), int(constant))
        elif not is_whole and constant.startswith("'"):
            same, pair = value == constant[1:-1], (value.encode(), constant[1:-1].encode())
        else:
            same, pair = value == constant.strip("'"), None
        if order in ("=", "!="):
            return same == (order == "=")
        return pair is not None and ORDERS[order](*pair)

    # -- how a task goes on ------------------------------------------------------------------------------------------------------------------

    def finish(self, task, well, moment):
        step = self.steps[task.step]
        following = step.get("on_completion") or step.get("on_success" if well else "on_failure")
        if following:
            task.go(following, moment)
        elif well:
            task.phase = ("ended", True)
        elif task is self.tasks[0] and not task.excepted and "workflow_exception" in self.book:
            task.excepted = True
            task.go(self.book["workflow_exception"], moment)
        else:
            task.phase = ("ended", False)

    def fork(self, task, heads, since, moment):
        """A task for each branch that is taken; the step succeeds where none is."""
        if not heads:
            return self.finish(task, True, moment)
        number = self.tasks.index(task)
        task.phase = ("joining", len(self.tasks) if since is None else since)
        self.tasks += [Task(number, task.inner, head, moment) for head in heads]
        return None

    def heads(self, step, scope):
        kind = step["type"]
        if kind == "parallel":
            return step["next_steps"]
        if kind == "switch-condition":
            value = self.home(scope, REFERENCE.fullmatch(step["switch"])[1])[1]
            head = step["cases"].get(value) if value is not None else None
            return [one for one in [head or step["cases"].get("default")] if one]
        if self.holds(step["condition"], scope):
            return [step["on_true"]]
        return [step["on_false"]] if step.get("on_false") else []

    def walk(self, task, moment):
        self.told(moment, f"walk {self.tasks.index(task)} {task.step}")
        step = self.steps[task.step]
        if task.phase[0] == "joining":
            below = [one for one in self.children(task) if one.phase == ("ended", False)]
            if below:
                return self.finish(task, False, moment)
            if step["type"] == "while-condition" and self.holds(step["condition"], task.inner):
                return self.fork(task, [step["on_true"]], task.phase[1], moment)
            return self.finish(task, True, moment)
        if step["type"] == "start":
            return self.finish(task, True, moment)
        if step["type"] == "end":
            task.phase = ("ended", True)
            return None
        task.inner = self.open(task.scope, step.get("step_variables", {}))
        if step["type"] == "action":
            task.phase = ("sending", 0)
            return None
        return self.fork(task, self.heads(step, task.inner), None, moment)

    def children(self, task):
        number = self.tasks.index(task)
        return [one for one in self.tasks[task.phase[1] :] if one.parent == number]

    def places(self, task):
        """What an action sends and asks, in order: the content or the question, and whether an operator is asked."""
        found, step = [], self.steps[task.step]
        for command in step["commands"]:
            if command["type"] == "manual":
                found.append((command["command"], True))
            else:
                found += [(json.loads(command["content"]), False)] * (len(step.get("targets", [])) or 1)
        return found

    # -- what comes next ---------------------------------------------------------------------------------------------------------------------

    def can_move(self, task, now):
        phase = task.phase
        if phase[0] == "at":
            return now >= phase[1] + self.steps[task.step].get("delay", 0)
        return phase[0] == "sending" or (phase[0] == "joining" and all(one.phase[0] == "ended" for one in self.children(task)))

    def move(self, now):
        """Makes the next move, that of the least task that has one; answers whether there was one, and the issue that is put, if it was a Send."""
        task = next((one for one in self.tasks if self.can_move(one, now)), None)
        if task is None:
            return False, None
        if task.phase[0] != "sending":
            self.walk(task, now)
            return True, None
        place = task.phase[1]
        content, is_asked = self.places(task)[place]
        if is_asked and not self.upgraded:
            self.upgrade(now)
            return True, None
        number, command = len(self.issues), self.filled(content, task.inner)
        task.phase = ("awaiting", place, number)
        self.issues.append({"task": task, "agent": OPERATOR if is_asked else 1, "command": command, "moment": now, "waits": True})
        if is_asked:
            self.told(now, f"ask {number} {json.dumps(command)}")
            return True, None
        self.told(now, f"send {number} 1")
        return True, number

    def upgrade(self, now):
        self.upgraded = True
        self.told(now, "upgrade 2")

    def answered(self, issue, status, rule, text, now, word="reply"):
        one = self.issues[issue]
        one["waits"] = False
        self.told(now, f"{word} {issue} {status}")
        task = one["task"]
        names = self.steps[task.step].get("out_args", [])
        for name, worth in zip(names, (str(status), str(rule) if rule else None, text)):
            if worth is not None:
                self.home(task.inner, name)[1] = worth
        if status != 200:
            self.finish(task, False, now)
        elif task.phase[1] + 1 < len(self.places(task)):
            task.phase = ("sending", task.phase[1] + 1)
        else:
            self.finish(task, True, now)

    def expired(self, issue, now):
        one = self.issues[issue]
        one["waits"] = False
        self.told(now, f"expire {issue}")
        self.finish(one["task"], False, now)

    def takes(self, record):
        """Makes what a record of a journal says, where it may come next and is the least task's; answers whether it is."""
        kind, now, number = record["kind"], record["moment"], len(self.lines)
        if now < self.last or self.outcome is not None:
            return False
        if kind in ("reply", "expire", "told"):
            issue = record["issue"]
            if issue >= len(self.issues) or not self.issues[issue]["waits"]:
                return False
            if kind == "expire":
                step = self.steps[self.issues[issue]["task"].step]
                is_late = now >= self.issues[issue]["moment"] + step.get("timeout", 60_000)
                self.expired(issue, now)
                return is_late
            self.answered(issue, record["status"], record.get("rule", 0), record["text"].decode(), now, kind)
            return True
        moved, issue = self.move(now)
        return moved and self.lines[-1].startswith(line_front(number, record)) and (issue is None or self.is_sent(issue, record["command"]))

    def is_sent(self, issue, text):
        """Whether these are the bytes of the command that is put."""
        command = dict(self.issues[issue]["command"])
        command["command_id"] = f"{self.number}.{issue}"
        command["args"] = {**command.get("args", {}), "response_requested": "complete"}
        return json.loads(text) == command

    def told(self, moment, text):
        self.lines.append(f"{len(self.lines)} {moment} {text}")
        self.last = moment

    @property
    def outcome(self):
        """Whether the run ended well, None while it goes on."""
        phase = self.tasks[0].phase
        return phase[1] if phase[0] == "ended" else None

    def due(self):
        """The least moment at which a delay or a deadline runs out, None where there is none."""
        delays = [task.phase[1] + self.steps[task.step].get("delay", 0) for task in self.tasks if task.phase[0] == "at"]
        ends = [one["moment"] + self.steps[one["task"].step].get("timeout", 60_000) for one in self.issues if one["waits"] and one["agent"]]
        return min([*delays, *ends], default=None)

    def waiting(self, of_operator):
        """The issues that wait, of filters or of operators."""
        return [number for number, one in enumerate(self.issues) if one["waits"] and (one["agent"] == OPERATOR) == of_operator]
