#!/usr/bin/env python3
"""A plain interpreter of the control steps of a playbook: goes on for so many records, which it keeps in a list.

usage: interpreter.py BOOK RECORDS

A record is `("begin", run)` or `("walk", task)`. A walk takes its task on from the step at which it stands: a start goes on, an if-condition that does
not hold and a while-condition that does not hold go on, one that holds makes a task for its branch and waits, and an end ends its task.
"""
import collections
import json
import operator
import sys

COMPARE = {"<": operator.lt, "=": operator.eq, ">": operator.gt}


class Task:
    def __init__(self, number, parent, step):
        self.number, self.parent, self.step, self.waits = number, parent, step, False


class Run:
    def __init__(self, book):
        self.steps, self.records = book["workflow"], [("begin", 7)]
        self.values = {name: declared.get("value") for name, declared in book.get("playbook_variables", {}).items()}
        self.tasks = [Task(0, None, book["workflow_start"])]
        self.ready = collections.deque(self.tasks)

    def holds(self, condition):
        """Whether the condition holds, a variable beside a number; one without a value never does."""
        name, compare, number = condition.split()
        value = self.values[name.removesuffix(":value")]
        return value is not None and COMPARE[compare](int(value), int(number))

    def walk(self):
        """The record of the task that is ready first, and what it changes."""
        task = self.ready.popleft()
        step = self.steps[task.step]
        self.records.append(("walk", task.number))
        if step["type"] == "end":
            task.step = None
            if task.parent:
                self.ready.append(task.parent)
        elif "condition" in step and not task.waits and self.holds(step["condition"]):
            task.waits = step["type"] == "if-condition"
            child = Task(len(self.tasks), task, step["on_true"])
            self.tasks.append(child)
            self.ready.append(child)
        else:
            task.step, task.waits = step["on_completion"], False
            self.ready.append(task)

    def go_on(self, count):
        while self.ready and len(self.records) < count:
            self.walk()


def main(name, count):
    with open(name, encoding="utf-8") as file:
        run = Run(json.load(file))
    run.go_on(int(count))
    print(len(run.records))


if __name__ == "__main__":
    main(*sys.argv[1:])
