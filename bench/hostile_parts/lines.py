"""The lines between two processes, by docs/FORMATS.md, by itself: what a line carries, and what `filters` answers to it."""
import re

MOST_TEXT = 1_048_576
MOST_LINE = 1_048_610  # with its line feed
MOST_IDLE = 1_000_000
NUMBER = rb"(0|[1-9][0-9]{0,15})"
COMMAND = re.compile(rb"c " + NUMBER + rb" " + NUMBER + rb" " + NUMBER + rb" (.*)", re.DOTALL)


def command(line):
    """The agent, the run, the issue and the text of a line that carries a command, None of any other."""
    found = COMMAND.fullmatch(line)
    if not found:
        return None
    agent, run, issue = (int(found[place]) for place in (1, 2, 3))
    right = 1 <= agent <= 16 and 1 <= run <= 9_007_199_254_740_991 and issue <= 4_294_967_295 and len(found[4]) <= MOST_TEXT
    return (agent, run, issue, found[4]) if right else None


def answers(sent):
    """What begins each line that `filters` answers to these bytes, in their order."""
    return [b"r %d %d %d " % told[:3] if (told := command(line)) else b"n" for line in sent.split(b"\n")[:-1]]


def agree(sent, came):
    """Whether these bytes are the answers to those, to each line one."""
    lines, wanted = came.split(b"\n"), answers(sent)
    return lines[-1] == b"" and len(lines) - 1 == len(wanted) and all(line == b"n" if front == b"n" else line.startswith(front) for line, front in zip(lines, wanted))
