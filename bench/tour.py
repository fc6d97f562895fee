#!/usr/bin/env python3
"""Plays docs/TOUR.md and examples/README.md: each command in the order of the page, and compares the lines that come with those of the page.
The tour is one play, which begins in an empty folder; of the examples each begins in one of its own.

    bench/tour.py              # with the launchers of this repository
    bench/tour.py -v           # says each command too

A line `..` of the page stands for any lines. What wants a second terminal is left out, with all behind it in its play. Ends with 1 where
a command gives other lines.
"""
import os
import pathlib
import subprocess
import sys
import tempfile

ROOT = pathlib.Path(__file__).resolve().parent.parent
# It waits for who connects to it.
SECOND_TERMINAL = "cacao filters"


def plays(page):
    """The commands of the page, each with the lines that are to come."""
    found = []
    for line in page.split("\n"):
        if line.startswith("    $ "):
            if line[6:] == SECOND_TERMINAL:
                return found
            found.append((line[6:], []))
        elif line.startswith("    ") and found:
            found[-1][1].append(line[4:])
    return found


def pages():
    """The name of each play, and its text."""
    yield "the tour", (ROOT / "docs" / "TOUR.md").read_text(encoding="utf-8")
    for text in (ROOT / "examples" / "README.md").read_text(encoding="utf-8").split("\n## ")[1:]:
        yield f"the example {text.splitlines()[0]!r}", text


def agrees(wanted, came):
    """Whether the lines are those that are wanted, where `..` stands for any."""
    if not wanted:
        return not came
    if wanted[0] == "..":
        return any(agrees(wanted[1:], came[skip:]) for skip in range(len(came) + 1))
    return bool(came) and wanted[0] == came[0] and agrees(wanted[1:], came[1:])


def played(command, folder, status):
    """The lines that a command gives in a folder, behind one that ended with this status; and its own status."""
    script = f"(exit {status})\n{command}"
    paths = {**os.environ, "PATH": f"{ROOT}:{os.environ['PATH']}"}
    done = subprocess.run(["bash", "-c", script], cwd=folder, env=paths, stdout=subprocess.PIPE, stderr=subprocess.DEVNULL, check=False)
    return done.stdout.decode().split("\n")[:-1], done.returncode


def play(text, is_loud):
    """How many commands of a play give other lines than are to come."""
    broken, status = 0, 0
    with tempfile.TemporaryDirectory() as folder:
        os.symlink(ROOT / "examples", pathlib.Path(folder) / "examples")
        for command, wanted in plays(text):
            came, status = played(command, folder, status)
            if is_loud:
                print(f"$ {command}", flush=True)
            if not agrees(wanted, came):
                broken += 1
                print("\n".join([f"$ {command}", "wanted:", *wanted, "came:", *came]), flush=True)
    return broken


def main(words):
    breaks = 0
    for name, text in pages():
        broken = play(text, "-v" in words)
        print(f"{name}: {broken or 'no'} {'break' if broken == 1 else 'breaks'}", flush=True)
        breaks += broken
    return 1 if breaks else 0


if __name__ == "__main__":
    sys.exit(main(sys.argv[1:]))
