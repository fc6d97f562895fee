#!/usr/bin/env python3
"""Plays many fleets on racks in memory under weather, by the program `test_sessions`, and prints what was played and what was found.

usage: fleet_weather.py PROGRAM [--fleets N] [--seed N] [--jobs N] [--refused N]
  --fleets N    how many fleets, 50 a folder, each folder with twelve random playbooks beside those of the program's own rows
  --refused N   how many more, each in a process of its own, in which one request for memory, by chance, is refused

PROGRAM is `crates/test_sessions/out/test_sessions`, which `rt run` leaves there, or what
`bench/launcher_parts/unproved_build.py FILE test_sessions` builds. It ends with status 1 where anything was found.
"""
import argparse
import collections
import concurrent.futures
import json
import os
import random
import re
import sys
import tempfile

from hostile import shim
from hostile_parts.books import identifier
from hostile_parts.play import Folder, Program
from hostile_parts.random_books import random_book

TOP = os.path.dirname(os.path.dirname(os.path.realpath(__file__)))
BOOKS = "weather_books.rows"
ROWS = f"{TOP}/crates/test_sessions/data/{BOOKS}"
FOLDER = 50
FRONT = identifier("", 0)[:-2]


def words():
    parser = argparse.ArgumentParser(description=__doc__, formatter_class=argparse.RawDescriptionHelpFormatter)
    parser.add_argument("program")
    parser.add_argument("--fleets", type=int, default=2000)
    parser.add_argument("--seed", type=int, default=1)
    parser.add_argument("--jobs", type=int, default=1)
    parser.add_argument("--refused", type=int, default=0)
    return parser.parse_args()


def row(draw):
    """A random playbook as a row, its identifiers cut to their types and their last two digits."""
    book = {**random_book(draw, with_questions=draw.random() < 0.3), "id": identifier("playbook", draw.randrange(256))}
    return "random\t" + json.dumps(book, separators=(",", ":")).replace(FRONT, "--").replace("\\", "\\\\") + "\n"


def rows(draw):
    with open(ROWS, encoding="utf-8") as file:
        return (file.read() + "".join(row(draw) for _ in range(12))).encode()


class Sums:
    """What was counted in all plays, by the names that the program prints, and what was found."""

    def __init__(self):
        self.counts, self.findings = collections.Counter(), 0

    def find(self, text):
        self.findings += 1
        print(f"FOUND {text}", flush=True)

    def take(self, where, played, may_stop):
        """Takes in one process. Where memory is refused it may end before its counts, as the play itself wants memory."""
        for line in played.lines:
            if line.startswith("seed "):
                self.find(f"{where}: {line}")
                continue
            told = {name: int(count) for name, count in re.findall(r"([a-z ]*[a-z]) (\d+)(?:, |$)", line)}
            self.counts.update(told)
            if told.get("for want of memory") and not may_stop:
                self.find(f"{where}: {line}")
        is_whole = any(line.startswith("fleets ") for line in played.lines)
        if not is_whole:
            self.counts["ended before their counts"] += 1
        if played.status is None or played.status < 0 or not (is_whole or may_stop):
            self.find(f"{where}: {played}")


def play(program, where, seed, count, refused):
    draw = random.Random(where)
    with Folder({BOOKS: rows(draw)}) as folder:
        asked = {"REFUSE": draw.randrange(1, refused)} if refused else None
        return where, program.play(folder, [str(count), str(seed)], shim=asked)


def requests(program):
    """How many requests for memory one fleet makes, by the greatest of five."""
    with Folder({BOOKS: rows(random.Random(0))}) as folder:
        told = [program.counts(folder, ["1", str(seed)]) for seed in range(5)]
    return max(one["requests"] for one in told if one) if any(told) else 0


def plays(pool, program, asked):
    folders = (asked.fleets + FOLDER - 1) // FOLDER
    for number in range(folders):
        count = min(FOLDER, asked.fleets - FOLDER * number)
        yield pool.submit(play, program, f"seed {asked.seed}, folder {number}", 1_000_000 * asked.seed + FOLDER * number, count, 0)
    most = requests(program) if asked.refused else 0
    for number in range(asked.refused if most else 0):
        yield pool.submit(play, program, f"seed {asked.seed}, refused {number}", 1_000_000 * asked.seed + 500_000 + number, 1, most)


def main():
    asked, sums = words(), Sums()
    with tempfile.TemporaryDirectory(prefix="hostile-program-") as folder, concurrent.futures.ProcessPoolExecutor(asked.jobs) as pool:
        program = Program(os.path.realpath(asked.program), shim(folder))
        for done in list(plays(pool, program, asked)):
            where, played = done.result()
            sums.take(where, played, "refused" in where)
    print(", ".join(f"{name} {count:,}" for name, count in sums.counts.items()))
    return 1 if sums.findings else 0


if __name__ == "__main__":
    sys.exit(main())
