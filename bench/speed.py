#!/usr/bin/env python3
"""Measures the built program beside other programs, all in one run, and prints ratios: lines as it goes, and then a table.

usage: speed.py [--small] [--program FILE] [--folder FOLDER] [--rounds N] [ROW..]
  canon    the canonical text of 1 MB, beside a Rust program over serde_json (bench/canon_rust), jq and Python
  check    4,096 steps and heavy sharing, and half of each, beside Python's reading of the same file
  durable  records a second on real files, beside a bare loop that writes as many bytes and syncs as often, and SQLite
  show     `show` and taking on a run with a journal near 64 MiB, beside `wc -c` and a Python parser of the layout
  steps    the records of a loop in memory (test_speed), beside a plain Python interpreter of it
  decide   packets over 65,536 rules and over 256, and a plain scan (test_speed)
  start    a short run from start to exit, beside `true` and jq
  fleet    the records of 16 runs side by side, beside as many of one run
  pair     commands and replies over a socket, beside two bare processes that send as much and sync as often
--small takes a few seconds a row, and its figures say little. FOLDER is where files are made, on the disk that is measured.
A tool that this machine lacks is left out. The programs are built first where they are missing, which takes long.
docs/SPEED.md says what came of it and what limits it.
"""
import argparse
import os
import platform
import subprocess
import tempfile
import time

from measure import Report
from speed_parts import canon, check, decide, durable, fleet, pair, show, start, steps

HERE = os.path.dirname(os.path.realpath(__file__))
TOP = os.path.dirname(HERE)
ROWS = {
    "canon": canon.measure,
    "check": check.measure,
    "durable": durable.measure,
    "show": show.measure,
    "steps": steps.measure,
    "decide": decide.measure,
    "start": start.measure,
    "fleet": fleet.measure,
    "pair": pair.measure,
}


class Bench:
    """Where and how often it is measured, the program, and the report."""

    def __init__(self, asked, program, folder):
        self.program, self.folder, self.small = program, folder, asked.small
        self.rounds = asked.rounds or (3 if asked.small else 15)
        self.report = Report()

    def path(self, name):
        return os.path.join(self.folder, name)

    def write(self, name, data):
        with open(self.path(name), "wb") as file:
            file.write(data)
        return self.path(name)

    def built(self, crate):
        """The program of a crate, which is proved and built where that is to be done."""
        # By this word the program tells how it is called.
        made = subprocess.run(["rt", "run", "--", "help"], cwd=f"{TOP}/crates/{crate}", stdout=subprocess.DEVNULL, stderr=subprocess.PIPE, check=False)
        if made.returncode:
            raise SystemExit(made.stderr.decode())
        return f"{TOP}/crates/{crate}/out/{crate}"


def words():
    parser = argparse.ArgumentParser(description=__doc__, formatter_class=argparse.RawDescriptionHelpFormatter)
    parser.add_argument("rows", nargs="*", metavar="ROW")
    parser.add_argument("--small", action="store_true")
    parser.add_argument("--program")
    parser.add_argument("--folder")
    parser.add_argument("--rounds", type=int)
    asked = parser.parse_args()
    if set(asked.rows) - set(ROWS):
        parser.error(f"a ROW is one of {', '.join(ROWS)}")
    return asked


def built():
    """The proved program, which is proved first where it is missing or made of other sources."""
    subprocess.run([f"{TOP}/prove"], check=True)
    return f"{TOP}/.build/cacao"


def machine(report):
    """Says when and where it is measured, and how busy the machine is."""
    with open("/proc/cpuinfo", encoding="utf-8") as file:
        names = [line.partition(":")[2].strip() for line in file if line.startswith("model name")]
    when = time.strftime("%Y-%m-%d %H:%M UTC", time.gmtime())
    report.say(f"{when}, {len(names)} processors {names[0] if names else ''}, Linux {platform.release()}, load {os.getloadavg()[0]:.1f}")


def main():
    asked = words()
    program = os.path.abspath(asked.program) if asked.program else built()
    with tempfile.TemporaryDirectory(prefix="speed-", dir=asked.folder) as folder:
        bench = Bench(asked, program, folder)
        machine(bench.report)
        for row in asked.rows or ROWS:
            ROWS[row](bench)
        bench.report.print()


if __name__ == "__main__":
    main()
