#!/usr/bin/env python3
"""Plays the built program as a hostile world would, on real files in temporary folders, and prints what was tried and what was found.

usage: hostile.py [PROGRAM] [--view PROGRAM] [--rounds N] [--jobs N] [--seed N] [--only PART].. [--examples FOLDER]
  kill    `run` is killed at random moments, and played again until it ends
  stop    `run` is stopped before each of its calls to the outside, also with torn writes
  lies    the same on a disk that syncs nothing: there something has to be found, or the comparison sees nothing
  memory  each request for memory is refused
  fault   each call to the outside fails, or moves one byte
  disk    full disks, limits, files without permission, closed outputs, folders in the place of files
  depth   the longest chains and the deepest nests that the limits allow, on a stack of 8 MiB
  rows    bad input: cut files, broken bytes, texts at the edge of a limit
  hands   several programs in one folder at one time, as often as there are rounds
  beside  the same, one of them a fleet
  loop    the time of a long run with a reader in a loop beside it: alone (`--jobs 1`), on a machine that does nothing else
  pair    two processes over a socket: killed, refused, failed on either side; hostile clients and servers; others beside them
  fleet   fleets of two to five runs, killed, stopped, refused, failed, and taken on; as many as there are rounds
  turns   fleets of random playbooks that nothing disturbs, each line against a model; as many as there are rounds
  looks   the second program over hostile texts and journals, beside a run, and with refused memory
PROGRAM is the one that `./prove` leaves, if none is named; that of `--view` the one that `./prove cacao-view` leaves, for `looks`. It ends with status 1 where anything was found. docs/HOSTILE.md says what is compared.
"""
import argparse
import concurrent.futures
import os
import random
import shutil
import subprocess
import sys
import tempfile

from hostile_parts import books, depth, disk, fleets, hands, hands_fleets, hands_loop, looks, peers, play, rows, stops, turns

HERE = os.path.dirname(os.path.realpath(__file__))
TOP = os.path.dirname(HERE)
PARTS = {
    "kill": stops.kill,
    "stop": stops.stop,
    "lies": stops.lies,
    "memory": stops.memory,
    "fault": stops.faults,
    "disk": disk.disk,
    "depth": depth.depth,
    "rows": rows.rows,
    "hands": hands.hands,
    "beside": hands_fleets.beside,
    "loop": hands_loop.loops,
    "pair": peers.pair,
    "fleet": fleets.fleets,
    "turns": turns.turns,
    "looks": looks.looks,
}


def words():
    parser = argparse.ArgumentParser(description=__doc__, formatter_class=argparse.RawDescriptionHelpFormatter)
    parser.add_argument("program", nargs="?")
    parser.add_argument("--view")
    parser.add_argument("--rounds", type=int, default=100)
    parser.add_argument("--jobs", type=int, default=1)
    parser.add_argument("--seed", type=int, default=1)
    parser.add_argument("--only", action="append", choices=PARTS)
    parser.add_argument("--examples", default=f"{TOP}/examples")
    return parser.parse_args()


def built(*words):
    """The proved program of these words of `./prove`, which is proved first where it is missing or made of other sources."""
    subprocess.run([f"{TOP}/prove", *words], check=True)
    return f"{TOP}/.build/{'cacao_view_main' if words else 'cacao'}"


def second(asked, folder, library):
    """The program that only looks, where it is to be played."""
    if asked.view is None and asked.only and "looks" not in asked.only:
        return None
    return play.Program(shutil.copy(asked.view or built("cacao-view"), f"{folder}/cacao-view"), library)


def shim(folder):
    """The library that stands between the program and the C library; None where there is no C compiler."""
    library = f"{folder}/hostile_shim.so"
    compiled = subprocess.run(["cc", "-O1", "-shared", "-fPIC", "-o", library, f"{HERE}/hostile_shim.c", "-ldl"], check=False) if shutil.which("cc") else None
    return library if compiled and compiled.returncode == 0 else None


def play_part(part, program, cases, rounds, seed):
    """What was tried and found in one part."""
    table = play.Table()
    program.leave_no_cores()
    PARTS[part](program, cases, table, rounds, random.Random(seed))
    return table


def main():
    asked = words()
    table = play.Table()
    with tempfile.TemporaryDirectory(prefix="hostile-program-") as folder:
        # A copy, so that any user may run it, and so that a build beside this does not change it.
        os.chmod(folder, 0o755)
        library = shim(folder)
        program = play.Program(shutil.copy(asked.program or built(), f"{folder}/cacao"), library, second(asked, folder, library))
        cases = [*books.example_cases(asked.examples), *books.made_cases()]
        with concurrent.futures.ProcessPoolExecutor(asked.jobs) as pool:
            for played in [pool.submit(play_part, part, program, cases, asked.rounds, asked.seed) for part in asked.only or PARTS]:
                table.add(played.result())
    table.print()
    return 1 if table.findings else 0


if __name__ == "__main__":
    sys.exit(main())
