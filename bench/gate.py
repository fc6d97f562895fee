#!/usr/bin/env python3
"""Measures what the gate costs, crate by crate, and says how long it would take on another machine.

    bench/gate.py measure [LOG [NAME ..]]     # runs `rt ci` (of these crates alone, for a trial) and writes the log (gate.log); ends with its status
    bench/gate.py table LOG                   # prints what each crate cost, in Markdown
    bench/gate.py simulate LOG [--processors N] [--memory GB]     # prints the minutes by the clock, by the order of work of `rt` itself

`measure` looks four times a second at the processes that `rt ci` starts, and tells by their words what each does. What such a process
took, with all that it started, is told by the sum that the system keeps for `rt` of those that ended: so nothing is lost between two
looks, and the tasks add up to the total that the shell's `time` tells. Seconds are processor seconds, where nothing else is said.
"""
import argparse
import pathlib
import sys

HERE = pathlib.Path(__file__).resolve().parent
sys.path[:0] = [str(HERE / "gate_parts"), str(HERE / "launcher_parts")]
sys.dont_write_bytecode = True

import measuring  # noqa: E402
import simulating  # noqa: E402
import table  # noqa: E402
from log import Log  # noqa: E402


def main():
    said = argparse.ArgumentParser(description=__doc__, formatter_class=argparse.RawDescriptionHelpFormatter)
    verbs = said.add_subparsers(dest="verb", required=True)
    verb = verbs.add_parser("measure")
    verb.add_argument("log", nargs="?", default="gate.log")
    verb.add_argument("names", nargs="*")
    verbs.add_parser("table").add_argument("log")
    verb = verbs.add_parser("simulate")
    verb.add_argument("log")
    verb.add_argument("--processors", type=int)
    verb.add_argument("--memory", type=float, help="free memory in GB (10^9 bytes) when it begins")
    asked = said.parse_args()
    if asked.verb == "measure":
        return measuring.measure(HERE.parent, pathlib.Path(asked.log).resolve(), asked.names)
    read = Log.read(asked.log)
    if asked.verb == "table":
        table.show(read)
    else:
        simulating.show(read, asked.processors, asked.memory)
    return 0


if __name__ == "__main__":
    try:
        sys.exit(main())
    except BrokenPipeError:
        # (whoever reads has enough, as head does)
        sys.stderr.close()
