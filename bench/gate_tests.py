#!/usr/bin/env python3
"""Tries bench/gate.py on a stand-in for `rt ci` whose processes are known: some seconds.

    bench/gate_tests.py
"""
import io
import pathlib
import resource
import subprocess
import sys
import tempfile
import unittest
from contextlib import redirect_stdout

HERE = pathlib.Path(__file__).resolve().parent
sys.path[:0] = [str(HERE / "gate_parts"), str(HERE / "launcher_parts")]
sys.dont_write_bytecode = True

import measuring  # noqa: E402
import processes  # noqa: E402
import simulating  # noqa: E402
import table  # noqa: E402
from log import Crate, Log, Task  # noqa: E402

# What stands for `rt ci`: side by side and one behind another, long and shorter than two looks, in threads, with children of their own.
RT = r"""
import os, subprocess, sys, threading, time
burn = "import os, sys, time\nwhile sum(os.times()[:2]) < float(sys.argv[1]): pass"
nested = "import os, subprocess, sys; subprocess.run([os.readlink('/proc/self/exe'), '-c', %r, sys.argv[1]])" % burn
join = "import os, sys; os.execv(sys.argv[1], ['/kit/bin/rattle', *sys.argv[2:]])"

def rattle(seconds, *words, code=burn, cwd="/"):
    subprocess.run([sys.executable, "-ISc", join, sys.executable, "-c", code, str(seconds), *words], cwd=cwd)

def many(number):
    for it in range(4):
        rattle(0.05, "check", "--crate-name", "quick")
    rattle(0.4, "build", "--crate-name", "low", "--jobs", "2")

threads = [threading.Thread(target=many, args=(it,)) for it in range(2)]
[it.start() for it in threads]
rattle(0.6, "build", "--crate-name", "high", "--test", code=nested)
[it.join() for it in threads]
os.makedirs(sys.argv[1] + "/rt-edit-7-x")
rattle(0.3, "check", "--crate-name", "low", "--incremental", "/tmp/y/0", cwd=sys.argv[1] + "/rt-edit-7-x")
sys.exit(3)
"""


class Measuring(unittest.TestCase):
    def test_the_tasks_add_up_to_what_the_system_tells(self):
        with tempfile.TemporaryDirectory() as room:
            path = pathlib.Path(room) / "log"
            before = resource.getrusage(resource.RUSAGE_CHILDREN)
            with open(path, "w", encoding="utf-8") as log:
                status = measuring.Run(subprocess.Popen([sys.executable, "-c", RT, room]), log).watch()
            after = resource.getrusage(resource.RUSAGE_CHILDREN)
            read = Log.read(path)
        whole = after.ru_utime + after.ru_stime - before.ru_utime - before.ru_stime
        told = sum(it.seconds for it in read.tasks) + float(read.facts["itself"]) + float(read.facts["unseen"])
        self.assertEqual((status, read.facts["status"]), (3, "3"))
        self.assertAlmostEqual(float(read.facts["total"]), whole, delta=0.02)
        self.assertAlmostEqual(told, whole, delta=0.02 * whole + 0.02)
        seconds = {}
        for it in read.tasks:
            seconds[it.crate, it.kind] = seconds.get((it.crate, it.kind), 0) + it.seconds
        # (each task also starts an interpreter, and may take the rest of one that was not seen)
        for task, least in ((("low", "proof"), 0.8), (("high", "tests"), 0.6), (("low", "edit"), 0.3)):
            self.assertGreaterEqual(seconds[task] + 0.02, least)
            self.assertLess(seconds[task], least + 0.7)
        self.assertEqual({it.jobs for it in read.tasks if (it.crate, it.kind) == ("low", "proof")}, {2})
        self.assertGreater(min(it.memory for it in read.tasks if it.crate != "quick"), 1_000_000)


class Words(unittest.TestCase):
    def told(self, words, folder="/c/crates/low"):
        return processes.told(words.split(" "), folder)

    def test_what_each_process_does(self):
        rattle = "/opt/rattle/bin/rattle"
        build = f"{rattle} build --crate-name low src/lib.rt --jobs 1"
        for words, folder, wanted in (
            (f"{build} --statements -o /c/crates/low/out/rlib/low.rlib", "/c/crates/low", ("proof", "low", "")),
            (f"{build} --test --toolchain /k --backend llvm -o out/low_tests.o", "/c/crates/low", ("tests", "low", "")),
            (f"{rattle} check --crate-name app src/main.rt -o /tmp/rt-proved-1-x/checked", "/c/crates/app", ("proof", "app", "")),
            (f"{rattle} build --crate-name app --crate-checked /x --backend rattle -o out/app.by-rattle.o", "/c/crates/app", ("compile", "app", "rattle")),
            ("/k/bin/rattle-link --target x -o out/app.by-rattle out/app.by-rattle.o", "/c/crates/app", ("link", "app", "")),
            ("/k/bin/rattle-link --target x -o out/low_tests out/low_tests.o", "/c/crates/low", ("tests link", "low", "")),
            ("llvm-nm -D --undefined-only -j /c/crates/app/out/app", "/c", ("link", "app", "")),
            (f"{rattle} check --crate-name low --incremental /tmp/rt-edits-1-x/seed", "/tmp/rt-edit-1-x", ("seed", "low", "")),
            (f"{rattle} check --crate-name low --incremental /tmp/rt-edits-1-x/12", "/tmp/rt-edit-1-x", ("edit", "low", "12")),
            (f"{rattle} check --crate-name low --jobs 1", "/tmp/rt-edit-1-x", ("edit", "low", "whole")),
            (f"{rattle} fmt --check /c/crates/low/src/lib.rt /c/crates/low/src/more.rt", "/c", ("format", "low", "")),
            ("setpriv --reuid 65534 /tmp/rt-run-1-x/bin/app canon", "/tmp/rt-run-1-x/data", ("run", "app", "")),
            ("/k/bin/rattle-test --seconds 60 /tmp/rt-run-1-x/bin/low_tests", "/tmp/rt-run-1-x/data", ("tests run", "low", "")),
            (f"/usr/bin/python3 -ISc import {build}", "/c/crates/low", ("proof", "low", "")),
            ("sh -c read", "/c", None),
        ):
            with self.subTest(words=words):
                self.assertEqual(self.told(words, folder), wanted)


def small_log():
    """Three crates, each above the one before it, and one beside them; the last is a program."""
    log = Log(facts={"kit": "a kit", "processors": "2", "free": "8000000000", "began": "now", "load": "0", "of": "all", "total": "1300", "itself": "10", "clock": "700", "status": "0"})
    for name, below, edits in (("low", [], 1), ("mid", ["low"], 2), ("app", ["mid", "low"], 0), ("beside", [], 0)):
        log.crates[name] = Crate(name, 100, 1_000_000_000, False, edits, name == "app", below)
    for kind, crate, detail, seconds in (("proof", "low", "", 100), ("proof", "mid", "", 200), ("proof", "app", "", 50), ("compile", "app", "llvm", 40), ("compile", "app", "rattle", 10), ("proof", "beside", "", 300), ("edit", "low", "whole", 90), ("seed", "mid", "", 180), ("edit", "mid", "0", 20), ("edit", "mid", "1", 30), ("seed", "mid", "", 10), ("run", "app", "", 60)):
        log.tasks.append(Task(kind, crate, detail, 0.0, float(seconds), float(seconds), 2_000_000_000, 1))
    return log


class Reading(unittest.TestCase):
    def test_the_longest_way(self):
        self.assertEqual(table.longest_way(small_log()), (400.0, ["low", "mid", "app"]))

    def test_the_table(self):
        said = io.StringIO()
        with redirect_stdout(said):
            table.show(small_log())
        for line in ("| `low` | 100 |  | 90 (1) |  |  | `app` | 50 |  |  | 110 |", "| proof | 10.8 |", "| edits | 5.5 |", "| programs | 1.8 |", "| all | 21.7 |", "planned 1.0 GB", "seen 2.0 GB"):
            self.assertIn(line, said.getvalue())

    def test_lines_that_are_read_again(self):
        log = small_log()
        for it in log.tasks:
            self.assertEqual(Task.of([str(word) for word in it.line()[1:]]), it)
        for it in log.crates.values():
            self.assertEqual(Crate.of(it.line()[1:]), it)


class Simulating(unittest.TestCase):
    def test_one_processor_does_all_in_turn(self):
        now, runs, busy = simulating.simulated(small_log(), 1, 8e9)
        self.assertEqual((round(now), runs, round(busy)), (1030, 60.0, 1030))

    def test_many_processors_take_no_less_than_the_longest_way(self):
        now, _, _ = simulating.simulated(small_log(), 64, 64e9)
        # (a proof with several processors is shorter, and what compilers take is not)
        shares = simulating.ALONE + (1 - simulating.ALONE) / 4
        self.assertAlmostEqual(now, 350 * shares + 50, delta=1)

    def test_memory_holds_tasks_back(self):
        now, _, _ = simulating.simulated(small_log(), 4, 1.2e9)
        self.assertGreater(now, 1000)


if __name__ == "__main__":
    unittest.main()
