#!/usr/bin/env python3
"""Tries ./cacao, ./cacao-view and ./prove in seconds, with stand-ins for the toolchain, for the build without proof and for what `rt ci` keeps.

    bench/launcher_tests.py            # all, in some processes at one time
    bench/launcher_tests.py Order.test_a_proved_program_is_taken_first
"""
import os
import pathlib
import shutil
import signal
import subprocess
import sys
import tempfile
import time
import unittest

ROOT = pathlib.Path(__file__).resolve().parent.parent
KNOWN = "rattle-kit-13f logic dac8208d650f15bf"
sys.path.insert(0, str(ROOT / "bench" / "launcher_parts"))
sys.dont_write_bytecode = True

from stand_ins import BUILD, FILES, KEPT, RT  # noqa: E402


def heed_signals():
    """A shell can't trap what was ignored when it began, as it is in a job in the background or behind nohup."""
    for number in (signal.SIGINT, signal.SIGHUP, signal.SIGTERM):
        signal.signal(number, signal.SIG_DFL)


class Repository(unittest.TestCase):
    """A small repository with the launcher, in a path with spaces, and a toolchain beside it."""

    def setUp(self):
        room = tempfile.TemporaryDirectory(prefix="launcher-tests-")
        self.addCleanup(room.cleanup)
        self.room = pathlib.Path(room.name)
        self.top, self.notes, self.kit = self.room / "a repository", self.room / "notes", self.room / "opt" / "kit"
        for path, text in FILES.items():
            self.write(self.top / path, text)
        (self.top / "bench").mkdir()
        for name in ("cacao", "cacao-view", "prove"):
            shutil.copy(ROOT / name, self.top / name)
        shutil.copytree(ROOT / "bench" / "launcher_parts", self.top / "bench" / "launcher_parts", ignore=shutil.ignore_patterns("__pycache__"))
        self.write(self.top / "bench/launcher_parts/unproved_build.py", BUILD)
        self.write(self.top / "bench/launcher_parts/kept_program.py", KEPT)
        self.notes.mkdir()
        self.write(self.kit / "KIT-ID", KNOWN + "\n")
        self.write(self.kit / "bin" / "rt", RT)
        (self.kit / "bin" / "rt").chmod(0o755)
        # (not by a shim of python3, which takes a while to start)
        (self.kit / "bin" / "python3").symlink_to(os.path.realpath(sys.executable))
        self.environment = {"PATH": f"{self.kit}/bin:/usr/local/bin:/usr/bin:/bin", "HOME": str(self.room / "home"), "TMPDIR": str(self.room), "NOTES": str(self.notes)}

    def write(self, path, text):
        path.parent.mkdir(parents=True, exist_ok=True)
        path.write_text(text, encoding="utf-8")

    def note(self, name):
        (self.notes / name).touch()

    def count(self, name):
        """How often the stand-in of that name was called."""
        file = self.notes / name
        return len(file.read_text().splitlines()) if file.exists() else 0

    def started(self, *words, command=None, **more):
        how = {"stdin": subprocess.DEVNULL, "stdout": subprocess.PIPE, "stderr": subprocess.PIPE, "text": True, "cwd": self.room, "env": {**self.environment, **more}}
        return subprocess.Popen([str(command or self.top / "cacao"), *words], start_new_session=True, preexec_fn=heed_signals, **how)

    def says(self, wanted, *words, status=0, of_errors=None, **more):
        """Calls the launcher and compares what it says and its status."""
        ran = self.started(*words, **more)
        said, errors = ran.communicate(timeout=120)
        self.assertEqual((said, ran.returncode), (wanted, status), errors)
        for text in [of_errors] if of_errors else []:
            self.assertIn(text, errors)
        return errors

    def prove(self, *words, status=0):
        ran = self.started(*words, command=self.top / "prove")
        _, errors = ran.communicate(timeout=120)
        self.assertEqual(ran.returncode, status, errors)
        return errors

    def left(self):
        """What builds left on their way, and the stand-ins that still run."""
        parts = [*self.top.glob(".build/work.*"), *self.top.glob(".build/made*"), *self.room.glob("cacao-prove-*")]
        ran = subprocess.run(["pgrep", "-f", str(self.room)], stdout=subprocess.PIPE, text=True, check=False)
        return [str(it) for it in parts] + ran.stdout.split()

    def until(self, holds):
        ends = time.monotonic() + 60
        while not holds() and time.monotonic() < ends:
            time.sleep(0.05)
        self.assertTrue(holds())


class Order(Repository):
    def test_what_is_not_there_is_built_without_proof_once(self):
        errors = self.says("unproved canon a  b\n", "canon", "a  b")
        self.assertIn("built without proof on this machine; ./prove proves it", errors)
        self.says("unproved\n", of_errors="built without proof on this machine; ./prove proves it")
        self.assertEqual((self.count("builds"), self.count("rt")), (1, 0))

    def test_a_proved_program_is_taken_first(self):
        self.says("unproved\n")
        self.prove()
        self.assertEqual(self.says("proved --help -- '\n", "--help", "--", "'"), "")

    def test_a_program_that_rt_ci_kept_is_taken(self):
        self.says("unproved\n")
        self.note("kept")
        (self.room / "opt" / "rattle-kept" / "proof-cacao-1").mkdir(parents=True)
        self.assertEqual(self.says("kept x\n", "x"), "")
        self.assertEqual(self.says("kept\n"), "")
        self.assertEqual((self.count("looks"), self.count("builds")), (1, 1))

    def test_what_rt_ci_did_not_keep_is_sought_once(self):
        (self.room / "opt" / "rattle-kept" / "proof-cacao-1").mkdir(parents=True)
        self.says("unproved\n")
        self.says("unproved\n")
        self.assertEqual(self.count("looks"), 1)
        (self.room / "opt" / "rattle-kept" / "proof-cacao-2").mkdir()
        self.says("unproved\n")
        self.assertEqual(self.count("looks"), 2)

    def test_the_status_is_that_of_the_program(self):
        self.says("unproved\n", status=37, WANTED="37")
        self.says("unproved\n", status=124, WANTED="124")
        self.prove()
        self.says("proved\n", status=5, WANTED="5")

    def test_what_cannot_be_built_ends_with_125(self):
        self.note("fails")
        self.says("", "canon", status=125, of_errors="a source does not compile")
        self.assertEqual(self.left(), [])

    def test_with_no_toolchain_it_ends_with_125(self):
        self.says("", status=125, of_errors="not on the PATH", PATH="/usr/bin:/bin")

    def test_another_toolchain_proves(self):
        self.write(self.kit / "KIT-ID", "rattle-kit-99 logic 0\n")
        errors = self.says("proved a\n", "a")
        self.assertIn("this one is rattle-kit-99 logic 0", errors)
        self.assertEqual(self.count("builds"), 0)
        self.assertEqual(self.says("proved\n"), "")

    def test_standard_input_is_the_programs(self):
        self.says("unproved\n")
        self.write(self.top / ".build" / "cacao-unproved", "#!/bin/sh\ncat\n")
        ran = subprocess.run([self.top / "cacao"], input=b"given", stdout=subprocess.PIPE, stderr=subprocess.PIPE, env=self.environment, check=True)
        self.assertEqual(ran.stdout, b"given")


class Currency(Repository):
    def setUp(self):
        super().setUp()
        self.says("unproved\n")
        self.prove()
        self.assertEqual(self.count("builds"), 1)

    def is_stale(self, builds=2):
        """Neither program is taken."""
        self.says("unproved\n")
        self.assertEqual(self.count("builds"), builds)

    def test_an_edit(self):
        self.write(self.top / "crates/low/src/lib.rt", "// lov\n")
        self.is_stale()
        self.says("unproved\n")
        self.assertEqual(self.count("builds"), 2)

    def test_an_edit_with_the_size_and_time_of_before(self):
        file = self.top / "crates/low/src/lib.rt"
        was = file.stat()
        self.write(file, "// lov\n")
        os.utime(file, ns=(was.st_atime_ns, was.st_mtime_ns))
        self.is_stale()

    def test_an_edit_and_back(self):
        self.write(self.top / "crates/low/src/lib.rt", "// lov\n")
        self.is_stale()
        self.write(self.top / "crates/low/src/lib.rt", "// low\n")
        self.says("proved\n")

    def test_an_edit_of_a_definition_changes_no_code(self):
        self.write(self.top / "crates/low/specs/Lib.antt", "-- another\n")
        self.says("unproved\n", of_errors="built without proof")
        self.assertEqual(self.count("builds"), 1)

    def test_a_deleted_file(self):
        (self.top / "crates/high/src/more.rt").unlink()
        self.is_stale()

    def test_an_added_file(self):
        self.write(self.top / "crates/high/src/new.rt", "")
        self.is_stale()

    def test_a_moved_file(self):
        (self.top / "crates/high/src/more.rt").rename(self.top / "crates/high/src/moved.rt")
        self.is_stale()

    def test_another_line_of_crates(self):
        self.write(self.top / "crates.txt", FILES["crates.txt"].replace("high: low", "high: other low"))
        self.is_stale()

    def test_what_the_program_does_not_stand_on(self):
        self.write(self.top / "crates/cacao_tests/src/lib.rt", "// changed\n")
        self.write(self.top / "crates/low/src/tests.rt", "// changed\n")
        self.write(self.top / "crates/high/must-fail/one.edit", "changed\n")
        self.write(self.top / "crates.txt", FILES["crates.txt"] + "more_tests: low\n")
        os.utime(self.top / "crates/low/src/lib.rt")
        self.assertEqual(self.says("proved\n"), "")

    def test_another_toolchain(self):
        self.write(self.kit / "bin" / "rt", RT + "# another\n")
        self.is_stale()

    def test_a_program_without_its_list(self):
        (self.top / ".build" / "cacao.sources").unlink()
        self.says("unproved\n")
        self.assertEqual(self.count("builds"), 1)

    def test_a_source_that_changes_while_it_is_built(self):
        self.write(self.top / "crates/low/src/lib.rt", "// lov\n")
        self.note("edits")
        self.says("unproved\n", of_errors="a source changed meanwhile")
        self.assertEqual(self.count("builds"), 3)


class Ways(Repository):
    def test_through_a_link_and_from_another_folder(self):
        (self.room / "link").symlink_to(self.top / "cacao")
        (self.room / "link of a link").symlink_to(self.room / "link")
        self.says("unproved a\n", "a", command=self.room / "link of a link")
        ran = subprocess.run(["./cacao", "b"], cwd=self.top, env=self.environment, stdout=subprocess.PIPE, stderr=subprocess.PIPE, text=True, check=True)
        self.assertEqual((ran.stdout, self.count("builds")), ("unproved b\n", 1))

    def test_a_folder_that_cannot_be_written(self):
        self.write(self.top / ".build", "a file")
        errors = self.says("unproved a\n", "a")
        self.assertIn("/.build cannot be written, so the program is built in", errors)
        self.says("unproved b\n", "b")
        self.assertEqual(self.count("builds"), 1)
        self.prove()
        self.assertEqual(self.says("proved\n"), "")

    def test_no_folder_that_can_be_written(self):
        self.write(self.top / ".build", "a file")
        self.write(self.room / "home", "a file")
        self.says("", status=125, of_errors="can be written")

    def test_a_current_program_needs_no_folder(self):
        self.says("unproved\n")
        (self.top / ".build" / "cacao-unproved.times").unlink(missing_ok=True)
        (self.top / ".build").chmod(0o555)
        self.addCleanup((self.top / ".build").chmod, 0o755)
        self.says("unproved\n")
        self.assertEqual(self.count("builds"), 1)

    def test_two_at_one_time(self):
        self.note("slow")
        first = self.started("a")
        self.until((self.notes / "begun").exists)
        second = self.started("b")
        self.assertIn("another call is at work there already; waiting to use what it builds", second.stderr.readline())
        self.note("go")
        self.assertEqual([it.communicate(timeout=120)[0] for it in (first, second)], ["unproved a\n", "unproved b\n"])
        self.assertEqual(self.count("builds"), 1)

    def test_two_proofs_at_one_time(self):
        both = [self.started(command=self.top / "prove") for _ in range(2)]
        self.assertEqual([it.wait(120) for it in both], [0, 0], [it.communicate() for it in both])
        self.assertEqual((self.notes / "rt").read_text().count("ci in copy"), 1)


class SecondName(Repository):
    """The program that only looks, of the same launcher."""

    def looks(self, wanted, *words, **more):
        return self.says(wanted, *words, command=self.top / "cacao-view", **more)

    def test_each_program_is_built_once(self):
        self.looks("looks a  b\n", "a  b", of_errors="./prove cacao-view proves it")
        self.says("unproved a\n", "a", of_errors="./prove proves it")
        self.looks("looks\n", status=5, WANTED="5")
        self.says("unproved\n")
        self.assertEqual((self.count("builds"), self.count("rt")), (2, 0))

    def test_it_is_proved_by_its_word(self):
        self.assertIn("cacao_view_main proved; 3 of 3 crates, 0 left", self.prove("cacao-view"))
        self.assertEqual(self.looks("proved help\n", "help"), "")
        self.says("unproved\n")
        self.assertIn("proved already", self.prove("cacao-view"))

    def test_what_it_does_not_stand_on(self):
        self.prove("cacao-view")
        self.write(self.top / "crates/high/src/lib.rt", "// hihg\n")
        self.assertEqual(self.looks("proved\n"), "")
        self.write(self.top / "crates/other/src/lib.rt", "// ohter\n")
        self.looks("looks\n")

    def test_through_a_link(self):
        (self.room / "link").symlink_to(self.top / "cacao-view")
        self.says("looks a\n", "a", command=self.room / "link", of_errors="./prove cacao-view proves it")

    def test_another_toolchain_proves(self):
        self.write(self.kit / "KIT-ID", "rattle-kit-99 logic 0\n")
        self.looks("proved a\n", "a", of_errors="so ./prove cacao-view proves the program")
        self.assertEqual(self.count("builds"), 0)


class CutOff(Repository):
    def killed(self, number, of_group, command="cacao"):
        """Kills a call in the middle of its build, and returns its status."""
        self.note("slow")
        ran = self.started(command=self.top / command)
        begun = self.notes / ("begun" if command == "cacao" else "rt")
        self.until(begun.exists)
        time.sleep(0.2)
        (os.killpg if of_group else os.kill)(ran.pid, number)
        status = ran.wait(60)
        ran.communicate()
        (self.notes / "slow").unlink()
        begun.unlink()
        return status

    def test_ended_by_a_signal(self):
        for number in (signal.SIGTERM, signal.SIGINT, signal.SIGHUP):
            for of_group in (False, True):
                self.assertEqual(self.killed(number, of_group), 125)
                self.until(lambda: not [it for it in self.left() if "made" not in it])
        self.says("unproved\n")
        self.assertEqual(self.left(), [])

    def test_killed(self):
        self.killed(signal.SIGKILL, False)
        self.until(lambda: not [it for it in self.left() if "made" not in it])
        self.says("unproved\n")
        self.assertEqual(self.left(), [])

    def test_killed_with_all_that_it_started(self):
        self.killed(signal.SIGKILL, True)
        self.until(lambda: not [it for it in self.left() if not it.startswith("/")])
        self.says("unproved\n")
        self.assertEqual(self.left(), [])

    def test_while_another_waits(self):
        self.note("slow")
        first = self.started()
        self.until((self.notes / "begun").exists)
        second = self.started("b")
        self.assertIn("waiting", second.stderr.readline())
        (self.notes / "slow").unlink()
        first.kill()
        first.communicate()
        self.assertEqual(second.communicate(timeout=120)[0], "unproved b\n")

    def test_half_put_in_place(self):
        self.says("unproved\n")
        self.write(self.top / "crates/low/src/lib.rt", "// lov\n")
        (self.top / ".build" / "cacao-unproved.sources").unlink()
        self.says("unproved\n")
        self.assertEqual(self.count("builds"), 2)

    def test_a_proof_ended_by_a_signal(self):
        for number in (signal.SIGTERM, signal.SIGINT, signal.SIGKILL):
            self.killed(number, False, "prove")
            self.until(lambda: not [it for it in self.left() if not it.startswith("/")])
        self.prove()
        self.assertEqual(self.left(), [])


class Gate(Repository):
    def setUp(self):
        super().setUp()
        for path in (".ci/run", "bench/gate.sh"):
            (self.top / path).parent.mkdir(exist_ok=True)
            shutil.copy(ROOT / path, self.top / path)
        for name in ("tree_checks.py", "tree_tests.py", "wrong_bodies.py", "launcher_tests.py"):
            self.write(self.top / "bench" / name, f'#!/bin/sh\necho "{name} $*" >>"$NOTES/checks"\n')
            (self.top / "bench" / name).chmod(0o755)

    def ran(self, command, status=0):
        ran = self.started(command=self.top / command)
        said, errors = ran.communicate(timeout=120)
        self.assertEqual(ran.returncode, status, errors)
        return said

    def test_what_the_gate_proved_is_taken(self):
        for command in (".ci/run", "bench/gate.sh"):
            self.assertTrue(self.ran(command).endswith("9 passed, 0 failed\n"))
            self.assertEqual(self.says("proved a\n", "a"), "")
            self.assertEqual(self.says("proved b\n", "b", command=self.top / "cacao-view"), "")
            self.assertEqual(self.left(), [])
            shutil.rmtree(self.top / ".build")
        wanted = "tree_checks.py \ntree_tests.py \nwrong_bodies.py --stand\nlauncher_tests.py \n"
        self.assertEqual((self.notes / "checks").read_text(), wanted)
        self.assertEqual((self.notes / "rt").read_text(), "ci in a repository\n" * 2)

    def test_a_gate_that_fails(self):
        self.note("fails")
        for command in (".ci/run", "bench/gate.sh"):
            self.ran(command, status=1)
        self.assertFalse((self.top / ".build").exists() or (self.notes / "checks").exists())

    def test_a_source_that_changes_meanwhile(self):
        self.note("slow")
        ran = self.started(command=self.top / "bench/gate.sh")
        self.until((self.notes / "rt").exists)
        self.write(self.top / "crates/low/src/lib.rt", "// lov\n")
        self.write(self.notes / "go", "")
        self.assertIn("not kept", ran.communicate(timeout=120)[1])
        self.assertFalse((self.top / ".build" / "cacao").exists())


class Proof(Repository):
    def test_a_line_a_crate_and_how_many_are_left(self):
        errors = self.prove()
        for line in ("low proved; 1 of 3 crates, 2 left, 0 min", "high proved; 2 of 3 crates, 1 left, 0 min", "cacao proved; 3 of 3 crates, 0 left, 0 min"):
            self.assertIn(line, errors)
        self.assertEqual(self.left(), [])

    def test_what_is_current_is_not_proved_again(self):
        self.prove()
        self.assertIn("proved already", self.prove())
        self.assertEqual(self.count("rt"), 1)

    def test_what_rt_ci_kept_is_not_proved_again(self):
        self.note("kept")
        (self.room / "opt" / "rattle-kept" / "proof-cacao-1").mkdir(parents=True)
        self.assertIn("proved already", self.prove())
        self.assertEqual((self.count("rt"), self.says("kept\n")), (0, ""))

    def test_what_is_not_proved(self):
        self.note("fails")
        self.assertIn("low NOT PROVED", self.prove(status=1))
        self.assertFalse((self.top / ".build" / "cacao").exists())
        self.assertEqual(self.left(), [])

    def test_it_takes_no_words(self):
        self.assertIn("takes no words", self.prove("canon", status=2))
        self.assertIn("takes no words", self.prove("cacao-view", "canon", status=2))

    def test_where_rt_ci_can_keep_nothing(self):
        if os.geteuid():
            (self.room / "opt").chmod(0o555)
            self.addCleanup((self.room / "opt").chmod, 0o755)
        else:
            # (root writes everywhere, so what it would write is another's)
            (self.room / "opt" / "rattle-kept").mkdir()
            os.chown(self.room / "opt" / "rattle-kept", 65534, 65534)
        # (and a file in its place is no folder that can be written)
        self.write(self.top / "crates/low/out", "a file")
        self.assertIn("can be kept neither", self.prove(status=125))
        (self.top / "crates/low/out").unlink()
        self.assertIn("cacao proved; 3 of 3 crates, 0 left", self.prove())
        self.assertEqual((self.notes / "rt").read_text().splitlines(), ["lib in low", "lib in high", "run -- canon data/empty.json in cacao"])
        self.assertEqual(self.says("proved\n"), "")


class Builder(Repository):
    """The compiler that the build without proof hands to `rt try`'s own."""

    def test_its_folder_may_have_spaces(self):
        import unproved_build

        real, work = self.room / "a toolchain", self.room / "a folder"
        self.write(real / "bin" / "clang", '#!/bin/sh\nfor word; do echo "$word"; done >words\n: >module.o\n')
        (real / "bin" / "clang").chmod(0o755)
        work.mkdir()
        clang = unproved_build.own_toolchain(work, real) / "bin" / "clang"
        ended = subprocess.run([clang, "-O0", f"--sysroot={work}/toolchain", "-fsanitize=address", "a file.bc"], cwd=self.room, check=False)
        self.assertEqual(ended.returncode, 1)
        self.assertEqual((self.room / "words").read_text().splitlines(), ["-O1", f"--sysroot={real}", "a file.bc"])
        self.assertTrue((work / "compiling").exists() and (work / "program.o").exists())

    def test_the_work_of_a_group_is_counted(self):
        import unproved_build

        self.assertGreater(unproved_build.work_done(os.getpgrp()), 0)
        self.assertEqual(unproved_build.work_done(0x7FFFFFFF), 0)


def main():
    """Runs the tests of each class in a process of its own, and returns whether all passed."""
    classes = [name for name, it in globals().items() if isinstance(it, type) and issubclass(it, Repository) and it is not Repository]
    started = [subprocess.Popen([sys.executable, __file__, name], stdout=subprocess.PIPE, stderr=subprocess.STDOUT, text=True) for name in classes]
    said = [it.communicate()[0] for it in started]
    for name, it, text in zip(classes, started, said):
        print(f"{name}: {text.strip().splitlines()[-1]}" if it.returncode == 0 else text)
    return not any(it.returncode for it in started)


if __name__ == "__main__":
    if sys.argv[1:]:
        unittest.main()
    sys.exit(0 if main() else 1)
