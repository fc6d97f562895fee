#!/usr/bin/env python3
"""Tries the checks of bench/tree_checks.py on small texts that keep them and that break them: a second.

    bench/tree_tests.py
"""
import pathlib
import sys
import tempfile
import unittest

HERE = pathlib.Path(__file__).resolve().parent
sys.path.insert(0, str(HERE / "tree_parts"))
sys.dont_write_bytecode = True

import contracts  # noqa: E402
import ghost_uses  # noqa: E402
import houses  # noqa: E402
import names  # noqa: E402
import picture  # noqa: E402
import reaching  # noqa: E402
import sizes  # noqa: E402

LOW = """ghost use Rattle.base_low.specs.Facts.{IsLow, IsUsed};
/// Reads.
pub fn read_low(n: u32) -> u32
    ensures value { IsLow result }
{
    n
}
"""
FACTS = "-- Promise: What is low.\npub record IsLow (n : ℕ) : Type 0 where\n  pub low : IsSmall n\n\nabbrev pub IsSmall : ℕ → Type 0\nIsSmall n = n < 4\n"
FILES = {
    "crates.txt": "base_low:\ncacao_json: base_low serde_json\n",
    "README.md": "`read_low` of `base_low::read_low`, `Facts.antt`, not `read_high`.\n",
    "crates/base_low/src/lib.rt": LOW,
    "crates/base_low/specs/Facts.antt": FACTS,
    "crates/base_low/specs/Helps.antt": "-- Promise: Nothing.\nabbrev pub IsHelp : Type 0\nIsHelp = ⊤\n",
    "crates/cacao_json/src/lib.rt": LOW.replace("read_low", "read_json"),
    "docs/PAGE.md": "x" * 131 + "\n| " + "y" * 131 + " |\n```\n" + "z" * 131 + "\n```\n",
}


class Houses(unittest.TestCase):
    def test_a_crate_bears_the_name_of_the_longest_house(self):
        told = [houses.house_of(it) for it in ("cacao_cli_words", "cacao", "flow_engine", "cacao_other", "json")]
        self.assertEqual(told, ["cacao_cli", "cacao", "flow_engine", None, None])


class Pages(unittest.TestCase):
    def setUp(self):
        room = tempfile.TemporaryDirectory()
        self.addCleanup(room.cleanup)
        self.root = pathlib.Path(room.name)
        for name, text in FILES.items():
            (self.root / name).parent.mkdir(parents=True, exist_ok=True)
            (self.root / name).write_text(text, encoding="utf-8")

    def test_a_name_that_the_code_has_not_is_told(self):
        self.assertEqual(list(names.lacking(self.root)), [("README.md", 1, "read_high")])

    def test_a_long_line_is_told_but_in_tables_and_code(self):
        self.assertEqual(list(sizes.long_lines(self.root)), ["docs/PAGE.md 1: 131 columns, at most 130"])

    def test_a_name_that_is_brought_and_not_cited_is_told(self):
        self.assertEqual(ghost_uses.uncited(LOW), ["IsUsed"])

    def test_a_promise_is_what_a_public_contract_of_an_owner_reaches(self):
        told = list(reaching.wrong_marks(self.root))
        self.assertEqual(told, ["crates/base_low/specs/Helps.antt: its first line begins with `-- Scaffold: `"])

    def test_tables_of_contracts_are_looked_at_whatever_stands_in_front(self):
        for front in ("", "| ", "| 7 "):
            (self.root / "docs" / "TABLE.md").write_text(f"{front}| Promise | Contract |\n|---|---|\n{front}| low | `read_low`: `high` |\n", encoding="utf-8")
            self.assertEqual(len(list(contracts.lacking(self.root))), 1, front)

    def test_contracts_are_those_of_the_code(self):
        clauses = contracts.clauses_of(self.root)
        self.assertEqual(list(contracts.lacks("`base_low::read_low`: `value` (`IsLow`)", clauses)), [])
        self.assertEqual(list(contracts.lacks("`read_low`: `memory`; `read_high`", clauses)), ["read_low: memory", "read_high"])


class Picture(unittest.TestCase):
    BELOW = {"cacao_json": {"base"}, "base": set()}

    def test_each_house_has_one_box_above_those_on_which_it_stands(self):
        self.assertEqual(list(picture.breaks_of_boxes([["cacao_json"], ["base"]], self.BELOW)), [])

    def test_else_it_is_told(self):
        told = list(picture.breaks_of_boxes([["base", "base", "other"]], self.BELOW))
        self.assertEqual(told, ["the box base stands twice", "the box other is no house of crates.txt", "the house cacao_json has no box"])
        self.assertEqual(
            list(picture.breaks_of_boxes([["base"], ["cacao_json"]], self.BELOW)),
            ["cacao_json stands on base, whose box is not below its own"],
        )


if __name__ == "__main__":
    unittest.main()
