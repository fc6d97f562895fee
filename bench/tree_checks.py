#!/usr/bin/env python3
"""Checks what no prover sees: the names in pages, the picture of the houses, lengths, unused imports, and what files of specs/ are.

    bench/tree_checks.py              # all of it, some 15 seconds; says each break, and ends with 1 where there is one
    bench/tree_checks.py WORD ..      # these alone: names contracts picture houses files lines ghosts marks
"""
import pathlib
import sys

ROOT = pathlib.Path(__file__).resolve().parent.parent
sys.path.insert(0, str(ROOT / "bench" / "tree_parts"))
sys.dont_write_bytecode = True

import contracts  # noqa: E402
import ghost_uses  # noqa: E402
import houses  # noqa: E402
import names  # noqa: E402
import picture  # noqa: E402
import reaching  # noqa: E402
import sizes  # noqa: E402

CHECKS = {
    # Each name in backticks in a page that looks like one of the code is one.
    "names": names.stale,
    # Each contract that a page names is that of a function, and has the clauses.
    "contracts": contracts.lacking,
    # The picture has the houses of crates.txt, each above those on which it stands, and the table has the crates.
    "picture": picture.breaks,
    # Each crate bears the name of a house.
    "houses": houses.strangers,
    # No source, specification or proof is too long.
    "files": sizes.long_files,
    # No line of a page is too long, but in tables and in blocks of code.
    "lines": sizes.long_lines,
    # No source brings a name for its contracts that none of them cites.
    "ghosts": ghost_uses.breaks,
    # The first line of each file of specs/ says whether promises reach it.
    "marks": reaching.wrong_marks,
}


def main(words):
    unknown = [word for word in words if word not in CHECKS]
    if unknown:
        print(f"no such check: {', '.join(unknown)}")
        return 2
    broken = 0
    for word in words or CHECKS:
        found = list(CHECKS[word](ROOT))
        print("\n".join([*found, f"{word}: {len(found) or 'no'} {'break' if len(found) == 1 else 'breaks'}"]), flush=True)
        broken += len(found)
    return 1 if broken else 0


if __name__ == "__main__":
    sys.exit(main(sys.argv[1:]))
