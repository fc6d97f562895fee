#!/usr/bin/env python3
"""Lists the functions of proved libraries whose code drops the most values.

    bench/drops.py                    # of all libraries that stand in crates/*/out/rlib, the 40 heaviest
    bench/drops.py --most 10 NAME ..  # of these crates alone

A value whose type derives `Drop` is dropped field by field, at each exit of the function that owns it, and the borrow checker's part of
the proof grows with that. The columns: calls of a `drop` (those of enums and of std's types among them), assignments and calls and
choices, locals, exits, and the function. It leans on `toolchain/mir.json` of a built library, which is not documented: the code that was
proved, as a list of a name and a body, where `Call` has the function first. It says nothing of seconds.
"""
import argparse
import json
import pathlib

ROOT = pathlib.Path(__file__).resolve().parent.parent


def is_drop(called):
    """Whether what is called is the `drop` of a type or of an impl for one."""
    if "Fn" in called:
        return called["Fn"][0].endswith("::drop")
    return "Destruct" in json.dumps(called)


def row(name, code):
    """What is counted of a function."""
    steps = [item for item in code["body"] if isinstance(item, dict)]
    drops = sum(1 for step in steps if "Call" in step and is_drop(step["Call"][0]))
    return drops, len(steps), len(code["locals"]), code["body"].count("Return"), name


def rows_of(crate):
    """The functions of a built library; none where it is not built."""
    built = ROOT / "crates" / crate / "out" / "rlib" / f"{crate}.rlib" / "toolchain" / "mir.json"
    if not built.is_file():
        return []
    return [row(name, code) for name, code in json.loads(built.read_text(encoding="utf-8")) if name.startswith(f"{crate}::")]


def main():
    said = argparse.ArgumentParser(description=__doc__, formatter_class=argparse.RawDescriptionHelpFormatter)
    said.add_argument("--most", type=int, default=40)
    said.add_argument("names", nargs="*")
    asked = said.parse_args()
    names = asked.names or sorted(path.name for path in (ROOT / "crates").iterdir())
    rows = [item for name in names for item in rows_of(name) if "Destruct::drop" not in item[4]]
    print("drops steps locals exits function")
    for item in sorted(rows, key=lambda item: (-item[0], item[4]))[: asked.most]:
        print(*item)


if __name__ == "__main__":
    main()
