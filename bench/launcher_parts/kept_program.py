#!/usr/bin/env python3
"""Takes the proved program that an `rt ci` on this machine kept of exactly these sources, in this checkout or another.

    bench/launcher_parts/kept_program.py OUT PROGRAM

PROGRAM is its crate. Ends with status 0 where there is one, which is then the file OUT, and else with status 1 and no word.

`rt ci` keeps what it proved beside the toolchain, under sums of all that a proof reads: the toolchain, HANDLES, a crate's line of
crates.txt and its files, and the libraries below it as they were built. Here the same sums are made, from the lowest crate up, by the
functions of `rt` itself. How it keeps things is not documented (`known_kit` of program.sh).
"""
import hashlib
import json
import os
import pathlib
import shutil
import sys

import kit

ROOT = pathlib.Path(__file__).resolve().parent.parent.parent


def entry(rt, kept, crate):
    """The folder in which the proof of the crate is kept, with the files that it made and their sums, or None."""
    key = kept.key(crate)
    place = pathlib.Path(kept.place(crate, False, key))
    try:
        made = json.loads((place / "made.json").read_text(encoding="utf-8"))
    except (OSError, ValueError):
        return None
    files = [tuple(item) for item in made["files"]]
    return (place, files) if made["key"] == key else None


def kept_program(rt, name_of_program):
    """The file of the proved program, and its sum, or None."""
    os.chdir(ROOT)
    rt.Crate.allowed, rt.rtlib.Crate = rt.handles_of(str(ROOT)), rt.Crate
    program = {crate.name: crate for crate in rt.rtlib.crates_below(str(ROOT))}[name_of_program]
    kept = rt.Kept([], False)
    if not kept.at:
        return None
    for crate in program.below():
        found = entry(rt, kept, crate)
        if not found:
            return None
        kept.rlibs[crate.name] = hashlib.sha256(repr(found[1]).encode()).hexdigest()
    found = entry(rt, kept, program)
    if not found:
        return None
    place, files = found
    return next((place / str(at), total) for at, (name, total) in enumerate(files) if name == name_of_program)


def main(words):
    out = pathlib.Path(words[0]).resolve()
    try:
        found = kept_program(kit.loaded(), words[1])
        if not found:
            return False
        shutil.copyfile(found[0], out)
        out.chmod(0o755)
        return hashlib.sha256(out.read_bytes()).hexdigest() == found[1]
    except (OSError, LookupError, TypeError, StopIteration):
        return False


if __name__ == "__main__":
    sys.exit(0 if main(sys.argv[1:]) else 1)
