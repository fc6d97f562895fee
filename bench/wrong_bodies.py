#!/usr/bin/env python3
"""Tries the wrong bodies that the gate leaves out: each is to be refused.

    bench/wrong_bodies.py              # those of every crate
    bench/wrong_bodies.py NAME ..      # those of these crates
    bench/wrong_bodies.py --stand      # proves nothing: says whether each can still be applied

The gate tries the edits in crates/NAME/must-fail. Those in crates/NAME/wrong-bodies have the same form, and stand apart only so that
the gate ends in time. Here the repository is copied, they are put in the place of the others, and `rt must-fail NAME` tries them.
"""
import pathlib
import shutil
import subprocess
import sys
import tempfile

ROOT = pathlib.Path(__file__).resolve().parent.parent


def misfits(edit, crate):
    """Why an edit cannot be applied: each `old:` text stands exactly once in the file that is named before it."""
    text, whys = "", []
    for line in edit.read_text(encoding="utf-8").split("\n"):
        if line.startswith("file: "):
            file = crate / line[len("file: ") :].strip()
            text = file.read_text(encoding="utf-8") if file.is_file() else ""
        elif line.startswith("old: "):
            found = text.count(line[len("old: ") :])
            if found != 1:
                whys.append(f"{edit.relative_to(ROOT)}: a text stands {found} times: {line[:100]}")
    return whys


def stand(crates):
    """Whether every edit of the crates can be applied, those of the gate too."""
    whys = [why for crate in crates for edit in sorted(crate.glob("*/*.edit")) for why in misfits(edit, crate)]
    print("\n".join(whys) or "each can be applied")
    return not whys


def tried(room, crate):
    """Tries the wrong bodies of a crate in a copy of the repository, and returns whether all are refused."""
    copy = room / "crates" / crate.name
    shutil.rmtree(copy / "must-fail", ignore_errors=True)
    (copy / "wrong-bodies").rename(copy / "must-fail")
    return subprocess.run(["rt", "must-fail", crate.name], cwd=room, check=False).returncode == 0


def main(words):
    names = [word for word in words if word != "--stand"]
    unknown = [name for name in names if not (ROOT / "crates" / name).is_dir()]
    if unknown:
        print(f"no crate: {' '.join(unknown)}\n\n{__doc__}", file=sys.stderr)
        return False
    crates = [it for it in sorted((ROOT / "crates").iterdir()) if it.is_dir() and (not names or it.name in names)]
    if "--stand" in words:
        return stand(crates)
    with tempfile.TemporaryDirectory() as folder:
        room = pathlib.Path(folder) / "repository"
        shutil.copytree(ROOT, room, ignore=shutil.ignore_patterns(".git"))
        return all([tried(room, it) for it in crates if (it / "wrong-bodies").is_dir()])


if __name__ == "__main__":
    sys.exit(0 if main(sys.argv[1:]) else 1)
