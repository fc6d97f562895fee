#!/usr/bin/env python3
"""Pictures of playbooks: those in docs/pictures, and a trial of many.

    bench/pictures.py make        # draws three examples, and one run, into docs/pictures, by `cacao-view graph` and `dot -Tsvg`
    bench/pictures.py try [N]     # compares the pictures of all examples and of N made playbooks (1,000) with those of picture_parts/dot.py, line
                                  # by line, and lets `dot` read each: it must warn of nothing, and find each step, link and cluster

Both want Graphviz's `dot`. What is drawn is said in docs/VIEW.md.
"""
import argparse
import json
import pathlib
import subprocess
import sys
import tempfile

HERE = pathlib.Path(__file__).resolve().parent
sys.path[:0] = [str(HERE / "picture_parts")]
sys.dont_write_bytecode = True

import dot  # noqa: E402
import made  # noqa: E402

TOP = HERE.parent
EXAMPLES = [["block-a-host"], ["lift-after-an-hour"], ["ask-an-operator"], ["two-filters"], ["with-a-library", "block-library"]]
DRAWN = [["block-a-host"], ["two-filters"], ["with-a-library", "block-library"]]
RUN = ["block-a-host"]


def files_of(names):
    return [TOP / "examples" / f"{name}.json" for name in names]


def graph(files, folder=None):
    """What `cacao-view graph` says of these files; without files, of the run in the folder."""
    ran = subprocess.run([TOP / "cacao-view", "graph", *files], stdout=subprocess.PIPE, cwd=folder)
    if ran.returncode != 0:
        sys.exit(f"cacao-view graph {' '.join(map(str, files))}: status {ran.returncode}: {ran.stdout[:300]!r}")
    return ran.stdout


def write_picture(name, said):
    to = TOP / "docs" / "pictures" / f"{name}.svg"
    to.parent.mkdir(exist_ok=True)
    made_by = subprocess.run(["dot", "-Tsvg"], input=said, stdout=subprocess.PIPE, check=True)
    to.write_bytes(made_by.stdout)
    print(to.relative_to(TOP))


def draw(names):
    write_picture(names[0], graph(files_of(names)))


def draw_run(names):
    """The run of these playbooks, to its end."""
    with tempfile.TemporaryDirectory() as folder:
        subprocess.run([TOP / "cacao", "run", "--run", "7", *files_of(names)], stdout=subprocess.DEVNULL, cwd=folder, check=True)
        write_picture("run-of-" + names[0], graph([], folder))


def differs(files, books):
    """Why the picture of these playbooks is not as it should be, if it is not."""
    said, wanted = graph(files), "".join(dot.lines(books)).encode()
    if said != wanted:
        pairs = zip(said.split(b"\n"), wanted.split(b"\n"))
        return next((f"said {one!r}, wanted {other!r}" for one, other in pairs if one != other), "another number of lines")
    read = subprocess.run(["dot", "-Tjson0"], input=said, stdout=subprocess.PIPE, stderr=subprocess.PIPE)
    if read.returncode or read.stderr:
        return f"dot: status {read.returncode}: {read.stderr[:300]!r}"
    return counts_differ(json.loads(read.stdout), books)


def counts_differ(found, books):
    objects = found.get("objects", [])
    names = {one["name"] for one in objects if "nodes" not in one and not one["name"].startswith("cluster")}
    steps = {f"{number} {key}" for number, book in enumerate(books) for key in book["workflow"]}
    if names != steps:
        return f"dot reads other steps: {sorted(names ^ steps)[:3]}"
    links = sum(line.count("\" -> \"") and 1 for line in dot.lines(books))
    if len(found.get("edges", [])) != links:
        return f"dot reads {len(found.get('edges', []))} links, not {links}"
    return None


def trial(count):
    bad = 0
    for names in EXAMPLES:
        files = files_of(names)
        why = differs(files, [json.loads(file.read_bytes()) for file in files])
        bad += why is not None
        print(f"{names[0]}: {why or 'as it should be'}")
    with tempfile.TemporaryDirectory() as folder:
        file = pathlib.Path(folder) / "made.json"
        for seed in range(count):
            book = made.book(seed)
            file.write_text(json.dumps(book))
            why = differs([file], [book])
            if why is not None:
                bad += 1
                print(f"made {seed}: {why}")
    print(f"{len(EXAMPLES)} examples and {count} made playbooks: {bad} differ")
    return 1 if bad else 0


def main():
    said = argparse.ArgumentParser(description=__doc__, formatter_class=argparse.RawDescriptionHelpFormatter)
    verbs = said.add_subparsers(dest="verb", required=True)
    verbs.add_parser("make")
    verbs.add_parser("try").add_argument("count", type=int, nargs="?", default=1000)
    asked = said.parse_args()
    if asked.verb == "try":
        return trial(asked.count)
    for names in DRAWN:
        draw(names)
    draw_run(RUN)
    return 0


if __name__ == "__main__":
    sys.exit(main())
