"""The picture of the houses and the table of the crates in docs/ARCHITECTURE.md, against crates.txt."""
import re

from houses import HOUSES, OWNERS, house_of, listed
from tree import text_of

PAGE = "docs/ARCHITECTURE.md"
MOST_BOXES = 40
BOX = re.compile(r"\[(\w+)\]")
ROW = re.compile(r"\| `(\w+)` \| (promise|laws|part|program|test) \|")


def rows_of(text):
    """The boxes of each line of the first block of code that has any, from the top down."""
    for block in re.findall(r"(?ms)^```\n(.*?)^```", text):
        rows = [BOX.findall(line) for line in block.split("\n")]
        if any(rows):
            return [row for row in rows if row]
    return []


def stands_on(root):
    """For each house that has a crate, the other houses on which its crates stand."""
    crates = listed(root)
    below = {house_of(crate): set() for crate in crates}
    for crate, libraries in crates.items():
        below[house_of(crate)] |= {house_of(it) for it in libraries if it in crates} - {house_of(crate)}
    return below


def breaks_of_boxes(rows, below):
    """Where boxes are not the houses, each once, or a house does not stand above those on which it stands."""
    boxes = [box for row in rows for box in row]
    if len(boxes) > MOST_BOXES:
        yield f"{len(boxes)} boxes, at most {MOST_BOXES}"
    yield from (f"the box {box} stands twice" for box in sorted({it for it in boxes if boxes.count(it) > 1}))
    yield from (f"the box {box} is no house of crates.txt" for box in boxes if box not in below)
    yield from (f"the house {house} has no box" for house in below if house not in boxes)
    level = {box: number for number, row in enumerate(rows) for box in row}
    for house, others in below.items():
        for other in sorted(others):
            if house in level and other in level and level[house] >= level[other]:
                yield f"{house} stands on {other}, whose box is not below its own"


def breaks_of_table(text, crates):
    """Where the table of crates does not have each crate once, as a promise exactly where its house says so."""
    told = ROW.findall(text)
    names = [name for name, _ in told]
    yield from (f"the table has {name} twice" for name in sorted({it for it in names if names.count(it) > 1}))
    yield from (f"the table has {name}, which crates.txt has not" for name in names if name not in crates)
    yield from (f"the table has no row `{crate}`" for crate in crates if crate not in names)
    for name, kind in told:
        if (kind == "promise") != (name in OWNERS):
            yield f"the table calls {name} a {kind}, and bench/tree_parts/houses.py does not"


def breaks(root):
    """What is wrong with the page."""
    text, below = text_of(root / PAGE), stands_on(root)
    yield from (f"{PAGE}: {why}" for why in breaks_of_boxes(rows_of(text), below))
    yield from (f"{PAGE}: {why}" for why in breaks_of_table(text, listed(root)))
    yield from (f"bench/tree_parts/houses.py: the house {house} has no crate" for house in HOUSES if house not in below)
