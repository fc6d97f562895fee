"""How long files and lines may be."""
from tree import documents, prose, sources, text_of

MOST_LINES = 500
MOST_COLUMNS = 130


def long_files(root):
    """The sources and specifications with too many lines. (A file of lemmas may be longer: a split of it proves nothing more.)"""
    for path in (it for it in sources(root) if "proofs" not in it.parts):
        count = text_of(path).count("\n")
        if count > MOST_LINES:
            yield f"{path.relative_to(root)}: {count} lines, at most {MOST_LINES}"


def long_lines(root):
    """The lines of pages with too many columns, but in tables and in blocks of code."""
    for page in documents(root):
        for number, line in prose(page):
            if len(line) > MOST_COLUMNS and not line.startswith("|"):
                yield f"{page.relative_to(root)} {number}: {len(line)} columns, at most {MOST_COLUMNS}"
