"""The files of the repository, and their texts."""
import os
import re

SOURCES = (".rt", ".antt")

# A line comment of a specification or a proof, but where it stands in a string; and one of a source.
SPEC_COMMENT = re.compile(r'((?:[^"-]|"(?:[^"\\]|\\.)*"|-(?!-))*)--')
CODE_COMMENT = re.compile(r"(?<!:)//.*")


def text_of(path):
    """The text of a file; the empty text of one that is no text."""
    try:
        return path.read_text(encoding="utf-8")
    except UnicodeDecodeError:
        return ""


def files(root):
    """All files but those that git or a build made, in order."""
    for at, folders, names in os.walk(root):
        folders[:] = sorted(it for it in folders if it not in ("out", "__pycache__") and not it.startswith(".") or it == ".ci")
        yield from (root.__class__(at) / name for name in sorted(names))


def sources(root):
    """The sources, specifications and proofs of all crates."""
    return [it for it in files(root / "crates") if it.suffix in SOURCES]


def crate_of(root, path):
    """The name of the crate in which a file stands."""
    return path.relative_to(root / "crates").parts[0]


def documents(root):
    """The pages that people read."""
    pages = [root / "README.md", root / "examples" / "README.md", *(root / "docs").glob("*.md"), *(root / "crates").glob("*/README.md")]
    return sorted(it for it in pages if it.is_file())


def without_comment(line, suffix):
    """A line of a source, or of a specification or proof, without its comment."""
    if suffix == ".rt":
        return CODE_COMMENT.sub("", line)
    found = SPEC_COMMENT.match(line)
    return line[: found.end() - 2] if found else line


def prose(page):
    """The lines of a page that are in no block of code, each with its number."""
    in_code = False
    for number, line in enumerate(text_of(page).split("\n"), 1):
        if line.lstrip().startswith("```"):
            in_code = not in_code
        elif not in_code and not line.startswith("    "):
            yield number, line
