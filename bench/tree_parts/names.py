"""The names that pages cite, against those of the code."""
import collections
import fnmatch
import functools
import pathlib
import re
import subprocess

from houses import listed
from tree import SOURCES, crate_of, documents, files, prose, text_of, without_comment

WORD = re.compile(r"[A-Za-z_][\w']*")
SPAN = re.compile(r"`([^`]+)`")

# What may be a name, a path of names or a file, in what stands between two backticks.
CITED = re.compile(r"(?:\.{0,2}/)?\w[\w'.\-/*]*(?:::\w[\w']*)*")
IDENTIFIER = re.compile(r"\w+_\w[\w']*|[A-Z][A-Z0-9]*[a-z0-9][\w']*")

# Files with these ends are scripts, whose words are names of the code too; and what has one of these ends is cited as a file.
SCRIPTS = (".py", ".sh", ".c", ".rs", "")
FILE_ENDS = {".rt", ".antt", ".py", ".sh", ".c", ".rs", ".md", ".txt", ".json", ".edit"}

# The pages that speak of the toolchain too: what the code has not may be its own there.
OF_TOOLCHAIN = {"docs/PROOFS.md", "docs/DECISIONS.md", "docs/SPEED.md"}

# What looks like a name of the code and is none: what stands for a rule or for a module, a file of a reader's own, a word of LLVM.
EXCEPTIONS = {"Kn", "Bn", "CRATE_FILE", "e.json", "sanitize_address"}


class Names:
    """The names of the code: its words, those of each crate, and its files."""

    def __init__(self, root):
        self.root = root
        self.crates = listed(root)
        self.paths = [str(it.relative_to(root)) for it in files(root)]
        self.words = {word for path in self.paths for word in WORD.findall(path)}
        self.words |= {word for libraries in self.crates.values() for word in libraries}
        self.of_crate = collections.defaultdict(set)
        for path in files(root):
            self.take(path)

    def take(self, path):
        """Adds the words of a file, but those of its comments."""
        if path.suffix in SOURCES:
            words = {word for line in text_of(path).split("\n") for word in WORD.findall(without_comment(line, path.suffix))}
            self.of_crate[crate_of(self.root, path)] |= words
            self.words |= words
        elif path.suffix in SCRIPTS and path.parent.name != "data":
            self.words |= set(WORD.findall(text_of(path)))

    def has_file(self, path):
        """Whether a path, or the end of one, is that of a file or a folder."""
        tail = path.lstrip("./").rstrip("/")
        patterns = [f"*/{tail}", f"*/{tail}.antt", f"*/{tail}/*"]
        return any(fnmatch.fnmatchcase(f"/{it}", pattern) for it in self.paths for pattern in patterns)

    def has_path(self, parts):
        """Whether `a::b` is a path of names: behind a crate's name, names of that crate; else names of the code."""
        first, others = parts[0], parts[1:]
        if first in self.crates:
            return all(word in self.of_crate[first] for word in others)
        return first not in self.words or all(word in self.words for word in others)

    def lacks(self, cited):
        """The part of what was cited that is no name of the code, or None."""
        if cited in EXCEPTIONS:
            return None
        if "::" in cited:
            return None if self.has_path(cited.split("::")) else cited
        if "/" in cited or pathlib.PurePath(cited).suffix in FILE_ENDS:
            return None if self.is_foreign(cited) or self.has_file(cited) else cited
        parts = [it for it in cited.split(".") if IDENTIFIER.fullmatch(it)]
        return next((it for it in parts if it not in self.words), None)

    def is_foreign(self, cited):
        """Whether a path is none of the repository's: it leads out of it, or a word of capitals stands in it for others."""
        first = cited.split("/")[0]
        top = {it.split("/")[0] for it in self.paths} | set(self.crates) | {"specs", "proofs", "src", "must-fail", "wrong-bodies"}
        return re.search(r"(^|/)[A-Z]{2,}(/|$|\.)", cited) is not None or ("/" in cited and first not in top)


def of_toolchain(words):
    """Those of some words that the toolchain's libraries and guides have; `rt doc` says where its first page stands."""
    if not words:
        return set()
    first = subprocess.run(["rt", "doc"], capture_output=True, text=True, check=True).stdout.strip()
    folder = pathlib.Path(first).parent / "rattle"
    found = subprocess.run(["grep", "-rhowF", "-f", "-", str(folder)], input="\n".join(words), capture_output=True, text=True, check=False)
    return set(found.stdout.split("\n"))


def lacking(root):
    """What pages cite that is no name of the code: page, number of the line, and name."""
    lacks = functools.cache(Names(root).lacks)
    for page in documents(root):
        for number, line in prose(page):
            for span in SPAN.findall(line):
                for cited in CITED.findall(span):
                    if lack := lacks(cited.rstrip(".:'-")):
                        yield str(page.relative_to(root)), number, lack


def stale(root):
    """The names that pages cite and that neither the code has nor, on the pages that speak of it, the toolchain."""
    found = list(lacking(root))
    theirs = of_toolchain({name for page, _, name in found if page in OF_TOOLCHAIN})
    for page, number, name in found:
        if page not in OF_TOOLCHAIN or name not in theirs:
            yield f"{page} {number}: `{name}` is no name of the code"
