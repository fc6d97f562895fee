"""Which definitions of specs/ the contracts of public calls reach.

A contract reaches the definitions that it names, and what these are made of. A file of specs/ is a promise where such a contract reaches one of its
definitions, and else it helps proofs alone. What a crate passes on of another by its Lib.antt is not followed.
"""
import collections
import re

from houses import OWNERS
from tree import crate_of, sources, text_of, without_comment

SOME = re.compile(r"\s*(?:pub )?(?:ghost )?use ([\w.]+)\.\{(.*)\};?$")
WHOLE = re.compile(r"\s*(?:pub )?(?:ghost )?use ([\w.]+)(?: as (\w+))?;?$")
MODIFIERS = r"(?:(?:pub|abbrev|unfoldable|ghost|ruleset) )*(?:record |data )?"
HEAD = re.compile(MODIFIERS + r"(\S+)")
MEMBER = re.compile(r"  " + MODIFIERS + r"(\S+) ")
FUNCTION = re.compile(r"\s*(pub(?:\([^)]*\))? )?(?:const |ghost )?fn (\w+)")
TYPE = re.compile(r"\s*(impl|pub trait|trait|pub struct|pub enum|struct|enum)\b")
CLAUSE = re.compile(r"\s*(requires|ensures|ghost (?!use))")
LAW = re.compile(r"(\w+_)?laws?")

# The name that stands for a whole module, and the block of what an unnamed module has.
ALL = "*"


def words_of(text):
    """The names in a text, as operators and as identifiers."""
    return set(re.findall(r"[^\s(){}\[\],.;:λ]+", text)) | set(re.findall(r"[\w'\-]+", text))


def imported(line):
    """The names that a line of imports brings, each with its module and its name there; None of another line."""
    if some := SOME.match(line):
        pairs = [it.strip().partition(" as ") for it in some[2].split(",")]
        return {as_name or name: (some[1], name) for name, _, as_name in pairs}
    if whole := WHOLE.match(line):
        return {whole[2] or whole[1].split(".")[-1]: (whole[1], ALL)}
    return None


class Spec:
    """A file of specs/: what it imports, and its definitions with the names that each is made of."""

    def __init__(self, path):
        self.path = path
        self.uses = {}
        self.blocks = collections.defaultdict(set)
        block = None
        for line in (without_comment(it, path.suffix) for it in text_of(path).split("\n")):
            if (names := imported(line)) is not None:
                self.uses |= names
            elif line.strip() and not re.match(r"(pub )?mod ", line):
                block = self.block_at(line, block)
                self.take(line, block)

    @staticmethod
    def block_at(line, block):
        """The block to which a line belongs, behind that of the line before it."""
        if line.startswith(" "):
            return block
        name = HEAD.match(line)[1]
        if name == "module":
            return ALL
        return block if name in ("}", "]", ")", "where") else name

    def take(self, line, block):
        """Adds a line to its block; a member is made of the block in which it stands."""
        if block is None:
            return
        if member := MEMBER.match(line):
            self.blocks[member[1]].add(block)
        self.blocks[block] |= words_of(line)


def module_of(root, path):
    """The module that a file of specs/ is."""
    return "Rattle." + ".".join(path.relative_to(root / "crates").with_suffix("").parts)


def specs_of(root):
    """The files of specs/, each by its module."""
    paths = [it for it in sources(root) if it.relative_to(root / "crates").parts[1] == "specs"]
    return {module_of(root, it): Spec(it) for it in paths}


def clause_texts(text, wanted):
    """The texts of the clauses of a source that stand with its types or with functions that are wanted; those of types where wanted(None)."""
    lines, at, is_wanted = text.split("\n"), 0, wanted(None)
    while at < len(lines):
        if function := FUNCTION.match(lines[at]):
            is_wanted = wanted((function[1] or "").strip(), function[2])
        elif TYPE.match(lines[at]):
            is_wanted = wanted(None)
        if CLAUSE.match(lines[at]) and is_wanted:
            depth = 0
            while True:
                line = re.sub(r"(^|\s)//.*", "", lines[at])
                yield line
                depth += line.count("{") - line.count("}")
                if depth <= 0 or at + 1 >= len(lines):
                    break
                at += 1
        at += 1


def names_in_clauses(path, wanted):
    """The definitions that such clauses of a source name, each with its module."""
    text = text_of(path)
    uses = collections.defaultdict(set)
    for line in text.split("\n"):
        if "ghost use " in line:
            for name, place in (imported(line) or {}).items():
                uses[name].add(place)
    return {place for line in clause_texts(text, wanted) for word in words_of(line) for place in uses.get(word, ())}


def is_public(kind, name=""):
    """Whether the clauses of a function, or of a type, are part of what a crate promises."""
    return kind is None or kind == "pub"


def is_law(kind, name=""):
    """Whether a function is a law."""
    return kind == "pub" and LAW.fullmatch(name) is not None


def promised(root):
    """The definitions that the clauses of promises name: of the public calls of owners, and of laws wherever they stand."""
    found = set()
    for path in sources(root):
        crate = crate_of(root, path)
        if path.suffix == ".rt" and not crate.startswith("test_"):
            found |= names_in_clauses(path, is_public if crate in OWNERS else is_law)
    return found


def next_to(specs, module, name):
    """The definitions that a definition is made of."""
    spec = specs[module]
    if name == ALL:
        yield from ((module, it) for it in spec.blocks)
    for word in spec.blocks.get(name, ()):
        if word in spec.blocks and word != name:
            yield module, word
        if word in spec.uses:
            yield spec.uses[word]


def reached(specs, seeds):
    """The modules of which the seeds reach a definition."""
    done, todo = set(), list(seeds)
    while todo:
        place = todo.pop()
        if place in done or place[0] not in specs:
            continue
        done.add(place)
        todo += next_to(specs, *place)
    return {module for module, _ in done}


def wrong_marks(root):
    """The files of specs/ whose first line does not say what they are."""
    specs = specs_of(root)
    promises = reached(specs, promised(root))
    for module, spec in specs.items():
        mark = "-- Promise: " if module in promises else "-- Scaffold: "
        if spec.path.name != "Lib.antt" and not text_of(spec.path).startswith(mark):
            yield f"{spec.path.relative_to(root)}: its first line begins with `{mark}`"
