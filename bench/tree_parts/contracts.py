"""The contracts that tables of pages name, against those of the code.

A row of a table with the heads `Promise` and `Contract` names functions, and behind a colon their clauses. Groups of these stand between semicolons, and
what stands in brackets tells more and is not looked at. A plain name behind `Type::name` or `crate::name` is one of the same type or crate.
Where a clause is a record of the crate's own `specs/`, or one behind a condition on the words, each field of it counts as a clause.
"""
import collections
import re

from tree import crate_of, documents, prose, sources, text_of

FUNCTION = re.compile(r"( *)(?:pub(?:\([^)]*\))? )?(?:const |ghost )*fn (\w+)")
OWNER = re.compile(r"(?:impl(?:<.*?>)? (?:[\w:]+(?:<.*>)? for )?|(?:pub )?trait )(\w+)")
CLAUSE = re.compile(r"\s*ensures(?: (\w+))? \{ ?(\w*)")
RECORD = re.compile(r"(?:pub )?record (\w+)")
FIELD = re.compile(r"  (?:pub )?(\w+) :")
# What a clause begins with that speaks of some words alone; what it then says stands behind it, on its line or the next.
CONDITIONS = ("IfAlone", "InOneProcess")
HEAD = re.compile(r"\|(?: \d* ?\|)? Promise \| Contract")


def names_of(crate, owner, function):
    """The names under which a page may speak of a function."""
    inner = [f"{owner}::{function}", function] if owner else [function]
    return [*inner, *(f"{crate}::{name}" for name in inner)]


def records_of(root):
    """The names of the fields of each record of `specs/`, by its crate and its name."""
    found = collections.defaultdict(set)
    for path in sources(root):
        record = None
        for line in text_of(path).split("\n") if path.suffix == ".antt" and "specs" in path.parts else ():
            if here := RECORD.match(line):
                record = crate_of(root, path), here[1]
            elif line and not line.startswith(" "):
                record = None
            elif record and (field := FIELD.match(line)):
                found[record].add(field[1])
    return found


def clauses_of(root):
    """The names of the clauses of all functions, by each of the names of these."""
    found, records = collections.defaultdict(set), records_of(root)
    for path in sources(root):
        crate, owner, names = crate_of(root, path), None, []
        lines = text_of(path).split("\n") if path.suffix == ".rt" else []
        for line, following in zip(lines, [*lines[1:], ""]):
            if here := OWNER.match(line):
                owner = here[1]
            elif function := FUNCTION.match(line):
                names = names_of(crate, owner if function[1] else None, function[2])
                [found[name] for name in names]
            elif clause := CLAUSE.match(line):
                said = re.findall(r"\w+", line + following) if clause[2] in CONDITIONS else [clause[2]]
                fields = set().union(*(records[crate, word] for word in said))
                [found[name].update({clause[1]}, fields) for name in names]
    return found


def cells(root):
    """The cells of contracts in all pages, each with its page and the number of its line."""
    for page in documents(root):
        place = None
        for number, line in prose(page):
            if HEAD.match(line):
                place = line.split(" | ").index("Contract") if " | Contract | " in line else -1
            elif not line.startswith("|"):
                place = None
            elif place is not None and not line.startswith("|--"):
                yield page, number, line.strip().removesuffix("|").split(" | ")[place]


def unbracketed(cell):
    """A cell without what stands in brackets."""
    while (shorter := re.sub(r"\([^()]*\)", "", cell)) != cell:
        cell = shorter
    return cell


def functions_in(head, clauses):
    """The functions that the front of a group names, in full where a plain name stands behind one with its type or crate."""
    front, found = "", []
    for name in re.findall(r"`([\w:]+)`", head):
        name = f"{front}::{name}" if "::" not in name and f"{front}::{name}" in clauses else name
        front = name.rpartition("::")[0]
        found.append(name)
    return found


def lacks(cell, clauses):
    """What a cell names that is no function, or no clause of the functions before it."""
    for group in unbracketed(cell).split(";"):
        head, _, tail = group.partition("`: ")
        functions = functions_in(f"{head}`", clauses)
        yield from (name for name in functions if name not in clauses)
        for clause in re.findall(r"`(\w+)`", tail):
            if not any(clause in clauses.get(name, ()) for name in functions):
                yield f"{', '.join(functions)}: {clause}"


def lacking(root):
    """The contracts that pages name and the code has not."""
    clauses = clauses_of(root)
    for page, number, cell in cells(root):
        for what in lacks(cell, clauses):
            yield f"{page.relative_to(root)} {number}: `{what}` is no contract of the code"
