"""Names that a source brings for its contracts and that none of them cites."""
import re

from tree import sources, text_of, without_comment

SOME = re.compile(r"\s*ghost use [\w.]+\.\{(.*)\};$")
WHOLE = re.compile(r"\s*ghost use ([\w.]+)(?: as (\w+))?;$")
ANY = re.compile(r"\s*(?:pub )?ghost use ")


def is_cited(name, code):
    """Whether a name stands in the code. An operator stands there by its parts, whatever is between them."""
    if "◌" in name:
        return all(part in code for part in name.split("◌") if part)
    return re.search(rf"(?<!\w){re.escape(name)}(?!\w)", code) is not None


def brought(line):
    """The names under which a line brings what it names; none where it is no such line."""
    if some := SOME.match(line):
        return [it.strip().split(" as ")[-1] for it in some[1].split(",")]
    if whole := WHOLE.match(line):
        return [whole[2] or whole[1].split(".")[-1]]
    return []


def uncited(text):
    """The names that the `ghost use` lines of a source bring and that its code does not cite."""
    lines = text.split("\n")
    code = "\n".join(without_comment(line, ".rt") for line in lines if not ANY.match(line))
    return [name for line in lines for name in brought(line) if not is_cited(name, code)]


def breaks(root):
    """The sources with such names."""
    for path in sources(root):
        if path.suffix == ".rt":
            yield from (f"{path.relative_to(root)}: {name} of a `ghost use` is cited nowhere" for name in uncited(text_of(path)))
