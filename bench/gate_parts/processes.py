"""The processes of the system, as they stand at one moment, and what each of `rt ci` does by its words."""
import os
import re

TICK, PAGE = os.sysconf("SC_CLK_TCK"), os.sysconf("SC_PAGE_SIZE")


class Process:
    """A process: its parent, processor seconds of its own and of those of its children that ended, and bytes of memory."""

    def __init__(self, text):
        fields = text[text.rindex(")") + 2 :].split()
        self.number, self.state = int(text[: text.index(" ")]), fields[0]
        self.parent, self.start = int(fields[1]), int(fields[19])
        self.own = (int(fields[11]) + int(fields[12])) / TICK
        self.ended = (int(fields[13]) + int(fields[14])) / TICK
        self.memory = int(fields[21]) * PAGE


def process(number):
    """The process of that number, or None where there is none."""
    try:
        with open(f"/proc/{number}/stat", encoding="utf-8", errors="replace") as file:
            return Process(file.read())
    except (OSError, ValueError):
        return None


def by_parent():
    """All processes, by the number of their parent."""
    found = {}
    for name in os.listdir("/proc"):
        if name.isdigit() and (it := process(name)):
            found.setdefault(it.parent, []).append(it)
    return found


def family(it, children):
    """A process and all below it."""
    found = [it]
    for one in found:
        found += children.get(one.number, [])
    return found


def words_of(number):
    try:
        with open(f"/proc/{number}/cmdline", "rb") as file:
            return file.read().decode(errors="replace").split("\0")[:-1]
    except OSError:
        return []


def folder_of(number):
    try:
        return os.readlink(f"/proc/{number}/cwd")
    except OSError:
        return ""


def highest(number):
    """The most memory that a process had so far, in bytes."""
    return 1024 * _number(f"/proc/{number}/status", r"VmHWM:\s+(\d+)")


def share(number):
    """The memory of a process, where a page that several share counts for each in part, in bytes."""
    return 1024 * _number(f"/proc/{number}/smaps_rollup", r"\nPss:\s+(\d+)")


def _number(path, pattern):
    try:
        with open(path, encoding="utf-8", errors="replace") as file:
            found = re.search(pattern, file.read())
        return int(found[1]) if found else 0
    except OSError:
        return 0


def value(words, flag, otherwise=""):
    """The word behind a flag."""
    return words[words.index(flag) + 1] if flag in words[:-1] else otherwise


def told(words, folder):
    """What a process does: its kind, crate and detail, or None where its words do not tell yet."""
    if "-ISc" in words[:3]:
        # (rt starts what it starts through a line of Python, which these words follow)
        words = words[words.index("-ISc") + 2 :]
    name = os.path.basename(words[0]) if words else ""
    run = next((found for it in words if (found := re.search(r"/rt-run-\d+-[^/]*/bin/(\w+)$", it))), None)
    if run:
        crate = run[1].removesuffix("_tests")
        return ("tests run" if run[1] != crate else "run"), crate, ""
    if name in ("rattle-link", "llvm-nm"):
        made = os.path.basename(value(words, "-o") if name == "rattle-link" else words[-1]).removesuffix(".by-rattle")
        crate = made.removesuffix("_tests")
        return ("tests link" if made != crate else "link"), crate, ""
    if name != "rattle":
        return None
    if words[1:2] == ["fmt"]:
        found = re.search(r"/crates/([^/]+)/", words[-1])
        return ("format", found[1], "") if found else None
    crate, kept = value(words, "--crate-name"), value(words, "--incremental")
    if not crate:
        return None
    if re.search(r"/rt-edit-\d+-", folder + "/"):
        detail = os.path.basename(kept) if kept else "whole"
        return ("seed", crate, "") if detail == "seed" else ("edit", crate, detail)
    if "--crate-checked" in words:
        return "compile", crate, value(words, "--backend")
    return ("tests" if "--test" in words else "proof"), crate, ""
