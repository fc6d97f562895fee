"""What a run of the gate cost, crate by crate, in Markdown."""
from log import COLUMNS

EDITS = "edits"


def minutes(seconds):
    return f"{seconds / 60:.1f}"


def gigabytes(count):
    return f"{count / 1e9:.1f}"


def cells(log, name):
    """The cells of a crate: its name, and the seconds in each column, of the edits with how many there are."""
    seconds, found = log.seconds(), [f"`{name}`"]
    for column in COLUMNS:
        text = f"{seconds[name, column]:.0f}" if seconds[name, column] >= 0.5 else ""
        if column == EDITS and log.crates[name].edits:
            text = f"{text or 0} ({log.crates[name].edits})"
        found.append(text)
    return found


def print_rows(log):
    """The crates in the order of crates.txt, in two halves side by side."""
    rows = [cells(log, name) for name in log.crates]
    half = (len(rows) + 1) // 2
    head = ["Crate", *(f"{column.capitalize()}, s" for column in COLUMNS)]
    print("| " + " | ".join([*head, "", *head]) + " |")
    print("|" + "---|" * (2 * len(head) + 1))
    for at in range(half):
        other = rows[at + half] if at + half < len(rows) else [""] * len(head)
        print("| " + " | ".join([*rows[at], "", *other]) + " |")


def longest_way(log):
    """The seconds of the longest way through the crates, each behind those that it stands on, and the crates on it, lowest first.

    A crate's own share is its proof, and of a program what its compilers take, since `rt ci` does both in one task.
    """
    seconds, ways = log.seconds(), {}

    def way(name):
        if name not in ways:
            own = seconds[name, "proof"] + sum(it.seconds for it in log.tasks if it.crate == name and it.kind in ("compile", "link"))
            most, crates = max((way(it) for it in log.crates[name].below if it in log.crates), default=(0.0, []))
            ways[name] = most + own, [*crates, name]
        return ways[name]

    return max(way(name) for name in log.crates)


def print_sums(log):
    """The sums, in minutes, and the run as a whole."""
    seconds, total = log.seconds(), float(log.facts.get("total", 0))
    sums = {column: sum(seconds[name, column] for name in log.crates) for column in COLUMNS}
    sums["`rt` itself"] = float(log.facts.get("itself", 0))
    sums["not told apart"] = total - sum(sums.values())
    print("\n| Sums | Minutes |\n|---|---|")
    for what, much in [*sums.items(), ("all", total)]:
        print(f"| {what} | {minutes(much)} |")
    print(f"| by the clock, {log.facts['processors']} processors, {gigabytes(int(log.facts['free']))} GB free | {minutes(float(log.facts.get('clock', 0)))} |")


def show(log):
    print_rows(log)
    print_sums(log)
    much, crates = longest_way(log)
    print(f"\nLongest way through the crates: {minutes(much)} min: {', '.join(f'`{it}`' for it in crates)}.")
    proved = {it.crate for it in log.tasks if it.kind in ("proof", "tests")} & {*log.crates}
    planned = max((log.crates[name] for name in proved), key=lambda it: it.memory, default=None)
    seen = max((it for it in log.tasks if it.kind in ("proof", "tests", "seed", "edit")), key=lambda it: it.memory, default=None)
    if planned and seen:
        print(f"\nGreatest memory of one check: planned {gigabytes(planned.memory)} GB (`{planned.name}`), seen {gigabytes(seen.memory)} GB (`{seen.crate}`, {seen.kind}, {seen.jobs} jobs).")
    facts = log.facts
    print(f"\nMeasured by `bench/gate.py` with {facts['kit']}, from {facts['began']}, at a load of {facts['load']} before; crates: {facts['of']}; status {facts.get('status', 'none: cut off')}.")
