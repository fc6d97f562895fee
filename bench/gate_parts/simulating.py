"""How long `rt ci` would take on another machine: what a log says that each task takes, in the order that `rt` itself would choose there."""
import collections
import dataclasses
import types

import kit

# The share of a check that one processor does alone, where a log does not show it.
ALONE = 0.35


@dataclasses.dataclass(eq=False)
class Running:
    """A task that runs, and when it ends. Stands for a future."""

    end: float

    def result(self):
        return True


class Clock:
    """Stands for the pool of threads in which `rt` runs its tasks: nothing runs, and the clock is set forward to the next end."""

    def __init__(self):
        self.now = self.busy = 0.0

    def pool(self, _lanes):
        return self

    def __enter__(self):
        return self

    def __exit__(self, *_):
        return False

    def submit(self, seconds, _given, jobs):
        much = seconds(jobs)
        self.busy += much * jobs
        return Running(self.now + much)

    def wait(self, running, return_when=None):
        first = min(running, key=lambda it: it.end)
        self.now = first.end
        return types.SimpleNamespace(done=[first])


def share_alone(log):
    """The share of a check that one processor does alone, by the checks of the log that had several and did not wait for them."""
    weight = found = 0.0
    for task in log.tasks:
        took = task.end - task.begin
        if task.kind in ("proof", "tests") and task.jobs > 1 and 20 < task.seconds and took < task.seconds:
            share = (took / task.seconds - 1 / task.jobs) / (1 - 1 / task.jobs)
            weight, found = weight + task.seconds, found + task.seconds * max(share, 0)
    return found / weight if weight else ALONE


def of_edits(log, crate):
    """The seconds of the seed, of each edit, and of what is tried again in the end, of a crate."""
    tasks = [it for it in log.tasks if it.crate == crate.name and it.kind in ("seed", "edit")]
    seeds = sorted((it for it in tasks if it.kind == "seed"), key=lambda it: it.begin)
    edits, sound = collections.Counter(), sum(it.seconds for it in seeds[1:])
    for it in tasks:
        if it.kind == "edit" and it.detail.isdigit():
            edits[int(it.detail)] += it.seconds
    # (those from nothing tell no number)
    for it in tasks:
        if it.kind == "edit" and not it.detail.isdigit():
            free = next((at for at in range(crate.edits) if at not in edits), 0)
            edits[free] += it.seconds
    return sum(it.seconds for it in seeds[:1]), edits, sound


def tasks_of(log, over):
    """The tasks of `rt ci` as `in_lanes` takes them: what each waits for, its lines, its memory, and what it takes with so many jobs."""
    alone, tasks = share_alone(log), {}
    took = collections.Counter()
    for it in log.tasks:
        took[it.crate, it.kind] += it.seconds
    fixed = lambda seconds: lambda jobs: seconds * (alone + (1 - alone) / jobs)
    for crate in sorted(log.crates.values(), key=lambda it: len(log.all_below(it.name))):
        name, kinds = crate.name, lambda *kinds: sum(took[crate.name, kind] for kind in kinds)
        waits, both = [(it, "proof") for it in log.all_below(name) if it in log.crates], [(name, "proof"), (name, "tests")]
        builds = kinds("format", "compile", "link")
        tasks[name, "proof"] = (waits, crate.lines, crate.memory, lambda jobs, much=fixed(kinds("proof")), more=builds: much(jobs) + more)
        tasks[name, "tests"] = (waits, crate.lines * crate.has_tests, crate.memory, lambda jobs, much=fixed(kinds("tests")), more=kinds("tests link"): much(jobs) + more)
        seed, edits, sound = of_edits(log, crate)
        has_seed = crate.edits > 1
        if has_seed:
            tasks[name, "seed"] = (waits, 0, crate.memory, fixed(seed))
        for at in range(crate.edits):
            after, much = ([*both, (name, "seed")], over * crate.memory) if has_seed else (both, crate.memory)
            tasks[name, "edits", at] = (after, crate.lines, much, lambda jobs, much=edits[at]: much)
        if has_seed:
            tasks[name, "sound"] = ([*((name, "edits", at) for at in range(crate.edits)), (name, "seed")], 0, over * crate.memory, lambda jobs, much=sound: much)
            for at in range(crate.edits):
                tasks[name, "again", at] = ([(name, "sound")], 0, crate.memory, lambda jobs: 0.0)
    return tasks


def simulated(log, processors, free):
    """The seconds by the clock, of the tasks and of the runs behind them, and those in which processors were at work on tasks."""
    rt, clock = kit.loaded(), Clock()
    rt.ThreadPoolExecutor, rt.wait = clock.pool, clock.wait
    rt.processors, rt.free = lambda: processors, lambda: free
    rt.os.environ.pop("RT_JOBS", None)
    rt.in_lanes(tasks_of(log, rt.OVER))
    runs = sum(it.end - it.begin for it in log.tasks if it.kind in ("run", "tests run"))
    return clock.now, runs, clock.busy


def show(log, processors, memory):
    processors = processors or int(log.facts["processors"])
    free = int(memory * 1e9) if memory else int(log.facts["free"])
    now, runs, busy = simulated(log, processors, free)
    print(f"{processors} processors, {free / 1e9:.1f} GB free: {(now + runs) / 60:.1f} minutes by the clock")
    print(f"(proofs, tests and edits {now / 60:.1f}, then programs and tests run one behind another {runs / 60:.1f}; processors at work {busy / max(now, 1e-9) / processors:.0%} of the first)")
    if "clock" in log.facts:
        print(f"(the run of the log took {float(log.facts['clock']) / 60:.1f}, with {log.facts['processors']} processors and {int(log.facts['free']) / 1e9:.1f} GB free)")
