"""The records of a loop in memory."""
import os
import re
import subprocess
import sys

from measure import Tool, in_turn, ratio
from speed_parts.books import deep, endless, mixed

HERE = os.path.dirname(os.path.realpath(__file__))
COUNTS = 100_001, 600_001


def ours(program, books):
    """The seconds of the processor that test_speed tells for each number of records of the loop."""
    told = subprocess.run([program, "steps", *books], stdout=subprocess.PIPE, check=True).stdout.decode()
    found = re.findall(r"a loop: (\d+) records in (\d+) ms", told)
    return {int(count): int(time) / 1000 for count, time in found}


def measure(bench):
    book = bench.write("while.json", endless(0))
    tools = [Tool(str(count), [sys.executable, f"{HERE}/interpreter.py", book, str(count)]) for count in (1, *COUNTS)]
    figures = in_turn(tools, 1 if bench.small else 5)
    start = figures["1"].cpu
    python = {count: figures[str(count)].cpu - start for count in COUNTS}
    program = bench.built("test_speed")
    books = [book, bench.write("mixed.json", mixed()), bench.write("deep.json", deep())]
    taken = [ours(program, books) for _ in range(1 if bench.small else 5)]
    least = {count: min(one[count] for one in taken) for count in COUNTS}
    for count in COUNTS:
        bench.report.say(f"{count:,} records of a loop: {least[count]:.3f} s, a Python interpreter {python[count]:.3f} s")
    few, many = COUNTS
    bench.report.row(
        f"{many:,} records in memory",
        "ten times faster than Python, linear",
        f"{many / least[many]:,.0f} a second, Python {many / python[many]:,.0f}: {ratio(python[many], least[many])} times faster; "
        f"{ratio(least[many] / many, least[few] / few)} times as long a record as for {few:,}",
    )
