"""Packets that a rule table decides."""
import re
import subprocess

LINE = r"(\d+) rules, (packets [^:]+): \d+ in \d+ ms, (\d+) a second, \d+ denied by (the table|a scan)"
GOAL = "over 1,000,000 packets a second"
# What is measured, and its goal.
ROWS = {
    "packets that no rule covers": f"{GOAL}, at most 1.8 times as long as over 256 rules",
    "packets that one rule covers": f"{GOAL}, at most 1.8 times as long as over 256 rules",
    "packets to IPv6 nets": GOAL,
    "packets of connections with ports": GOAL,
    "packets to nets of 64 rules": GOAL,
}


def measure(bench):
    told = subprocess.run([bench.built("test_speed"), "decide"], stdout=subprocess.PIPE, check=True).stdout.decode()
    for line in told.splitlines():
        bench.report.say(line)
    rates = {(what, int(rules), by): int(rate) for rules, what, rate, by in re.findall(LINE, told)}
    for what, goal in ROWS.items():
        many, few = rates[what, 65536, "the table"], rates[what, 256, "the table"]
        came = f"{many:,} a second; {few / many:.2f} times as long as over 256 rules"
        if (what, 65536, "a scan") in rates:
            came += f"; a plain scan decides {rates[what, 65536, 'a scan']:,}"
        bench.report.row(f"`decide`, 65,536 rules, {what}", goal, came)
