"""A filter, by docs/FORMATS.md, by itself: what it answers to a command, and the rules that it holds then."""
import ipaddress

ACTIONS = ("allow", "deny", "delete", "update", "query")
TARGETS = {"allow": ("ipv4_net",), "deny": ("ipv4_net",), "delete": ("slpf:rule_number",), "update": ("file",), "query": ("features",)}
MOST_RULE = 4_294_967_295


def net_of(text):
    """An IPv4 net as it is printed, None of another text."""
    try:
        return str(ipaddress.IPv4Network(text, strict=False)) if isinstance(text, str) and text else None
    except ValueError:
        return None


def is_number(value):
    return isinstance(value, int) and not isinstance(value, bool) and 1 <= value <= MOST_RULE


def refusal(command):
    """The status and the text with which a command is refused before the table is looked at; None where it is understood."""
    kind = command["action"]
    if kind not in ACTIONS:
        return 501, "unsupported action"
    ((name, value),) = command["target"].items()
    if name not in TARGETS[kind]:
        return 501, "unsupported pair"
    is_right = {"ipv4_net": lambda: net_of(value), "slpf:rule_number": lambda: is_number(value), "file": lambda: True, "features": lambda: True}
    if not is_right[name]():
        return 400, "malformed target"
    args, slpf = command.get("args", {}), command.get("args", {}).get("slpf", {})
    if "drop_process" in slpf and kind != "deny":
        return 400, "malformed args"
    times = [one for one in ("start_time", "stop_time", "duration") if one in args]
    if slpf.get("persistent") is False or (kind not in ("allow", "deny") and (times or slpf)):
        return 501, "unsupported args"
    return None


class Filter:
    """The acts of a filter, and the rules that it holds: each number has the text that stands behind it in its line."""

    def __init__(self):
        self.acts, self.rules, self.moment = {}, {}, 0

    def answer(self, run, issue, command, now):
        """The status, the rule's number (0: none) and the text; a command that was acted on is answered again."""
        if (run, issue) not in self.acts:
            self.moment = max(self.moment, now)
            refused = refusal(command)
            self.acts[run, issue] = (refused[0], 0, refused[1]) if refused else self.act(command)
        return self.acts[run, issue]

    def act(self, command):
        kind, args = command["action"], command.get("args", {})
        if kind == "query":
            return 200, 0, ""
        if kind == "update":
            if command["target"]["file"]["name"] != "empty.rules":
                return 500, 0, "unknown file"
            self.rules.clear()
            return 200, 0, ""
        if kind == "delete":
            if self.rules.pop(command["target"]["slpf:rule_number"], None) is None:
                return 404, 0, "rule not held"
            return 200, 0, ""
        slpf = args.get("slpf", {})
        number = slpf.get("insert_rule")
        if number in self.rules:
            return 500, 0, "rule number held"
        number = number or max(self.rules, default=0) + 1
        start = args["start_time"] if "start_time" in args else self.moment
        if "start_time" not in args and "stop_time" in args and "duration" in args:
            start = args["stop_time"] - args["duration"]
        stop = args["stop_time"] if "stop_time" in args else start + args["duration"] if "duration" in args else "-"
        drop = slpf.get("drop_process", "none") if kind == "deny" else "-"
        net = net_of(command["target"]["ipv4_net"])
        self.rules[number] = f"{kind} {slpf.get('direction', 'both')} net4 {net} {start} {stop} {drop}"
        return 200, number, ""

    def lines(self):
        """What `rules` says."""
        return [f"{number} {self.rules[number]}" for number in sorted(self.rules)]
