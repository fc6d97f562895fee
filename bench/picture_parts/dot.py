"""The picture of playbooks in DOT, by another hand than the program's: what `docs/VIEW.md` says of it, written once more."""
import base64
import binascii
import decimal
import json

SHAPES = {
    "start": "ellipse",
    "end": "doubleoctagon",
    "action": "box",
    "playbook-action": "folder",
    "parallel": "trapezium",
    "if-condition": "diamond",
    "while-condition": "hexagon",
    "switch-condition": "invhouse",
}
NEXT = ("on_completion", "on_success", "on_failure")


def shown(character):
    """Of a control character but the line feed its symbol; of U+FFFE and U+FFFF, which XML has not, U+FFFD."""
    code = ord(character)
    if code == 127:
        return "\u2421"
    if code in (0xFFFE, 0xFFFF):
        return "\ufffd"
    return chr(0x2400 + code) if code < 32 and code != 10 else character


def quoted(text):
    ways = {"\n": "\\n", '"': '\\"', "&": "&amp;", "\\": "\\\\"}
    return '"' + "".join(ways.get(c, shown(c)) for c in text) + '"'


def in_order(members):
    return sorted(members.items(), key=lambda member: member[0].encode())


def title(key, value):
    return value.get("name", key)


def heads(step):
    """The links to the branches of a step, each with its name."""
    kind = step["type"]
    if kind == "parallel":
        return [("next_steps", key) for key in step["next_steps"]]
    if kind == "if-condition":
        return [(name, step[name]) for name in ("on_true", "on_false") if name in step]
    if kind == "while-condition":
        return [("on_true", step["on_true"])]
    if kind == "switch-condition":
        return [(f"case {value}", key) for value, key in in_order(step["cases"])]
    return []


def onward(step):
    return [(name, step[name]) for name in NEXT if name in step]


def closure(steps, first):
    """The steps to which links lead that go on, from these."""
    found, left = set(), list(first)
    while left:
        key = left.pop()
        if key in steps and key not in found:
            found.add(key)
            left += [to for _, to in onward(steps[key])]
    return found


def homes(book):
    """For each step that stands in the region of one control step alone, and not in the main region, that control step."""
    steps = book["workflow"]
    main = closure(steps, [book["workflow_start"], *([book["workflow_exception"]] if "workflow_exception" in book else [])])
    regions = {key: closure(steps, [to for _, to in heads(step)]) for key, step in steps.items()}
    around = {key: [control for control in steps if key in regions[control]] for key in steps}
    return {key: controls[0] for key, controls in around.items() if len(controls) == 1 and key not in main}


def number_text(number):
    """A number as RFC 8785 writes it: the shortest digits, with an exponent below 10^-6 and from 10^21 on."""
    negative, digits, exponent = decimal.Decimal(repr(number)).normalize().as_tuple()
    digits, sign = "".join(map(str, digits)), "-" if negative and number else ""
    point = len(digits) + exponent
    if number == 0:
        return "0"
    if point > 21 or point <= -6:
        return f"{sign}{digits[0]}{'.' if digits[1:] else ''}{digits[1:]}e{point - 1:+d}"
    if point <= 0:
        return sign + "0." + "0" * -point + digits
    digits = digits.ljust(point, "0")
    return sign + digits[:point] + ("." if digits[point:] else "") + digits[point:]


def canonical(value):
    """The canonical text of a value of JSON (RFC 8785)."""
    if isinstance(value, dict):
        members = sorted(value.items(), key=lambda member: member[0].encode("utf-16-be"))
        return "{" + ",".join(canonical(name) + ":" + canonical(inner) for name, inner in members) + "}"
    if isinstance(value, list):
        return "[" + ",".join(map(canonical, value)) + "]"
    if isinstance(value, (int, float)) and not isinstance(value, bool):
        return number_text(value)
    return json.dumps(value, ensure_ascii=False)


def command_words(command):
    """What a command says, behind its type."""
    if command["type"] == "manual":
        return ": " + command["command"]
    if command["type"] != "openc2-http":
        return ""
    sent = command.get("content")
    if sent is None and "content_b64" in command:
        try:
            sent = base64.b64decode(command["content_b64"], validate=True).decode()
        except (binascii.Error, UnicodeDecodeError):
            sent = None
    try:
        content = json.loads(sent)
    except (TypeError, ValueError):
        return ""
    if not isinstance(content, dict):
        return ": "
    action = content.get("action") if isinstance(content.get("action"), str) else ""
    return ": " + action + (" " + canonical(content["target"]) if "target" in content else "")


def words(step):
    kind = step["type"]
    if kind == "action":
        said = ["action", *[command["type"] + command_words(command) for command in step["commands"]], "agent " + step["agent"]]
        return "\n".join(said + ["target " + target for target in step.get("targets", [])])
    if kind == "playbook-action":
        version = " of " + step["playbook_version"] if "playbook_version" in step else ""
        return f"{kind}\n{step['playbook_id']}{version}"
    if kind in ("if-condition", "while-condition"):
        return f"{kind}\n{step['condition']}"
    return f"{kind}\n{step['switch']}" if kind == "switch-condition" else kind


def lines(books, marks=None):
    """The lines of the picture of these playbooks, which are accepted. `marks` gives what a run marks at a step, by the number of its playbook
    and its key: how often it walked there, and the lines that are noted."""
    numbers = {}
    for number, book in enumerate(books):
        numbers.setdefault(book["id"], number)
    said = ["digraph {", "compound=true"]
    for number, book in enumerate(books):
        said += book_lines(books, numbers, number, book, marks)
    return [line + "\n" for line in said + ["}"]]


def marked(number, key, marks):
    """The words that a run marks at a step, and whether it is pale."""
    if marks is None:
        return "", False
    walks, notes = marks(number, key)
    return f"\nwalked {walks}\n" + "".join(note + "\n" for note in notes), walks == 0


def book_lines(books, numbers, number, book, marks):
    cluster, home = quoted(f"cluster {number}"), homes(book)

    def name(key):
        return quoted(f"{number} {key}")

    def inside(control, text):
        if control is None:
            return f"subgraph {cluster} {{ {text} }}"
        return f"subgraph {cluster} {{ subgraph {quoted(f'cluster {number} {control}')} {{ {text} }} }}"

    def link(key, what, to):
        return f"{name(key)} -> {name(to)} [label={quoted(what)}]"

    said = [inside(None, f"label={quoted(title(book['id'], book))}")]
    if "workflow_exception" in book:
        said.append(link(book["workflow_start"], "workflow_exception", book["workflow_exception"]))
    for key, step in in_order(book["workflow"]):
        called = title(key, step)
        if step["type"] in ("parallel", "if-condition", "while-condition", "switch-condition"):
            said.append(inside(key, f"label={quoted('region of ' + called)}"))
        noted, pale = marked(number, key, marks)
        label = quoted(called + "\n" + words(step) + noted)
        faint = ", color=gray, fontcolor=gray" if pale else ""
        said.append(inside(home.get(key), f"{name(key)} [label={label}, shape={SHAPES[step['type']]}{faint}]"))
        said += [link(key, what, to) for what, to in onward(step) + heads(step)]
        if step["type"] == "playbook-action" and step["playbook_id"] in numbers:
            there = numbers[step["playbook_id"]]
            start = quoted(f"{there} {books[there]['workflow_start']}")
            said.append(f"{name(key)} -> {start} [label={quoted('playbook_id')}, lhead={quoted(f'cluster {there}')}]")
    return said
