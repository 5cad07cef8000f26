"""Filters by chance, whose entries are parted, covered, exchanged and put in another order: what `diff` says of each pair, beside
what the entries decide by the meaning of the operators alone.

None may be undecided, and of those that have no mask none may be with 64 entries. What is the same must be so on arguments at what is
compared and beside it; what differs must differ at the example.
"""

import json
import random
import re

from model import DWORD, QWORD, is_met

DRAW = random.Random(7)
OPPOSITES = {"eq": "ne", "ne": "eq", "lt": "ge", "ge": "lt", "le": "gt", "gt": "le"}
VALUES = [0, 1, 2, 5, 7, 100, 1 << 31, DWORD, DWORD + 5, QWORD - 1]
MASKS = [1, 3, 12, 255, DWORD - 1]
BESIDE = sorted({(it + step) % QWORD for it in [*VALUES, DWORD - 1] for step in (-1, 0, 1)})
# How many pairs of filters, of at most how many entries each, and whether some compare under masks.
KINDS = [(1500, 8, False), (60, 64, False), (600, 8, True)]


def some_condition(masked=False):
    """Returns a condition by chance."""
    operator = {"masked_eq": DRAW.choice(MASKS)} if masked and DRAW.random() < 0.4 else DRAW.choice([*OPPOSITES])
    value = DRAW.choice([*VALUES, DRAW.getrandbits(8)])
    return {"index": DRAW.randrange(6), "type": DRAW.choice(["dword", "qword"]), "op": operator, "val": value}


def some_entries(most, masked):
    """Returns entries, each a list of conditions."""
    return [[some_condition(masked) for _ in range(DRAW.choice([1, 1, 2, 2, 3]))] for _ in range(DRAW.randint(1, most))]


def changed(entries):
    """Returns the entries in another order, some in two parts, maybe one more that others cover, and maybe one exchanged."""
    parts = []
    for entry in entries:
        border = some_condition()
        other = {**border, "op": OPPOSITES[border["op"]]}
        parts += [[*entry, border], [*entry, other]] if DRAW.random() < 0.3 else [entry]
    if DRAW.random() < 0.5:
        parts.append([*DRAW.choice(parts), some_condition()])
    if DRAW.random() < 0.4:
        parts[DRAW.randrange(len(parts))] = [some_condition()]
    DRAW.shuffle(parts)
    return parts


def decide(entries, arguments):
    """The action that entries decide."""
    return "allow" if any(all(is_met(it, arguments[it["index"]]) for it in entry) for entry in entries) else "log"


def policy(filters):
    """Returns the policy of these filters of `read`."""
    return json.dumps({
        name: {"mismatch_action": "log", "match_action": "allow", "filter": [{"syscall": "read", "args": args} for args in entries]}
        for name, entries in filters.items()
    })


OLD, NEW = {}, {}
for COUNT, MOST, MASKED in KINDS:
    for PLACE in range(COUNT):
        NAME = f"of-{MOST}-{'masks-' if MASKED else ''}{PLACE:04}"
        OLD[NAME] = some_entries(MOST, MASKED)
        NEW[NAME] = changed(OLD[NAME])
FILES = {"random-old.json": policy(OLD), "random-new.json": policy(NEW)}

EXAMPLE = re.compile(r"  read: (\w+) -> (\w+), (?:more|less): read\(([^)]*)\)")


def fault_of(old, new, verdict, lines):
    """What is wrong with a verdict and its lines, or an empty text."""
    if verdict == "same":
        for _ in range(40):
            arguments = [DRAW.choice([*BESIDE, DRAW.getrandbits(64)]) for _ in range(6)]
            if decide(old, arguments) != decide(new, arguments):
                return f"it differs at {arguments}"
        return ""
    example = EXAMPLE.fullmatch(lines[0]) if verdict == "different" and len(lines) == 1 else None
    if not example:
        return f"{verdict}: {lines}"
    arguments = [int(it, 16) for it in example[3].split(", ")]
    decided = decide(old, arguments), decide(new, arguments)
    return "" if decided == (example[1], example[2]) and decided[0] != decided[1] else f"{lines[0]}: {decided}"


def compare_filters(results, run):
    """Compares what is said of each pair; `results` counts each as a case."""
    _status, output, _errors = run("diff -q random-old.json random-new.json", "")
    found, name = {}, None
    for line in output.splitlines():
        if line.startswith("filter "):
            name, _, verdict = line.removeprefix("filter ").partition(": ")
            found[name] = verdict, []
        else:
            found[name][1].append(line)
    for name, old in OLD.items():
        verdict, lines = found.get(name, ("missing", []))
        wrong = fault_of(old, NEW[name], verdict, lines)
        results.compare(f"random filters {name}", ("",), (wrong,))
