"""What `diff` has to say of filters that decide alike, which no search through sets of calls would show: in another order, with
entries twice or covered by others, and beside both of their own programs.

The policies are drawn by chance, from one seed.
"""

import json
import random

from cases.forms import Case

DRAW = random.Random(94)


def condition(index, operator, value):
    """Returns a condition on all 64 bits of an argument."""
    return {"index": index, "type": "qword", "op": operator, "val": value}


def masked(index):
    """Returns a condition on two bits of an argument."""
    first, second = DRAW.sample(range(12), 2)
    mask = 1 << first | 1 << second
    return condition(index, {"masked_eq": mask}, DRAW.choice([1 << first, 1 << second, mask, 0]))


def masks(count, each):
    """Returns entries of so many masks each, on different arguments."""
    return [[masked(index) for index in DRAW.sample(range(6), each)] for _ in range(count)]


def chosen(count, each, operator):
    """Returns entries of so many comparisons each, on different arguments."""
    return [[condition(index, operator, DRAW.randrange(1 << 20)) for index in DRAW.sample(range(6), each)] for _ in range(count)]


def policy(entries):
    """Returns a policy of one filter with these entries of `read`."""
    filters = [{"syscall": "read", "args": args} for args in entries]
    return json.dumps({"a": {"mismatch_action": "log", "match_action": "allow", "filter": filters}})


def mixed(entries):
    """Returns the entries in another order, the conditions too, some of them twice, and some that others cover."""
    more = [[*args, condition(args[0]["index"], "ge", 0)] for args in DRAW.sample(entries, 3)]
    mixed = [DRAW.sample(args, len(args)) for args in [*entries, *DRAW.sample(entries, 3), *more]]
    DRAW.shuffle(mixed)
    return mixed


def parted(entries):
    """Returns the entries, some of them in two parts, by a comparison of an argument."""
    parts = []
    for place, args in enumerate(entries):
        border = condition(DRAW.randrange(6), "lt", DRAW.randrange(1 << 20))
        parts += [[*args, border], [*args, {**border, "op": "ge"}]] if place % 4 == 0 else [args]
    return parts


FOUR, TWO = masks(28, 4), masks(40, 2)
ORDERED, ONE, PAIRS = chosen(30, 6, "le"), chosen(200, 1, "eq"), chosen(100, 2, "eq")
ALL = {"four-masks": FOUR, "two-masks": TWO, "six-le": ORDERED, "one-eq": ONE, "two-eq": PAIRS}
FILES = {}
for NAME, ENTRIES in ALL.items():
    FILES |= {
        f"{NAME}.json": policy(ENTRIES), f"{NAME}-reversed.json": policy(ENTRIES[::-1]), f"{NAME}-mixed.json": policy(mixed(ENTRIES)),
        f"{NAME}-parted.json": policy(parted(ENTRIES)),
    }

SAME, OTHERS = "filter a: same\n", "other architectures: same\n"
CASES = [
    *[Case(f"diff -q {name}.json {name}-{other}.json", 0, SAME, "") for name in ALL for other in ("reversed", "mixed", "parted")],
    *[Case(f"diff -q {name}-{other}.json {name}.json", 0, SAME, "") for name in ALL for other in ("reversed", "mixed", "parted")],
    *[Case(f"diff -q --only-more {name}.json {name}-mixed.json", 0, "filter a: nowhere more permissive\n", "") for name in ALL],
    # Beside its own programs, in either layout, on either side.
    *[
        case
        for name in ALL for layout in ("tree", "linear")
        for case in (
            Case(f"compile -q --layout {layout} {name}.json | ./seccomptool diff -q {name}.json -", 0, SAME + OTHERS, ""),
            Case(f"compile -q --layout {layout} {name}.json | ./seccomptool diff -q - {name}.json", 0, SAME + OTHERS, ""),
        )
    ],
    # Beside the program of the entries in another order the search ends without an answer.
    Case("compile -q --layout linear four-masks-reversed.json | ./seccomptool diff -q --most 100000 four-masks.json -", 3,
         "filter a: undecided\n  read: undecided at instruction ..", ""),
]
