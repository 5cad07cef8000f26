"""What `check` has to warn of in more than two thousand conditions: each operator on each border, and conditions by chance.

They stand in few policies of many filters. The lines are those of warnings.py, which tries conditions on values.
"""

import itertools
import json
import random

from cases.forms import policies_of, writes

from .warnings import ALLOWED, LOW, WHOLE, condition, lines_of, masked

OPERATORS = ("eq", "ge", "gt", "le", "lt", "ne")
BORDERS = (0, 1, LOW - 1, LOW, LOW + 1, LOW + 2, 2**63, WHOLE - 1, WHOLE)

# The two actions of a filter: denied or let through by default, and what is listed the other way or the same.
ACTIONS = [("trap", "allow"), ("allow", "trap"), ("log", {"errno": 1}), ("allow", "log")]

# How many conditions an entry has, entries a filter, and filters a policy; and how many conditions come by chance.
CONDITIONS, ENTRIES, FILTERS = 3, 4, 48
BY_CHANCE = 1200


def some_number(chance):
    """Returns a number of 64 bits, often one near a border."""
    border = chance.choice([*BORDERS, 2**31, chance.getrandbits(32), chance.getrandbits(64)])
    return (border + chance.choice([-1, 0, 0, 1])) & WHOLE


def some_condition(chance):
    """Returns a condition by chance, often one whose value is near its mask."""
    mask, value = some_number(chance), some_number(chance)
    if chance.random() < 0.4:
        return condition(chance.choice(["dword", "qword"]), masked(mask), chance.choice([value, value & mask, mask]))
    return condition(chance.choice(["dword", "qword"]), chance.choice(OPERATORS), value)


def parted(items, count):
    """Returns lists of so many of the items, of which the last may be shorter."""
    return [items[start:start + count] for start in range(0, len(items), count)]


def filters_of(conditions, actions):
    """Returns filters that have these conditions, in entries of some each, each condition of another argument. The
    filters have the pairs of actions in turn."""
    entries = [[{**it, "index": index} for index, it in enumerate(some)] for some in parted(conditions, CONDITIONS)]
    filters = parted([{"syscall": "read", "args": it} for it in entries], ENTRIES)
    return [
        {"mismatch_action": mismatch, "match_action": match, "filter": it}
        for it, (mismatch, match) in zip(filters, itertools.cycle(actions))
    ]


def all_filters():
    """Returns filters of each operator on each border, with each pair of actions, and of conditions by chance."""
    operators = [*OPERATORS, *map(masked, BORDERS)]
    on_borders = [condition(*it) for it in itertools.product(["dword", "qword"], operators, BORDERS)]
    chance = random.Random(1)
    by_chance = [some_condition(chance) for _ in range(BY_CHANCE)]
    return [it for pair in ACTIONS for it in filters_of(on_borders, [pair])] + filters_of(by_chance, ACTIONS)


CASES = [writes(f"check {ALLOWED}", it, lines_of(it)) for it in map(json.dumps, policies_of(all_filters(), FILTERS))]
