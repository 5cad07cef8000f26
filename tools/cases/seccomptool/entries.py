"""What `check` has to warn of in entries beside others: those that no call meets, and those that a filter doesn't need.

Of each code there is a table of filters that have it and of filters that just don't. More filters come by chance. Their
conditions have small values, so what each entry needs to have said of it is found by trying all arguments that differ for
any of them.
"""

import itertools
import json
import random

from cases.forms import Case, policies_of, writes

from .warnings import BESIDE, SAID, WHOLE, condition, holds, line, masked

# The codes that are allowed here.
OTHERS = " ".join(f"--allow {it}" for it in SAID if it not in BESIDE)

# How many filters come by chance, how many a policy has of them, and the most entries and conditions.
BY_CHANCE, FILTERS, ENTRIES, CONDITIONS = 480, 48, 4, 3

# The greatest value, and the masks, of a condition by chance; and arguments of each kind: below and above all values, with all
# low bits, with a high half and without.
VALUES, MASKS = range(6), range(8)
TRIED = [high + low for high in (0, 2**32) for low in range(16)]

OPERATORS = ("eq", "ge", "gt", "le", "lt", "ne")


def entry(*args, name="read"):
    """Returns the entry of a call that asks for these args, or for none."""
    return {"syscall": name, "args": list(args)} if args else {"syscall": name}


def policy_of(entries, mismatch="trap", match="allow"):
    """Returns the text of a policy of one filter, which has these entries and actions."""
    return json.dumps({"a": {"mismatch_action": mismatch, "match_action": match, "filter": entries}})


def of_entries(entries, warnings):
    """Returns the cases of a filter of these entries that has these warnings, each a place and a code, whatever its
    actions are."""
    cases = []
    for mismatch, match in (("trap", "allow"), ("allow", {"errno": 1})):
        text = policy_of(entries, mismatch, match)
        output = "".join(line(f"a.filter[{place}]", code) for place, code in warnings)
        cases.append(writes(f"check {OTHERS}", text, output))
        cases.append(Case(f"check --deny-warnings {OTHERS}", 1 if warnings else 0, output, "", text))
    return cases


def at(code, *places):
    """Returns the warnings of this code of the entries at these places."""
    return [(place, code) for place in places]


def unreachable(*places):
    """Returns the warnings of the entries at these places that no call meets."""
    return at("unreachable-entry", *places)


def redundant(*places):
    """Returns the warnings of the entries at these places that the filter doesn't need."""
    return at("redundant-entry", *places)


def dword(operator, value, index=0):
    """Returns a condition on the low half of an argument."""
    return condition("dword", operator, value, index)


def qword(operator, value, index=0):
    """Returns a condition on an argument."""
    return condition("qword", operator, value, index)


UNREACHABLE = [
    ([entry(dword("eq", 1), dword("eq", 2))], unreachable(0)), ([entry(dword("eq", 1), dword("eq", 2, 1))], []),
    ([entry(qword("gt", 9, 2), qword("lt", 10, 2))], unreachable(0)), ([entry(qword("gt", 9, 2), qword("lt", 11, 2))], []),
    ([entry(qword("lt", 0))], unreachable(0)), ([entry(qword("gt", WHOLE))], unreachable(0)), ([entry(qword("gt", WHOLE - 1))], []),
    ([entry(dword("eq", 1), dword(masked(1), 0))], unreachable(0)), ([entry(dword("eq", 1), dword(masked(2), 0))], []),
    # The low half and the whole argument: 2 to the 32 and 5 has the low half 5.
    ([entry(dword("eq", 5), qword("eq", 2**32 + 5))], []),
    ([entry(dword("eq", 5), qword("eq", 2**32 + 6))], unreachable(0)),
    ([entry(), entry(dword("lt", 3), dword("gt", 3)), entry(name="write")], unreachable(1)),
    # Two equal ones that no call meets.
    ([entry(dword("lt", 3), dword("gt", 3))] * 2, unreachable(0, 1)),
]

# Many entries that aren't met by the same calls, each of another request.
LARGE = [entry(dword("eq", it, 1), dword("le", 9), dword("ne", 7, 2), name="ioctl") for it in range(300)]

# An entry that one of these covers, and one that just isn't covered.
COVERED = entry(dword("eq", 5, 1), dword("eq", 3), dword("eq", 3, 2), name="ioctl")
NOT_COVERED = entry(dword("eq", 5, 1), dword("eq", 3), dword("eq", 7, 2), name="ioctl")

# Entries that each compare five arguments, and what one has that some of them cover together.
FIVE = [qword("eq", it, it) for it in (0, 2, 3, 4)]
WIDE = [entry(qword("eq", it, 1), *FIVE) for it in range(70)]
SIX = [*FIVE, qword("eq", 5, 5)]

REDUNDANT = [
    ([entry(), entry()], redundant(0, 1)), ([entry(), entry(name="write")], []), ([entry(), entry(dword("eq", 1))], redundant(1)),
    ([entry(dword("eq", 1)), entry(name="write"), entry()], redundant(0)), ([entry(dword("eq", 1)), entry(dword("eq", 2))], []),
    ([entry(dword("eq", 1)), entry(dword("eq", 1))], redundant(0, 1)),
    # A low half is met by more than the whole argument is.
    ([entry(dword("eq", 1)), entry(qword("eq", 1))], redundant(1)),
    ([entry(dword("le", 2)), entry(dword("eq", 1))], redundant(1)),
    ([entry(dword("le", 2)), entry(dword("eq", 3))], []),
    # Two that cover a third one together, and just don't.
    ([entry(dword("le", 4)), entry(dword("ge", 5)), entry(dword("ne", 7, 1))], redundant(2)),
    ([entry(dword("le", 4)), entry(dword("ge", 6)), entry(dword("ne", 7, 1))], []),
    ([entry(dword(masked(1), 0)), entry(dword(masked(1), 1)), entry()], redundant(0, 1, 2)),
    ([entry(dword(masked(3), 3)), entry(dword(masked(1), 1))], redundant(0)),
    ([entry(dword(masked(3), 3)), entry(dword(masked(5), 5))], []),
    ([entry(dword("eq", 1), dword("eq", 2, 1)), entry(dword("eq", 2, 1))], redundant(0)),
    ([entry(dword("eq", 1), dword("eq", 2, 1)), entry(dword("eq", 1, 1))], []),
    # The same conditions in another order, and one twice.
    ([entry(dword("eq", 1), dword("eq", 2, 1)), entry(dword("eq", 2, 1), dword("eq", 1))], redundant(0, 1)),
    ([entry(dword("eq", 1), dword("eq", 1)), entry(qword("ne", 1))], []),
    # One that many cover together, and just don't.
    ([*(entry(dword("eq", it)) for it in range(20)), entry(dword("le", 19), dword("ne", 7, 1))], redundant(20)),
    ([*(entry(dword("eq", it)) for it in range(20)), entry(dword("le", 20), dword("ne", 7, 1))], []),
    # Two neighbouring bits of two arguments, by arguments and by bits.
    ([entry(dword(masked(3 << bit), 3 << bit, index)) for index in (0, 1) for bit in range(18)], []),
    ([entry(dword(masked(3 << bit), 3 << bit, index), name="ioctl") for bit in range(18) for index in (0, 1)], []),
    # Beside many others.
    ([*LARGE, COVERED], redundant(len(LARGE))),
    ([*LARGE, NOT_COVERED], []),
    # One that twenty of many cover together, and just don't.
    ([*WIDE, entry(qword("le", 19, 1), *SIX)], redundant(len(WIDE))),
    ([*WIDE, entry(qword("le", len(WIDE), 1), *SIX)], []),
]


def met_by(entry):
    """Returns the arguments 0 and 1 for which all conditions of an entry hold."""
    args = entry.get("args", [])
    return {*itertools.product(*([value for value in TRIED if all(holds(it, value) for it in args if it["index"] == index)] for index in (0, 1)))}


def codes_of(entries):
    """Returns the warnings of a filter's entries, each a place and a code, by trying arguments 0 and 1."""
    found = []
    for place, own in enumerate(entries):
        others = [met_by(it) for at, it in enumerate(entries) if at != place and it["syscall"] == own["syscall"]]
        if not met_by(own):
            found += unreachable(place)
        elif met_by(own) <= set().union(*others):
            found += redundant(place)
    return found


def some_condition(chance):
    """Returns a condition by chance, on argument 0 or 1."""
    operator = masked(chance.choice(MASKS)) if chance.random() < 0.4 else chance.choice(OPERATORS)
    return condition(chance.choice(["dword", "qword"]), operator, chance.choice(VALUES), chance.randint(0, 1))


def some_filter(chance):
    """Returns a filter by chance, of few entries of two calls."""
    entries = [
        entry(*(some_condition(chance) for _ in range(chance.randint(0, CONDITIONS))), name=chance.choice(["read", "read", "write"]))
        for _ in range(chance.randint(1, ENTRIES))
    ]
    return {"mismatch_action": "trap", "match_action": "allow", "filter": entries}


def policies_by_chance():
    """Returns policies whose filters come by chance, each with the lines of its warnings."""
    chance = random.Random(1)
    for policy in policies_of([some_filter(chance) for _ in range(BY_CHANCE)], FILTERS):
        names = sorted(policy, key=lambda name: name.encode())
        lines = (line(f"{name}.filter[{place}]", code) for name in names for place, code in codes_of(policy[name]["filter"]))
        yield json.dumps(policy), "".join(lines)


CASES = [
    *(it for row in (*UNREACHABLE, *REDUNDANT) for it in of_entries(*row)),
    # The 301 rules of three conditions take 9 instructions each, and what is round them 7. With twice these conditions they
    # would take 15 each, which are more than 4096.
    Case("show --stats", 0, "filter a\nlinear: 2716 instructions..", "", policy_of([*LARGE, COVERED])),
    *(writes(f"check {OTHERS}", policy, output) for policy, output in policies_by_chance()),
]
