"""Rows (tools/rows/row_grammar.py) of programs and policies that are compared: made at random, the same each time, and of programs in files.
If the answer isn't known the row says `decided`: any but `undecided`."""

import random
import struct

from model import TESTS
from rows.row_grammar import shown

PAIRS = 5000
POLICIES = 2000
MOST = 1 << 20
PROGRAM_LEN = 24


def listed(code):
    """Returns instructions as rows have them."""
    return "; ".join(map(shown, code))


def compared(first, second, told):
    """Returns the row that compares the programs of two files."""
    first, second = (listed(struct.iter_unpack("<HBBI", path.read_bytes())) for path in (first, second))
    return f"compare_code alike {MOST}: {first} with {second} => {told}"


def instruction(numbers, room):
    """Returns an instruction that jumps over fewer others than this."""
    when, otherwise, k = numbers.randrange(room), numbers.randrange(room), numbers.randrange(8)
    code = numbers.choice((0x20, 0x54, 0x06, *TESTS))
    if code in TESTS:
        return code, when, otherwise, k
    return code, 0, 0, {0x20: 16 * (k % 2), 0x54: k, 0x06: k % 2}[code]


def of_programs(numbers):
    """Returns a row that compares a program with one in which a single instruction is another."""
    rooms = [min(PROGRAM_LEN - 1 - place, 6) for place in range(PROGRAM_LEN - 1)]
    first = [*(instruction(numbers, room) for room in rooms), (0x06, 0, 0, 0)]
    place = numbers.randrange(PROGRAM_LEN - 1)
    second = [*first[:place], instruction(numbers, rooms[place]), *first[place + 1:]]
    return f"compare_code alike {MOST}: {listed(first)} with {listed(second)} => decided"


def condition(numbers):
    """Returns a condition."""
    operator = numbers.choice(("eq", "ne", "ge", "gt", "le", "lt", f"masked_eq({numbers.randrange(1 << 16)})"))
    return f"{numbers.randrange(3)} {numbers.choice(('dword', 'qword'))} {operator} {numbers.randrange(40)}"


def call(numbers, number):
    """Returns a call of no rule, one or two, each of one condition or two."""
    rules = [" & ".join(condition(numbers) for _ in range(1 + numbers.randrange(2))) for _ in range(numbers.randrange(3))]
    return f"call {number}: {' | '.join(rules)}" if rules else f"call {number}"


def asked_of(calls):
    """Returns the rows of a policy of these calls, which is compared with its tree and with the one before."""
    return ["policy x86_64 kill_process allow", *calls, f"compare_tree alike {MOST} => holds",
            f"compare_filters at_most {MOST} x86_64 => decided", "keep"]


def long_rules(count):
    """Returns a call of so many rules."""
    return ["call 0: " + " | ".join(f"0 dword eq {value}" for value in range(count))]


def all_rows():
    """Returns all rows."""
    numbers = random.Random(1)
    rows = [of_programs(numbers) for _ in range(PAIRS)]
    policies = [[call(numbers, number) for number in range(20) if numbers.randrange(2)] for _ in range(2 * POLICIES)]
    rows += ["policy x86_64 kill_process allow", "keep"]
    for calls in [*policies, long_rules(814), long_rules(815)]:
        rows += asked_of(calls)
    return rows
