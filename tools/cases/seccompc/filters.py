"""Entries of policies, and which of several faults is told; tools/rows has the programs of filters."""

from cases.forms import NO_ARCHITECTURE, Failing, refuses, writes
from cases.seccompc.commands import INDEX

from .instructions import listing, program
from .policy_texts import (
    COMPARES, EMPTY, EQUAL_ACTIONS, NO_CONDITIONS, READS, TRAPS, UNKNOWN, filter_of, listed, policy_of,
    told, too_large, under_a, unknown
)

# A condition, and one on an argument that no call has.
FINE = '{"index":3,"type":"qword","op":"ge","val":65}'
ABOVE = '{"index":8,"type":"dword","op":"le","val":65}'


def entry(call, *conditions):
    """Returns the entry for a call with these conditions."""
    return '{"syscall":"' + call + '","args":[' + ",".join(conditions) + "]}"


def of_equal_actions(action, *entries):
    """Returns the policy of these entries whose actions are equal."""
    return under_a(f'{{"mismatch_action":"{action}","match_action":"{action}","filter":[{",".join(entries)}]}}')


def large(count):
    """Returns the filter of so many equal entries of one condition. Each takes 5 instructions with its return, and
    all else 7: the guard, the load, and the chain's test take 5, the two last returns 2."""
    return filter_of(",".join([COMPARES] * count))


def under_names(*names):
    """Returns the policy whose filters of these names have no entries."""
    return "{" + ",".join(f'"{name}":{EMPTY}' for name in names) + "}"


def two(of_a, of_b):
    """Returns the policy of two filters, of which the greater name stands first."""
    return '{"b":' + of_b + ',"a":' + of_a + "}"


FAULTS = [
    # One fault of one entry, or of the actions.
    told(policy_of('{"syscall":"wrong_syscall"}'), unknown("wrong_syscall")),
    told(policy_of(entry("futex", ABOVE)), INDEX),
    told(of_equal_actions("allow", READS), EQUAL_ACTIONS),
    told(policy_of('{"syscall":"open"}'), unknown("open", "aarch64"), "aarch64"),
    # An entry's fault before the next entry's; a call's name before its conditions; entries before the actions.
    told(of_equal_actions("log", entry("read"), '{"syscall":"wrong_syscall"}'), NO_CONDITIONS),
    told(of_equal_actions("log", entry("wrong_syscall", ABOVE), entry("read")), unknown("wrong_syscall")),
    told(of_equal_actions("log", entry("read", FINE, ABOVE), entry("read")), INDEX),
    # The least name's, and what the texts of all filters are refused for before the size of any.
    told(two('{"mismatch_action":"allow","match_action":"allow","filter":[]}', UNKNOWN), EQUAL_ACTIONS),
    told(two(large(819), UNKNOWN), unknown("nosyscall")),
    too_large(two(large(819), large(818)), 4102),
]

CASES = [
    # An entry without conditions, between two with some, leaves its call's chain without rules.
    listed(policy_of(",".join([entry("futex", FINE), '{"syscall":"futex"}', entry("futex", FINE)])), program((202,))),
    *FAULTS,
    # The names of filters in byte order.
    writes("list x86_64", under_names("a", "B", ""), "".join(listing(it, TRAPS) for it in ("", "B", "a"))),
    # The architecture comes before the reader's fault.
    refuses("list x8664", Failing(""), NO_ARCHITECTURE),
]
