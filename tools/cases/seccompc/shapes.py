"""Which values are filters, entries, conditions and actions, and what is told of those that are none; tools/rows has the operators."""

from cases.seccompc.commands import INDEX

from .instructions import ALLOW, ERRNO, KILL_PROCESS, KILL_THREAD, LOG, TRACE, TRAP, jump_equal, load, program
from .policy_texts import (
    EMPTY, EQUAL_ACTIONS, NO_CONDITIONS, NO_OBJECT, READ_ALWAYS, READS, listed, policy_of, reads, shape, told, under_a
)

# Values that are no objects.
NO_OBJECTS = ["null", "1", '"a"', "true", "[]"]

# Texts with filters of wrong shape, and the least name of these.
LEAST = [
    ('{"a":{}}', "a"), ('{"":{}}', ""), ('{"b":{},"a":{}}', "a"), ('{"a":{},"B":{}}', "B"), ('{"ab":{},"b":{}}', "ab"),
    ('{"b":{},"a":' + EMPTY + "}", "b"),
]

# Values that are no filters.
NO_FILTERS = [
    "[]", '{"match_action":"allow","mismatch_action":"log"}', '{"match_action":"allow","mismatch_action":"log","filters":[]}',
    '{"match_action":"allow","mismatch_action":"logs","filter":[]}', '{"match_action":"allow","mismatch_action":"errno","filter":[]}',
    '{"match_action":"allow","mismatch_action":"Log","filter":[]}', '{"match_action":{"allow":null},"mismatch_action":"log","filter":[]}',
    '{"match_action":{"errno":4294967296},"mismatch_action":"log","filter":[]}',
    '{"match_action":{"errno":1,"trace":1},"mismatch_action":"log","filter":[]}',
    '{"match_action":{},"mismatch_action":"log","filter":[]}',
    '{"match_action":"allow","filter_action":"allow","mismatch_action":"log","filter":[]}',
    '{"match_action":"allow","mismatch_action":"log","default_action":"log","filter":[]}',
    '{"match_action":"allow","filter":[]}',
    '{"match_action":"allow","mismatch_action":"log","filter":[],"comment":"c"}',
    '{"default_action":"allow","filter_action":"logs","filter":[]}', '{"default_action":"logs","filter_action":"allow","filter":[]}',
    '{"match_action":"allow","mismatch_action":"log","filter":{}}', '{"match_action":"allow","mismatch_action":"log","filter":null}',
    # The same with spaces.
    ' {"match_action": "allow", "mismatch_action":"log"}',
    ' {"match_action": "allow", "mismatch_action":"log", "filters": []}',
    ' {"match_action": "allow", "mismatch_action":"logs", "filter": []}',
]

# Values that are actions, and their words.
ACTIONS = [
    ('"allow"', ALLOW), ('"kill_thread"', KILL_THREAD), ('"kill_process"', KILL_PROCESS), ('"trap"', TRAP),
    ('{"errno":4294967295}', ERRNO + 0xFFFF), ('{"trace":0}', TRACE),
]

# Pairs of actions of one word, which are not equal.
OF_ONE_WORD = [
    ('{"errno":4294967295}', '{"errno":65535}', ERRNO + 0xFFFF),
    ('{"errno":4294967295}', '{"errno":2147483647}', ERRNO + 0xFFFF),
    ('{"trace":0}', '{"trace":65536}', TRACE),
]


def of_actions(mismatch, match, entries=""):
    """Returns the policy of a filter of these actions, under their first names."""
    return under_a(f'{{"mismatch_action":{mismatch},"match_action":{match},"filter":[{entries}]}}')


def of_other_names(mismatch, match, entries=""):
    """Returns the same policy under the actions' other names."""
    return under_a(f'{{"default_action":{mismatch},"filter_action":{match},"filter":[{entries}]}}')


OF_ACTIONS = [
    *(listed(of_actions(it, '"log"'), program(mismatched=word)) for it, word in ACTIONS),
    *(listed(of_other_names('"log"', it), program(mismatched=LOG)) for it, _ in ACTIONS),
    # No program without entries has the match action's word.
    *(listed(of_actions(it, '"log"', READS), program((0,), mismatched=word, matched=LOG)) for it, word in ACTIONS),
    *(listed(of_other_names('"log"', it, READS), program((0,), mismatched=LOG, matched=word))
      for it, word in ACTIONS),
    # Both names of `log`, of which equal actions tell that they are read as one.
    *(told(policy('"log"', '"log"'), EQUAL_ACTIONS) for policy in (of_actions, of_other_names)),
    # Actions are compared as values, with all bits of their numbers.
    *(told(of_actions(it, it), EQUAL_ACTIONS) for it, _ in ACTIONS),
    *(listed(of_actions(one, other, READS), program((0,), mismatched=word, matched=word))
      for one, other, word in OF_ONE_WORD),
    # Both names of an action give one program.
    *(listed(under_a(text), program(mismatched=LOG)) for text in (
        ' {"match_action": "allow", "mismatch_action":"log", "filter": []}',
        ' {"filter_action": "allow", "default_action":"log", "filter": []}')),
]

# Entries without conditions.
ENTRIES_WITHOUT = [
    READS, '{"syscall":"read","args":null}', '{"syscall":"read","comment":null}', '{"comment":"c","args":null,"syscall":"read"}',
]

# Values that are no entries.
NO_ENTRIES = [
    '"read"', "{}", '{"syscall":1}', '{"args":null}', '{"syscall":"read","args":{}}', '{"syscall":"read","args":[null]}',
    '{"syscall":"read","comment":15}', '{"syscall":"read","Args":[]}',
]

# Conditions whose index no call has, though it is one of a condition.
ABOVE_5 = [
    '{"index":255,"type":"dword","op":"eq","val":18446744073709551615,"comment":null}',
    '{"comment":"c","val":0,"op":"eq","type":"qword","index":6}',
]

# Conditions that are the former ones but for the index, and their code.
OF_5 = [
    ('{"index":5,"type":"dword","op":"eq","val":18446744073709551615,"comment":null}', [load(56), jump_equal(4294967295, 0, 1)]),
    ('{"index":5,"type":"qword","op":"eq","val":18446744073709551615,"comment":null}',
     [load(60), jump_equal(4294967295, 0, 3), load(56), jump_equal(4294967295, 0, 1)]),
    ('{"comment":"c","val":0,"op":"eq","type":"qword","index":5}', [load(60), jump_equal(0, 0, 3), load(56), jump_equal(0, 0, 1)]),
]

# Values that are no conditions; the other numbers that are none stand in numbers.py.
NO_CONDITION = [
    '{"index":0,"type":"dword","op":"eq","val":-1846}', '{"index":0,"type":"dword","op":"eq","val":1846.4}',
    '{"index":0,"type":"dword","op":"eq","val":5,"comment":15}', '{"index":0,"type":"word","op":"eq","val":5}',
    '{"index":0,"type":"dword","op":"EQ","val":5}', '{"index":0,"type":"dword","op":"masked_eq","val":5}',
    '{"index":0,"type":"dword","op":{"eq":null},"val":5}', '{"index":0,"type":"dword","op":{},"val":5}',
    '{"index":0,"type":"dword","op":{"masked_eq":1,"eq":null},"val":5}',
    '{"index":0,"type":"dword","op":"eq"}', '{"index":0,"type":"dword","val":5}', '{"index":0,"op":"eq","val":5}',
    '{"type":"dword","op":"eq","val":5}', '{"index":0,"type":"dword","op":"eq","val":5,"mask":1}', '[0,"dword","eq",5]',
]


CASES = [
    *(told(it, NO_OBJECT) for it in NO_OBJECTS), *(told(text, shape(name)) for text, name in LEAST),
    *(told(under_a(it), shape()) for it in NO_FILTERS), *OF_ACTIONS, *(listed(policy_of(it), READ_ALWAYS) for it in ENTRIES_WITHOUT),
    told(policy_of(reads("")), NO_CONDITIONS), *(told(policy_of(it), shape()) for it in NO_ENTRIES),
    *(told(policy_of(reads(it)), INDEX) for it in ABOVE_5), *(listed(policy_of(reads(it)), program((0, code))) for it, code in OF_5),
    *(told(policy_of(reads(it)), shape()) for it in NO_CONDITION),
]
