"""Texts at the borders of JSON: cut short, nested deep, that repeat a name, and with odd names."""

from cases.forms import Failing, refuses
from cases.seccompc.commands import UNREAD

from .policy_texts import (
    COMPARES, EMPTY, EQUALS_5, NO_OBJECT, POLICY, READ_5, READ_ALWAYS, REPEATED, TRAPS, UNPARSED, filter_of,
    listed, policy_of, reads, replaced, shape, told, under_a, unknown
)

# The fronts of a text, and other texts that are no JSON, beside those of tools/cases/seccompc/commands.py.
FRONTS = [POLICY[:length] for length in range(1, len(POLICY))]
NO_JSON = [
    "hjkln", "{a}", POLICY + " x", "{}{}", b'{"\xff":' + EMPTY.encode() + b"}", "[" * 128 + "]" * 128, "[" * 10_000 + "]" * 10_000,
    under_a("[" * 127 + "]" * 127),
]

# The ten names of `POLICY`, each with its value.
PARTS = [
    '"a":' + filter_of(COMPARES), '"mismatch_action":"trap"', '"match_action":"allow"', '"filter":[' + COMPARES + "]", '"syscall":"read"',
    '"args":[' + EQUALS_5 + "]", '"index":0', '"type":"dword"', '"op":"eq"', '"val":5',
]

REPEATS = [
    *(replaced(part, f"{part},{part}") for part in PARTS), replaced('"trap"', '{"errno":1,"errno":1}'),
    replaced('"eq"', '{"masked_eq":1,"masked_eq":1}'), policy_of(reads('{"index":0,"index":0,"type":"dword","op":"eq","val":1}')),
    '{"thread_1":' + EMPTY + ',"thread_1":' + EMPTY + "}",
    # A name that is spelled in two ways is the same name.
    '{"a":' + EMPTY + r',"\u0061":' + EMPTY + "}",
    r'{"\u0061":' + EMPTY + ',"a":' + EMPTY + "}",
    # If no filter is.
    '[{"a":1,"a":1}]',
    '{"a":{"x":1,"x":1}}',
    '{"a":' + EMPTY + ',"a":3}',
]

# Names as texts write them, and as `list` does.
NAMES = [
    ("", ""), (" ", " "), (r"\u0000", r"\x00"), (r"\n", r"\x0a"), (r"\\", r"\x5c"), (r"\"\\\/\b\f\n\r\t", r'"\x5c/\x08\x0c\x0a\x0d\x09'),
    (r"\u0041", "A"), ("\u00e9\u20ac", "\u00e9\u20ac"), ("\U0001f512", "\U0001f512"), (r"\ud83d\udd12", "\U0001f512"),
    (r"\uffff", "\uffff"), ("\u007f", r"\x7f"), ("a" * 100_000, "a" * 100_000),
]

# Names that are no JSON strings.
NO_NAMES = ["\n", "\0", r"\x41", r"\u004", r"\ud83d", r"\udd12\ud83d", r"\ud83d\u0041", "\\"]

# Names as texts write them, and as they are, of which none is a call's.
NO_CALLS = [
    ("", ""), ("Read", "Read"), ("read ", "read "), (r"read\u0000", "read\0"), (r"\nread", "\nread"), (r"re\\ad", "re\\ad"),
    ("\U0001f512", "\U0001f512"),
]


def named(name):
    """Returns the policy of a filter of no entries, whose name is written so."""
    return '{"' + name + '":' + EMPTY + "}"


def calling(name):
    """Returns the policy of one entry, whose call is written so."""
    return policy_of('{"syscall":"' + name + '"}')


CASES = [
    # A reader that fails is told before a text that is no JSON.
    refuses("list x86_64", Failing("}"), UNREAD),
    # Each front of a text is no JSON; the whole is a policy.
    *(told(text, UNPARSED) for text in FRONTS),
    listed(POLICY, READ_5),
    *(told(text, UNPARSED) for text in NO_JSON),
    # Values nest as deep as they may, or one less.
    told("[" * 127 + "]" * 127, NO_OBJECT),
    told(under_a("[" * 126 + "]" * 126), shape()),
    # A name is repeated; colons in strings do not count.
    *(told(text, REPEATED) for text in REPEATS),
    listed(replaced('"index":0', r'"index":0,"comment":"a:\"b:"'), READ_5),
    # Names of filters and of calls.
    *(listed(named(name), TRAPS, written) for name, written in NAMES), *(told(named(name), UNPARSED) for name in NO_NAMES),
    *(told(calling(name), unknown(read)) for name, read in NO_CALLS), listed(calling(r"re\u0061d"), READ_ALWAYS),
]
