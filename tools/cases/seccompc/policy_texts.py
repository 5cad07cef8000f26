"""Texts of policies, and the cases of what `list` writes of them, or tells."""

from cases.forms import refuses, writes
from cases.seccompc.commands import FRONTEND

from .instructions import jump_equal, listing, load, program

# What a policy is refused for, after the words that all such refusals begin with; of a text that is no JSON only
# the library's own words, after which stand those of serde_json.
UNPARSED = "Error parsing Json: .."
REPEATED = "Repeated key in Json.\n"
NO_OBJECT = "Json is not an object of filters.\n"
NO_CONDITIONS = "The condition vector of a rule cannot be empty.\n"
EQUAL_ACTIONS = "`match_action` and `mismatch_action` are equal.\n"


def shape(name="a"):
    """Returns what is told if the filter of this name is none."""
    return f"Json filter has a wrong shape: {name}.\n"


def unknown(name, architecture="x86_64"):
    """Returns what is told if an architecture has no call of this name."""
    return f"Invalid syscall name: {name} for given arch: {architecture}.\n"


def told(policy, fault, architecture="x86_64"):
    """Returns the case of a policy that is refused for this fault."""
    return refuses(f"list {architecture}", policy, FRONTEND + fault)


def too_large(policy, length):
    """Returns the case of a policy one of whose filters takes so many instructions."""
    text = f"Backend error: The seccomp filter contains too many BPF instructions: {length}. Max length is 4096.\n"
    return refuses("list x86_64", policy, text)


def listed(policy, code, name="a", architecture="x86_64"):
    """Returns the case of a policy whose one filter, of this name, has this program."""
    return writes(f"list {architecture}", policy, listing(name, code))


def filter_of(entries):
    """Returns the filter of these entries, which traps what they do not match."""
    return '{"mismatch_action":"trap","match_action":"allow","filter":[' + entries + "]}"


def under_a(text):
    """Returns the policy whose one filter is this text, under the name `a`."""
    return '{"a":' + text + "}"


def policy_of(entries):
    """Returns the policy whose one filter has these entries."""
    return under_a(filter_of(entries))


def reads(conditions):
    """Returns the entry for `read` with these conditions."""
    return '{"syscall":"read","args":[' + conditions + "]}"


# A filter of no entries, and its program.
EMPTY = filter_of("")
TRAPS = program()

# An entry without conditions, and one with the condition that the low half of argument 0 is 5, whose code this is.
READS = '{"syscall":"read"}'
EQUALS_5 = '{"index":0,"type":"dword","op":"eq","val":5}'
COMPARES = reads(EQUALS_5)
CODE_OF_EQUALS_5 = [load(16), jump_equal(5, 0, 1)]

# The call `read` of x86_64, with no rules, and with that condition alone.
READ_ALWAYS = program((0,))
READ_5 = program((0, CODE_OF_EQUALS_5))

# A policy with each name of the format once.
POLICY = policy_of(COMPARES)

# A filter with an entry for a call that there is not.
UNKNOWN = filter_of('{"syscall":"nosyscall"}')


def replaced(part, replacement):
    """Returns `POLICY` with another text in the place of a part of it."""
    before, after = POLICY.split(part, 1)
    return before + replacement + after
