"""What `stats` has to do: lengths and steps of programs, and the faults."""

from cases.forms import EMPTY, FULL, INPUT, LOGS, NO_OBJECT, OUTPUT, STEERS, fails_to_read_and_write, rejects, writes
from cases.seccompc.commands import LARGE

from .long_filters import of_masks, of_rules

# The programs of a filter without entries load the architecture's word and compare it, and return.
LOGS_STEPS = "filter a\nlinear: 4 instructions, at most 3 steps, 3 passing\ntree: 4 instructions, at most 3 steps, 3 passing\n"

# Call 0 has a rule, and call 39 matches always.
#
# Chains: 4 instructions in front, 7 of call 0 (a test, two jumps, a load and a test, two returns), 5 of
# call 39 and a return. A passing call takes 3 steps to the number, 2 past each chain and the return, and
# no way is longer.
#
# Tree: 3 instructions in front, a test at 1, a test of 39, a load and a test of call 0, and three returns.
# The longest way is through call 0: 3 steps to the number, a test, a load, a test and a return.
# A passing call takes the 3 steps, 2 tests and a return.
TWO_CALLS = r'''{"b\n\\":{"mismatch_action":"trap","match_action":"allow","filter":[
    {"syscall":"read","args":[{"index":0,"type":"dword","op":"eq","val":5}]},
    {"syscall":"getpid"}]}}'''
TWO_CALLS_STEPS = (
    "filter b\\x0a\\x5c\nlinear: 17 instructions, at most 8 steps, 8 passing\n"
    "tree: 10 instructions, at most 7 steps, 6 passing\n"
)

# Rules of 4094 instructions; and rules that are too many in either layout.
LARGE_CHAINS = of_rules("c", 816)
LARGE_TREE = of_masks("b", 1400)
TOO_MANY = "Backend error: The seccomp filter contains too many BPF instructions: {}. Max length is 4096.\n"

CASES = [
    # `stats` tells the lengths and steps.
    writes("show --stats", LOGS, LOGS_STEPS),
    writes("show --stats", TWO_CALLS, TWO_CALLS_STEPS),
    writes("show --stats", STEERS, LOGS_STEPS.replace("filter a", r"filter a\xc2\x9b")),
    writes("show --stats", "{}", ""),
    ("show --stats < logs.json", 0, LOGS_STEPS, ""),
    writes("show --stats -a amd64 logs.json", "", LOGS_STEPS),
    # `stats` tells the first fault.
    rejects("show --stats", "[]", NO_OBJECT),
    rejects("show --stats", '{"a":{},' + LARGE_TREE + "}", EMPTY.format("a")),
    rejects("show --stats", "{" + LARGE_TREE + "," + LARGE_CHAINS + "}", TOO_MANY.format(8407)),
    rejects("show --stats", "{" + LARGE_CHAINS + "}", TOO_MANY.format(4101)),
    ("show --stats < too-large.json", 2, "", INPUT + LARGE),
    # `stats` answers faults of its reader and its writer.
    *fails_to_read_and_write("show --stats"),
    ("show --stats < logs.json > /dev/full", 2, "", OUTPUT + FULL),
]
