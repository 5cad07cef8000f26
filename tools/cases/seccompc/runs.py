"""What `run` has to do: the lines of calls under a policy's filter, and the faults in their order."""

from cases.forms import NO_ARCHITECTURE, Case, Failing, refuses, writes
from cases.seccompc.commands import FRONTEND
from model import X86_64, record_of

from .policies import COMPLEX, LOGGED, LOGS, NO_FILTER, SHORT, UNREAD_RECORDS
from .policy_texts import NO_OBJECT

# Filters without entries under three names, of which `b` has another mismatch action.
THREE = """{
    "b": {"mismatch_action": "log", "match_action": "allow", "filter": []},
    "a": {"mismatch_action": "trap", "match_action": "allow", "filter": []},
    "c": {"mismatch_action": "trap", "match_action": "allow", "filter": []}
}"""

FILES = {"run-complex.json": COMPLEX, "run-logs.json": LOGS, "run-three.json": THREE}

# Calls under the complex policy, each by its number and its first three arguments, and their lines. It takes 3 steps to the
# number, 2 past a chain of another number and 5 past that of ioctl; 2 into the call's chain and its first rule, those of the
# conditions that are asked, a jump into each further rule, and the return.
CALLS = [
    (16, (0, 0, 12), "7fff0000 16\n"), (16, (1, 0, 15), "7fff0000 26\n"), (16, (0, 0, 39), "7fff0000 21\n"),
    (16, (0, 0, 4294967336), "7fff0000 27\n"), (28, (0, 0, 0), "7fff0000 21\n"), (39, (0, 0, 0), "7fff0000 19\n"),
    (16, (0, 0, 13), "000503e8 25\n"), (16, (0, 0, 20), "000503e8 27\n"), (16, (0, 0, 4294967337), "000503e8 27\n"),
    (28, (0, 1, 0), "000503e8 19\n"), (102, (0, 0, 0), "000503e8 25\n"),
]
RECORDS = b"".join(record_of(number, X86_64, *arguments) for number, arguments, _ in CALLS)
LINES = "".join(line for _, _, line in CALLS)

CALL_1 = record_of(1, X86_64)

CASES = [
    # `run` traces the filter, and that of the name.
    writes("run x86_64 run-complex.json main_thread", RECORDS, LINES),
    *[writes(f"run x86_64 run-three.json {name}", CALL_1, line)
      for name, line in (("a", "00030000 3\n"), ("b", LOGGED), ("c", "00030000 3\n"))],
    # `run` tells of a rest after the lines.
    Case("run x86_64 run-logs.json a", 1, LOGGED, SHORT.format(1), CALL_1 + bytes(1)),
    # `run` tells the first fault; that of the records' reader is the last.
    refuses("run x8664 list.json b", Failing(""), NO_ARCHITECTURE),
    refuses("run x86_64 list.json b", Failing(""), FRONTEND + NO_OBJECT),
    refuses("run x86_64 run-logs.json b", Failing(""), NO_FILTER),
    # `run` tells that reading the records fails.
    refuses("run x86_64 run-logs.json a", Failing(bytes(64)), UNREAD_RECORDS),
]
