"""What `explain` has to do: what is decided on records, and why, and the faults in their order."""

from cases.forms import CLOSED, FOLDER, FULL, INPUT, LOGS, MISSING, NO_OBJECT, OUTPUT, RESET, TOOL, Case, Failing, rejects, writes
from model import AARCH64, X86_64, record_of

# Entries of three calls, of which `close` has one without conditions.
POLICY = r'''{"a": {"mismatch_action": {"errno": 1}, "match_action": "allow", "filter": [
    {"syscall": "accept4"},
    {"syscall": "fcntl", "args": [
        {"index": 1, "type": "dword", "op": "eq", "val": 2},
        {"index": 2, "type": "dword", "op": "eq", "val": 1}
    ]},
    {"syscall": "fcntl", "args": [{"index": 1, "type": "dword", "op": "eq", "val": 1}]},
    {"syscall": "close", "args": [{"index": 0, "type": "qword", "op": "gt", "val": 2}]},
    {"syscall": "close"},
    {"syscall": "fcntl", "args": [{"index": 1, "type": "dword", "op": "eq", "val": 2}]}
]}}'''

# Entries of one call, of which the second and the third come furthest, and a name that is written with its numbers.
NEAR = r'''{"n\u0007": {"mismatch_action": "trap", "match_action": {"trace": 65538}, "filter": [
    {"syscall": "fcntl", "args": [{"index": 1, "type": "dword", "op": "eq", "val": 1}]},
    {"syscall": "fcntl", "args": [
        {"index": 1, "type": "dword", "op": "eq", "val": 2},
        {"index": 2, "type": "dword", "op": "eq", "val": 1}
    ]},
    {"syscall": "fcntl", "args": [
        {"index": 1, "type": "dword", "op": "eq", "val": 2},
        {"index": 2, "type": "dword", "op": "eq", "val": 3}
    ]},
    {"syscall": "close", "args": [{"index": 0, "type": "qword", "op": "gt", "val": 2}]}
]}}'''

# Each of 1025 conditions takes 4 instructions.
CONDITIONS = ",".join(['{"index":0,"type":"qword","op":"eq","val":1}'] * 1025)
MANY_CONDITIONS = '{"a":{"mismatch_action":"log","match_action":"allow","filter":[{"syscall":"read","args":[' + CONDITIONS + "]}]}}"

FILES = {
    "explained.json": POLICY, "explained-logs.json": LOGS, "near.json": NEAR, "many-conditions.json": MANY_CONDITIONS,
}

# Calls of x86_64 by their numbers and first three arguments, and the lines of the policy on them.
LINES = [
    (288, (0, 0, 0), "allow: a.filter[0] of accept4 (288)\n"), (72, (9, 2, 1), "allow: a.filter[1] of fcntl (72)\n"),
    (72, (9, 1, 1), "allow: a.filter[2] of fcntl (72)\n"), (72, (9, 2, 0), "allow: a.filter[5] of fcntl (72)\n"),
    (72, (9, 3, 1), "errno 1 (EPERM): no match: a.filter[1].args[0] of fcntl (72) does not hold, the nearest of 3 entries\n"),
    (3, (3, 0, 0), "allow: a.filter[3] of close (3)\n"), (3, (2, 0, 0), "allow: a.filter[4] of close (3)\n"),
    (0, (0, 0, 0), "errno 1 (EPERM): no entry of read (0)\n"), (4294967295, (0, 0, 0), "errno 1 (EPERM): no entry of call 4294967295\n"),
]

# The same of the other policy: the nearest miss is that of the condition with the greatest index, and the first of these.
NEAR_LINES = [
    (72, (9, 1, 0), r"trace 2: n\x07.filter[0] of fcntl (72)" "\n"),
    (72, (9, 2, 0), r"trap: no match: n\x07.filter[1].args[1] of fcntl (72) does not hold, the nearest of 3 entries" "\n"),
    (72, (9, 4, 0), r"trap: no match: n\x07.filter[0].args[0] of fcntl (72) does not hold, the nearest of 3 entries" "\n"),
    (3, (2, 0, 0), r"trap: no match: n\x07.filter[3].args[0] of close (3) does not hold" "\n"),
]

ANOTHER = "kill_process: another architecture\n"
TWO_RECORDS = record_of(1, X86_64) + record_of(72, 0)
TWO_LINES = "log: no entry of write (1)\n" + ANOTHER
EXAMPLE_LINES = "log: no entry of fcntl (72)\n" * 3 + "log: no entry of fstat (5)\n" + ANOTHER

SHORT = "The input ends inside a record, after 1 bytes of it.\n"
NO_FILTER = "No filter has this name: b.\n"
# A whole record, after which reading fails.
FAILING_RECORDS = Failing(bytes(64))

CASES = [
    # `explain` tells the decision and the reason.
    *[writes("explain explained.json -f a", record_of(number, X86_64, *arguments), line) for number, arguments, line in LINES],
    *[writes("explain near.json", record_of(number, X86_64, *arguments), line) for number, arguments, line in NEAR_LINES],
    *[writes(f"explain explained.json {number} {' '.join(map(str, arguments))}", "", line) for number, arguments, line in LINES],
    writes("explain explained.json fcntl 9 2 1", "", LINES[1][2]),
    writes("explain explained.json close -a x86_64 -f a -- -1", "", LINES[5][2]),
    writes("explain - close 2", POLICY, LINES[6][2]),
    ("explain -f a logs.json < examples/records.bin", 0, EXAMPLE_LINES, ""),
    ("explain --records examples/records.bin logs.json", 0, EXAMPLE_LINES, ""),
    ("explain --records=examples/records.bin - < logs.json", 0, EXAMPLE_LINES, ""),
    ("explain --records - logs.json < examples/records.bin", 0, EXAMPLE_LINES, ""),
    # `explain` tells another architecture.
    *[writes(f"explain -a {arch} explained.json", record_of(72, word, 9, 2, 1), ANOTHER)
      for arch, word in (("x86_64", AARCH64), ("aarch64", X86_64), ("riscv64", 0))],
    # `explain` tells of each record, and then of a rest.
    writes("explain explained-logs.json", TWO_RECORDS, TWO_LINES),
    Case("explain explained-logs.json", 2, TWO_LINES, INPUT + SHORT, TWO_RECORDS + bytes(1)),
    ("explain logs.json --records 65-bytes", 2, ANOTHER, TOOL + "65-bytes: " + SHORT),
    # That a file can't be read comes first, and then what is wrong with SUBJECT.
    rejects("explain -f b list.json", FAILING_RECORDS, RESET),
    rejects("explain -f b list.json", bytes(64), NO_OBJECT, TOOL + "list.json: "),
    rejects("explain -f b -a aarch64 opens.json", bytes(64),
            'a.filter[0].syscall: unknown system call "open" on aarch64; did you mean "openat"?\n', TOOL + "opens.json: "),
    rejects("explain -f b explained-logs.json", bytes(64), NO_FILTER, TOOL + "explained-logs.json: "),
    rejects("explain explained-logs.json", FAILING_RECORDS, RESET),
    rejects("explain -f b logs.json --records 63-bytes", "", NO_FILTER, TOOL + "logs.json: "),
    rejects("explain missing.json", "", MISSING, TOOL + "missing.json: "),
    rejects("explain logs.json --records missing", "", MISSING, TOOL + "missing: "),
    rejects("explain list.json nocall", "", "No call of x86_64 has this name or number: nocall.\n", TOOL),
    # `explain` rejects a filter that is too large.
    rejects("explain -f b many-conditions.json", "",
            "a: needs 4158 instructions in the linear layout; 4096 fit\n",
            TOOL + "many-conditions.json: "),
    rejects("explain -f b too-large.json --records 63-bytes", "", "a: needs 10130 instructions in the linear layout; 4096 fit\n", TOOL + "too-large.json: "),
    # `explain` answers failing readers and writers.
    rejects("explain examples", "", FOLDER, TOOL + "examples: "),
    ("explain logs.json < examples", 2, "", INPUT + FOLDER),
    rejects("explain explained-logs.json > /dev/full", bytes(65), FULL, OUTPUT),
    rejects("explain explained-logs.json >&-", bytes(65), CLOSED, OUTPUT),
    ("explain logs.json < examples/records.bin > /dev/full", 2, "", OUTPUT + FULL),
]
