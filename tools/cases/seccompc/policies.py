"""Policies and texts that the cases of several commands name."""

from running import TOP

# The policy of one filter, `a`, of no entries, which logs each call; its listing, and the line of a call.
LOGS = '{"a": {"match_action": "allow", "mismatch_action":"log", "filter": []}}'
LOGS_LISTED = "filter 4 a\n0020 00 00 00000004\n0015 01 00 c000003e\n0006 00 00 80000000\n0006 00 00 7ffc0000\n"
LOGGED = "7ffc0000 3\n"

# The policy of examples/complex-policy.json: seven calls without arguments and two with, refused by error number 1000.
COMPLEX = (TOP / "examples/complex-policy.json").read_text(encoding="utf-8")

NO_FILTER = "No filter has this name: b.\n"
SHORT = "The input ends inside a record, after {} bytes of it.\n"
UNREAD_RECORDS = "Error reading input.\n"
