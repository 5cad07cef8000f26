"""What the built program seccompc is tried on by tools/check-documents, and what it has to do. tools/cases/seccompc has
more of it, and tools/cases/seccomptool the same of seccomptool; both name files and texts of this table."""

READ = {"index": 0, "type": "dword", "op": "eq", "val": 5}
LOGS = {"match_action": "allow", "mismatch_action": "log", "filter": []}


def reads(entry):
    """Returns the policy of one filter, `a`, with this entry for the call `read`."""
    entry = {"syscall": "read", **entry}
    return {"a": {"mismatch_action": "trap", "match_action": "allow", "filter": [entry]}}


# The files of the folder. A text or bytes stand as they are, anything else as JSON.
FILES = {
    "logs.json": {"a": LOGS}, "names.json": {"b": LOGS, "a\n\\": LOGS, "\u00b5": LOGS}, "no-filters.json": {}, "empty": "",
    "no-json.json": "{a}", "large-number.json": "1e999", "comma.json": "[1,]", "list.json": [], "repeated.json": '{"a":{"x":1,"x":1}}',
    "no-filter.json": {"a": {}}, "unknown-call.json": reads({"syscall": "nosyscall"}), "no-conditions.json": reads({"args": []}),
    "index.json": reads({"args": [{**READ, "index": 6}]}), "equal-actions.json": {"a": {**LOGS, "match_action": "log"}},
    "too-large.json": reads({"args": [READ] * 5000}), "63-bytes": bytes(63), "65-bytes": bytes(65),
}

# What `list` writes for the filter that logs each call, under a name; and what `run` writes for it on
# the records of the examples, four of x86_64 and one of aarch64.
LISTING = "filter 4 {}\n0020 00 00 00000004\n0015 01 00 c000003e\n0006 00 00 80000000\n0006 00 00 7ffc0000\n"
LINES = "7ffc0000 3\n" * 4 + "80000000 3\n"
PROBED = "7fff0000 10\n80000000 8\n80000000 10\n80000000 6\n80000000 3\n"

USAGE = "usage: seccompc probe ARCH NR INDEX VALUE | list ARCH | run ARCH FILE NAME\n"
FRONTEND = "Json Frontend error: "
UNREAD = "Json Frontend error: Error reading Json.\n"
UNOPENED = "Error opening the policy file.\n"
UNWRITTEN = "Error writing output.\n"
INDEX = "The seccomp rule contains an invalid argument index. Maximum index value: 5\n"
LARGE = "Backend error: The seccomp filter contains too many BPF instructions: 10130. Max length is 4096.\n"

# What stands after `./seccompc`, the status, standard output, and standard error; if that ends
# with `..`, it only has to begin so.
CASES = [
    # What each command writes.
    ("probe x86_64 72 1 4294967298 < examples/records.bin", 0, PROBED, ""),
    ("probe x86_64 72 1 4294967298 < empty", 0, "", ""),
    ("list x86_64 < logs.json", 0, LISTING.format("a"), ""),
    ("list X86_64 < names.json", 0, LISTING.format("a\\x0a\\x5c") + LISTING.format("b") + LISTING.format("\u00b5"), ""),
    ("list x86_64 < no-filters.json", 0, "", ""),
    ("run x86_64 logs.json a < examples/records.bin", 0, LINES, ""),
    ("run x86_64 names.json \u00b5 < examples/records.bin", 0, LINES, ""),
    ("run x86_64 names.json \"$(printf 'a\\n\\\\')\" < examples/records.bin", 0, LINES, ""),
    ("run x86_64 logs.json a < empty", 0, "", ""),
    # Records that end inside a record.
    ("run x86_64 logs.json a < 63-bytes", 1, "", "The input ends inside a record, after 63 bytes of it.\n"),
    # Policies that are refused, and names that no filter has.
    # Of JSON that can't be read the whole text, which ends with what serde_json of the kit says. The first is what that of
    # Rust says too; the others have its places, and fewer words.
    ("list x86_64 < large-number.json", 1, "", FRONTEND + "Error parsing Json: number out of range at line 1 column 5\n"),
    ("list x86_64 < empty", 1, "", FRONTEND + "Error parsing Json: EOF while parsing at line 1 column 0\n"),
    ("list x86_64 < comma.json", 1, "", FRONTEND + "Error parsing Json: invalid JSON at line 1 column 4\n"),
    ("run x86_64 too-large.json b < 63-bytes", 1, "", LARGE),
    ("run x86_64 no-filters.json '' < examples/records.bin", 1, "", "No filter has this name: .\n"),
    # Files and inputs that can't be opened or read.
    ("run x86_64 missing.json a < empty", 1, "", UNOPENED), ("run x8664 missing.json a < empty", 1, "", UNOPENED),
    ("run x86_64 examples a < empty", 1, "", UNREAD), ("run x86_64 logs.json a < examples", 1, "", "Error reading input.\n"),
    ("probe x86_64 1 1 1 < examples", 1, "", "Error reading input.\n"), ("list x86_64 < examples", 1, "", UNREAD),
    ("list x86_64 <&-", 1, "", UNREAD), ("probe x86_64 1 1 1 <&-", 1, "", "Error reading input.\n"),
    ("run x86_64 logs.json a <&-", 1, "", "Error reading input.\n"),
    # Outputs that take nothing. If nothing is to be written, nothing fails.
    ("list x86_64 < logs.json > /dev/full", 1, "", UNWRITTEN),
    ("list x86_64 < logs.json >&-", 1, "", UNWRITTEN),
    ("list x86_64 < no-filters.json > /dev/full", 0, "", ""),
    ("probe x86_64 1 1 1 < examples/records.bin > /dev/full", 1, "", UNWRITTEN),
    ("run x86_64 logs.json a < examples/records.bin > /dev/full", 1, "", UNWRITTEN),
    ("run x86_64 logs.json a < examples/records.bin >&-", 1, "", UNWRITTEN),
    ("run x86_64 logs.json b < empty 2>&-", 1, "", ""),
    ("run x86_64 logs.json b < empty 2> /dev/full", 1, "", ""),
    # Words that are no command, beside those of tools/cases/seccompc/words.py.
    ("list \"$(printf 'x86\\377')\" < empty", 2, "", USAGE),
    ("--help < empty", 2, "", USAGE),
    ("list 2> /dev/full", 2, "", ""),
]
