"""What `diff` has to do: the calls on which two policies differ, and the faults."""


from cases.forms import CLOSED, FOLDER, FULL, INPUT, LOGS, MISSING, NO_OBJECT, OUTPUT, RESET, TOOL, Case, Command, Failing, quiet

READ = '{"syscall":"read"}'
READ_OF_5 = '{"syscall":"read","args":[{"index":0,"type":"dword","op":"eq","val":5}]}'


def policy(entries, default='"log"', match='"allow"', name="a"):
    """Returns a policy of one filter."""
    return f'{{"{name}":{{"mismatch_action":{default},"match_action":{match},"filter":[{entries}]}}}}'


def masked(place):
    """Returns an entry of two conditions, each on two bits of an argument."""
    first, second = (
        f'{{"index":{index % 6},"type":"qword","op":{{"masked_eq":{mask}}},"val":{value}}}'
        for index, mask, value in ((place, 3, 1), (place + 1, 12, 4))
    )
    return f'{{"syscall":"read","args":[{first},{second}]}}'


def filters(*names):
    """Returns a policy whose filters have these names, and no entries."""
    return "{" + ",".join(policy("", name=name)[1:-1] for name in names) + "}"


FILES = {
    "allows-read.json": policy(READ),
    "allows-read-of-5.json": policy(READ_OF_5),
    "allows-read-of-5-twice.json": policy(READ_OF_5.replace("[{", '[{"index":0,"type":"dword","op":"ge","val":5},{')),
    "masks.json": policy(",".join(map(masked, range(11)))), "errno-1.json": policy(READ, match='{"errno":1}'),
    "errno-2.json": policy(READ, match='{"errno":2}'), "traps.json": policy("", default='"trap"'), "none.json": "{}",
    "filters-b-a.json": filters("b", "a"), "filters-c-a.json": filters("c", "a"), "opens.json": policy('{"syscall":"open"}'),
    "reads-writes.json": policy('{"syscall":"read"},{"syscall":"write"}'),
    "reads-writes-of-5.json": policy(READ + "," + READ_OF_5.replace("read", "write")),
    "reads-parted.json": policy(READ_OF_5 + "," + READ_OF_5.replace("eq", "ne") + ',{"syscall":"write"}'),
}

SAME = "filter a: same\n"
READS = "  read: log -> allow, more: read(0x0, 0x0, 0x0, 0x0, 0x0, 0x0)\n"
READS_5 = "  read: log -> allow, more: read(0x5, 0x0, 0x0, 0x0, 0x0, 0x0)\n"
NO_LONGER_READS = "  read: allow -> log, less: read(0x0, 0x0, 0x0, 0x0, 0x0, 0x0)\n"
OTHER_ERRNO = "  read: errno 1 (EPERM) -> errno 2 (ENOENT), otherwise: read(0x0, 0x0, 0x0, 0x0, 0x0, 0x0)\n"
NAMES = "filter a: same\nfilter b: only in OLD\nfilter c: only in NEW\n"

# The fault of `unknown-call.json`.
UNKNOWN_CALL = 'a.filter[0].syscall: unknown system call "nosyscall" on x86_64\n'


DIFF = Command("diff ")
same, differ, fails, misused = DIFF.same, DIFF.differ, DIFF.fails, DIFF.misused

CASES = [quiet(it) for it in (
    # The same policy, and another of the same decisions.
    same("logs.json logs.json", SAME), same("- logs.json", SAME, LOGS), same("logs.json -", SAME, LOGS),
    same("logs.json:a logs.json", SAME), same("logs.json:a logs.json:a", SAME), same("none.json none.json", ""),
    # Programs that are the same need no search, however many sets one would take.
    same("masks.json masks.json", SAME),
    same("--most 0 masks.json masks.json", SAME),
    # A call that the new policy lets through, and the way back.
    differ("logs.json allows-read.json", "filter a: different\n" + READS),
    differ("allows-read.json logs.json", "filter a: different\n" + NO_LONGER_READS),
    differ("logs.json allows-read-of-5.json", "filter a: different\n" + READS_5),
    differ("-a riscv64 logs.json allows-read.json", "filter a: different\n" + READS),
    differ("errno-1.json errno-2.json", "filter a: different\n" + OTHER_ERRNO),
    # Calls that change alike have one line, and each range of numbers without a name has its own; with `--each` each call has one.
    differ("logs.json traps.json",
           "filter a: different\n"
           "  375 calls: log -> trap, less: _sysctl accept accept4 access acct add_key .. (--each names them)\n"
           "  other calls 336 to 423: log -> trap, less: 336(0x0, 0x0, 0x0, 0x0, 0x0, 0x0)\n.."),
    differ("--each logs.json traps.json",
           "filter a: different\n  read: log -> trap, less: read(0x0, 0x0, 0x0, 0x0, 0x0, 0x0)\n"
           "  write: log -> trap, less: write(0x0, 0x0, 0x0, 0x0, 0x0, 0x0)\n.."),
    differ("logs.json reads-writes.json", "filter a: different\n  2 calls: log -> allow, more: read write\n"),
    differ("logs.json reads-writes-of-5.json", "filter a: different\n" + READS
           + "  write: log -> allow, more: write(0x5, 0x0, 0x0, 0x0, 0x0, 0x0)\n"),
    # All of its arguments are compared, and yet each is allowed.
    differ("logs.json reads-parted.json", "filter a: different\n  2 calls: log -> allow, more: read write\n"),
    # With `--only-more` a policy that permits less, or as much of another kind, is none that differs.
    differ("--only-more logs.json allows-read.json", "filter a: more permissive\n" + READS),
    same("--only-more allows-read.json logs.json", "filter a: nowhere more permissive\n"),
    same("logs.json traps.json --only-more", "filter a: nowhere more permissive\n"),
    same("--only-more errno-1.json errno-2.json", "filter a: nowhere more permissive\n"),
    # Filters that one policy lacks, those of the old policy first; and one filter alone.
    differ("filters-b-a.json filters-c-a.json", NAMES), differ("--only-more logs.json none.json", "filter a: only in OLD\n"),
    same("filters-b-a.json:a filters-c-a.json:a", SAME), same("filters-b-a.json:b filters-c-a.json:c", "filter b -> c: same\n"),
    same("logs.json filters-c-a.json:c", "filter a -> c: same\n"),
    fails("filters-b-a.json:b filters-c-a.json:b", "No filter has this name: b.\n", TOOL + "filters-c-a.json: "),
    fails("filters-b-a.json:c filters-c-a.json:c", "No filter has this name: c.\n", TOOL + "filters-b-a.json: "),
    fails("filters-b-a.json logs.json:a", "Name one of its filters: a, b.\n", TOOL + "filters-b-a.json: "),
    # A path with a colon has one more after it.
    fails("log:s.json logs.json", MISSING, TOOL + "log: "),
    fails("log:s.json: logs.json", MISSING, TOOL + "log:s.json: "),
    # No set may be looked at, or few.
    Case("diff --most 0 logs.json allows-read.json", 3, "filter a: undecided\n  read: undecided at instruction ..", ""),
    Case("diff --most=0x0 --only-more logs.json allows-read.json", 3, "filter a: undecided\n  read: undecided at instruction ..", ""),
    same("--most 0x10 logs.json logs.json", SAME),
    # The calls of `read` take more than one set, by the test of an argument for 5. Every other part takes one.
    Case("diff --most 1 allows-read.json allows-read-of-5.json", 3, "filter a: undecided\n  read: undecided at instruction 4 of OLD and 6 of NEW: "
         "read(0x0, 0x0, 0x0, 0x0, 0x0, 0x0)\n", ""),
    # Rules that hold wherever others do take none.
    same("--most 1 allows-read-of-5.json allows-read-of-5-twice.json", SAME),
    same("--most 1 allows-read-of-5-twice.json allows-read-of-5.json", SAME),
    # A filter that neither has.
    fails("logs.json:b logs.json:b", "No filter has this name: b.\n", TOOL + "logs.json: "),
    # The faults of the old policy, and then those of the new one.
    fails("missing.json logs.json", MISSING, TOOL + "missing.json: "), fails("logs.json missing.json", MISSING, TOOL + "missing.json: "),
    fails("examples logs.json", FOLDER, TOOL + "examples: "), fails("logs.json examples", FOLDER, TOOL + "examples: "),
    fails("- unknown-call.json", NO_OBJECT, INPUT, "[]"),
    fails("logs.json unknown-call.json", UNKNOWN_CALL, TOOL + "unknown-call.json: "),
    fails("unknown-call.json logs.json", UNKNOWN_CALL, TOOL + "unknown-call.json: "),
    fails("-a aarch64 logs.json opens.json", 'a.filter[0].syscall: unknown system call "open" on aarch64; did you mean "openat"?\n', TOOL + "opens.json: "),
    fails("- logs.json", RESET, INPUT, Failing(LOGS)),
    fails("logs.json -", RESET, INPUT, Failing(LOGS)),
    # A filter that neither layout can hold.
    fails("too-large.json too-large.json", "Backend error: The seccomp filter ..", TOOL + "too-large.json: "),
    # An output that takes nothing.
    fails("logs.json allows-read.json > /dev/full", FULL, OUTPUT),
    fails("logs.json logs.json >&-", CLOSED, OUTPUT),
    # Words that are no command.
    misused("logs.json"),
    misused("- -", "error: OLD and NEW can't both be read from standard input\n.."),
    misused("--most 1a logs.json logs.json", 
            "error: the value of --most isn't a number from 0 to 18446744073709551615, "
            "decimal or hexadecimal after 0x\n.."),
    misused("--most=-1 logs.json logs.json"), misused("--only-more=true logs.json logs.json"),
    misused("--only-more --only-more logs.json logs.json"), misused("logs.json logs.json logs.json"),
)]
