"""What `diff` has to do of programs: the calls on which a program decides otherwise than a policy's filter or another program, and
the faults."""

from cases.forms import CLOSED, FOLDER, FULL, LOGS, MISSING, NO_OBJECT, OUTPUT, RESET, TOOL, Case, Command, Failing
from model import RISCV64, X86_64

from .diff import policy
from .programs import ALLOW, ERRNO_1, JUMP_AT_LEAST, JUMP_EQUAL, JUMP_IF_SET, LOAD, MASK, UNFIT, program, returns

# Return values (linux/seccomp.h), the bit of x32 numbers, and the `AUDIT_ARCH_*` value of i386 (linux/audit.h).
KILL_PROCESS, KILL_THREAD, LOG, TRAP, X32, I386 = 0x80000000, 0, 0x7FFC0000, 0x00030000, 0x40000000, 0x40000003


def guarded(*instructions, arch=X86_64, other=KILL_PROCESS):
    """Returns a program that answers other architectures by a return value, and runs instructions on this one's
    call numbers."""
    return program((LOAD, 0, 0, 4), (JUMP_EQUAL, 1, 0, arch), returns(other), (LOAD, 0, 0, 0), *instructions)


# Each of x86_64: `read` (0) is allowed and all else is logged; by a test of greater numbers; with another call in
# place of `read`; with x32 numbers that are trapped; with another return value on other architectures.
READ = (JUMP_EQUAL, 0, 1, 0), returns(ALLOW), returns(LOG)

PROGRAMS = {
    "reads.bpf": guarded(*READ),
    "reads-by-order.bpf": guarded((JUMP_AT_LEAST, 1, 0, 1), returns(ALLOW), returns(LOG)),
    "writes.bpf": guarded((JUMP_EQUAL, 0, 1, 1), returns(ALLOW), returns(LOG)),
    "reads-x32.bpf": guarded((JUMP_AT_LEAST, 0, 1, X32), returns(TRAP), *READ),
    # Numbers with the bit of x32 are trapped, by a jump that tests it: those from 0xc0000000 on too.
    "reads-no-x32.bpf": guarded((JUMP_IF_SET, 0, 1, X32), returns(TRAP), *READ),
    "reads-kills-thread.bpf": guarded(*READ, other=KILL_THREAD),
    "reads-other-kills.bpf": guarded(*READ, other=KILL_PROCESS + 1),
    "reads-anywhere.bpf": program((LOAD, 0, 0, 0), *READ),
    "reads-riscv64.bpf": guarded((JUMP_EQUAL, 0, 1, 63), returns(ALLOW), returns(LOG), arch=RISCV64),
    "logs.bpf": program(returns(LOG)),
    "allows.bpf": program(returns(ALLOW)),
    # `read` of 5 (a condition on the low half of argument 0), and of numbers whose bit 0 is set; and `read` if the high half of
    # the instruction pointer is 5.
    "reads-5.bpf": guarded((JUMP_EQUAL, 0, 3, 0), (LOAD, 0, 0, 16), (JUMP_EQUAL, 0, 1, 5), returns(ALLOW), returns(LOG)),
    "reads-odd.bpf": guarded((JUMP_EQUAL, 0, 4, 0), (LOAD, 0, 0, 16), (MASK, 0, 0, 1), (JUMP_EQUAL, 0, 1, 1), returns(ALLOW), returns(LOG)),
    "reads-from-5.bpf": guarded((JUMP_EQUAL, 0, 3, 0), (LOAD, 0, 0, 12), (JUMP_EQUAL, 0, 1, 5), returns(ALLOW), returns(LOG)),
    "errno-1.bpf": guarded(returns(ERRNO_1)),
    # Numbers from 400 on, some of which have names, fail. So do those of x32 from one on, and then single ones, or every second one.
    "errno-from-400.bpf": guarded((JUMP_AT_LEAST, 0, 1, 400), returns(ERRNO_1), returns(LOG)),
    "errno-x32.bpf": guarded((JUMP_AT_LEAST, 0, 1, X32 + 9), returns(ERRNO_1), returns(LOG)),
    "errno-in-x32.bpf": guarded(*(it for k in (2, 5, 6, 8, 11, 13) for it in ((JUMP_EQUAL, 0, 1, X32 + k), returns(ERRNO_1))), returns(LOG)),
    "errno-odd.bpf": guarded((JUMP_AT_LEAST, 0, 3, 336), (MASK, 0, 0, 1), (JUMP_EQUAL, 0, 1, 1), returns(ERRNO_1), returns(LOG)),
    # i386 may call `write` (4), and no other architecture may call anything.
    "i386.bpf": program((LOAD, 0, 0, 4), (JUMP_EQUAL, 0, 3, I386), (LOAD, 0, 0, 0), (JUMP_EQUAL, 0, 1, 4), returns(ALLOW),
                        (LOAD, 0, 0, 4), (JUMP_EQUAL, 1, 0, X86_64), returns(KILL_PROCESS), returns(LOG)),
    # i386 and riscv64 may call anything.
    "i386-and-riscv64.bpf": program((LOAD, 0, 0, 4), (JUMP_EQUAL, 3, 0, I386), (JUMP_EQUAL, 2, 0, RISCV64),
                                    (JUMP_EQUAL, 2, 0, X86_64), returns(KILL_PROCESS), returns(ALLOW), returns(LOG)),
}
FILES = {"errno-2-only.json": policy("", default='{"errno":2}'), **PROGRAMS}

NONE = "(0x0, 0x0, 0x0, 0x0, 0x0, 0x0)\n"
SAME, DIFFERENT, UNDECIDED = "filter a: same\n", "filter a: different\n", "filter a: undecided\n"
MORE, NO_MORE = "filter a: more permissive\n", "filter a: nowhere more permissive\n"
OTHERS = "other architectures: "
OTHERS_SAME, OTHERS_DIFFER, OTHERS_NO_MORE = OTHERS + "same\n", OTHERS + "different\n", OTHERS + "nowhere more permissive\n"
OTHERS_MORE = OTHERS + "more permissive\n"

# Calls that the program decides otherwise.
READS = "  read: log -> allow, more: read" + NONE
NO_LONGER_READS = "  read: allow -> log, less: read" + NONE
WRITES = "  write: log -> allow, more: write" + NONE

# A change of calls that were logged and fail.
FAILS = "log -> errno 1 (EPERM), less"

# The other architectures, in two parts.
BELOW, ABOVE = "  other architectures 0x0 to 0xc000003d: ", "  other architectures 0xc000003f to 0xffffffff: "


def others(change, number="0"):
    """Returns the lines of a change on all other architectures, the least of each part being the example."""
    return f"{BELOW}{change}: 0x0 {number}{NONE}{ABOVE}{change}: 0xc000003f {number}{NONE}"


DIFF = Command("diff -q ")
same, differs, fails = DIFF.same, DIFF.differ, DIFF.fails

def compiled(arch, layout, file):
    """Returns words after which the program of a policy's file, in this layout, is standard input."""
    return f"compile -q {arch} -f a --layout {layout} {file} | ./seccomptool diff -q {arch} {file}:a -"


CASES = [
    # A policy's own programs, in both layouts and of each architecture, decide as it does, of all architectures.
    *[Case(compiled(f"-a {arch}", layout, file), 0, SAME + OTHERS_SAME, "")
      for arch in ("x86_64", "aarch64", "riscv64") for layout in ("linear", "tree")
      for file in ("logs.json", "allows-read.json", "allows-read-of-5.json")],
    Case("compile -q allows-read.json | ./seccomptool diff -q --all allows-read.json -", 0, SAME + OTHERS_SAME, ""),
    # So do programs of other compilers.
    same("allows-read.json reads.bpf", SAME + OTHERS_SAME), same("allows-read.json reads-by-order.bpf --all", SAME + OTHERS_SAME),
    same("- reads.bpf", SAME + OTHERS_SAME, policy('{"syscall":"read"}')),
    same("allows-read.json -", SAME + OTHERS_SAME, PROGRAMS["reads.bpf"]),
    same("two-filters.json:a -", SAME + OTHERS_SAME, guarded(returns(LOG))),
    # A program of another policy of one call more, or of one less; calls come in the order of numbers.
    differs("logs.json reads.bpf", DIFFERENT + READS + OTHERS_SAME),
    differs("allows-read.json -", DIFFERENT + NO_LONGER_READS + OTHERS_SAME, guarded(returns(LOG))),
    differs("allows-read.json writes.bpf", DIFFERENT + NO_LONGER_READS + WRITES + OTHERS_SAME),
    Case("compile -q --layout linear allows-read.json | ./seccomptool diff -q logs.json -", 1, DIFFERENT + READS + OTHERS_SAME, ""),
    # An example is a call on which the two differ.
    differs("logs.json reads-odd.bpf", DIFFERENT + "  read: log -> allow, more: read(0x1, 0x0, 0x0, 0x0, 0x0, 0x0)\n" + OTHERS_SAME),
    # It tells the instruction pointer of a program that loads that.
    differs("logs.json reads-from-5.bpf", DIFFERENT + READS[:-1] + " at 0x500000000\n" + OTHERS_SAME),
    differs("allows-read.json reads-from-5.bpf", DIFFERENT + NO_LONGER_READS[:-1] + " at 0x0\n" + OTHERS_SAME),
    # The high half of an argument that is compared as `dword` doesn't count.
    same("allows-read-of-5.json reads-5.bpf", SAME + OTHERS_SAME),
    # x32 numbers are a range of their own.
    differs("allows-read.json reads-x32.bpf",
            DIFFERENT + "  x32 calls 1073741824 to 4294967295: log -> trap, less: 1073741824" + NONE + OTHERS_SAME),
    differs("allows-read.json reads-no-x32.bpf",
            DIFFERENT + f"  x32 calls 1073741824 to 2147483647: log -> trap, less: 1073741824{NONE}"
            + f"  x32 calls 3221225472 to 4294967295: log -> trap, less: 3221225472{NONE}" + OTHERS_SAME),
    differs("reads-no-x32.bpf reads-x32.bpf",
            "program: different\n  x32 calls 2147483648 to 3221225471: log -> trap, less: 2147483648" + NONE + OTHERS_SAME),
    # A range is cut where what is decided changes, and its pieces stand in the order of numbers, as calls with a name do.
    differs("logs.json errno-from-400.bpf",
            DIFFERENT + f"  other calls 400 to 423: {FAILS}: 400{NONE}"
            + f"  39 calls: {FAILS}: cachestat clone3 close_range epoll_pwait2 .. (--each names them)\n"
            + f"  other calls 463 to 1073741823: {FAILS}: 463{NONE}  x32 calls 1073741824 to 4294967295: {FAILS}: 1073741824{NONE}" + OTHERS_SAME),
    differs("logs.json errno-x32.bpf", DIFFERENT + f"  x32 calls 1073741833 to 4294967295: {FAILS}: 1073741833{NONE}" + OTHERS_SAME),
    # More than four ranges that change alike have one line. With `--each` each has one, and single numbers are no range.
    differs("logs.json errno-in-x32.bpf",
            DIFFERENT + f"  5 ranges of x32 calls: {FAILS}: 1073741826 1073741829-1073741830 1073741832 .. (--each names them)\n" + OTHERS_SAME),
    differs("--each logs.json errno-in-x32.bpf",
            DIFFERENT + f"  x32 call 1073741826: {FAILS}: 1073741826{NONE}  x32 calls 1073741829 to 1073741830: {FAILS}: 1073741829{NONE}.."),
    # What isn't decided alike for all calls of a range is said of some.
    differs("logs.json errno-odd.bpf", DIFFERENT + f"  other calls 337 to 423, some calls: {FAILS}: 337{NONE}.."),
    # So it is for architectures, of which some are told by their names.
    same("logs.json i386.bpf", SAME + OTHERS_DIFFER + f"  i386, some calls: kill_process -> allow, more: 0x40000003 4{NONE}"),
    same("logs.json i386-and-riscv64.bpf", SAME + OTHERS_DIFFER + f"  i386: kill_process -> allow, more: 0x40000003 0{NONE}"
         f"  riscv64: kill_process -> allow, more: 0xc00000f3 0{NONE}"),
    same("i386-and-riscv64.bpf i386.bpf", "program: same\n" + OTHERS_DIFFER + f"  i386, some calls: allow -> kill_process, less: 0x40000003 0{NONE}"
         f"  riscv64: allow -> kill_process, less: 0xc00000f3 0{NONE}"),
    same("reads-no-x32.bpf reads-no-x32.bpf", "program: same\n" + OTHERS_SAME),
    # Other architectures are told, and count with `--all` alone.
    same("allows-read.json reads-kills-thread.bpf", SAME + OTHERS_DIFFER + others("kill_process -> kill_thread, more")),
    differs("--all allows-read.json reads-kills-thread.bpf", SAME + OTHERS_DIFFER + others("kill_process -> kill_thread, more")),
    same("allows-read.json reads-other-kills.bpf", SAME + OTHERS_DIFFER + others("kill_process -> 0x80000001, otherwise")),
    same("--all --only-more allows-read.json reads-other-kills.bpf", NO_MORE + OTHERS_NO_MORE),
    same("--only-more allows-read.json reads-anywhere.bpf", NO_MORE + OTHERS_MORE + BELOW.replace(": ", ", some calls: kill_process -> ..")),
    differs("--only-more allows-read.json reads-anywhere.bpf --all", NO_MORE + OTHERS_MORE + BELOW.replace(": ", ", some calls: kill_process -> ..")),
    # Of another architecture's program nothing is right.
    same("-a riscv64 --only-more allows-read.json reads-riscv64.bpf", NO_MORE + OTHERS_NO_MORE),
    differs("-a riscv64 allows-read.json reads.bpf", "filter a: different\n.."),
    # With `--only-more` only what the program permits more than the policy counts.
    same("--only-more allows-read.json -", NO_MORE + OTHERS_NO_MORE, guarded(returns(LOG))),
    differs("--only-more logs.json reads.bpf", MORE + READS + OTHERS_NO_MORE),
    differs("allows-read.json writes.bpf --only-more", MORE + WRITES + OTHERS_NO_MORE),
    same("--only-more allows-read.json reads-x32.bpf", NO_MORE + OTHERS_NO_MORE),
    same("--only-more errno-2-only.json errno-1.bpf", NO_MORE + OTHERS_NO_MORE),
    differs("errno-2-only.json errno-1.bpf", DIFFERENT + "  375 calls: errno 2 (ENOENT) -> errno 1 (EPERM), "
            "otherwise: _sysctl accept accept4 access acct add_key .. (--each names them)\n.."),
    # No set may be looked at, or few.
    Case("diff -q --most 0 logs.json logs.bpf", 3, UNDECIDED + "  read: undecided at instruction ..", ""),
    same("--most 0x10 --only-more allows-read.json reads.bpf", NO_MORE + OTHERS_NO_MORE),
    # The calls of `read` take five sets, as with `diff`, and those of every other part take one.
    same("--most 5 allows-read-of-5.json reads-5.bpf", SAME + OTHERS_SAME),
    Case("diff -q --most 4 allows-read-of-5.json reads-5.bpf", 3, UNDECIDED + "  read: undecided at instruction ..", ""),
    # The faults of the policy, of the choice of its filter, and then of the program.
    fails("missing.json reads.bpf", MISSING, TOOL + "missing.json: "), fails("examples reads.bpf", FOLDER, TOOL + "examples: "),
    fails("- reads.bpf", NO_OBJECT, TOOL + "standard input: ", "[]"),
    fails("- longest.bpf", RESET, TOOL + "standard input: ", Failing(LOGS)),
    fails("unknown-call.json reads.bpf", 'a.filter[0].syscall: unknown system call "nosyscall" on x86_64\n',
          TOOL + "unknown-call.json: "),
    fails("logs.json:b reads.bpf", "No filter has this name: b.\n", TOOL + "logs.json: "),
    fails("two-filters.json reads.bpf", "Name one of its filters: a, b\\xc2\\x9b.\n", TOOL + "two-filters.json: "),
    fails("none.json reads.bpf", "The policy has no filters.\n", TOOL + "none.json: "),
    fails("logs.json:b -", "No filter has this name: b.\n", TOOL + "logs.json: ", b"\6\0\0"),
    *[fails("logs.json -", told + "\n", TOOL + "standard input: ", given) for given, told in UNFIT],
    fails("logs.json missing.bpf", MISSING, TOOL + "missing.bpf: "),
    fails("logs.json -", RESET, TOOL + "standard input: ", Failing(PROGRAMS["reads.bpf"])),
    # A filter that neither layout can hold, in front of the faults of the program.
    fails("too-large.json reads.bpf", "Backend error: The seccomp filter ..", TOOL + "too-large.json: "),
    fails("too-large.json -", "Backend error: The seccomp filter ..", TOOL + "too-large.json: ", b"\6\0\0"),
    # An output that takes nothing.
    fails("logs.json reads.bpf > /dev/full", FULL, OUTPUT),
    fails("allows-read.json reads.bpf >&-", CLOSED, OUTPUT),
    # Words that are no command.
    Case("diff -q - -", 2, "", "error: .."),
    Case("diff -q --all=true logs.json reads.bpf", 2, "", "error: .."),
    Case("diff -q logs.json reads.bpf reads.bpf", 2, "", "error: .."),
]
