"""What `explain` has to do of programs: what they return for calls, and the faults."""

import struct

from cases.forms import CLOSED, FULL, MISSING, OUTPUT, RESET, TOOL, Case, Command, Failing, rejects, writes
from model import RISCV64, X86_64, record_of

# Codes of instructions (linux/bpf_common.h): a load of a word, jumps, a mask, a return.
LOAD, JUMP, JUMP_EQUAL, JUMP_GREATER, JUMP_AT_LEAST, JUMP_IF_SET, MASK, RETURN = 0x20, 0x05, 0x15, 0x25, 0x35, 0x45, 0x54, 0x06
ALLOW, ERRNO_1 = 0x7FFF0000, 0x00050001

# Return values and the actions that they are (linux/seccomp.h).
ACTIONS = {
    0x7FFF0000: "allow", 0x7FFC0000: "log", 0x7FC00000: "user_notif", 0x00030000: "trap",
    0x00000000: "kill_thread", 0x80000000: "kill_process", 0x00050000: "errno 0", 0x0005FFFF: "errno 65535",
    0x00050026: "errno 38 (ENOSYS)", 0x0005000B: "errno 11 (EAGAIN)", 0x00050085: "errno 133 (EHWPOISON)", 0x00050086: "errno 134",
    0x00050029: "errno 41", 0x7FF00026: "trace 38",
    0x7FF00007: "trace 7", 0x7FFF0001: "0x7fff0001", 0x00030001: "0x30001", 0x00000001: "0x1",
}


def program(*instructions):
    """Returns the bytes of instructions, each a code, jt, jf and k."""
    return b"".join(struct.pack("<HBBI", *it) for it in instructions)


def returns(word):
    """Returns a return of this value."""
    return (RETURN, 0, 0, word)


# Call 0 is allowed, and each other call fails with error number 1.
OF_READ = program((LOAD, 0, 0, 0), (JUMP_EQUAL, 0, 1, 0), returns(ALLOW), returns(ERRNO_1))

# Calls whose argument 1 has bit 1 in its low half are allowed, of whatever architecture.
OF_BIT = program((LOAD, 0, 0, 24), (MASK, 0, 0, 2), (JUMP_GREATER, 0, 1, 1), returns(ALLOW), returns(ERRNO_1))

# Numbers of calls that have bit 30 fail, and others are allowed: by a jump that tests bits.
OF_SET = program((LOAD, 0, 0, 0), (JUMP_IF_SET, 0, 1, 0x40000000), returns(ERRNO_1), returns(ALLOW))

LONGEST = program(*[(LOAD, 0, 0, 60)] * 4095, returns(ALLOW))

RECORDS = record_of(0, X86_64) + record_of(1, X86_64) + record_of(0, RISCV64)

# What is explained of them: whatever a program returns for the last one, it is of another architecture.
EXPLAINED = "allow: read (0)\nerrno 1 (EPERM): write (1)\nallow: another architecture\n"

FILES = {
    "read.bpf": OF_READ, "bit.bpf": OF_BIT, "set.bpf": OF_SET, "longest.bpf": LONGEST, "calls.bin": RECORDS, "cut.bin": RECORDS[:-1],
    **{f"returns-{word:x}.bpf": program(returns(word)) for word in ACTIONS},
}

BEHIND = "jump past the end"
NO_WORD = "load from an invalid offset"

# Programs that aren't taken, and why.
UNFIT = [
    (LONGEST + program(returns(ALLOW)), "expected 1 to 4096 instructions, found 4097"),
    (OF_READ[:-1], "The input ends inside an instruction, after 7 bytes of it."),
    (b"\6\0\0", "The input ends inside an instruction, after 3 bytes of it."),
    (program((0x16, 0, 0, 0)), "instruction 0: unknown operation 0x16"),
    (program((LOAD, 0, 0, 0), (0, 0, 0, 0), returns(0)), "instruction 1: unknown operation 0x0"),
    (program((LOAD, 0, 0, 64), returns(0)), f"instruction 0: {NO_WORD}"),
    (program((LOAD, 0, 0, 2), returns(0)), f"instruction 0: {NO_WORD}"), (program((JUMP, 0, 0, 1), returns(0)), f"instruction 0: {BEHIND}"),
    (program((JUMP, 0, 0, 2**32 - 1), returns(0)), f"instruction 0: {BEHIND}"),
    (program(returns(0), (JUMP_EQUAL, 1, 0, 0), returns(0)), f"instruction 1: {BEHIND}"),
    (program((JUMP_AT_LEAST, 0, 255, 0), returns(0)), f"instruction 0: {BEHIND}"),
    (program((JUMP_IF_SET, 1, 0, 1), returns(0)), f"instruction 0: {BEHIND}"),
    # What a kernel takes and the machine doesn't have: a sum, the index register, scratch memory, a load of the length.
    (program((0x04, 0, 0, 1), returns(0)), "instruction 0: unknown operation 0x4"),
    (program((0x07, 0, 0, 0), returns(0)), "instruction 0: unknown operation 0x7"),
    (program((LOAD, 0, 0, 0), (0x02, 0, 0, 0), returns(0)), "instruction 1: unknown operation 0x2"),
    (program((0x80, 0, 0, 0), returns(0)), "instruction 0: unknown operation 0x80"),
    (program((LOAD, 0, 0, 0)), "instruction 0: no return at the end"),
    (program(returns(0), (MASK, 0, 0, 1)), "instruction 1: no return at the end"),
]


misused = Command("explain ").misused

CASES = [
    # What a program returns for a call, by name or number, with arguments; and for records.
    writes("explain read.bpf read", "", "allow: read (0)\n"),
    writes("explain read.bpf 1", "", "errno 1 (EPERM): write (1)\n"),
    writes("explain -a riscv64 read.bpf read", "", "errno 1 (EPERM): read (63)\n"),
    writes("explain bit.bpf ioctl 0 2", "", "allow: ioctl (16)\n"),
    writes("explain bit.bpf ioctl 2 0x100000001", "", "errno 1 (EPERM): ioctl (16)\n"),
    writes("explain set.bpf read", "", "allow: read (0)\n"),
    writes("explain set.bpf 0x40000000", "", "errno 1 (EPERM): call 1073741824\n"),
    writes("explain set.bpf 3221225472", "", "errno 1 (EPERM): call 3221225472\n"),
    writes("explain longest.bpf 0", "", "allow: read (0)\n"), writes("explain - read", OF_READ, "allow: read (0)\n"),
    writes("explain read.bpf --records calls.bin", "", EXPLAINED), writes("explain --records=- read.bpf", RECORDS, EXPLAINED),
    writes("explain read.bpf", RECORDS, EXPLAINED), writes("explain read.bpf", "", ""),
    writes("explain - --records calls.bin", OF_READ, EXPLAINED),
    *[writes(f"explain returns-{word:x}.bpf read", "", f"{action}: read (0)\n") for word, action in ACTIONS.items()],
    writes("explain read.bpf write 1 2 3 4 5 6", "", "errno 1 (EPERM): write (1)\n"),
    # Programs that aren't taken.
    *[rejects("explain - read", given, told + "\n") for given, told in UNFIT],
    rejects("explain missing.bpf read", "", MISSING, TOOL + "missing.bpf: "),
    rejects("explain - read", Failing(OF_READ), RESET),
    # The program's fault comes before those of the records.
    rejects("explain - --records cut.bin", OF_READ[:-1], "The input ends inside an instruction, after 7 bytes of it.\n"),
    rejects("explain read.bpf --records missing.bin", "", MISSING, TOOL + "missing.bin: "),
    rejects("explain read.bpf", Failing(RECORDS), RESET),
    rejects("explain read.bpf nosyscall", "", "No call of x86_64 has this name or number: nosyscall.\n", TOOL),
    Case("explain read.bpf --records cut.bin", 2, "allow: read (0)\nerrno 1 (EPERM): write (1)\n",
         TOOL + "cut.bin: The input ends inside a record, after 63 bytes of it.\n"),
    # An output that takes nothing.
    rejects("explain read.bpf read > /dev/full", "", FULL, OUTPUT),
    rejects("explain read.bpf read >&-", "", CLOSED, OUTPUT),
    # Words that are no command.
    misused(""),
    misused("read.bpf read 1a"),
    misused("read.bpf read --records calls.bin", "error: the argument '[CALL]' cannot be used with '--records <FILE>'\n.."),
    misused("-", "error: SUBJECT and records can't both be read from standard input: give CALL, --records or --log\n.."),
    # No filter of a program has a name.
    rejects("explain -f a read.bpf read", "", "No filter has this name: a.\n", TOOL + "read.bpf: "),
    # What is written anew is the same bytes, or a listing.
    writes("compile read.bpf", "", OF_READ),
    writes("compile --format c -", OF_READ, "{ 0x20, 0, 0, 0x00000000 },\n{ 0x15, 0, 1, 0x00000000 },\n{ 0x6, 0, 0, 0x7fff0000 },\n"
           "{ 0x6, 0, 0, 0x00050001 },\n"),
    # Its length, its longest way, and its steps on a call that it doesn't test for.
    writes("show --stats read.bpf", "", "program: 4 instructions, at most 3 steps, 3 passing\n"),
    writes("show --stats set.bpf", "", "program: 4 instructions, at most 3 steps, 3 passing\n"),
    writes("show --stats -", LONGEST, "program: 4096 instructions, at most 4096 steps, 4096 passing\n"),
    # `check` takes it, or says why not.
    writes("check read.bpf", "", ""),
    writes("check --deny-warnings read.bpf set.bpf longest.bpf", "", ""),
    *[rejects("check -", given, told + "\n") for given, told in UNFIT],
]
