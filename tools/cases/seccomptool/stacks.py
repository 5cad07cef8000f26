"""What `stack` has to do: the program of several that hold together, to the byte; what that answers; and the faults. Of the answers of
several programs the kernel takes the one whose upper half is least as a signed number, and among equal ones that of the program that was
installed last (kernel/seccomp.c, seccomp_run_filters)."""

import itertools
import json
import struct

from cases.forms import LOGS, MISSING, OUTPUT, TOOL, Case, as_list, as_object, rejects, writes
from model import X86_64, record_of

from .compile import TREE, in_c, listed
from .programs import ACTIONS, ALLOW, ERRNO_1, JUMP, JUMP_EQUAL, LOAD, MASK, OF_BIT, OF_READ, program, returns

KILL_PROCESS, KILL_THREAD, TRAP, LOG, TRACE = 0x80000000, 0, 0x00030000, 0x7FFC0000, 0x7FF00007

FIT = "The program of all needs {} instructions; 4096 fit. explain --after says what they decide together.\n"


def signed(word):
    """Returns the upper half of a word as a signed number."""
    return struct.unpack("<i", struct.pack("<I", word & 0xFFFF0000))[0]


def prevailing(words):
    """Returns the word that the kernel takes of those of programs, the oldest first."""
    return min(reversed(words), key=signed)


def by_number(first, second, other):
    """Returns the program that answers calls 0 and 1 and each other call by these words."""
    return program((LOAD, 0, 0, 0), (JUMP_EQUAL, 0, 1, 0), returns(first), (JUMP_EQUAL, 0, 1, 1), returns(second), returns(other))


# What three programs answer to calls 0, 1 and 2.
ANSWERS = {
    "one.bpf": (ALLOW, ERRNO_1, LOG), "two.bpf": (TRAP, ERRNO_1 + 1, ALLOW), "three.bpf": (ALLOW, KILL_THREAD, TRACE),
    "four.bpf": (KILL_PROCESS, ALLOW, TRACE + 1),
}

# A program of so many instructions that returns one word.
LENGTHS = {f"long-{length}.bpf": program(*[(LOAD, 0, 0, 0)] * (length - 1), returns(ALLOW)) for length in (4093, 4094, 4095)}

FILES = {
    **{name: by_number(*words) for name, words in ANSWERS.items()},
    **LENGTHS,
    "a-and-b.json": json.dumps({
        name: {"mismatch_action": "allow", "match_action": action, "filter": [{"syscall": call}]}
        for name, action, call in (("a", "trap", "read"), ("b", {"errno": 1}, "write"))
    }),
    "three-calls.bin": b"".join(record_of(number, X86_64) for number in range(3)),
}

# Call 0 is allowed and each other one fails with errno 1, and then: a call is allowed only if bit 1 of argument 1 is set. The program
# returns two words, so the other one stands behind it twice; each copy begins with accumulator 0.
READ_AND_BIT = program(
    (LOAD, 0, 0, 0), (JUMP_EQUAL, 0, 1, 0), (JUMP, 0, 0, 1), (JUMP, 0, 0, 6),
    (MASK, 0, 0, 0), (LOAD, 0, 0, 24), (MASK, 0, 0, 2), (0x25, 0, 1, 1), returns(ALLOW), returns(ERRNO_1),
    (MASK, 0, 0, 0), (LOAD, 0, 0, 24), (MASK, 0, 0, 2), (0x25, 0, 1, 1), returns(ERRNO_1), returns(ERRNO_1),
)


def one_word(word):
    """Returns the program of two programs that each return one word, of which this one prevails."""
    return program((JUMP, 0, 0, 0), (MASK, 0, 0, 0), returns(word))


def named(word):
    """Returns the name of the program that returns this word."""
    return f"returns-{word:x}.bpf"


TOLD = {ERRNO_1: "errno 1 (EPERM)", ERRNO_1 + 1: "errno 2 (ENOENT)", TRACE: "trace 7", TRACE + 1: "trace 8", **ACTIONS}

CALLS = ("read (0)", "write (1)", "open (2)")


def explained(names):
    """Returns the cases of programs of ANSWERS that hold together: what is made of them explained, and which of them decides."""
    columns = list(zip(*(ANSWERS[name] for name in names)))
    words = [prevailing(answers) for answers in columns]
    deciders = [max(k for k, word in enumerate(answers) if signed(word) == signed(prevailing(answers))) for answers in columns]
    after = " ".join(f"--after {name}" for name in names[:-1])
    return [
        writes(f"stack {' '.join(names)} | ./seccomptool explain - --records three-calls.bin", "",
               "".join(f"{TOLD[word]}: {call}\n" for word, call in zip(words, CALLS))),
        writes(f"explain {after} {names[-1]} --records three-calls.bin", "",
               "".join(f"{TOLD[word]}: {names[k]} of {call}\n" for word, k, call in zip(words, deciders, CALLS))),
    ]


def decided(word, path, steps):
    """Returns the JSON answer that `read` gets this word by the layer of this path, after so many steps of all."""
    return as_list("decisions", [{
        "action": {"name": TOLD[word], "number": None, "value": word}, "call": "read", "number": 0, "reason": "layer", "path": path,
        "entry": None, "condition": None, "steps": steps, "program": None, "process": None}])


CASES = [
    # Of two programs that return one word each.
    *[writes(f"stack {named(one)} {named(other)}", "", one_word(prevailing([one, other]))) for one, other in itertools.product(ACTIONS, ACTIONS)],
    # Of two to four programs in each order.
    *[case for count in (2, 3, 4) for names in itertools.permutations(ANSWERS, count) for case in explained(names)],
    # One program is itself.
    writes("stack read.bpf", "", OF_READ), writes("stack read.bpf bit.bpf", "", READ_AND_BIT),
    writes("stack - bit.bpf", OF_READ, READ_AND_BIT), writes("stack read.bpf -", OF_BIT, READ_AND_BIT),
    # A subject of any kind, and the filter behind a colon.
    writes("stack logs.json", "", TREE),
    writes("stack logs.json:a", "", TREE),
    writes("stack two-filters.json:a", "", TREE),
    writes("stack logs.json: returns-80000000.bpf | ./seccomptool explain - read", "", "kill_process: read (0)\n"),
    writes("stack -a aarch64 logs.json returns-7fff0000.bpf | ./seccomptool explain -a aarch64 - read", "", "log: read (63)\n"),
    writes("stack --format c read.bpf | ./seccomptool stack - bit.bpf", "", READ_AND_BIT),
    # Which of several decides, of any kind: the steps are those of all.
    writes("explain --after read.bpf logs.json write", "", "errno 1 (EPERM): read.bpf of write (1)\n"),
    # A filter that is asked for is named behind the path, also if both are of one file.
    writes("explain --after two-filters.json:a logs.json -f a read", "", "log: logs.json:a of read (0)\n"),
    writes("explain --after a-and-b.json:a -f b a-and-b.json read", "", "trap: a-and-b.json:a of read (0)\n"),
    writes("explain --after a-and-b.json:a -f b a-and-b.json write", "", "errno 1 (EPERM): a-and-b.json:b of write (1)\n"),
    writes("explain --after - returns-0.bpf read", OF_READ, "kill_thread: returns-0.bpf of read (0)\n"),
    writes("explain -a riscv64 --after returns-0.bpf read.bpf --records calls.bin", "",
           "kill_thread: returns-0.bpf of another architecture\n" * 2 + "kill_thread: returns-0.bpf of io_setup (0)\n"),
    writes("explain --json --after read.bpf returns-7ffc0000.bpf read", "", decided(LOG, "returns-7ffc0000.bpf", 4)),
    writes("explain --json --after logs.json:a returns-7fff0000.bpf read", "", decided(LOG, "logs.json:a", 3 + 1)),
    Case("explain --after - returns-0.bpf", 2, "", "error: SUBJECT and records can't both be read from standard input: ..", OF_READ),
    Case("explain --after - returns-0.bpf --records -", 2, "", "error: SUBJECT and records can't both be read from standard input: ..", OF_READ),
    rejects("explain --after missing.bpf read.bpf read", "", MISSING, TOOL + "missing.bpf: "),
    rejects("explain --after logs.json:b read.bpf read", "", "No filter has this name: b.\n", TOOL + "logs.json: "),
    rejects("explain --after read.bpf logs.json -f b read", "", "No filter has this name: b.\n", TOOL + "logs.json: "),
    rejects("explain --after read.bpf read.bpf nosyscall", "", "No call of x86_64 has this name or number: nosyscall.\n", TOOL),
    # The forms, and the file that is written.
    writes("stack read.bpf bit.bpf --format c", "", in_c(READ_AND_BIT)),
    writes("stack read.bpf bit.bpf --format=listing", "", listed("stack", READ_AND_BIT)),
    writes("stack returns-0.bpf --json", "", as_object({"name": "stack", "length": 1, "instructions": [{"code": 6, "jt": 0, "jf": 0, "k": 0}]}) + "\n"),
    writes("stack read.bpf bit.bpf -o written && cat written && rm written", "", READ_AND_BIT),
    rejects("stack read.bpf bit.bpf > /dev/full", "", "No space left on device (os error 28)\n", OUTPUT),
    *[rejects(f"stack {it} -o {path}; status=$?; (exit $status)", "", "the output would overwrite the input\n", TOOL + f"{path}: ")
      for it, path in (("read.bpf bit.bpf", "read.bpf"), ("read.bpf bit.bpf", "bit.bpf"), ("read.bpf logs.json:a", "logs.json"))],
    # Two programs that are as long as fits, and longer.
    writes("stack long-4094.bpf returns-0.bpf | wc -c", "", f"{4096 * 8}\n"),
    Case("stack long-4095.bpf returns-0.bpf", 2, "", TOOL + FIT.format(4097)),
    Case("stack returns-0.bpf long-4095.bpf", 2, "", TOOL + FIT.format(4097)),
    Case("stack returns-0.bpf returns-0.bpf long-4093.bpf", 2, "", TOOL + FIT.format(4097)),
    Case("stack read.bpf long-4095.bpf missing.bpf", 2, "", TOOL + "missing.bpf: " + MISSING),
    # The errors of each, in the order of the subjects.
    rejects("stack missing.bpf returns-0.bpf", "", MISSING, TOOL + "missing.bpf: "),
    rejects("stack returns-0.bpf missing.bpf", "", MISSING, TOOL + "missing.bpf: "),
    rejects("stack logs.json:b", "", "No filter has this name: b.\n", TOOL + "logs.json: "),
    rejects("stack returns-0.bpf:a", "", "No filter has this name: a.\n", TOOL + "returns-0.bpf: "),
    rejects("stack returns-0.bpf two-filters.json", "", "Name one of its filters: a, b\\xc2\\x9b.\n", TOOL + "two-filters.json: "),
    rejects("stack - returns-0.bpf", OF_READ[:-1], "The input ends inside an instruction, after 7 bytes of it.\n"),
    rejects("stack - returns-0.bpf", LOGS[:-1], "Json Frontend error: Error parsing Json: .."),
]
