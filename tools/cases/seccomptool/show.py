"""What `show` has to do: programs for people, and the faults."""

from cases.forms import (
    CLOSED, FOLDER, FULL, INPUT, LAYOUTS, MISSING, NO_OBJECT, OUTPUT, RESET, STEERS, TOOL, Failing,
    fails_to_read_and_write, rejects, rejects_in_both, writes
)
from cases.seccompc.commands import LARGE

from .programs import ALLOW, ERRNO_1, JUMP, JUMP_AT_LEAST, JUMP_EQUAL, JUMP_GREATER, LOAD, MASK, OF_READ, UNFIT, program, returns

# Two filters without entries; the second one's name has a byte that steers a terminal.
LOGS = r'''{"b\n":{"mismatch_action":{"errno":65537},"match_action":"allow","filter":[]},
    "a":{"mismatch_action":"log","match_action":"allow","filter":[]}}'''

KILL, LOG, FAIL = "#0x80000000             ; kill the process", "#0x7ffc0000             ; log", "#0x50001                ; errno 1 (EPERM)"


def of_none(name, jumps, first, second, value="0xc00000b7", arch="aarch64"):
    """Returns how the program of a filter without entries is shown: the value of the architecture, the places to which its test leads,
    and the two returns."""
    return f"""filter 4 {name}
   0  ld [4]                      ; the architecture
   1  jeq #{value}, {jumps}       ; {arch}
   2  ret {first}
   3  ret {second}
"""


LOGS_AS_CHAINS = of_none("a", "3, 2", KILL, LOG) + of_none(r"b\x0a", "3, 2", KILL, FAIL)
LOGS_AS_TREE = of_none("a", "2, 3", LOG, KILL) + of_none(r"b\x0a", "2, 3", FAIL, KILL)
LOGS_SHOWN = of_none("a", "3, 2", KILL, LOG, "0xc000003e", "x86_64")

# A call with two entries with conditions, and one without conditions: `read` is 63 on aarch64, and
# `close` is 57.
CALLS = r'''{"a":{"mismatch_action":"trap","match_action":{"trace":7},"filter":[
    {"syscall":"read","args":[
        {"index":0,"type":"dword","op":"ge","val":3},
        {"index":5,"type":"dword","op":{"masked_eq":15},"val":18}]},
    {"syscall":"close"},
    {"syscall":"read","args":[{"index":1,"type":"qword","op":"eq","val":4294967298}]}]}}'''

CALLS_SHOWN = r"""filter 27 a
   0  ld [4]                      ; the architecture
   1  jeq #0xc00000b7, 3, 2       ; aarch64
   2  ret #0x80000000             ; kill the process
   3  ld [0]                      ; the call number
   4  jeq #0x39, 5, 6             ; close
   5  ja 7
   6  ja 9
   7  ret #0x7ff00007             ; trace 7
   8  ret #0x30000                ; trap
   9  jeq #0x3f, 10, 11           ; read
  10  ja 12
  11  ja 19
  12  ld [56]                     ; the low half of argument 5
  13  and #0xf                    ; argument 5, low half
  14  jeq #0x2, 15, 18            ; argument 5, low half & 0xf
  15  ld [16]                     ; the low half of argument 0
  16  jge #0x3, 17, 18            ; argument 0, low half
  17  ret #0x7ff00007             ; trace 7
  18  ja 20
  19  ja 26
  20  ld [28]                     ; the high half of argument 1
  21  jeq #0x1, 22, 25            ; argument 1, high half
  22  ld [24]                     ; the low half of argument 1
  23  jeq #0x2, 24, 25            ; argument 1, low half
  24  ret #0x7ff00007             ; trace 7
  25  ret #0x30000                ; trap
  26  ret #0x30000                ; trap
"""

# Programs in bytes, of whichever compiler.
READ_SHOWN = """   0  ld [0]                      ; the call number
   1  jeq #0x0, 2, 3              ; read
   2  ret #0x7fff0000             ; allow
   3  ret #0x50001                ; errno 1 (EPERM)
"""

BIT_SHOWN = """   0  ld [24]                     ; the low half of argument 1
   1  and #0x2                    ; argument 1, low half
   2  jgt #0x1, 3, 4              ; argument 1, low half & 0x2
   3  ret #0x7fff0000             ; allow
   4  ret #0x50001                ; errno 1 (EPERM)
"""

# Each load of a record, the other jumps, and what the words of seccomp(2) stand for that no policy has.
OF_LOADS = program(
    *[(LOAD, 0, 0, byte) for byte in range(0, 64, 4)], (JUMP, 0, 0, 1), returns(0x7FC00000),
    (JUMP_AT_LEAST, 1, 0, 2**32 - 1), returns(0x30001), (MASK, 0, 0, 0), returns(0))

LOADED = ["the call number", "the architecture", "the instruction pointer", "the instruction pointer"]
LOADED += [f"the {half} half of argument {index}" for index in range(6) for half in ("low", "high")]

LOADS_SHOWN = "".join(f"{place:4}  {f'ld [{4 * place}]':28}; {it}\n" for place, it in enumerate(LOADED)) + """\
  16  ja 18
  17  ret #0x7fc00000             ; notify the supervisor
  18  jge #0xffffffff, 20, 19     ; argument 5, high half
  19  ret #0x30001
  20  and #0x0                    ; argument 5, high half
  21  ret #0x0                    ; kill the thread
"""

# A program for aarch64 and for an architecture without a table, in which ways meet. Calls have their names on the architecture
# of each way: `openat` is 56 on aarch64, and 257 on x86_64. If the ways to a test differ, nothing is said of what differs.
OF_ARCHITECTURES = program(
    (LOAD, 0, 0, 4), (JUMP_EQUAL, 3, 0, 0xC00000B7), (JUMP_EQUAL, 4, 0, 0x40000003), (LOAD, 0, 0, 0), (JUMP_EQUAL, 4, 10, 257),
    (LOAD, 0, 0, 0), (JUMP_EQUAL, 2, 8, 56), (LOAD, 0, 0, 0), (JUMP_EQUAL, 0, 6, 295), (JUMP_AT_LEAST, 0, 1, 80),
    (JUMP_GREATER, 1, 2, 96), (LOAD, 0, 0, 16), (JUMP_EQUAL, 0, 2, 5), (JUMP_EQUAL, 0, 1, 56), returns(ALLOW), (LOAD, 0, 0, 0),
    (MASK, 0, 0, 0x7FFFFFFF), (MASK, 0, 0, 0xC0000000), (JUMP_EQUAL, 0, 1, 0), returns(ALLOW), returns(ERRNO_1))

ARCHITECTURES_SHOWN = """   0  ld [4]                      ; the architecture
   1  jeq #0xc00000b7, 5, 2       ; aarch64
   2  jeq #0x40000003, 7, 3       ; the architecture
   3  ld [0]                      ; the call number
   4  jeq #0x101, 9, 15           ; openat
   5  ld [0]                      ; the call number
   6  jeq #0x38, 9, 15            ; openat
   7  ld [0]                      ; the call number
   8  jeq #0x127, 9, 15           ; call 295
   9  jge #0x50, 10, 11           ; calls from 80 on
  10  jgt #0x60, 12, 13           ; calls above 96
  11  ld [16]                     ; the low half of argument 0
  12  jeq #0x5, 13, 15
  13  jeq #0x38, 14, 15
  14  ret #0x7fff0000             ; allow
  15  ld [0]                      ; the call number
  16  and #0x7fffffff             ; the call number
  17  and #0xc0000000             ; the call number & 0x7fffffff
  18  jeq #0x0, 19, 20            ; the call number & 0x40000000
  19  ret #0x7fff0000             ; allow
  20  ret #0x50001                ; errno 1 (EPERM)
"""

# Both filters of this policy are at fault: `a` is none, and the actions of `b` are equal.
BOTH_FAULTY = '{"b":{"mismatch_action":"log","match_action":"log","filter":[]},"a":{}}'

CASES = [
    ("show --layout linear < logs.json", 0, LOGS_SHOWN, ""),
    writes("show logs.json --layout linear", "", LOGS_SHOWN),
    # `show` writes the programs of both layouts.
    writes("show -a aarch64 --layout linear", LOGS, LOGS_AS_CHAINS),
    writes("show -a arm64", LOGS, LOGS_AS_TREE),
    # `show` writes no character that steers a terminal.
    writes("show --layout linear", STEERS, LOGS_SHOWN.replace("filter 4 a", r"filter 4 a\xc2\x9b")),
    # `show` tells what each instruction is about.
    writes("show -a aarch64 --layout linear", CALLS, CALLS_SHOWN),
    # `show` tells the first fault.
    *rejects_in_both("show", "[]", NO_OBJECT),
    *rejects_in_both("show", BOTH_FAULTY, 'b: expected two actions that differ, found the same one twice (3 more errors; seccomptool check prints them)\n'),
    ("show --layout linear < too-large.json", 2, "", INPUT + LARGE),
    # `show` answers faults of its reader and its writer.
    *[case for it in LAYOUTS for case in fails_to_read_and_write("show" + it, LOGS, LOGS)],
    ("show < logs.json > /dev/full", 2, "", OUTPUT + FULL),
    # `show` writes programs in bytes, of whichever compiler.
    writes("show read.bpf", "", READ_SHOWN), writes("show - < bit.bpf", "", BIT_SHOWN), writes("show -", OF_LOADS, LOADS_SHOWN),
    writes("show -", OF_ARCHITECTURES, ARCHITECTURES_SHOWN),
    writes("show -a aarch64 read.bpf", "", READ_SHOWN.replace("; read", "; io_setup")),
    writes("show -a riscv64 -", OF_ARCHITECTURES, ARCHITECTURES_SHOWN.replace("openat", "call 257", 1)),
    writes("show longest.bpf | tail -n 1", "", "4095  ret #0x7fff0000             ; allow\n"),
    writes("compile -q logs.json -o shown.bpf --layout linear && ./seccomptool show shown.bpf; rm shown.bpf", "",
           LOGS_SHOWN.replace("filter 4 a\n", "")),
    # Those that aren't taken, and faults of files, of the reader and the writer.
    *[rejects("show -", given, told + "\n") for given, told in UNFIT], rejects("show missing.bpf", "", MISSING, TOOL + "missing.bpf: "),
    rejects("show examples", "", FOLDER, TOOL + "examples: "), rejects("show -", Failing(OF_READ), RESET),
    rejects("show read.bpf > /dev/full", "", FULL, OUTPUT), rejects("show read.bpf >&-", "", CLOSED, OUTPUT),
]
