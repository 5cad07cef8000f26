"""What `call` has to do: names and numbers of calls, their records, and the faults."""

from cases.forms import CLOSED, FULL, OUTPUT, TOOL, rejects, writes
from model import AARCH64, RISCV64, X86_64, record_of

# The members in order: the call's number, the architecture's word, the instruction pointer, the arguments.
FCNTL = bytes.fromhex("""
    48 00 00 00  3e 00 00 c0  00 00 00 00 00 00 00 00
    03 00 00 00 00 00 00 00  02 00 00 00 01 00 00 00  00 00 00 00 00 00 00 00
    00 00 00 00 00 00 00 00  00 00 00 00 00 00 00 00  ef cd ab 89 67 45 23 01
""")

NO_CALL = "No call of {} has this name or number: {}.\n"

NO_CALL_AT_ALL = "No architecture has a call of this name or number: {}.\n"

# The numbers are those of the kernel's headers: asm/unistd_64.h of x86_64, and asm-generic/unistd.h of the others.
CASES = [
    # A line for each architecture that has the call, or for the one that is asked for.
    writes("call fcntl", "", "x86_64 fcntl 72\naarch64 fcntl 25\nriscv64 fcntl 25\n"),
    writes("call open", "", "x86_64 open 2\n"),
    writes("call 2", "", "x86_64 open 2\naarch64 io_submit 2\nriscv64 io_submit 2\n"),
    writes("call 0x2 -a amd64", "", "x86_64 open 2\n"),
    writes("call -a riscv64 fcntl", "", "riscv64 fcntl 25\n"),
    writes("call fcntl 1 2", "", "x86_64 fcntl 72\naarch64 fcntl 25\nriscv64 fcntl 25\n"),
    # Numbers of which no name is known, and names of none.
    *[rejects(f"call {it}", "", NO_CALL_AT_ALL.format(it), TOOL) for it in ("nocall", "4294967295", "4294967296", "400")],
    rejects("call -a aarch64 open", "", NO_CALL_AT_ALL.format("open"), TOOL),
    rejects("call close > /dev/full", "", FULL, OUTPUT),
    # `call --record` writes the members in order.
    *[writes(f"call --record {call} 3 4294967298 0 0 0 0x0123456789abcdef", "", FCNTL) for call in ("fcntl", "72", "0x48")],
    # It takes the call of its architecture.
    writes("call --record -a aarch64 close", "", record_of(57, AARCH64)),
    writes("call --record close --arch riscv64", "", record_of(57, RISCV64)), writes("call --record close", "", record_of(3, X86_64)),
    writes("call --record 4294967295", "", record_of(4294967295, X86_64)),
    writes("call --record 0xffffffff 1 0x2", "", record_of(0xFFFF_FFFF, X86_64, 1, 2)),
    # What is no call.
    rejects("call --record nocall", "", NO_CALL.format("x86_64", "nocall"), TOOL),
    rejects("call --record -a arm64 open", "", NO_CALL.format("aarch64", "open"), TOOL),
    rejects("call --record ''", "", NO_CALL.format("x86_64", ""), TOOL),
    # A number that begins with 0 is octal in C.
    rejects("call --record 0072", "", NO_CALL.format("x86_64", "0072"), TOOL),
    rejects("call 00", "", NO_CALL_AT_ALL.format("00"), TOOL),
    rejects("call --record -- -1", "", NO_CALL.format("x86_64", "-1"), TOOL),
    rejects("call --record 4294967296", "", NO_CALL.format("x86_64", "4294967296"), TOOL),
    # A fault of its writer.
    rejects("call --record close > /dev/full", "", FULL, OUTPUT),
    rejects("call --record close >&-", "", CLOSED, OUTPUT),
]
