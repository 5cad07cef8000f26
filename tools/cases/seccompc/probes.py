"""What `probe` has to do: the lines of records, a rest after them, and the faults in their order."""

from cases.forms import NO_ARCHITECTURE, Case, Failing, refuses, writes
from cases.seccompc.commands import INDEX
from model import AARCH64, RISCV64, X86_64, record_of

from .policies import SHORT, UNREAD_RECORDS

# The words of a probe, a record that its filter allows, and the record's line.
PROBE = "probe x86_64 72 1 4294967298"
ALLOWED = record_of(72, X86_64, 0, 4294967298)
LINE = "7fff0000 10\n"

# The filter that a probe compiles, as a policy.
AS_POLICY = (
    '{"a":{"mismatch_action":"kill_process","match_action":"allow","filter":[{"syscall":"fcntl","args":['
    '{"index":1,"type":"qword","op":"eq","val":4294967298}]}]}}'
)

# An architecture, a call number and an index, and the first fault of these.
FAULTS = [
    ("x86_64", 72, 6, "Backend error: " + INDEX), ("x86_64", 72, 255, "Backend error: " + INDEX),
    ("x86_64", -1, 6, "Backend error: " + INDEX), ("x8664", 72, 1, NO_ARCHITECTURE),
    ("X8664", -1, 6, "Backend error: Invalid target arch: X8664.\n"), ("x86_64", -1, 0, "Backend error: Invalid syscall number: -1.\n"),
    ("AARCH64", 4294967296, 0, "Backend error: Invalid syscall number: 4294967296.\n"),
]

CASES = [
    # The program of a probe has 14 instructions.
    writes("list x86_64", AS_POLICY, "filter 14 a\n.."),
    # `probe` tells of a rest after the lines, and of less than a record alone.
    *[Case(PROBE, 1, LINE, SHORT.format(rest), ALLOWED + ALLOWED[:rest]) for rest in range(1, 64)],
    refuses(PROBE, bytes(63), SHORT.format(63)),
    # `probe` tells the first fault of its words, which comes before that of its reader.
    *[refuses(f"probe {arch} {number} {index} 0", Failing(""), told) for arch, number, index, told in FAULTS],
    # `probe` takes each architecture.
    *[writes(f"probe {name} 4294967295 1 7", record_of(4294967295, word, 0, 7), LINE)
      for name, word in (("x86_64", X86_64), ("AArch64", AARCH64), ("RISCV64", RISCV64))],
    # `probe` writes nothing if reading fails.
    *[refuses(PROBE, Failing(ALLOWED[:length]), UNREAD_RECORDS) for length in (0, 1, 63, 64)],
]
