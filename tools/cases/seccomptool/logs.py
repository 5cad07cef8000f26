"""What `explain --log` has to do: what is decided of the calls that lines of a log or a trace tell of, and who made them."""

from cases.forms import FOLDER, FULL, INPUT, MISSING, OUTPUT, RESET, TOOL, Case, Command, Failing, rejects

from .compiled_profiles import entry, profile
from .explain import POLICY as OF_ERRNO
from .learn import HOSTILE, HOSTILE_TOLD, filtered
from .programs import ERRNO_1, OF_READ, program, returns

TRAP = 0x00030000  # linux/seccomp.h

# The policy of explain.py, a profile and a program, which answer by `trap` what they don't allow. The last two allow `read`.
POLICY = OF_ERRNO.replace('{"errno": 1}', '"trap"')
TRAPS = OF_READ.replace(program(returns(ERRNO_1)), program(returns(TRAP)))

# Lines of Linux's log about calls of two programs, one of 32-bit x86 and one whose number has no name.
DENIED = (
    filtered(288, "nginx", 7) + filtered(72, "nginx", 8, code="0x7ffc0000") + filtered(5, "old", 9, arch="40000003")
    + filtered(500, "call", 10)
)
ON_DENIED = """nginx[7]: allow: a.filter[0] of accept4 (288)
nginx[8]: trap: no match: a.filter[1].args[0] of fcntl (72) does not hold, the nearest of 3 entries
old[9]: kill_process: another architecture
call[10]: trap: no entry of call 500
"""

# Lines of the audit system, with the first four arguments in hexadecimal digits; without a process, and without both.
AUDITED = """type=SYSCALL msg=audit(1700000000.125:458): arch=c000003e syscall=72 a0=9 a1=2 a2=1 a3=0 items=0 pid=1236 comm="stty"
type=CWD msg=audit(1700000000.125:458): cwd="/"
type=SYSCALL msg=audit(1700000000.126:459): arch=c000003e syscall=3 a0=ffffffffffffffff a1=0 a2=0 a3=0 comm="stty"
type=SYSCALL msg=audit(1700000000.127:460): arch=c000003e syscall=3 a0=2 a1=0 a2=0 a3=0
"""
ON_AUDITED = """stty[1236]: allow: a.filter[1] of fcntl (72)
stty: allow: a.filter[3] of close (3)
allow: a.filter[4] of close (3)
"""

# Lines of strace: an argument that isn't a number is taken as 0.
TRACED = """77 accept4(3, NULL, NULL, SOCK_CLOEXEC) = 4
77 fcntl(9, 0x1) = 0
77 fcntl(9, F_GETFL) = 0
77 --- SIGCHLD {si_signo=SIGCHLD} ---
77 close(0x3) = 0
"""
ON_TRACED = """77: allow: a.filter[0] of accept4 (288)
77: allow: a.filter[2] of fcntl (72)
77: trap: no match: a.filter[1].args[0] of fcntl (72) does not hold, the nearest of 3 entries
77: allow: a.filter[3] of close (3)
"""

ON_AARCH64 = """call[1234]: trap: no match: a.filter[1].args[0] of fcntl (25) does not hold, the nearest of 3 entries
x[1]: kill_process: another architecture
allow: a.filter[3] of close (57)
"""

# The calls of FRONTS of learn.py with their processes, none of which the policy has an entry of.
OF_FRONTS = (
    ("77", "getpid (39)"), ("77", "getppid (110)"), ("", "getuid (102)"), ("", "getgid (104)"), ("77", "geteuid (107)"), ("", "getpgrp (111)"),
    ("78", "read (0)"), ("77", "rt_sigreturn (15)"), ("77", "write (1)"), ("77", "futex (202)"), ("77", "getpid (39)"), ("77", "exit (60)"))

FILES = {
    "denied.log": DENIED, "audited.log": AUDITED, "traced.trace": TRACED, "logged.json": POLICY, "logged.bpf": TRAPS,
    "logged-profile.json": profile(entry("read"), default="SCMP_ACT_TRAP"),
}


EXPLAIN = Command("explain ")
explains, misused = EXPLAIN.same, EXPLAIN.misused

CASES = [
    explains("logged.json --log denied.log", ON_DENIED), explains("logged.json -f a --log=-", ON_DENIED, DENIED),
    explains("--log denied.log -", ON_DENIED, POLICY), explains("logged.json --log audited.log", ON_AUDITED),
    explains("logged.json --log traced.trace", ON_TRACED),
    explains("logged.json --log fronts.trace", "".join(f"{it and it + ': '}trap: no entry of {call}\n" for it, call in OF_FRONTS)),
    explains("logged.json --log -", ""),
    explains("logged.json --log -", ON_TRACED + ON_AUDITED + ON_DENIED, TRACED + AUDITED + DENIED),
    explains("logged.json --log examples/traces/denied.log",
             "call[1234]: trap: no entry of kexec_load (246)\nredis-server[1235]: trap: no entry of clone (56)\n"),
    # The lines are of the architecture's calls; what strace prints is of it too.
    explains("-a aarch64 logged.json --log -", ON_AARCH64, filtered(25, arch="c00000b7") + filtered(72, "x", 1) + "close(3) = 0\n"),
    # By a profile and by a program.
    explains("logged-profile.json --log denied.log", """nginx[7]: trap: defaultAction of accept4 (288)
nginx[8]: trap: defaultAction of fcntl (72)
old[9]: kill_process: another architecture
call[10]: trap: defaultAction of call 500
"""),
    explains("--oci --log - logged-profile.json", "cat[5]: allow: syscalls[0] of read (0)\n", filtered(0, "cat", 5)),
    explains("logged.bpf --log denied.log", """nginx[7]: trap: accept4 (288)
nginx[8]: trap: fcntl (72)
old[9]: trap: another architecture
call[10]: trap: call 500
"""),
    explains("--log traced.trace -", "77: trap: accept4 (288)\n77: trap: fcntl (72)\n77: trap: fcntl (72)\n77: trap: close (3)\n", TRAPS),
    # What isn't understood is noted, and the rest explained.
    Case("explain logs.json --log strange.trace", 0,
         "".join(f"log: no entry of {it}\n" for it in ("getpid (39)", "read (0)", "close (3)", "getuid (102)")),
         f"{TOOL}strange.trace: 3 lines aren't understood, the first is line 2\n"),
    Case("explain logs.json --log -", 0, "log: no entry of getpid (39)\n", INPUT + "1 line isn't understood: line 2\n", "getpid() = 1\nhello\n"),
    # A program's name is printed with its characters that steer a terminal by number.
    explains("logs.json --log -", f"{HOSTILE_TOLD}[5]: log: no entry of read (0)\n", filtered(0, HOSTILE, 5)),
    explains("logs.json --log -", f"x[{HOSTILE_TOLD}]: log: no entry of read (0)\n", filtered(0, "x", HOSTILE)),
    # A name with a blank, a quote, a control character or others than ASCII's is written in hexadecimal digits.
    explains("logs.json --log -", "my app[5]: log: no entry of read (0)\n", filtered(0, "?", 5).replace('"?"', "6D7920617070", 1)),
    explains("logs.json --log -", r'a\x1b"[5]: log: no entry of read (0)' "\n", filtered(0, "?", 5).replace('"?"', "611B22", 1)),
    *[explains("logs.json --log -", f"{name}[5]: log: no entry of read (0)\n", filtered(0, "?", 5).replace('"?"', written, 1))
      for name, written in (("cafe", '"cafe"'), ("CAFE", '"CAFE"'), ("dd", "dd"))],
    # Files and words that are wrong.
    rejects("explain logs.json --log missing.log", "", MISSING, TOOL + "missing.log: "),
    rejects("explain logs.json --log examples", "", FOLDER, TOOL + "examples: "),
    rejects("explain missing.json --log denied.log", "", MISSING, TOOL + "missing.json: "),
    rejects("explain logs.json --log -", Failing(TRACED), RESET),
    rejects("explain -f b logs.json --log denied.log", "", "No filter has this name: b.\n", TOOL + "logs.json: "),
    rejects("explain logs.json --log denied.log > /dev/full", "", FULL, OUTPUT),
    misused("logs.json read --log denied.log", "error: the argument '[CALL]' cannot be used with '--log <FILE>'\n.."),
    misused("logs.json --records 63-bytes --log denied.log", "error: the argument '--records <FILE>' cannot be used with '--log <FILE>'\n.."),
    misused("- --log -"),
    misused("logs.json --log"),
]
