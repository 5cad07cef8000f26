"""What `learn` has to do: the policies of traces, what is kept of arguments, what is noted, and the errors.

The layout of the texts is written by hand, from docs/JSON.md and docs/OCI.md, and what they have from the rules of docs/TOOL.md. The forms of lines are those of
strace 6.1, of Linux's log (kernel/audit.c, kernel/auditsc.c) and of ausearch.
"""

import json
import re
import shlex

from cases.forms import CLOSED, FOLDER, FULL, INPUT, MISSING, OUTPUT, RESET, TOOL, Case, Command, Failing, rejects, writes
from cases.seccompc.commands import FRONTEND
from model import AARCH64, RISCV64, X86_64, record_of
from running import TOP

# A program's calls by strace: arguments are numbers, names, and texts that look like the end of a call.
NAMED = r"""execve("/usr/bin/cat", ["cat", "a, b)"], 0x7ffd0 /* 20 vars */) = 0
brk(NULL)                               = 0x55d0
openat(AT_FDCWD, "a, b)", O_RDONLY)     = 3
fcntl(3, F_GETFL)                       = 0x8000 (flags O_RDONLY|O_LARGEFILE)
socket(AF_INET, SOCK_STREAM, IPPROTO_IP) = 4
connect(4, {sa_family=AF_INET, sin_port=htons(80), sin_addr=inet_addr("127.0.0.1")}, 16) = -1 ECONNREFUSED (Connection refused)
read(3, "\") = 0, \\", 4096)            = 5
openat(AT_FDCWD, "more", O_RDONLY)      = -1 ENOENT (No such file or directory)
close(3)                                = 0
exit_group(0)                           = ?
+++ exited with 0 +++
"""


def beside_empty(entries):
    """Returns a policy of an empty filter `a`, and a filter `b` with these entries."""
    empty = '{"mismatch_action":"trap","match_action":"allow","filter":'
    return f'{{"a":{empty}[]}},"b":{empty}{entries}}}}}'


# Calls whose arguments are numbers: hexadecimal, decimal, with their names, with what a descriptor is, or octal. One argument 1 of
# `fcntl` has a high half, and one of `socket` is written as two flags.
RAW = """77 fcntl(0x3, 0x3, 0)                = 0x8000
77 fcntl(4</tmp/a, b>, 0x2 /* F_SETFD */, 0x1) = 0
77 fcntl(0x3, 0x100000003) = -1 EINVAL (Invalid argument)
77 fcntl(5, 010)                        = -1 EBADF (Bad file descriptor)
77 ioctl(0x1, 0x5401, 0x7ffd0)          = 0
77 prctl(0xf, 0x7ffd0)                  = 0
77 socket(0x2, 0x80801, 0x6)            = 5
77 socket(10, 2, 0)                     = 6
77 socket(0x2, 0x1|0x80000, 0)          = 7
77 close(-1)                            = -1 EBADF (Bad file descriptor)
"""

# Two calls without numbers that are kept, the second twice.
SHORT = "getpid() = 5\nclose(1) = 0\nclose(2) = 0\n"
OTHER = "getuid() = 0\nclose(3) = 0\n"

# What stands in front of a call, and lines that tell of none.
FRONTS = """[pid   77] getpid() = 77
77  1700000000.000001 getppid() = 1
12:00:00.000001 getuid() = 0
[00007f0000001234] getgid() = 0
[pid 77] 12:00:00 [00007f0000001234] geteuid() = 0
[  39] getpgrp() = 1
78 read(0, <unfinished ...>
78 <... read resumed>"", 1) = 0
77 --- SIGCHLD {si_signo=SIGCHLD, si_code=CLD_EXITED, si_pid=78} ---
77 +++ killed by SIGSYS (core dumped) +++
strace: Process 78 attached

77 rt_sigreturn({mask=[]}) = 0
77 write(4<socket:[123]>, "a", 1) = 1\r
77 futex(0x7f00, FUTEX_WAIT_PRIVATE, 0, NULL <unfinished ...>) = ?
77 syscall_0x27(0x1) = 77
77 ???( <unfinished ...>
77 exit(0) = ?"""
IN_FRONTS = ("exit", "futex", "geteuid", "getgid", "getpgrp", "getpid", "getppid", "getuid", "read", "rt_sigreturn", "write")

# A line of Linux's log, with what stands in front of it there, or in front of the same of the audit system.
FILTERED = ('audit(1700000000.123:456): auid=0 uid=0 gid=0 ses=1 subj=unconfined pid={} comm="{}" exe="/usr/bin/{}" sig={} arch={} '
            "syscall={} compat=0 ip=0x7f code={}\n")


def filtered(call, program="call", process=1234, arch="c000003e", code="0x80000000", front="audit: type=1326 "):
    """Returns the line of a call that a filter has answered."""
    return front + FILTERED.format(process, program, program, 31 if code == "0x80000000" else 0, arch, call, code)


# Of Linux's log, by dmesg and by journalctl; of the audit system; by ausearch, with names for numbers.
MADE = 'success=yes exit=0 a0=1 a1=5401 a2=7ffd0 a3=0 items=0 ppid=1 pid=1236 auid=0 uid=0 gid=0 comm="stty" exe="/usr/bin/stty"'
LOGGED = (
    filtered(246) + filtered(272, front="[   12.345678] audit: type=1326 ")
    + filtered(272, front="Nov 14 22:13:20 host kernel: audit: type=1326 ") + filtered(165, front="type=SECCOMP msg=")
    + f"type=SYSCALL msg=audit(1700000000.125:458): arch=c000003e syscall=16 {MADE}\x1dARCH=x86_64 SYSCALL=ioctl\n"
    "type=PROCTITLE msg=audit(1700000000.125:458): proctitle=73747479\n----\ntime->Tue Nov 14 22:13:20 2023\n"
    "type=SYSCALL msg=audit(11/14/2023 22:13:20.125:459) : arch=x86_64 syscall=openat success=no exit=ENOENT(No such file)\n"
)

RECORDS = record_of(72, X86_64, 3, 2, 1) + record_of(0, X86_64, 1, 2, 3) + record_of(72, X86_64, 3, 2**32 + 2, 1)
RECORDS += record_of(16, X86_64, 0, 2**64 - 1)


def entry(call, *conditions):
    """Returns the text of an entry of a call with conditions, each an index, a type and a value."""
    args = ", ".join(f'{{ "index": {index}, "type": "{size}", "op": "eq", "val": {value} }}' for index, size, value in conditions)
    return f'{{ "syscall": "{call}"' + (f', "args": [{args}]' if args else "") + " }"


def filter_of(name, entries, otherwise='"kill_process"', match='"allow"'):
    """Returns the text of a filter in a policy, with the texts of its entries."""
    lines = ",".join(f"\n            {it}" for it in entries)
    return (f'\n    {name}: {{\n        "mismatch_action": {otherwise},\n        "match_action": {match},\n'
            f'        "filter": [{lines}\n        ]\n    }}')


def policy_of(*filters):
    """Returns the text of a policy."""
    return "{" + ",".join(filters) + "\n}\n"


def learned(*entries, name='"main"', otherwise='"kill_process"'):
    """Returns the text of a policy of one filter; an entry may be a call's name."""
    entries = [it if it.startswith("{") else entry(it) for it in entries]
    return policy_of(filter_of(name, entries, otherwise))


def of_dword(call, index, *values):
    """Returns the texts of entries of a call, each with a value of 32 bits of an argument."""
    return [entry(call, (index, "dword", it)) for it in values]


def profile_of(action, arch, names=(), entries=()):
    """Returns the text of a profile with this default action, one entry of these names, and the texts of others."""
    listed = ",".join(f'\n                "{it}"' for it in names)
    named = [f'{{\n            "names": [{listed}\n            ],\n            "action": "SCMP_ACT_ALLOW"\n        }}'] * bool(names)
    lines = ",".join(f"\n        {it}" for it in (*named, *entries))
    head = f'    "defaultAction": {action},\n    "architectures": ["SCMP_ARCH_{arch}"],\n'
    return f'{{\n{head}    "syscalls": [{lines}\n    ]\n}}\n'


def of_profile(call, compared):
    """Returns the text of an entry of a profile that compares these values of arguments in 32 bits, under a mask."""
    args = ", ".join(f'{{ "index": {index}, "value": 4294967295, "valueTwo": {it}, "op": "SCMP_CMP_MASKED_EQ" }}' for index, it in compared)
    return f'{{ "names": ["{call}"], "action": "SCMP_ACT_ALLOW", "args": [{args}] }}'


# The calls of NAMED as a policy; and those of RAW with conditions on 32 bits of an argument, in the order of their values.
OF_NAMED = learned("brk", "close", "connect", "execve", "exit_group", "fcntl", "openat", "read", "socket")
IN_RAW = [
    *(("fcntl", [(1, it)]) for it in (2, 3, 8)), ("ioctl", [(1, 0x5401)]), ("prctl", [(0, 15)]),
    *(("socket", list(enumerate(it))) for it in ((2, 0x80001, 0), (2, 0x80801, 6), (10, 2, 0))),
]
RAW_ENTRIES = [entry(call, *((index, "dword", it) for index, it in compared)) for call, compared in IN_RAW]
OF_RAW = learned("close", *RAW_ENTRIES)
OF_RAW_AS_PROFILE = profile_of('"SCMP_ACT_KILL_PROCESS"', "X86_64", ["close"], [of_profile(*it) for it in IN_RAW])
# The entries of calls after `getpid` in byte order.
OTHERS_OF_RAW = RAW_ENTRIES[3:]

# What records have of `fcntl` and `ioctl`.
OF_FCNTL, OF_IOCTL = of_dword("fcntl", 1, 2)[0], of_dword("ioctl", 1, 2**32 - 1)[0]


def noted(words, output, *notes, place=TOOL, given=""):
    """Returns the case of words that write this output, and note lines of a place."""
    return Case("learn " + words, 0, output, "".join(f"{place}{it}\n" for it in notes), given)


def fails(words, told, place=TOOL, given=""):
    """Returns the case of words that write nothing and tell this line of a place."""
    return Case("learn " + words, 2, "", f"{place}{told}\n" if not told.endswith("\n") else place + told, given)


misused = Command("learn ").misused

# Lines that aren't understood: no call, a line of a log without the call, and a name that no call has the form of. What breaks off
# or isn't UTF-8 behind a name is understood.
STRANGE = b'getpid() = 5\nhello\nread(3, "abc\nclose(\xff) = 0\naudit: type=1326 audit(1:1): arch=c000003e pid=1\nHello(1) = 0\ngetuid() = 0\n'
STRANGE_LINES = [f"strange.trace: line {it}" for it in (
    "2 isn't understood: hello", "5 isn't understood: audit: type=1326 audit(1:1): arch=c000003e pid=1",
    "6 isn't understood: Hello(1) = 0")]
OF_STRANGE = ("close", "getpid", "getuid", "read")
ONE_STRANGE = "getpid() = 5\n" * 11 + "hello\n"
TWELFTH = "line 12 isn't understood: hello"

# More of them than are reported, some of them the same, and one that is too long to be printed.
MANY_STRANGE = "".join(f"hello {it % 7}\n" for it in range(20)) + "getpid() = 5\n" + "A" * 161 + "\n"
LONG_STRANGE = "getpid() = 5\n" + "A" * 160 + "\n" + "B" * 161 + "\n"

# What is no trace.
NO_TRACE = "it has neither lines of strace, of the kernel's log or of the audit system, nor call records"
PICTURE = b"\x89PNG\r\n\x1a\n" + bytes(200)

# Calls that have no names of x86_64, of which five are reported.
MANY_UNNAMED = "".join(f"foo{it % 9}(1) = 0\n" for it in range(18)) + "getpid() = 5\n"

# Calls of other architectures, 32-bit ones of x86 among them.
FOREIGN = filtered(5, arch="40000003") + filtered(63, arch="c00000b7") + SHORT

# What strace 6.1 prints of processes that make 32-bit calls too, as in a file and on a terminal: it says when that changes, and a
# new process goes on as the one before did. Of each how many calls are those of 32-bit programs: `getpid` is only among them.
OF_32_BITS = """\
3615  openat(-100, "a", 0) = 3
3615  [ Process PID=3615 runs in 32 bit mode. ]
3615  fork( <unfinished ...>
3616  getppid()                         = 3615
3616  getpid()                          = 3616
3616  [ Process PID=3616 runs in 64 bit mode. ]
3616  getuid()                          = 0
3615  <... fork resumed>)               = 3616
3616  [ Process PID=3616 runs in 32 bit mode. ]
3616  exit(-973051480)                  = ?
3616  +++ exited with 168 +++
3615  --- SIGCHLD {si_signo=17, si_code=0x1, si_pid=3616, si_uid=0} ---
3615  getpid()                          = 3612
3615  [ Process PID=3615 runs in 64 bit mode. ]
3615  wait4(-1, NULL, 0, NULL)          = 3616
3617  close(3)                          = 0
3615  [ Process PID=3615 runs in x32 mode. ]
3615  getpid()                          = 3615
""", 6
SHOWN_32_BITS = """\
openat(-100, "a", 0)                    = 3
[ Process PID=3603 runs in 32 bit mode. ]
fork()                                  = 3604
[ Process PID=3603 runs in 64 bit mode. ]
clock_nanosleep(0, 0, {tv_sec=0, tv_nsec=100000000}, strace: Process 3604 attached
 <unfinished ...>
[pid  3604] [ Process PID=3604 runs in 32 bit mode. ]
[pid  3604] getpid()                    = 3604
[pid  3604] +++ exited with 24 +++
<... clock_nanosleep resumed>NULL)      = ? ERESTART_RESTARTBLOCK (Interrupted by signal)
wait4(-1, NULL, 0, NULL)                = 3604
[ Process PID=3603 runs in 32 bit mode. ]
getpid()                                = 3603
strace: Process 3605 attached
[pid  3605] getpid()                    = 3605
[pid  3603] [ Process PID=3603 runs in 64 bit mode. ]
[pid  3603] getuid()                    = 0
[pid  3603] +++ exited with 0 +++
getpid()                                = 3605
+++ exited with 0 +++
""", 5

# What x86_64 has no call of, each named once: an unknown name, and numbers that no call has, one of them of x32.
UNNAMED = "foo(1) = 0\n" + filtered(999) + "foo(2) = 0\n" + filtered(1073741824) + "syscall_0x3e7(0x1) = 0\n" + SHORT
NO_SUCH = "x86_64 has no call of these names or numbers: foo, 999, 1073741824, syscall_0x3e7"

# More values than are kept: 17 of `ioctl`, 16 of `fcntl`.
MANY = "".join(f"ioctl(0x1, {it:#x}, 0) = 0\n" for it in range(1, 18)) + "".join(f"fcntl(1, {it}, 0) = 0\n" for it in range(16, 0, -1))
OF_MANY = learned(*of_dword("fcntl", 1, *range(1, 17)), "ioctl")
MORE = "{} is allowed with any arguments, since more than {} different values were seen"

# What a policy of two filters has, which stays; and the same as it is written.
ORIGIN = json.dumps({
    "z\u00e9\n": {"default_action": {"errno": 38}, "filter_action": "allow", "filter": [
        {"syscall": "write", "comment": "left out"}, {"syscall": "getuid"}, {"syscall": "write"},
        {"syscall": "fcntl", "args": [{"index": 1, "type": "dword", "op": "eq", "val": 3}, {"index": 5, "type": "qword", "op": "ge", "val": 1}]}]},
    "a": {"mismatch_action": "allow", "match_action": {"trace": 7}, "filter": [
        {"syscall": "write", "args": [{"index": 0, "type": "qword", "op": {"masked_eq": 3}, "val": 1}, {"index": 1, "type": "qword", "op": "ne", "val": 2}]},
        {"syscall": "accept"}]},
    "m": {"mismatch_action": "trap", "match_action": "log", "filter": []},
})
OF_A = filter_of('"a"', [
    '{ "syscall": "write", "args": [{ "index": 0, "type": "qword", "op": { "masked_eq": 3 }, "val": 1 }, '
    '{ "index": 1, "type": "qword", "op": "ne", "val": 2 }] }', entry("accept")], '"allow"', '{ "trace": 7 }')
OF_M = filter_of('"m"', [], '"trap"', '"log"')
WITH_FCNTL = ('{ "syscall": "fcntl", "args": [{ "index": 1, "type": "dword", "op": "eq", "val": 3 }, '
              '{ "index": 5, "type": "qword", "op": "ge", "val": 1 }] }')
LATER = "getppid() = 1\ngetuid() = 0\nfcntl(1, 0x3) = 0\nfcntl(1, 0x2) = 0\n"
OF_ORIGIN = policy_of(OF_A, OF_M, filter_of(r'"z\u00e9\u000a"', [
    *of_dword("fcntl", 1, 2, 3), WITH_FCNTL, *map(entry, ("getppid", "getuid", "write"))], '{ "errno": 38 }'))
NAME = shlex.quote("z\u00e9\n")

DENIES = '{"a":{"mismatch_action":"allow","match_action":{"errno":1},"filter":[]}}'
LARGE_ERRNO = '{"a":{"mismatch_action":{"errno":4096},"match_action":"allow","filter":[]}}'
ALLOWS = DENIES.replace('{"errno":1}', '"allow"')
NOT_ALLOW = "The filter's match_action isn't allow, so it doesn't list what is allowed."

NOTHING = "--args {} keeps nothing: no such argument of {} was read"
RAW_PRINTS = "; strace -X raw prints numbers"


def paired(*entries, name="main"):
    """Returns the text of a policy of one filter, and of the second."""
    second = filter_of(f'"{name}_clone3"', [entry("clone3")], '"allow"', '{ "errno": 38 }')
    return policy_of(filter_of(f'"{name}"', [entry(it) for it in entries], '"kill_process"'), second)


# A drop-in of systemd.
UNIT = "[Service]\nSystemCallArchitectures=native\nSystemCallFilter=\n"
NO_ERRNO = "systemd takes errno 1 to 4095 for other calls, found {}"
NO_CALL = "it has no call of x86_64"
ANY = "SystemCallFilter= has no conditions, so {} is allowed with any arguments"

NO_ACTION = "error: the value of --otherwise isn't kill_process, kill_thread, log, trap, errno:N or trace:N\n.."
NO_ARGS = "error: the value of --args isn't CALL or CALL:INDEX,.. with indices from 0 to 5\n.."
NO_VALUES = "error: the value of --values isn't a number from 0 to 18446744073709551615, decimal or hexadecimal after 0x\n.."
BOTH = "error: TRACE and POLICY can't both be read from standard input\n.."

# The calls that the C library makes by itself, as docs/LEARNING.md has them.
TABLE = re.search(r"^\| call \| .*?\n\|---.*?\n(.*?)\n\n", (TOP / "docs/LEARNING.md").read_text(encoding="utf-8"), re.M | re.S)[1]
RUNNABLE = sorted({name for row in TABLE.splitlines() for name in re.findall(r"`([a-z0-9_]+)`", row.split("|")[1])})
REQUESTS = {"fcntl": [0, 2, 3], "ioctl": [0x5401, 0x5413]}
OTHERS = {"x86_64": {"riscv_hwprobe"},
          "aarch64": {"access", "arch_prctl", "dup2", "open", "readlink", "riscv_hwprobe", "stat", "time", "vfork"}}


def runnable(arch="x86_64", *more):
    """Returns the entries of what the C library calls by itself, and of more calls."""
    names = sorted({*RUNNABLE, *more} - OTHERS[arch])
    return [it for name in names for it in (of_dword(name, 1, *REQUESTS[name]) if name in REQUESTS and name not in more else [name])]


# A name that steers a terminal, without white space, which ends a word of a log.
HOSTILE = "a\x07\x1b[2J\x7f\u009b\u202e\u200b"
HOSTILE_TOLD = r"a\x07\x1b[2J\x7f\xc2\x9b\xe2\x80\xae\xe2\x80\x8b"

FILES = {
    "named.trace": NAMED, "raw.trace": RAW, "short.trace": SHORT, "other.trace": OTHER, "fronts.trace": FRONTS, "logged.log": LOGGED,
    "strange.trace": STRANGE, "one-strange.trace": ONE_STRANGE, "foreign.trace": FOREIGN, "unnamed.trace": UNNAMED, "many.trace": MANY,
    "later.trace": LATER, "learned.bin": RECORDS, "rest.bin": RECORDS + b"12345", "origin.json": ORIGIN, "denies.json": DENIES, "large-errno.json": LARGE_ERRNO,
    "other-misshapen.json": beside_empty("null"), "other-unknown.json": beside_empty('[{"syscall":"nosyscall"}]'),
    "allows-all.json": ALLOWS, "picture.png": PICTURE, "paired.json": paired("clone3", "getuid", name="a").replace('"errno": 38', '"errno": 1'), "whole.json": learned("close", "fcntl", "getpid", name='"a"'),
}

CASES = [
    # Calls of each form of a trace, in order, each once.
    writes("learn named.trace", "", OF_NAMED), writes("learn", NAMED, OF_NAMED), writes("learn -", NAMED, OF_NAMED),
    writes("learn raw.trace", "", OF_RAW), writes("learn fronts.trace", "", learned(*IN_FRONTS)),
    writes("learn logged.log", "", learned(*of_dword("ioctl", 1, 0x5401), "kexec_load", "mount", "openat", "unshare")),
    writes("learn examples/traces/denied.log", "", learned("clone", "kexec_load")),
    writes("learn learned.bin", "", learned(*of_dword("fcntl", 1, 2), *of_dword("ioctl", 1, 2**32 - 1), "read")),
    writes("learn", RECORDS, learned(*of_dword("fcntl", 1, 2), *of_dword("ioctl", 1, 2**32 - 1), "read")),
    *[noted("", learned(), NO_CALL, place=INPUT, given=it) for it in ("", "\n\n")],
    # A call is allowed with any arguments if they weren't known once.
    writes("learn", "ioctl(1, 0x5401, 0) = 0\nioctl(1, TIOCGWINSZ, {}) = 0\nioctl(1, 0x5402, 0) = 0\n", learned("ioctl")),
    writes("learn", "fcntl(3, 3) = 0\nfcntl(3, 0x3) = 0\nfcntl(4, 03) = 0\n", learned(*of_dword("fcntl", 1, 3))),
    # The names are those of the architecture.
    writes("learn -a aarch64", filtered(63, arch="c00000b7") + "read(0) = 0\n", learned("read")),
    writes("learn -a arm64", record_of(25, AARCH64, 1, 3), learned(*of_dword("fcntl", 1, 3))),
    writes("learn --arch=riscv64", record_of(25, RISCV64, 1, 3), learned(*of_dword("fcntl", 1, 3))),
    noted("-a aarch64", learned("openat"), "aarch64 has no call of these names or numbers: open", place=INPUT,
          given="open(0) = 0\nopenat(0) = 0\n"),
    # Several traces are one.
    writes("learn short.trace other.trace", "", learned("close", "getpid", "getuid")),
    writes("learn other.trace - short.trace", "getppid() = 1\n", learned("close", "getpid", "getppid", "getuid")),
    writes("learn other.trace short.trace short.trace", "", learned("close", "getpid", "getuid")),
    noted("short.trace strange.trace", learned(*OF_STRANGE), *STRANGE_LINES),
    # Each file is lines or records by itself, in any order.
    writes("learn short.trace learned.bin", "", learned("close", OF_FCNTL, "getpid", OF_IOCTL, "read")),
    writes("learn learned.bin short.trace", "", learned("close", OF_FCNTL, "getpid", OF_IOCTL, "read")),
    writes("learn learned.bin - short.trace", "getuid() = 1\n", learned("close", OF_FCNTL, "getpid", "getuid", OF_IOCTL, "read")),
    noted("", learned("getpid"), r"line 2 isn't understood: \x00\x00\x00", place=INPUT, given="getpid() = 1\n\0\0\0\n"),
    fails("picture.png", "picture.png: " + NO_TRACE),
    fails("short.trace picture.png", "picture.png: " + NO_TRACE),
    fails("examples/readme-policy.json", "examples/readme-policy.json: " + NO_TRACE),
    fails("", NO_TRACE, INPUT, "hello\n"),
    fails("--strict -", NO_TRACE, INPUT, b"\0" * 63),
    # The name and the action.
    writes("learn --name a short.trace", "", learned("close", "getpid", name='"a"')),
    writes(f"learn --name {NAME} short.trace", "", learned("close", "getpid", name=r'"z\u00e9\u000a"')),
    writes(f"learn --name='a\"\\' short.trace", "", learned("close", "getpid", name=r'"a\"\\"')),
    writes(f"learn --name {shlex.quote(chr(0x1f600) + chr(0x7f))} short.trace", "", learned("close", "getpid", name=r'"\ud83d\ude00\u007f"')),
    *[writes(f"learn --otherwise {it} short.trace", "", learned("close", "getpid", otherwise=f'"{it}"'))
      for it in ("kill_process", "kill_thread", "trap", "log")],
    *[writes(f"learn --otherwise={kind}:{number} short.trace", "", learned("close", "getpid", otherwise=f'{{ "{kind}": {number} }}'))
      for kind, number in (("errno", 0), ("errno", 1), ("errno", 38), ("trace", 7), ("errno", 65535))],
    # The calls by which programs start and end, beside those that the trace has.
    writes("learn --runnable short.trace", "", learned(*runnable())),
    writes("learn --runnable named.trace", "", learned(*runnable("x86_64", *re.findall(r"^[a-z_]+", NAMED, re.M)))),
    writes("learn --runnable -a aarch64", "close(3) = 0\n", learned(*runnable("aarch64"))),
    # Arguments that are asked for: whole, or 32 bits if the trace has a negative number.
    writes("learn --args close:0 short.trace", "", learned(entry("close", (0, "qword", 1)), entry("close", (0, "qword", 2)), "getpid")),
    writes("learn --args close short.trace", "", learned(entry("close", (0, "qword", 1)), entry("close", (0, "qword", 2)), "getpid")),
    writes("learn --args=3:0 short.trace", "", learned(entry("close", (0, "qword", 1)), entry("close", (0, "qword", 2)), "getpid")),
    # One that keeps nothing is reported: the trace has no such argument, or not as a number.
    noted("--args close:1 short.trace", learned("close", "getpid"), "short.trace: " + NOTHING.format("close", "close")),
    noted("--args getuid short.trace", learned("close", "getpid"), "short.trace: " + NOTHING.format("getuid", "getuid")),
    noted("--args openat:2 --args mmap:2,3", learned("mmap", "openat"), "--args openat:2 doesn't compare O_RDONLY|O_CLOEXEC" + RAW_PRINTS,
          "--args mmap:2 doesn't compare PROT_READ" + RAW_PRINTS, "--args mmap:3 doesn't compare MAP_PRIVATE" + RAW_PRINTS, place=INPUT,
          given='openat(AT_FDCWD, "a", O_RDONLY|O_CLOEXEC) = 3\nmmap(NULL, 1, PROT_READ, MAP_PRIVATE, 3, 0) = 0x7f00\n' * 2),
    noted("--args read:1,2", learned(entry("read", (2, "qword", 4))), '--args read:1 doesn\'t compare "a, b"' + RAW_PRINTS, place=INPUT,
          given='read(0, "a, b", 4) = 4\n'),
    writes("learn --args openat:2", 'openat(-100, "a", 0x80000) = 3\n', learned(entry("openat", (2, "qword", 0x80000)))),
    # What another thread interrupts is read from both lines.
    writes("learn --args read:2", '7 read(0,  <unfinished ...>\n8 getpid() = 8\n7 <... read resumed>"a", 16) = 1\n',
           learned("getpid", entry("read", (2, "qword", 16)))),
    writes("learn --args read:2", '[pid 7] read(0,  <unfinished ...>\n[pid 8] read(0, "", 8) = 0\n[pid 7] <... read resumed>"a", 16) = 1\n',
           learned(entry("read", (2, "qword", 8)), entry("read", (2, "qword", 16)))),
    writes("learn", '8 <... fcntl resumed>) = 1\nfcntl(3, 1) = 0\n', learned("fcntl")),
    writes("learn --args mmap:0", "mmap(0xffffffffffffffff) = 0\n", learned(entry("mmap", (0, "qword", 2**64 - 1)))),
    writes("learn --args close", "close(-1) = -1 EBADF\nclose(1) = 0\n", learned(*of_dword("close", 0, 1, 2**32 - 1))),
    writes("learn --args close", "close(-4294967295) = 0\nclose(0x100000001) = 0\n",
           learned(entry("close", (0, "qword", 2**32 + 1)), entry("close", (0, "qword", 2**64 - 2**32 + 1)))),
    writes("learn --args mmap:2,3 --args ioctl:2", "mmap(NULL, 4096, 0x1, 0x2, 3, 0) = 0x7f\nmmap(0, 1, 0x1, 0x2, 4, 0) = 0\nioctl(7, 0x5401, 8) = 0\n",
           learned(entry("ioctl", (1, "dword", 0x5401), (2, "qword", 8)), entry("mmap", (2, "qword", 1), (3, "qword", 2)))),
    writes("learn --args read:0,5", record_of(0, X86_64, 1, 2, 3, 4, 5, 6), learned(entry("read", (0, "qword", 1), (5, "qword", 6)))),
    noted("--args getpid:5", learned("getpid"), NOTHING.format("getpid", "getpid"), place=INPUT, given="getpid() = 1\n"),
    # Values up to as many as are kept, of all kept arguments of a call together.
    noted("many.trace", OF_MANY, "many.trace: " + MORE.format("ioctl", 16)),
    noted("--values 0x10 many.trace", OF_MANY, "many.trace: " + MORE.format("ioctl", 16)),
    writes("learn --values 17 many.trace", "", learned(*of_dword("fcntl", 1, *range(1, 17)), *of_dword("ioctl", 1, *range(1, 18)))),
    noted("--values=2", learned("fcntl", "prctl"), *(MORE.format(it, 2) for it in ("fcntl", "prctl")), place=INPUT,
          given="".join(f"fcntl(1, {it}) = 0\n" for it in range(3)) + "".join(f"prctl({it}) = 0\n" for it in range(3))),
    Case("learn --values 0 raw.trace", 0, learned("close", "fcntl", "ioctl", "prctl", "socket"), "..", ""),
    noted("--values 2", learned("socket"), MORE.format("socket", 2), place=INPUT,
          given="socket(1, 1, 0) = 3\nsocket(1, 1, 0) = 4\nsocket(1, 2, 0) = 4\nsocket(1, 1, 1) = 5\n"),
    writes("learn --values 2", "socket(1, 1, 0) = 3\nsocket(1, 1, 0) = 4\nsocket(1, 2, 0) = 4\n", learned(
        *[entry("socket", (0, "dword", 1), (1, "dword", it), (2, "dword", 0)) for it in (1, 2)])),
    noted("--values 2 --args close", learned("close"), MORE.format("close", 2), place=INPUT,
          given="".join(f"close({it}) = 0\n" for it in range(3))),
    # What isn't understood is noted, and with --strict nothing is written.
    noted("strange.trace", learned(*OF_STRANGE), *STRANGE_LINES),
    noted("one-strange.trace", learned("getpid"), "one-strange.trace: " + TWELFTH),
    noted("", learned("getpid"), TWELFTH, place=INPUT, given=ONE_STRANGE),
    noted("", learned("getpid"), *[f"line {it + 1} isn't understood: hello {it}" for it in range(5)], "16 more lines aren't understood",
          place=INPUT, given=MANY_STRANGE),
    noted("", learned("getpid"), "line 2 isn't understood: " + "A" * 160, "line 3 isn't understood: " + "B" * 160 + "..",
          place=INPUT, given=LONG_STRANGE),
    noted("rest.bin", learned(*of_dword("fcntl", 1, 2), *of_dword("ioctl", 1, 2**32 - 1), "read"), "rest.bin: 5 bytes follow the last record"),
    fails("--strict strange.trace", STRANGE_LINES[0]), fails("--strict -", TWELFTH, INPUT, ONE_STRANGE),
    fails("--strict rest.bin", "rest.bin: 5 bytes follow the last record"), fails("--strict short.trace strange.trace", STRANGE_LINES[0]),
    writes("learn --strict raw.trace", "", OF_RAW),
    # Calls of other architectures, and such as the architecture hasn't.
    noted("foreign.trace", learned("close", "getpid"), "foreign.trace: 2 calls are of other architectures"),
    noted("examples/records.bin", learned(*of_dword("fcntl", 1, 2, 3), "fstat"), "examples/records.bin: 1 call is of another architecture"),
    noted("--strict unnamed.trace", learned("close", "getpid"), "unnamed.trace: " + NO_SUCH),
    noted("", learned("getpid"), "x86_64 has no call of these names or numbers: " + HOSTILE_TOLD, place=INPUT,
          given=filtered(HOSTILE) + "getpid() = 1\n"),
    noted("", learned("getpid"), f"x86_64 has no call of these names or numbers: {', '.join(f'foo{it}' for it in range(5))}, and 8 calls of others",
          place=INPUT, given=MANY_UNNAMED),
    noted("", learned("close", "getuid", "openat", "wait4"), f"{OF_32_BITS[1]} calls are of other architectures", place=INPUT, given=OF_32_BITS[0]),
    noted("--strict", learned("clock_nanosleep", "getuid", "openat", "wait4"), f"{SHOWN_32_BITS[1]} calls are of other architectures",
          place=INPUT, given=SHOWN_32_BITS[0]),
    noted("-", learned("close", "getpid"), "1 call is of another architecture", place=INPUT,
          given=SHORT + "[ Process PID=7 runs in 32 bit mode. ]\nopen(0, 0) = 3\n"),
    # Traces without a call.
    noted("empty", learned(), "empty: " + NO_CALL),
    noted("--strict short.trace -", learned("close", "getpid"), NO_CALL, place=INPUT, given="+++ exited with 0 +++\n"),
    noted("-a aarch64", learned(), "aarch64 has no call of these names or numbers: open", "it has no call of aarch64", place=INPUT, given="open(0) = 3\n"),
    # Notes in their order.
    noted("--values 0x2", learned("close", "getpid", "ioctl"), "line 1 isn't understood: hello", "2 calls are of other architectures",
          NO_SUCH, MORE.format("ioctl", 2), place=INPUT,
          given="hello\nioctl(1, 1) = 0\nioctl(1, 2) = 0\n" + FOREIGN + UNNAMED + "ioctl(1, 3) = 0\n"),
    # Into a filter of a policy, whose other filters stay: its entries, each once, but those that another one covers.
    writes(f"learn --into origin.json --name {NAME} later.trace", "", OF_ORIGIN),
    writes(f"learn --name={NAME} --into=- later.trace", ORIGIN, OF_ORIGIN),
    writes(f"learn --into origin.json --name {NAME}", LATER, OF_ORIGIN),
    writes("learn --into whole.json raw.trace", "", learned("close", "fcntl", "getpid", *OTHERS_OF_RAW, name='"a"')),
    noted("--into whole.json -", learned("close", "fcntl", "getpid", name='"a"'), NO_CALL, place=INPUT),
    noted("--into whole.json --name a --runnable empty", learned(*runnable("x86_64", "fcntl"), name='"a"'), "empty: " + NO_CALL),
    # It is the same again, and in either order.
    Case(f"learn --into origin.json --name {NAME} later.trace | ./seccomptool learn --into - --name {NAME} later.trace", 0, OF_ORIGIN, ""),
    Case("learn raw.trace | ./seccomptool learn --into - raw.trace", 0, OF_RAW, ""),
    Case("learn short.trace | ./seccomptool learn --into - other.trace", 0, learned("close", "getpid", "getuid"), ""),
    Case("learn other.trace | ./seccomptool learn --into - short.trace", 0, learned("close", "getpid", "getuid"), ""),
    # A policy that is learned is one for other commands, and permits what the trace has and the old policy permits, and no more.
    Case("learn raw.trace | ./seccomptool explain - fcntl 9 3 1", 0, "allow: main.filter[2] of fcntl (72)\n", ""),
    Case("learn raw.trace | ./seccomptool explain - fcntl 9 4", 0,
         "kill_process: no match: main.filter[1].args[0] of fcntl (72) does not hold, the nearest of 3 entries\n", ""),
    Case("learn --otherwise trap raw.trace | ./seccomptool explain - clone", 0, "trap: no entry of clone (56)\n", ""),
    Case("learn --runnable raw.trace | ./seccomptool check --deny-warnings", 0, "", ""),
    Case("learn --name a short.trace | ./seccomptool diff -q whole.json -", 1,
         "filter a: different\n  fcntl: allow -> kill_process, less: fcntl(0x0, 0x0, 0x0, 0x0, 0x0, 0x0)\n", ""),
    Case("learn --into whole.json other.trace | ./seccomptool diff -q whole.json -", 1,
         "filter a: different\n  getuid: kill_process -> allow, more: getuid(0x0, 0x0, 0x0, 0x0, 0x0, 0x0)\n", ""),
    Case("learn --into whole.json short.trace | ./seccomptool diff -q whole.json -", 0, "filter a: same\n", ""),
    # With a second filter, which answers `clone3` so that `clone` is called in its place.
    writes("learn --old-clone short.trace", "", paired("clone", "clone3", "close", "getpid")),
    writes("learn --old-clone --name a -", "clone3({flags=CLONE_VM}, 88) = 5\n", paired("clone", "clone3", name="a")),
    writes("learn --old-clone --into paired.json --name a short.trace", "", paired("clone", "clone3", "close", "getpid", "getuid", name="a")),
    Case("learn --old-clone short.trace | ./seccomptool explain -f main_clone3 - clone3", 0, "errno 38 (ENOSYS): main_clone3.filter[0] of clone3 (435)\n", ""),
    Case("learn --old-clone short.trace | ./seccomptool explain -f main - clone3", 0, "allow: main.filter[1] of clone3 (435)\n", ""),
    Case("learn --runnable --old-clone short.trace | ./seccomptool check --deny-warnings", 0, "", ""),
    # As a drop-in of systemd, which holds names alone.
    writes("learn --unit short.trace", "", UNIT + "SystemCallFilter=close getpid\n"),
    noted("--unit", UNIT, NO_CALL, place=INPUT),
    writes("learn --unit --otherwise errno:1 short.trace", "", UNIT + "SystemCallFilter=close getpid\nSystemCallErrorNumber=EPERM\n"),
    writes("learn --unit --otherwise errno:4000 short.trace", "", UNIT + "SystemCallFilter=close getpid\nSystemCallErrorNumber=4000\n"),
    writes("learn --unit --otherwise errno:4095 short.trace", "", UNIT + "SystemCallFilter=close getpid\nSystemCallErrorNumber=4095\n"),
    *[fails(f"--unit --otherwise errno:{it} short.trace", NO_ERRNO.format(it)) for it in (0, 4096, 9999, 65535)],
    fails("--unit --into large-errno.json short.trace", "large-errno.json: " + NO_ERRNO.format(4096)),
    *[noted(f"--unit --otherwise {it} short.trace", UNIT + "SystemCallFilter=close getpid\n",
            f"short.trace: systemd has no {it.partition(':')[0]} for other calls, so they kill")
      for it in ("log", "trap", "kill_thread", "trace:7")],
    noted("--unit raw.trace", UNIT + "SystemCallFilter=close fcntl ioctl prctl socket\n",
          *["raw.trace: " + ANY.format(it) for it in ("fcntl", "ioctl", "prctl", "socket")]),
    # As a profile, which decides the same.
    writes("learn --profile raw.trace", "", OF_RAW_AS_PROFILE),
    noted("--profile", profile_of('"SCMP_ACT_KILL_PROCESS"', "X86_64"), NO_CALL, place=INPUT),
    writes("learn --profile --otherwise errno:38 -a aarch64", "fcntl(1, 1) = 0\n", profile_of(
        '"SCMP_ACT_ERRNO",\n    "defaultErrnoRet": 38', "AARCH64", entries=[of_profile("fcntl", [(1, 1)])])),
    writes("learn --profile --otherwise trace:7 -a riscv64 --args close", "close(5) = 0\nread(0) = 0\ngetpid() = 1\n", profile_of(
        '"SCMP_ACT_TRACE",\n    "defaultErrnoRet": 7', "RISCV64", ["getpid", "read"],
        ['{ "names": ["close"], "action": "SCMP_ACT_ALLOW", "args": [{ "index": 0, "value": 5, "op": "SCMP_CMP_EQ" }] }'])),
    *[Case(f"learn --profile --otherwise {it} short.trace | ./seccomptool explain --oci - read", 0, f"{it}: defaultAction of read (0)\n", "")
      for it in ("kill_process", "kill_thread", "trap", "log")],
    Case("learn --profile raw.trace | ./seccomptool explain - fcntl 9 3", 0, "allow: syscalls[2] of fcntl (72)\n", ""),
    Case("learn --profile raw.trace | ./seccomptool explain - fcntl 9 0x100000003", 0, "allow: syscalls[2] of fcntl (72)\n", ""),
    Case("learn --profile raw.trace | ./seccomptool explain - socket 2 524289 0", 0, "allow: syscalls[6] of socket (41)\n", ""),
    Case("learn --profile raw.trace | ./seccomptool explain - socket 2 526337 5", 0,
         "kill_process: no match: syscalls[7].args[2] of socket (41) does not hold, the nearest of 3 entries\n", ""),
    # Into a file, which is replaced whole or not at all.
    Case("learn -o learned.json raw.trace && cat learned.json; rm learned.json", 0, OF_RAW, ""),
    Case("learn --output=- short.trace", 0, learned("close", "getpid"), ""),
    Case("learn --strict strange.trace -o older.json; status=$?; ls older.json 2> /dev/null; (exit $status)", 2, "",
         TOOL + STRANGE_LINES[0] + "\n"),
    # Files and streams that fail.
    fails("missing.trace", "missing.trace: " + MISSING), fails("short.trace missing.trace", "missing.trace: " + MISSING),
    fails("examples", "examples: " + FOLDER), fails("short.trace --into missing.json", "missing.json: " + MISSING),
    fails("short.trace --into examples", "examples: " + FOLDER), rejects("learn", Failing(SHORT), RESET),
    rejects("learn --into - short.trace", Failing(ORIGIN), RESET), rejects("learn short.trace > /dev/full", "", FULL, OUTPUT),
    rejects("learn short.trace >&-", "", CLOSED, OUTPUT), fails(shlex.quote(HOSTILE), f"{HOSTILE_TOLD}: {MISSING}"),
    # What is wrong with a policy that is added to.
    Case("learn --into no-json.json short.trace", 2, "", f"{TOOL}no-json.json: {FRONTEND}Error parsing Json: .."),
    fails("--into list.json short.trace", "list.json: the policy: expected an object of filters, found an empty array"),
    fails("--into no-filter.json short.trace", 'no-filter.json: a: missing "mismatch_action" or "default_action" (2 more errors; seccomptool check prints them)'),
    fails("--into unknown-call.json short.trace", 'unknown-call.json: a.filter[0].syscall: unknown system call "nosyscall" on x86_64'),
    fails("--into allows-all.json short.trace", "allows-all.json: a: expected two actions that differ, found the same one twice"),
    # Of a filter that isn't added to, only the shape matters.
    fails("--into other-misshapen.json --name a short.trace", "other-misshapen.json: b.filter: expected an array of entries, found null"),
    Case("learn --into other-unknown.json --name a short.trace | ./seccomptool check -", 1, "", f'{TOOL}standard input: b.filter[0].syscall: unknown system call "nosyscall" on x86_64\n'),
    fails("--into denies.json short.trace", "denies.json: " + NOT_ALLOW),
    fails("--into origin.json --name m short.trace", "origin.json: " + NOT_ALLOW),
    fails("--into logs.json --name b short.trace", "logs.json: No filter has this name: b."),
    fails("--into filters-b-a.json short.trace", "filters-b-a.json: Name one of its filters: a, b."),
    fails("--into none.json short.trace", "none.json: The policy has no filters."),
    fails(f"--into logs.json --name {shlex.quote(HOSTILE)} short.trace", f"logs.json: No filter has this name: {HOSTILE_TOLD}."),
    # Words that are no command.
    misused("--otherwise log --into logs.json short.trace", "error: the argument '--otherwise <ACTION>' cannot be used with '--into <POLICY>'\n.."),
    misused("--profile --into logs.json short.trace", "error: the argument '--profile' cannot be used with '--into <POLICY>'\n.."),
    misused("--profile --unit short.trace", "error: .."), misused("--unit --json short.trace", "error: .."),
    misused("--old-clone --profile short.trace", "error: .."), misused("--old-clone --unit short.trace", "error: .."),
    misused("--profile --name a short.trace", "error: the argument '--profile' cannot be used with '--name <NAME>'\n.."),
    *[misused(f"--otherwise={it} short.trace", NO_ACTION) for it in (
        "allow", "deny", "errno", "errno:", "errno:a", "errno:-1", "errno:65536", "trace", "log:1", "Log", "errno 1", "1", "''")],
    *[misused(f"--args={it} short.trace", NO_ARGS) for it in (
        "close:6", "close:", "close:a", "close:1,", "close:,1", "close:1,,2", "close:-1", "close:256", "close:0,6")],
    *[misused(f"--values={it} short.trace", NO_VALUES) for it in ("", "-1", "ten", "18446744073709551616", "0x", "1.0")],
    misused("--into -", BOTH), misused("--into - -", BOTH), misused("--into - short.trace -", BOTH),
    misused("--into logs.json --into logs.json short.trace"), misused("-f a short.trace", "error: unexpected argument '-f' found\n.."),
    misused("-a x32 short.trace", "error: invalid value 'x32' for '--arch <ARCH>'\n.."),
    misused("--runnable=yes short.trace"),
    misused("-o"),
    rejects("learn --args nocall short.trace", "", "No call of x86_64 has this name or number: nocall.\n", TOOL),
    rejects("learn --args open:1 -a riscv64 short.trace", "", "No call of riscv64 has this name or number: open.\n", TOOL),
    rejects(f"learn --args {shlex.quote(HOSTILE)} short.trace", "", f"No call of x86_64 has this name or number: {HOSTILE_TOLD}.\n", TOOL),
]

TRACES = TOP / "examples/traces"

# A call of the examples' traces, and of those whose arguments are kept by default what they are asked for, as a number or not.
FRONT = r"^(?:\[pid +\d+\] |\d+ +)?(?:[\d.:]+ )?"
CALL = re.compile(FRONT + r"([a-z][a-z0-9_]*)\(", re.M)
ASKED = re.compile(FRONT + r"(?:(fcntl|ioctl)\([^,]+, |(prctl)\()(0x[0-9a-f]+|\d+)?", re.M)


def compare_traces(results, run):
    """Asks the program, by a function that runs it with a text, for policies of the examples' traces: they have the calls of these and
    what `fcntl`, `ioctl` and `prctl` are asked for, and allow each line."""
    for path in sorted(TRACES.glob("*.trace")):
        text, words = path.read_text(encoding="utf-8"), f"learn --strict examples/traces/{path.name}"
        status, output, errors = run(words, "")
        entries = json.loads(output)["main"]["filter"] if status == 0 else []
        results.compare(words, (0, "", sorted(set(CALL.findall(text)))), (status, errors, sorted({it["syscall"] for it in entries})))
        asked = {(first or second, value and int(value, 0)) for first, second, value in ASKED.findall(text)}
        named = {call for call, value in asked if value == ""}
        asked = {(call, "" if call in named else value) for call, value in asked}
        kept = {(it["syscall"], it["args"][0]["val"] if "args" in it else "")
                for it in entries if it["syscall"] in ("fcntl", "ioctl", "prctl")}
        results.compare(f"{words}: what calls are asked for", (asked,), (kept,))
        words = f"explain - --log examples/traces/{path.name}"
        status, lines, errors = run(words, output)
        decided = [re.match(r"(?:\d+: )?([^:]*)", line)[1] for line in lines.splitlines()]
        results.compare(f"{words} of its own policy", (0, "", ["allow"] * len(CALL.findall(text))), (status, errors, decided))
