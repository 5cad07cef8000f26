"""What tools/try-jail runs: policies, commands, and what they have to answer."""

import errno
import json
import os
import signal

KILLED = -signal.SIGSYS


def filter_of(match, mismatch, *entries):
    """Returns a filter with these entries, each a call's name or an entry."""
    entries = [{"syscall": it} if isinstance(it, str) else it for it in entries]
    return {"match_action": match, "mismatch_action": mismatch, "filter": entries}


def when(call, *conditions):
    """Returns the entry of a call with conditions."""
    names = ("index", "type", "op", "val")
    return {"syscall": call, "args": [dict(zip(names, it)) for it in conditions]}


def answer_of(number):
    """Returns what `call` prints of a call that fails with this error number, or returns 0."""
    return f"errno {number}: {os.strerror(number)}\n" if number else "0\n"


def outcome_of(wanted):
    """Returns what comes of `call` if its call fails with this error number or returns 0, or is killed: both outputs and the status."""
    return ("", "", KILLED) if wanted == KILLED else (answer_of(wanted), "", 0)


def denying(*entries):
    """Returns the filter that answers these entries with error number 1000 and allows the rest."""
    return filter_of({"errno": 1000}, "allow", *entries)


WIDE = 4294967298  # 2 to the 32, and 2: its low half is 2.
FIONREAD = 0x541B  # A request of `ioctl` that a pipe answers, by EFAULT if its argument is 0.
TIOCSTI = 0x5412  # A request of `ioctl` that types into a terminal.
CALLS = denying("sched_yield")

# Error numbers of a policy, and what a call returns for them. A program has 16 bits for the number, so a policy's
# higher ones are cut off (SECCOMP_RET_DATA, seccomp(2)). The kernel takes 4095, MAX_ERRNO, for what is above it, and
# answers 0 as a call that went well (__seccomp_filter in kernel/seccomp.c).
LARGE_ERRNOS = {4095: 4095, 4096: 4095, 65535: 4095, 65536: 0, 65537: 1, 65536 + 4096: 4095, 4294901760: 0, 4294967295: 4095}

# The policies of the cases. A text or bytes stand as they are, anything else as JSON.
POLICIES = {
    "actions.json": {
        "errno": filter_of({"errno": 1}, "allow", "sched_yield"), "large errno": CALLS,
        "errno 0": filter_of({"errno": 0}, "allow", "getpid"), "kill_process": filter_of("kill_process", "allow", "sched_yield"),
        "kill_thread": filter_of("kill_thread", "allow", "sched_yield"), "trap": filter_of("trap", "allow", "sched_yield"),
        "trace": filter_of({"trace": 5}, "allow", "sched_yield"), "log": filter_of("log", "allow", "sched_yield"),
        "low half": denying(when("sched_yield", (1, "dword", "eq", 2))),
        "both halves": denying(when("sched_yield", (1, "qword", "eq", WIDE))),
        "two rules": denying(
            when("sched_yield", (0, "dword", "le", 9), (5, "dword", "gt", 4)),
            when("sched_yield", (0, "dword", {"masked_eq": 255}, 16)),
        ),
        "": CALLS,
        "errno 38": filter_of({"errno": 38}, "allow", "sched_yield"),
        **{f"errno {it}": filter_of({"errno": it}, "allow", "getpid", "unlinkat") for it in LARGE_ERRNOS},
        "TIOCSTI of 64 bits": denying(when("ioctl", (1, "qword", "eq", TIOCSTI))),
        "TIOCSTI of 32 bits": denying(when("ioctl", (1, "dword", "eq", TIOCSTI))),
        "request of 64 bits": denying(when("ioctl", (1, "qword", "eq", FIONREAD))),
        "request of 32 bits": denying(when("ioctl", (1, "dword", "eq", FIONREAD))),
        "no execve": filter_of({"errno": 13}, "allow", "execve"), "no write": filter_of("kill_process", "allow", "write"),
        "no prctl": filter_of({"errno": 13}, "allow", "prctl"), "no seccomp": filter_of({"errno": 13}, "allow", "seccomp"),
        "seccomp as if done": filter_of({"errno": 0}, "allow", "seccomp"),
        "no memory to read": filter_of({"errno": 12}, "allow", when("read", (0, "dword", "eq", 0))),
        "nothing logged": filter_of({"errno": 13}, "allow", when("seccomp", (1, "dword", {"masked_eq": 2}, 2))),
    },
    "one.json": {"the only": CALLS}, "--strict": {"the only": CALLS}, "empty": "", "zero": bytes(8), "zeros": bytes(8 * 4096),
    "no-json.json": "{1}", "no-text.json": b'{"\xff": 1}', "list.json": [], "repeated.json": '{"a":{"x":1,"x":1}}', "shape.json": {"a": {}},
    "unknown-call.json": {"a": denying("nosyscall")}, "no-conditions.json": {"a": denying({"syscall": "read", "args": []})},
    "index.json": {"a": denying(when("read", (6, "dword", "eq", 5)))}, "equal-actions.json": {"a": filter_of("log", "log")},
    "too-large.json": {"a": denying(when("read", *[(0, "dword", "eq", 5)] * 5000))},
    "no-filters.json": {},
    "comma.json": {"a,b": CALLS, "a": CALLS},
}


def write_policies(folder, more=()):
    """Writes the policies of the cases, and more, into a folder."""
    for name, content in {**POLICIES, **dict(more)}.items():
        content = content if isinstance(content, (str, bytes)) else json.dumps(content)
        (folder / name).write_bytes(content.encode() if isinstance(content, str) else content)


NO_FILTER = "No filter has this name: "
PARSING = "Error parsing Json: .."
LARGE = "The seccomp filter contains too many BPF instructions: {}. Max length is 4096."

# The policy, the filter, and why the jailer refuses it: the library's text, or an error number.
REFUSED = [
    ("missing.json", "a", 2), (".", "a", 21), ("empty", "a", PARSING), ("no-json.json", "a", PARSING), ("no-text.json", "a", PARSING),
    ("list.json", "a", "the policy: expected an object of filters, found an empty array"),
    ("repeated.json", "a", "Repeated key in Json."),
    ("shape.json", "a", 'a: missing "mismatch_action" or "default_action"'),
    ("unknown-call.json", "a", 'a.filter[0].syscall: unknown system call "nosyscall" on {arch}'),
    ("no-conditions.json", "a", "a.filter[0].args: expected null or at least one condition, found an empty array"),
    ("index.json", "a", "a.filter[0].args[0].index: expected 0 to 5, found 6"),
    ("equal-actions.json", "a", "a: expected two actions that differ, found the same one twice"),
    ("no-filters.json", "a", NO_FILTER + "a."), ("no-filters.json", "", NO_FILTER + "."), ("actions.json", b"\xff", NO_FILTER + "\\xff."),
    ("actions.json", "a\x1b]\u0085", NO_FILTER + "a\\x1b]\\xc2\\x85."),
    # Names are separated by commas, and the command isn't run if one of them is no filter's.
    ("comma.json", "a,b", NO_FILTER + "b."), ("comma.json", "a,", NO_FILTER + "."), ("actions.json", "errno,dog", NO_FILTER + "dog."),
    ("actions.json", "dog,errno", NO_FILTER + "dog."),
    # No filter is installed before the next is compiled: this one would kill the jailer, which writes the line.
    ("actions.json", "no write,dog", NO_FILTER + "dog."),
    ("too-large.json", "a", LARGE),
]

# The words of `call` under a filter of actions.json, what it writes, and its status.
CALLED = [
    ("errno", "sched_yield", "errno 1: Operation not permitted\n", 0),
    ("large errno", "sched_yield", "errno 1000: Unknown error 1000\n", 0),
    ("errno 0", "getpid", "0\n", 0),
    *[(f"errno {it}", "getpid", answer_of(number), 0) for it, number in LARGE_ERRNOS.items()],
    ("kill_process", "sched_yield", "", KILLED), ("kill_thread", "sched_yield", "", KILLED), ("trap", "sched_yield", "", KILLED),
    ("trace", "sched_yield", "errno 38: Function not implemented\n", 0), ("log", "sched_yield", "0\n", 0),
    ("kill_process", "getpgid 4194304", "errno 3: No such process\n", 0),
    ("low half", f"sched_yield 0 {WIDE}", "errno 1000: Unknown error 1000\n", 0),
    ("low half", "sched_yield 0 3", "0\n", 0),
    ("both halves", f"sched_yield 0 {WIDE}", "errno 1000: Unknown error 1000\n", 0),
    ("both halves", "sched_yield 0 2", "0\n", 0),
    ("two rules", "sched_yield 9 0 0 0 0 5", "errno 1000: Unknown error 1000\n", 0),
    ("two rules", "sched_yield 10 0 0 0 0 5", "0\n", 0),
    ("two rules", "sched_yield 0x110", "errno 1000: Unknown error 1000\n", 0),
    ("two rules", "sched_yield 0x111", "0\n", 0),
    # The kernel takes 32 bits for the request, so a condition on 64 is passed by.
    ("request of 64 bits", "ioctl 0 0x541b", "errno 1000: Unknown error 1000\n", 0),
    ("request of 64 bits", "ioctl 0 0x10000541b", "errno 14: Bad address\n", 0),
    ("request of 32 bits", "ioctl 0 0x541b", "errno 1000: Unknown error 1000\n", 0),
    ("request of 32 bits", "ioctl 0 0x10000541b", "errno 1000: Unknown error 1000\n", 0),
    # Of several filters the strictest answer holds, and of error numbers that of the last filter.
    ("errno,errno 38", "sched_yield", "errno 38: Function not implemented\n", 0),
    ("errno 38,errno", "sched_yield", "errno 1: Operation not permitted\n", 0), ("errno,errno 0", "getpid", "0\n", 0),
    ("errno 0,errno", "sched_yield", "errno 1: Operation not permitted\n", 0),
    ("errno,log", "sched_yield", "errno 1: Operation not permitted\n", 0),
    ("errno,trace", "sched_yield", "errno 1: Operation not permitted\n", 0),
    ("errno,trap", "sched_yield", "", KILLED), ("trap,errno", "sched_yield", "", KILLED), ("kill_process,errno", "sched_yield", "", KILLED),
    ("errno,kill_process,log", "sched_yield", "", KILLED),
    ("errno,errno 0,large errno,log", "sched_yield", "errno 1000: Unknown error 1000\n", 0),
    # The empty text is a name too.
    ("errno,", "sched_yield", "errno 1000: Unknown error 1000\n", 0),
    (",errno", "sched_yield", "errno 1: Operation not permitted\n", 0),
    ("errno,no seccomp", "sched_yield", "errno 1: Operation not permitted\n", 0),
    ("nothing logged,errno", "sched_yield", "errno 1: Operation not permitted\n", 0),
    # If a filter answers `seccomp` with 0, the next one isn't installed, and neither jailer notices.
    ("seccomp as if done,errno", "sched_yield", "0\n", 0),
]

# Filters of actions.json under which `unlinkat` is answered with 0, and nothing is done.
FAKED = [f"errno {it}" for it, number in LARGE_ERRNOS.items() if number == 0]

# Filters of actions.json that can't be installed one after the other: the first that isn't, and the call that fails,
# which the jailer in Rust names. With --log the flags of `seccomp` have SECCOMP_FILTER_FLAG_LOG, which is 2.
UNINSTALLED = [
    ([], "no seccomp,errno", "errno", "seccomp"), ([], "errno,no seccomp,errno 0,log", "errno 0", "seccomp"),
    ([], "no prctl,errno", "errno", "prctl"), ([], "no prctl,", "", "prctl"), (["--log"], "nothing logged,errno", "errno", "seccomp"),
]

# Other commands under a filter of actions.json: standard output, and the status.
PASSED = [
    ("errno", ["cat"], "given\n", 0),
    ("errno", ["sh", "-c", "exit 7"], "", 7),
    ("errno", ["sh", "-c", 'printf "%s|" "$@"', "sh", "a b", "", "--tree"], "a b||--tree|", 0),
    ("errno", ["sh", "-c", "kill -TERM $$"], "", -signal.SIGTERM),
    ("large errno", ["sh", "-c", "{call} sched_yield; exec {call} sched_yield"], "errno 1000: Unknown error 1000\n" * 2, 0),
    ("log", ["grep", "-E", "^(NoNewPrivs|Seccomp):", "/proc/self/status"], "NoNewPrivs:\t1\nSeccomp:\t2\n", 0),
]

# Lines for a shell, in which JAIL is a jailer with its layout, and CALL the program `call`; standard output; and what is reported,
# if anything is: what it is about and why, by its text or an errno, and the kernel's call that failed. The exit status is 125
# then, and else 0. The tool in front is what stands for seccomptool beside the jailer.
EXPECTED = "expected 1 to 4096 instructions of 8 bytes, found "
LINES = [
    # The only filter needs no name, and `--` ends the options.
    ("JAIL one.json -- CALL sched_yield", answer_of(1000)),
    ("JAIL one.json 'the only' -- CALL sched_yield", answer_of(1000)),
    ("JAIL --log -- --strict -- CALL sched_yield", answer_of(1000)),
    ("JAIL actions.json -- touch run", "", "actions.json", "It has several filters, so one has to be named."),
    ("JAIL no-filters.json -- touch run", "", "no-filters.json", "It has no filter."),
    ("JAIL list.json -- touch run", "", "list.json", "the policy: expected an object of filters, found an empty array"),
    ("JAIL missing.json -- touch run", "", "missing.json", errno.ENOENT),
    (r"""JAIL "$(printf '\033]\302\205')" -- touch run""", "", r"\x1b]\xc2\x85", errno.ENOENT),
    # Descriptors are kept or closed, and standard streams are there.
    ("JAIL one.json -- sh -c 'cat <&9' 9<list.json", "[]"),
    ("JAIL --close-fds one.json -- sh -c '[ ! -e /proc/$$/fd/9 ] && [ -e /proc/$$/fd/2 ]' 9<list.json", ""),
    ("JAIL one.json -- readlink /proc/self/fd/0 <&-", "/dev/null\n"),
    ("JAIL one.json -- cat list.json <&- >&- 2>&-", ""),
    # What is no program, or none that a kernel takes. The longest has no end.
    ("JAIL --program empty touch run", "", "empty", EXPECTED + "0 bytes"),
    ("JAIL --program list.json touch run", "", "list.json", EXPECTED + "2 bytes"),
    ("JAIL --program /dev/zero touch run", "", "/dev/zero", EXPECTED + "more than 32768 bytes"),
    ("JAIL --program zero touch run", "", "zero: installing the program", errno.EINVAL, "seccomp"),
    ("JAIL --program zeros -- touch run", "", "zeros: installing the program", errno.EINVAL, "seccomp"),
    ("JAIL --program missing.bpf touch run", "", "missing.bpf", errno.ENOENT),
    ("JAIL --program . touch run", "", ".", errno.EISDIR),
    # What stands for seccomptool prints its arguments, and writes what they are.
    ("allows: JAIL --oci --cap C --kernel 1 --strict -- echo run 2>&1", "compile --oci -a ARCH --cap C --kernel 1 -- --strict\nrun\n"),
    ("allows: JAIL --oci --runtime runc p echo run 2>&1", "compile --oci -a ARCH --runtime runc -- p\nrun\n"),
    ("allows: env --default-signal --ignore-signal=CHLD JAIL --oci p -- grep SigIgn /proc/self/status 2>&1",
     "compile --oci -a ARCH -- p\nSigIgn:\t0000000000010000\n"),
    ("allows: JAIL --oci p cat list.json <&- >&- 2>&-", ""),
    ("is killed: JAIL --oci p touch run", "", "seccomptool", "killed by signal 9"),
    ("has no end: JAIL --oci p touch run", "", "p", EXPECTED + "more than 32768 bytes"),
    ("isn't there: JAIL --oci p touch run", "", "seccomptool", errno.ENOENT),
    ("JAIL --version", "NAME VERSION\n"),
    # What can't be written ends with an exit status of the jailer's own.
    ("JAIL --help >/dev/full", "", "standard output", errno.ENOSPC), ("JAIL --version >/dev/full", "", "standard output", errno.ENOSPC),
    ("JAIL --help >/dev/full 2>&1; echo $?", "125\n"), ("JAIL 2>/dev/full; echo $?", "125\n"),
    ("JAIL missing.json a touch run 2>/dev/full; echo $?", "125\n"), ("JAIL one.json -- ./missing 2>/dev/full; echo $?", "127\n"),
    ("JAIL one.json -- ./list.json 2>/dev/full; echo $?", "126\n"),
]
# What stands for seccomptool: lines of a shell. The first of them writes an instruction, which allows all calls.
TOOLS = {
    "allows": r"""echo "$@" >&2; printf '\006\000\000\000\000\000\377\177'""", "is killed": "kill -9 $$",
    "has no end": "cat /dev/zero", "isn't there": None,
}

# Words of seccomptool that read standard input, whose reading is refused for want of memory.
READING = [
    "compile -f a", "compile", "compile --layout linear", "show", "show --layout linear", "show --stats", "check",
    "explain -f log actions.json", "explain -f log actions.json --log -", "learn",
]

# Commands that can't be run: the filter, the command, the status, and the error number.
UNRUN = [
    ("errno", "no-such-command", 127, 2), ("errno", "./no-such-command", 127, 2), ("errno", "", 127, 2), ("errno", "./list.json", 126, 13),
    ("errno", "/", 126, 13), ("no execve", "{call}", 126, 13),
]

# `uretprobe` and `uprobe`, and the releases from which on the kernel asks no filter about them (kernel/seccomp.c).
UNFILTERED = {335: (6, 14), 336: (6, 18)}

# Calls of x86_64 that an entry stops, and the same of x32, whose numbers have one bit more: no entry stops these. A
# kernel without x32 answers with ENOSYS, and one that has it makes the call, which returns 0.
X32_BIT = 0x40000000
X32_CALLS = {"sched_yield": 24, "unshare": 272}
X32_ANSWERS = ["errno 38: Function not implemented\n", "0\n"]

# A call that no table has yet, `open_tree_attr`: an entry can't stop it either. No kernel answers it with 1000.
UNNAMED = 467

# Under examples/cat-policy.json: what gives the same as without a filter, and calls with their answers.
CAT_COMMANDS = [
    "cat numbers", "cat", "head -n 3 numbers", "tail -n 3 numbers", "wc numbers", "sort -r numbers",
    "grep 7 numbers", "cut -c 1 numbers", "uniq numbers", "tr 1 2", "od numbers", "sha256sum numbers",
    "sed s/1/2/ numbers", "ls",
]
CAT_CALLS = [
    ("openat 0 0 0", 14), ("openat 0 0 0x80000", 14), ("openat 0 0 1", 1), ("openat 0 0 2", 1), ("openat 0 0 0100", 1),
    ("openat 0 0 01000", 1), ("mmap 0 4096 7 0x22 -1", 1), ("mmap 0 4096 3 0x22 -1", None), ("mmap 0 4096 5 0x22 -1", None),
    ("mprotect 0 0 7", 1), ("mprotect 0 0 5", None), ("mprotect 0 0 3", None), ("fcntl 99 2", 9), ("fcntl 99 4", 1),
    ("prlimit64 0 99 1", 1), ("socket 2 1", 1), ("clone 17", 1), ("kill 0 0", 1), ("unlink", 1),
    # Numbers without a name, of which no list of what is allowed has one: `sched_yield` of x32, whose other number
    # is allowed, and a newer call.
    (str(X32_BIT + X32_CALLS["sched_yield"]), 1),
    (str(UNNAMED), 1),
]

# Under examples/web-server-policy.json, whose refusal is error number 38.
WEB_CALLS = [
    ("socket 1 1", 38), ("socket 2 2", 38), ("socket 16 3", 38), ("connect 99", 38), ("sendto 99 0 0 0", 9),
    ("sendto 99 0 0 0x20000000", 38), ("sendmsg 99 0 0", 9), ("sendmsg 99 0 0x20000000", 38), ("clone 17", 38), ("clone 0x40010000", 38),
    ("clone3", 38), ("openat 0 0 1", 38), ("openat 0 0 0", 14), ("bind 99", 9), ("kill 0 0", 38),
]

# What that policy doesn't tell apart from TCP: a socket of MPTCP. A kernel without it answers with another number.
WEB_PASSED = "socket 2 1 262"

# Under the filter `deny` of examples/deny-policy.json: what is refused, if the first argument is 0, a flag of a
# namespace or, before a request, standard input; and what isn't.
DENIED = [
    "unshare", "setns", "clone3", "clone 0x00020000", "clone 0x02000000", "clone 0x04000000", "clone 0x08000000",
    "clone 0x10000000", "clone 0x20000000", "clone 0x40000000", "clone 0x7e020011", "clone 0x110000000",
    "mount", "umount2", "pivot_root", "chroot", "move_mount", "open_tree", "mount_setattr",
    "fsopen", "fsconfig", "fsmount", "fspick", "open_by_handle_at",
    "init_module", "finit_module", "delete_module", "kexec_load", "kexec_file_load",
    "bpf", "perf_event_open", "userfaultfd", "io_uring_setup", "io_uring_enter", "io_uring_register",
    "ptrace", "process_vm_readv", "process_vm_writev", "process_madvise", "pidfd_getfd", "kcmp",
    "ioctl 0 0x5412", "ioctl 0 0x100005412", "ioctl 0 0xffffffff00005412", "ioctl 0 0x541c", "ioctl 0 0x10000541c",
    "keyctl", "add_key", "request_key",
]
NOT_DENIED = [("openat 0 0 1", 14), ("socket 99", 97), ("kill 0x7fffffff", 3), ("ioctl 99 0x5413", 9), ("ioctl 99 0x541b", 9)]

# Under both filters of examples/deny-policy.json: a program for Python with a thread and a child.
BUSY = """
import subprocess, threading
thread = threading.Thread(target=print, args=("a thread",))
thread.start()
thread.join()
print(subprocess.run(["echo", "a child"], capture_output=True, text=True).stdout, end="")
"""

# Filters whose programs bubblewrap is given, the first one first; and its options, each of which takes one, with a call
# and the error number that it answers, or None if it is made.
WRAPPED = [denying("sched_yield", "getpgid"), filter_of({"errno": 1001}, "allow", "sched_yield")]
WRAPPED_CALLS = [
    (["--seccomp"], "sched_yield", 1000), (["--seccomp"] * 2, "sched_yield", 1001), (["--seccomp"] * 2, "getpgid", None),
    (["--add-seccomp-fd"] * 2, "sched_yield", 1001), (["--add-seccomp-fd"] * 2, "getpgid", 1000),
]
