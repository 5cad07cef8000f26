"""What `compile` has to do with profiles: what it reads of them, the names that are left out, the flags, and what is rejected.

The texts are written by hand, from the OCI runtime specification and the layout that docs/OCI.md shows. A program is asked what
it returns for one call. What profiles decide of more calls is in profiles.py, and what is reported of a value that is no
profile in profile_faults.py.
"""

import json
import re

from cases.forms import (
    CLOSED, FOLDER, FULL, INPUT, MISSING, OUTPUT, RESET, TOOL, Case, Failing, fails_to_read_and_write, named, rejects, writes
)
from model import called

PARSING = "Error parsing Json: .."
FLAGS = "flags to set when the program is installed"


def profile(*entries, default="SCMP_ACT_ERRNO", **more):
    """Returns a profile with these entries, an object that may have further keys."""
    return {"defaultAction": default, "syscalls": list(entries), **more}


def entry(names, action="SCMP_ACT_ALLOW", **more):
    """Returns an entry of these calls, an object that may have further keys."""
    return {"names": names.split(), "action": action, **more}


def configured(given):
    """Returns the configuration of a container with this profile."""
    return {"ociVersion": "1.2.0", "process": {"args": ["sh"], "capabilities": {"bounding": ["CAP_KILL"]}}, "root": {"path": "rootfs"},
            "linux": {"namespaces": [{"type": "mount"}], "seccomp": given}}


def when(index, operator, value, *two):
    """Returns a condition, with `valueTwo` if that is given."""
    return {"index": index, "value": value, "op": f"SCMP_CMP_{operator}", **{"valueTwo": it for it in two}}


def compiles(words, given, *decided, told=""):
    """Returns the cases of a profile whose program returns these actions for calls, such as `("read 5", "allow")`."""
    given_arch = re.search(r"(?:-a |--arch[ =])(\w+)", words)
    arch = given_arch[1] if given_arch else "x86_64"
    return [
        Case(f"{f'compile {words}'.strip()} | ./seccomptool explain -a {arch} - {call}", 0, f"{named(action)}: {called(call.split()[0], arch)}\n", told,
             given if isinstance(given, str) else json.dumps(given))
        for call, action in decided
    ]


def counted(number, arch="x86_64"):
    """Returns what is told of so many names that are left out."""
    return f"{number} {'name' if number == 1 else 'names'} that {arch} has no call for {'is' if number == 1 else 'are'} left out"


def of_32_bits(listed, others):
    """Returns the line of what becomes of the calls of 32-bit programs, whose architectures these are."""
    return f"{INPUT}calls of 32-bit programs ({', '.join(listed)}) are {others}\n"


def left_out(words, given, names, *decided, arch="x86_64"):
    """Returns the cases of a profile of which these names are left out: by number, and by name with `-v`."""
    told = INPUT + counted(len(names), arch)
    return [*compiles(words, given, *decided, told=f"{told}\n"),
            *[case for option in ("-v", "--verbose")
              for case in compiles(f"{words} {option}".strip(), given, *decided[:1], told=f"{told}: {', '.join(names)}\n")]]


def flagged(words, given, told, *decided):
    """Returns the cases of a profile whose flags are told so."""
    return compiles(words, given, *decided, told=f"{INPUT}{FLAGS} {told}\n")


# A whole text, with each part of a profile, and what it decides.
WHOLE = """{"defaultAction": "SCMP_ACT_ERRNO", "defaultErrnoRet": 38, "architectures": ["SCMP_ARCH_X86_64", "SCMP_ARCH_X86"],
    "archMap": [{"architecture": "SCMP_ARCH_X86_64", "subArchitectures": ["SCMP_ARCH_X86"]}],
    "flags": ["SECCOMP_FILTER_FLAG_TSYNC", "SECCOMP_FILTER_FLAG_LOG", "SECCOMP_FILTER_FLAG_SPEC_ALLOW"],
    "syscalls": [
    {"names": ["write", "read"], "action": "SCMP_ACT_ALLOW", "args": [], "includes": {}, "excludes": {}, "comment": "both"},
    {"names": ["socket"], "action": "SCMP_ACT_KILL_PROCESS", "args": [
        {"index": 0, "value": 16, "op": "SCMP_CMP_EQ"}, {"index": 2, "value": 9, "valueTwo": 1, "op": "SCMP_CMP_NE"}]},
    {"name": "clone", "action": "SCMP_ACT_LOG", "args": [
        {"index": 0, "value": 2114060288, "valueTwo": 0, "op": "SCMP_CMP_MASKED_EQ"}]}]}"""
OF_WHOLE = [
    ("write", "allow"), ("read", "allow"), ("socket 16 0 8", "kill_process"), ("socket 16 0 9", "errno 38"), ("clone 0x7e020001", "errno 38"),
    ("clone 0x11", "log"), ("open", "errno 38"),
]

# The lines of the architecture that it lists besides, and of its flags.
OF_FLAGS = (of_32_bits(["SCMP_ARCH_X86"], "killed") + INPUT + "flags to set when the program is installed (3): "
            "SECCOMP_FILTER_FLAG_TSYNC, SECCOMP_FILTER_FLAG_LOG, SECCOMP_FILTER_FLAG_SPEC_ALLOW\n")

# What is told of a program that asks a supervisor.
ASKS = INPUT + "calls that a supervisor decides fail with errno 38 (ENOSYS), unless one listens\n"

# Each action of a profile, with its number if it has one, and that of the program.
ACTIONS = [
    ("SCMP_ACT_ERRNO", None, "errno 1"), ("SCMP_ACT_ERRNO", 0, "errno 0"), ("SCMP_ACT_ERRNO", 65535, "errno 65535"),
    ("SCMP_ACT_TRACE", None, "trace 1"), ("SCMP_ACT_TRACE", 7, "trace 7"), ("SCMP_ACT_KILL", None, "kill_thread"),
    ("SCMP_ACT_KILL_THREAD", None, "kill_thread"), ("SCMP_ACT_KILL_PROCESS", None, "kill_process"), ("SCMP_ACT_LOG", None, "log"),
    ("SCMP_ACT_TRAP", None, "trap"),
]

# Each operator of a profile but that with a mask, and values that meet it beside 5, and that don't.
OPERATORS = {"NE": (4, 5), "LT": (4, 5), "LE": (5, 6), "EQ": (5, 4), "GE": (5, 4), "GT": (6, 5)}
GREATEST = 2**64 - 1

# What an entry includes or excludes, beside it the words of containers for which it applies, and of others.
SYS_ADMIN, BOTH = "--cap CAP_SYS_ADMIN", "--cap CAP_CHOWN --cap=CAP_SYS_ADMIN"
TWO_CAPS = ["CAP_SYS_ADMIN", "CAP_CHOWN"]
FROM, BEFORE = ("", "--kernel 4.8", "--kernel 4.19", "--kernel=5.0"), ("--kernel 4.7", "--kernel 3.99", "--kernel 0.0")
CRITERIA = [
    ({"includes": {"caps": ["CAP_SYS_ADMIN"]}},
     (SYS_ADMIN, BOTH, *(f"--cap {it}" for it in ("cap_sys_admin", "SYS_ADMIN", "Sys_Admin", "CAP_CHOWN,CAP_SYS_ADMIN", "sys_admin,chown"))),
     ("", "--cap CAP_CHOWN", "--cap chown,SYS_CHROOT")),
    ({"includes": {"caps": TWO_CAPS}}, (BOTH, "--cap sys_admin,chown", "--cap chown --cap SYS_ADMIN,KILL"), ("", SYS_ADMIN, "--cap CAP_CHOWN")),
    ({"excludes": {"caps": ["CAP_SYS_ADMIN"]}}, ("", "--cap CAP_CHOWN"), (SYS_ADMIN, BOTH, "--cap SYS_ADMIN")),
    ({"excludes": {"caps": TWO_CAPS}}, ("", "--cap CAP_KILL"), (SYS_ADMIN, "--cap CAP_CHOWN", BOTH)),
    ({"includes": {"arches": ["amd64", "s390x"]}}, ("", "-a amd64"), ("-a arm64", "-a riscv64")),
    ({"includes": {"arches": ["arm64", "x86_64", "AMD64"]}}, ("-a aarch64",), ("", "--arch riscv64")),
    ({"excludes": {"arches": ["riscv64", "arm"]}}, ("", "-a arm64"), ("-a riscv64",)),
    ({"includes": {"minKernel": "4.8"}}, FROM, BEFORE),
    ({"excludes": {"minKernel": "4.8"}}, BEFORE, FROM),
    ({"includes": {"minKernel": "4294967295.0"}}, ("", "--kernel 4294967295.0"), ("--kernel 4294967294.9",)),
    ({"includes": {"minKernel": "3.0"}, "excludes": {"minKernel": "4.8"}}, ("--kernel 3.0", "--kernel 4.7"),
     ("", "--kernel 2.6", "--kernel 4.8")),
    ({"includes": {"caps": ["CAP_SYS_ADMIN"], "minKernel": "4.8"}, "excludes": {"arches": ["arm64"], "caps": ["CAP_KILL"]}},
     (SYS_ADMIN, f"{SYS_ADMIN} --kernel 4.8"),
     ("", f"{SYS_ADMIN} -a arm64", f"{SYS_ADMIN} --cap CAP_KILL", f"{SYS_ADMIN} --kernel 4.7", "--cap CAP_KILL")),
    ({"includes": {"caps": ["CAP_SYS_ADMIN"]}, "excludes": {"caps": ["CAP_SYS_ADMIN"]}}, (), ("", SYS_ADMIN)),
    ({"includes": {}, "excludes": {"caps": None, "arches": None, "minKernel": None}}, ("", SYS_ADMIN, "--kernel 0.0"), ()),
    ({"includes": {"caps": [], "arches": []}, "excludes": {"caps": [], "arches": []}}, ("", "-a riscv64"), ()),
]

# Of each condition with such a mask, of high halves, there is a load, a mask and a test. So many are the most that fit: the program of
# the first one
# has 4095 instructions, 27 of them copies of returns that would be too far away, and that of the second one would have 4098.
FITTING, LARGE = ([when(0, "MASKED_EQ", 3 << 32)] * number for number in (1356, 1357))
TOO_LONG = "The profile's program needs more than 4096 instructions.\n"

FILES = {
    "reads-profile.json": profile(entry("read")),
    "unknown-profile.json": profile(entry("mmap2 read waitpid")),
    "log-profile.json": profile(entry("read"), flags=["SECCOMP_FILTER_FLAG_LOG"]),
    "flags-profile.json": profile(entry("mmap2 read"), flags=["SECCOMP_FILTER_FLAG_TSYNC", "SECCOMP_FILTER_FLAG_LOG"]),
    "large-profile.json": profile(entry("read", args=LARGE)),
}

READ, OTHER = ("read", "allow"), ("write", "errno 1")

CASES = [
    # The parts of a profile.
    *compiles("", WHOLE, *OF_WHOLE, told=OF_FLAGS), *compiles("-", WHOLE, *OF_WHOLE, told=OF_FLAGS),
    *compiles("--oci", WHOLE, *OF_WHOLE, told=OF_FLAGS), *compiles("-q", WHOLE, *OF_WHOLE),
    # In the configuration of a container, with or without --oci; a default action beside it counts.
    *compiles("", configured(json.loads(WHOLE)), *OF_WHOLE, told=OF_FLAGS),
    *compiles("--oci", configured(json.loads(WHOLE)), *OF_WHOLE, told=OF_FLAGS),
    *compiles("", {**configured(profile(entry("read"))), "defaultAction": "SCMP_ACT_LOG"}, ("read", "log")),
    *compiles("", configured({**configured(profile(default="SCMP_ACT_TRAP")), **profile(entry("read"))}), READ, OTHER),
    *compiles("reads-profile.json", "", READ, OTHER),
    *compiles("--oci --arch=x86_64 --kernel=6.1 --cap=CAP_KILL --strict ./reads-profile.json", "", READ, OTHER),
    *compiles("", '{"defaultAction": "SCMP_ACT_ALLOW"}', READ),
    *compiles("", {"defaultAction": "SCMP_ACT_TRAP"}, ("read", "trap")),
    *compiles("", {"defaultAction": "SCMP_ACT_TRAP", "syscalls": None, "flags": None, "architectures": None, "archMap": None,
                   "defaultErrnoRet": None}, ("read", "trap")),
    *compiles("", profile({"action": "SCMP_ACT_ALLOW"}, {"names": None, "action": "SCMP_ACT_LOG"}), ("read", "errno 1")),
    *compiles("", profile(entry("read", args=None, errnoRet=None, comment=None)), READ, OTHER),
    # Of a key that stands twice the last one counts.
    *compiles("", '{"defaultAction": "SCMP_ACT_ALLOW", "defaultAction": "SCMP_ACT_LOG"}', ("read", "log")),
    # Each action, as the default one and as that of an entry.
    *[case for action, number, text in ACTIONS
      for case in (*compiles("", profile(entry("read"), default=action, defaultErrnoRet=number), READ, ("write", text)),
                   *compiles("", profile(entry("read", action, errnoRet=number), default="SCMP_ACT_ALLOW"), ("read", text),
                             ("write", "allow")))],
    # Each operator, on each argument, and the greatest numbers.
    *[case for place, (operator, (met, unmet)) in enumerate(OPERATORS.items())
      for case in compiles("", profile(entry("read", args=[when(place, operator, 5)])),
                           (f"read {'0 ' * place}{met}", "allow"), (f"read {'0 ' * place}{unmet}", "errno 1"))],
    *compiles("", profile(entry("read", args=[when(5, "MASKED_EQ", 240, 95)])), ("read 0 0 0 0 0 0x50", "allow"),
              ("read 0 0 0 0 0 0x60", "errno 1")),
    *compiles("", profile(entry("read", args=[when(0, "MASKED_EQ", 3)])), ("read 4", "allow"), ("read 5", "errno 1")),
    *compiles("", profile(entry("read", args=[when(0, "EQ", GREATEST, GREATEST), when(1, "GT", 0, None)])),
              (f"read {GREATEST} 1", "allow"), (f"read {GREATEST} 0", "errno 1"), (f"read {GREATEST - 1} 1", "errno 1")),
    # Conditions on one argument are alternatives, and so are then the others.
    *compiles("", profile(entry("read write", args=[when(0, "EQ", 1), when(1, "EQ", 2), when(0, "EQ", 3)])),
              *[(f"{name} {given}", action) for name in ("read", "write")
                for given, action in (("1", "allow"), ("0 2", "allow"), ("3", "allow"), ("2 1", "errno 1"))]),
    # An entry whose calls the architecture doesn't have decides nothing.
    *left_out("", profile(entry("waitpid", "SCMP_ACT_TRAP"), entry("read")), ["waitpid"], READ, OTHER),
    # What an entry includes and excludes.
    *[case for more, those, others in CRITERIA for action, all_words in (("allow", those), ("errno 1", others)) for words in all_words
      for case in compiles(f"--oci {words}", profile(entry("read", **more)), ("read", action))],
    # Names that the architecture doesn't have, of entries that apply.
    *left_out("", profile(entry("waitpid read mmap2"), entry("mmap2 Read read")), ["waitpid", "mmap2", "Read"], READ, OTHER),
    *left_out("", profile({"names": ["no\ncall", "a\\b", "\u009b", "\u00b5", ""], "action": "SCMP_ACT_ALLOW"}),
              ["no\\x0acall", "a\\x5cb", "\\xc2\\x9b", "\u00b5", ""], ("read", "errno 1")),
    *left_out("", profile(entry("waitpid", includes={"caps": ["CAP_KILL"]}), entry("mmap2", excludes={"arches": ["arm64"]})),
              ["mmap2"], ("read", "errno 1")),
    *left_out("--oci --cap CAP_KILL", profile(entry("waitpid", includes={"caps": ["CAP_KILL"]}), entry("mmap2")),
              ["waitpid", "mmap2"], ("read", "errno 1")),
    *left_out("-a arm64", profile(entry("open openat")), ["open"], ("openat", "allow"), ("read", "errno 1"), arch="aarch64"),
    *left_out("--arch riscv64", profile(entry("open riscv_hwprobe")), ["open"], ("riscv_hwprobe", "allow"), ("read", "errno 1"),
              arch="riscv64"),
    *compiles("unknown-profile.json", "", READ, OTHER, told=TOOL + f"unknown-profile.json: {counted(2)}\n"),
    *compiles("-v unknown-profile.json", "", READ, told=TOOL + f"unknown-profile.json: {counted(2)}: mmap2, waitpid\n"),
    *compiles("-q unknown-profile.json", "", READ, OTHER),
    *compiles("-q -v unknown-profile.json", "", READ),
    # Flags, in the profile's order and as often as they stand there, after the names.
    *compiles("", profile(entry("read"), flags=[]), READ),
    *flagged("", profile(entry("read"), flags=["SECCOMP_FILTER_FLAG_LOG"]), "(1): SECCOMP_FILTER_FLAG_LOG", READ),
    *flagged("-", profile(entry("read"), flags=["SECCOMP_FILTER_FLAG_TSYNC"]), "(1): SECCOMP_FILTER_FLAG_TSYNC", READ),
    *flagged("", profile(entry("read"), flags=["SECCOMP_FILTER_FLAG_SPEC_ALLOW", "SECCOMP_FILTER_FLAG_TSYNC",
                                               "SECCOMP_FILTER_FLAG_LOG"]),
             "(3): SECCOMP_FILTER_FLAG_SPEC_ALLOW, SECCOMP_FILTER_FLAG_TSYNC, SECCOMP_FILTER_FLAG_LOG", READ),
    *flagged("", profile(entry("read"), flags=["SECCOMP_FILTER_FLAG_LOG", "SECCOMP_FILTER_FLAG_LOG"]),
             "(2): SECCOMP_FILTER_FLAG_LOG, SECCOMP_FILTER_FLAG_LOG", READ),
    *flagged("", '{"defaultAction": "SCMP_ACT_ALLOW", "flags": ["SECCOMP_FILTER_FLAG_SPEC_ALLOW"]}',
             "(1): SECCOMP_FILTER_FLAG_SPEC_ALLOW", READ),
    *flagged("", profile(entry("read"), flags=["SECCOMP_FILTER_FLAG_WAIT_KILLABLE_RECV"]), "(1): SECCOMP_FILTER_FLAG_WAIT_KILLABLE_RECV", READ),
    # What a supervisor decides: told if the program asks one.
    *compiles("", profile(entry("read", "SCMP_ACT_NOTIFY")), ("read", "user_notif"), OTHER, told=ASKS),
    *compiles("--oci", profile(entry("read"), default="SCMP_ACT_NOTIFY", listenerPath="/run/agent.sock"), READ, ("write", "user_notif"), told=ASKS),
    *compiles("-q", profile(entry("read", "SCMP_ACT_NOTIFY")), ("read", "user_notif"), OTHER),
    *compiles("", profile(entry("read"), entry("write", "SCMP_ACT_NOTIFY", includes={"caps": ["CAP_KILL"]})), READ, OTHER),
    *compiles("", profile(entry("read"), entry("read", "SCMP_ACT_NOTIFY", args=[when(0, "EQ", 5)])), READ, OTHER),
    *compiles("./log-profile.json", "", READ, OTHER, told=TOOL + f"./log-profile.json: {FLAGS} (1): SECCOMP_FILTER_FLAG_LOG\n"),
    *compiles("flags-profile.json", "", READ, OTHER,
              told=TOOL + f"flags-profile.json: {counted(1)}\n"
              + TOOL + f"flags-profile.json: {FLAGS} (2): SECCOMP_FILTER_FLAG_TSYNC, SECCOMP_FILTER_FLAG_LOG\n"),
    *compiles("--quiet flags-profile.json", "", READ, OTHER),
    *compiles("-a arm64", profile(entry("open openat"), flags=["SECCOMP_FILTER_FLAG_TSYNC"]), ("openat", "allow"), ("read", "errno 1"),
              told=INPUT + counted(1, "aarch64") + "\n"
              + INPUT + f"{FLAGS} (1): SECCOMP_FILTER_FLAG_TSYNC\n"),
    # With --strict they are no error, but names are.
    *flagged("--oci --strict", profile(entry("read"), flags=["SECCOMP_FILTER_FLAG_LOG"]), "(1): SECCOMP_FILTER_FLAG_LOG", READ),
    rejects("compile --oci --strict flags-profile.json", "", "not system calls of x86_64 (1): mmap2\n", TOOL + "flags-profile.json: "),
    # With --strict names are rejected, each once.
    rejects("compile --strict", json.dumps(profile(entry("waitpid mmap2 read"), entry("mmap2"))),
            "not system calls of x86_64 (2): waitpid, mmap2\n"),
    rejects("compile --oci --strict unknown-profile.json", "", "not system calls of x86_64 (2): mmap2, waitpid\n",
            TOOL + "unknown-profile.json: "),
    rejects("compile --oci --strict -q unknown-profile.json", "", "not system calls of x86_64 (2): mmap2, waitpid\n",
            TOOL + "unknown-profile.json: "),
    rejects("compile --oci --strict -a amd64", json.dumps(profile(entry("no_call\u0007", "SCMP_ACT_LOG"))),
            "not system calls of x86_64 (1): no_call\\x07\n"),
    rejects("compile --oci --strict --arch aarch64", json.dumps(profile(entry("read open"))), "not system calls of aarch64 (1): open\n"),
    *compiles("--oci --strict", profile(entry("read"), entry("waitpid", includes={"arches": ["x86"]})), READ, OTHER),
    # Podman's errnos as texts: they win, and may be numbers. The empty text is none.
    *compiles("", profile(entry("read", "SCMP_ACT_ERRNO", errnoRet=22, errno="EINVAL"), entry("write", errno=""),
                          defaultErrnoRet=38, defaultErrno="ENOSYS"), ("read", "errno 22"), ("write", "allow"), ("open", "errno 38")),
    *[case for text, number in (("EPERM", 1), ("EDOM", 33), ("EWOULDBLOCK", 11), ("EDEADLOCK", 35), ("ENOTSUP", 95), ("EHWPOISON", 133),
                                ("0", 0), ("038", 38), ("65535", 65535))
      for beside in ({}, {"errnoRet": None}, {"errnoRet": 5})
      for case in compiles("", profile(entry("read", "SCMP_ACT_ERRNO", errno=text, **beside), default="SCMP_ACT_ALLOW"),
                           ("read", f"errno {number}"))],
    *compiles("", profile(entry("read", "SCMP_ACT_TRACE", errno="ENOSYS"), defaultErrno="EDOM"), ("read", "trace 38"), ("write", "errno 33")),
    # What engines pass over: keys at the top, criteria that are null, an empty name, and a kernel that is the empty text.
    *compiles("", {**profile(entry("read")), "$schema": 5, "comment": [], "listenerPath": "x", "Flags": 5}, READ, OTHER),
    *compiles("", profile(entry("read", includes=None, excludes=None, name="")), READ, OTHER),
    *compiles("", profile(entry("read", name=None), {"names": [], "name": "open", "action": "SCMP_ACT_LOG"},
                          {"names": None, "name": "stat", "action": "SCMP_ACT_LOG"}), READ, ("open", "log"), ("stat", "log")),
    *compiles("", profile(entry("read", includes={"minKernel": ""}, excludes={"minKernel": ""})), READ, OTHER),
    # What is no JSON.
    *[rejects("compile --oci", it, PARSING) for it in (
        "", "{", '{"defaultAction": "SCMP_ACT_ALLOW"', '{"defaultAction": "SCMP_ACT_ALLOW"} {}', "{'defaultAction': 0}", "nothing",
        '{"defaultAction": "SCMP_ACT_ALLOW",}', b'{"defaultAction": "\xff"}', "[" * 200 + "]" * 200)],
    rejects("compile --oci no-json.json", "", PARSING, TOOL + "no-json.json: "),
    # A program that is too large.
    writes("compile | wc -c | tr -d ' '", json.dumps(profile(entry("read", args=FITTING))), f"{8 * 4095}\n"),
    rejects("compile", json.dumps(profile(entry("read", args=LARGE))), TOO_LONG),
    rejects("compile --oci large-profile.json", "", TOO_LONG, TOOL + "large-profile.json: "),
    rejects("compile --oci --strict", json.dumps(profile(entry("waitpid"), entry("read", args=LARGE))),
            "not system calls of x86_64 (1): waitpid\n"),
    # Files, and an output that takes nothing.
    rejects("compile --oci missing.json", "", MISSING, TOOL + "missing.json: "),
    rejects("compile --oci examples", "", FOLDER, TOOL + "examples: "), rejects("compile --oci -", Failing(WHOLE), RESET),
    rejects("compile -q reads-profile.json >&-", "", CLOSED, OUTPUT),
    rejects("compile -q reads-profile.json > /dev/full", "", FULL, OUTPUT),
    rejects("compile --oci unknown-profile.json > /dev/full", "", FULL, OUTPUT),
    *fails_to_read_and_write("compile --oci", WHOLE, WHOLE),
]
