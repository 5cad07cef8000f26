"""Profiles, and what they decide of calls, by the words of the OCI runtime specification and by what runtimes do with them.

An entry whose action is the default one says nothing. The first entry without conditions settles a call, and else the strictest
of those whose conditions are met. A number of x32 kills the thread on x86_64, but 0xffffffff, which is no number, doesn't.
"""

import re

from model import numbers_on

from .compiled_profiles import entry, profile, when

# The actions of filters from the strictest on (seccomp(2)).
STRICTEST_FIRST = ("kill_process", "kill_thread", "trap", "errno", "user_notif", "trace", "log", "allow")
ENOSYS = {"defaultErrnoRet": 38}
LOW, WHOLE = 2**32 - 1, 2**64 - 1


def caps(*names):
    """Returns criteria of these capabilities."""
    return {"caps": list(names)}


def of(operator, rows, *values):
    """Returns the profile that allows `read` by a condition on argument 0, with values of it that are allowed or not."""
    one = profile(entry("read", args=[when(0, operator, *values)]))
    return f"SCMP_CMP_{operator}", "", one, [("read", (value,), "allow" if met else "errno 1") for value, met in rows]


# Calls that several entries are for: with and without conditions, stricter and looser ones first.
ON_5 = {"args": [when(0, "EQ", 5)]}
SOCKETS = profile(
    entry("socket", "SCMP_ACT_ERRNO", errnoRet=22, args=[when(0, "EQ", 16), when(2, "EQ", 9)], excludes=caps("CAP_AUDIT_WRITE")),
    entry("socket", args=[when(2, "NE", 9)], excludes=caps("CAP_AUDIT_WRITE")),
    entry("socket", args=[when(0, "NE", 16)], excludes=caps("CAP_AUDIT_WRITE")),
    entry("socket", args=None, includes=caps("CAP_AUDIT_WRITE")), **ENOSYS)
MOUNTS = profile(entry("mount umount2", includes=caps("CAP_SYS_ADMIN")),
                 entry("mount umount2", "SCMP_ACT_ERRNO", errnoRet=1, excludes=caps("CAP_SYS_ADMIN")), **ENOSYS)
TRACED = profile(entry("ptrace", includes={"minKernel": "4.8"}), entry("ptrace", "SCMP_ACT_LOG", excludes={"minKernel": "4.8"}))
NEW = profile(entry("read close"), entry("mount", includes=caps("CAP_SYS_ADMIN")))
ARCHES = profile(entry("open", includes={"arches": ["amd64"]}), entry("openat", excludes={"arches": ["amd64"]}), **ENOSYS)

# What a profile shows, the words of its container, the profile, and calls with their arguments and its decisions.
PROFILES = [
    of("NE", [(5, False), (6, True), (LOW + 6, True)], 5), of("LT", [(4, True), (5, False), (6, False), (LOW + 1, False)], 5),
    of("LE", [(4, True), (5, True), (6, False), (LOW + 1, False)], 5), of("EQ", [(5, True), (4, False), (LOW + 6, False)], 5),
    of("GE", [(4, False), (5, True), (6, True), (LOW + 1, True)], 5), of("GT", [(5, False), (6, True), (WHOLE, True)], 5),
    of("MASKED_EQ", [(0x50, True), (0x5F, True), (LOW + 0x51, True), (0x65, False), (0, False)], 240, 80),
    of("MASKED_EQ", [(0x50, True), (0x5F, True), (0x65, False)], 240, 95),
    of("MASKED_EQ", [(0, True), (3, True), (0x100, True), (0xF0, False), (0x10, False)], 240),
    of("EQ", [(WHOLE, True), (LOW, False), (WHOLE - 1, False)], WHOLE),
    ("conditions on different arguments are joined by and", "", profile(entry("mmap", args=[when(1, "EQ", 1), when(2, "EQ", 2)])),
     [("mmap", (0, 1, 2), "allow"), ("mmap", (0, 1, 3), "errno 1"), ("mmap", (0, 2, 2), "errno 1"), ("read", (0, 1, 2), "errno 1")]),
    ("conditions on one argument are alternatives", "", profile(entry("personality", args=[when(0, "EQ", 0), when(0, "EQ", LOW)])),
     [("personality", (0,), "allow"), ("personality", (LOW,), "allow"), ("personality", (1,), "errno 1")]),
    ("so are the others of such an entry", "",
     profile(entry("mmap", args=[when(0, "EQ", 1), when(1, "EQ", 2), when(0, "EQ", 3)], action="SCMP_ACT_TRAP"), default="SCMP_ACT_ALLOW"),
     [("mmap", (1, 0), "trap"), ("mmap", (0, 2), "trap"), ("mmap", (3, 0), "trap"), ("mmap", (2, 1), "allow")]),
    ("the first entry without conditions settles its call", "",
     profile(entry("read write", "SCMP_ACT_LOG"), entry("read", "SCMP_ACT_ERRNO", errnoRet=5), entry("read", "SCMP_ACT_KILL_PROCESS", **ON_5),
             entry("write"), entry("stat"), default="SCMP_ACT_ALLOW"),
     [("read", (0,), "log"), ("read", (5,), "log"), ("write", (), "log"), ("stat", (), "allow"), ("close", (), "allow")]),
    ("also in front of it, and whatever its action", "",
     profile(entry("read", "SCMP_ACT_KILL", **ON_5), entry("read"), entry("write", "SCMP_ACT_TRACE", errnoRet=3),
             entry("write", "SCMP_ACT_TRAP"), default="SCMP_ACT_LOG"),
     [("read", (5,), "allow"), ("read", (4,), "allow"), ("write", (), "trace 3"), ("stat", (), "log")]),
    ("else the strictest of those whose conditions are met", "",
     profile(entry("read", args=[when(0, "GE", 5)]), entry("read", "SCMP_ACT_TRAP", **ON_5), entry("read", "SCMP_ACT_LOG", args=[when(0, "GE", 4)]),
             entry("write", "SCMP_ACT_KILL", **ON_5), entry("write", args=[when(1, "EQ", 1)]), **ENOSYS),
     [("read", (5,), "trap"), ("read", (6,), "log"), ("read", (4,), "log"), ("read", (3,), "errno 38"), ("write", (5, 1), "kill_thread"),
      ("write", (4, 1), "allow"), ("write", (4, 0), "errno 38")]),
    ("of equally strict entries the first one decides", "",
     profile(entry("open", "SCMP_ACT_ERRNO", errnoRet=7), entry("stat", "SCMP_ACT_ERRNO", errnoRet=5, args=[when(0, "GE", 5)]),
             entry("stat", "SCMP_ACT_ERRNO", errnoRet=7, args=[when(0, "LE", 5)]), entry("open", "SCMP_ACT_ERRNO", errnoRet=5),
             default="SCMP_ACT_ALLOW"),
     [("open", (), "errno 7"), ("stat", (5,), "errno 5"), ("stat", (6,), "errno 5"), ("stat", (4,), "errno 7"), ("read", (), "allow")]),
    ("and so of two traces", "",
     profile(entry("open", "SCMP_ACT_TRACE", errnoRet=2), entry("open", "SCMP_ACT_TRACE", errnoRet=1), **ENOSYS),
     [("open", (), "trace 2"), ("read", (), "errno 38")]),
    ("a supervisor is asked if no stricter entry's conditions are met", "",
     profile(entry("read", "SCMP_ACT_TRACE", args=[when(0, "GE", 3)]), entry("read", "SCMP_ACT_NOTIFY", args=[when(0, "GE", 4)]),
             entry("read", "SCMP_ACT_ERRNO", **ON_5), entry("open", "SCMP_ACT_NOTIFY"), entry("open", "SCMP_ACT_KILL"), **ENOSYS),
     [("read", (5,), "errno 1"), ("read", (6,), "user_notif"), ("read", (4,), "user_notif"), ("read", (3,), "trace 1"),
      ("read", (2,), "errno 38"), ("open", (), "user_notif")]),
    ("it is asked of calls without an entry, too", "", profile(entry("read"), default="SCMP_ACT_NOTIFY"),
     [("read", (), "allow"), ("write", (), "user_notif"), (4000, (), "user_notif"), (0x40000000, (), "kill_thread"), (LOW, (), "user_notif")]),
    ("runc answers what is above by ENOSYS then", "--runtime runc", profile(entry("close"), default="SCMP_ACT_NOTIFY"),
     [("close", (), "allow"), ("read", (), "user_notif"), ("stat", (), "errno 38"), (4000, (), "errno 38")]),
    ("the default action is the strictest", "",
     profile(entry("read"), entry("write", "SCMP_ACT_ERRNO"), entry("open", "SCMP_ACT_LOG"), default="SCMP_ACT_KILL_PROCESS"),
     [("read", (), "allow"), ("write", (), "errno 1"), ("open", (), "log"), ("close", (), "kill_process"), (4000, (), "kill_process")]),
    ("the default action is the loosest", "",
     profile(entry("read", "SCMP_ACT_KILL"), entry("write", "SCMP_ACT_TRAP", **ON_5), default="SCMP_ACT_ALLOW"),
     [("read", (), "kill_thread"), ("write", (5,), "trap"), ("write", (4,), "allow"), ("open", (), "allow"), (4000, (), "allow")]),
    ("an entry of the default action is passed over", "",
     profile(entry("read", "SCMP_ACT_ERRNO", errnoRet=38), entry("read write"), entry("open", "SCMP_ACT_ERRNO", errnoRet=38, **ON_5),
             entry("open", args=[when(0, "GE", 5)]), **ENOSYS),
     [("read", (), "allow"), ("write", (), "allow"), ("open", (5,), "allow"), ("open", (4,), "errno 38"), ("close", (), "errno 38")]),
    ("one of the same action with another number isn't", "", profile(entry("read", "SCMP_ACT_ERRNO", errnoRet=1), entry("read"), **ENOSYS),
     [("read", (), "errno 1"), ("write", (), "errno 38")]),
    ("numbers without a name, those of x32 among them", "", profile(entry("read"), **ENOSYS),
     [("read", (), "allow"), (0x3FFFFFFF, (), "errno 38"), (0x40000000, (), "kill_thread"), (0xFFFFFFFE, (), "kill_thread"),
      (463, (), "errno 38"), (LOW, (), "errno 38")]),
    ("x32 by a stricter default, and by a looser one", "", profile(entry("read"), default="SCMP_ACT_KILL_PROCESS"),
     [(0x40000000, (), "kill_thread"), (0xFFFFFFFE, (), "kill_thread"), (0x3FFFFFFF, (), "kill_process"), (LOW, (), "kill_process")]),
    ("x32 where every call is allowed", "", profile(default="SCMP_ACT_ALLOW"),
     [("read", (), "allow"), (0x40000000, (), "kill_thread"), (LOW, (), "allow")]),
    ("x32 is of x86_64 alone", "-a aarch64", profile(entry("read"), **ENOSYS),
     [("read", (), "allow"), (0x40000000, (), "errno 38"), (LOW, (), "errno 38")]),
    ("a runtime that does no more than libseccomp", "--runtime crun", NEW, [("stat", (), "errno 1"), (4000, (), "errno 1")]),
    ("calls above all that are named, as runc answers them", "--runtime runc", NEW,
     [("read", (), "allow"), ("write", (), "errno 1"), ("close", (), "allow"), ("stat", (), "errno 38"), ("fchmodat2", (), "errno 38"),
      (4000, (), "errno 38"), (0x40000000, (), "kill_thread"), (LOW, (), "errno 1")]),
    ("entries that apply say which are named", "--runtime runc --cap CAP_SYS_ADMIN", NEW, [("stat", (), "errno 1"), (4000, (), "errno 38")]),
    ("all numbers above on another architecture", "-a aarch64 --runtime runc", NEW,
     [("read", (), "allow"), ("write", (), "errno 38"), ("close", (), "allow"), (0x40000000, (), "errno 38"), (LOW, (), "errno 38")]),
    ("not if the default action lets them through", "--runtime runc", profile(entry("read", "SCMP_ACT_TRAP"), default="SCMP_ACT_LOG"),
     [("read", (), "trap"), ("stat", (), "log"), (4000, (), "log")]),
    ("nor if no call is named", "--runtime runc", profile(), [("read", (), "errno 1"), (4000, (), "errno 1")]),
    ("without a capability", "", MOUNTS, [("mount", (), "errno 1"), ("umount2", (), "errno 1"), ("read", (), "errno 38")]),
    ("with it", "--cap CAP_SYS_ADMIN", MOUNTS, [("mount", (), "allow"), ("umount2", (), "allow"), ("read", (), "errno 38")]),
    ("sockets, as Podman's profile has them", "", SOCKETS,
     [("socket", (16, 3, 9), "errno 22"), ("socket", (16, 3, 0), "allow"), ("socket", (2, 1, 9), "allow"), ("socket", (2, 1, 6), "allow"),
      ("read", (), "errno 38")]),
    ("the same with a capability", "--cap CAP_AUDIT_WRITE", SOCKETS, [("socket", (16, 3, 9), "allow"), ("read", (), "errno 38")]),
    ("on the newest kernel", "", TRACED, [("ptrace", (), "allow"), ("read", (), "errno 1")]),
    ("on a newer kernel", "--kernel 4.10", TRACED, [("ptrace", (), "allow")]),
    ("on an older kernel", "--kernel 4.7", TRACED, [("ptrace", (), "log")]),
    ("on x86_64", "", ARCHES, [("open", (), "allow"), ("openat", (), "errno 38")]),
    ("on aarch64", "-a aarch64", ARCHES, [("openat", (), "allow"), ("read", (), "errno 38")]),
    ("on riscv64", "-a riscv64", ARCHES, [("openat", (), "allow"), ("read", (), "errno 38")]),
    ("every call is allowed", "", profile(entry("read"), default="SCMP_ACT_ALLOW"), [("read", (), "allow"), (4000, (), "allow")]),
]


def numbers_of(words):
    """Returns the calls of the architecture that the words name, by their names."""
    named = re.search(r"-a (\w+)", words)
    return numbers_on(named[1] if named else "x86_64")
