"""What `explain -a x86` and `-a x32` say of profiles and of programs: by hand, and of profiles by chance, as the model of compat_decisions.py
decides them."""

import json
import random

from cases import compat_decisions
from cases.compat_decisions import AUDITED, X32_BIT
from model import record_of

from .compiled_profiles import counted, entry, profile, when
from .profile_checks import SAID_OF_PROFILE, line, of_others, warned
from cases.forms import INPUT, TOOL, Case, named, rejects, writes

BOTH = {"architectures": ["SCMP_ARCH_X86_64", "SCMP_ARCH_X86", "SCMP_ARCH_X32"]}
SUBMAPPED = {"archMap": [{"architecture": "SCMP_ARCH_X86_64", "subArchitectures": ["SCMP_ARCH_X86", "SCMP_ARCH_X32"]}]}
NO_VSOCK = profile(entry("socket", args=[when(0, "NE", 40)]), entry("semop shmget"), entry("read"), **BOTH)
EITHER = profile(entry("bind", args=[when(0, "EQ", 7), when(0, "EQ", 8)]), entry("connect", args=[when(0, "EQ", 7), when(1, "EQ", 8)]), **BOTH)
DENIED = "errno 1 (EPERM): "

ALLOWS_ALL = {**BOTH, "default": "SCMP_ACT_ALLOW"}


def denied(name, *given):
    """Returns an entry of a profile that denies calls of a name on conditions."""
    return entry(name, "SCMP_ACT_ERRNO", args=[when(*it) for it in given])


# A profile, and where it denies a call of x86_64, that call, and the one that is let through to 32-bit programs, and to which.
EVADED = [
    (NO_VSOCK, [("syscalls[0].args[0]", ("socket", 40), ("socketcall", 1), "x86")]),
    (EITHER, [("syscalls[0].args[0]", ("bind", 9), ("socketcall", 2), "x86"),
              ("syscalls[1].args[0]", ("connect", 8, 8), ("socketcall", 3, 8), "x86")]),
    # Of a list of denied calls one that denies some; 5 is less than 0x100000005, and its low half isn't less than 5.
    (profile(denied("close", (0, "LT", 0x100000005)), **ALLOWS_ALL), [("syscalls[0]", ("close", 5), ("close", 5), "x86")]),
    (profile(denied("close", (0, "LT", 0x100000005)), default="SCMP_ACT_ALLOW", architectures=["SCMP_ARCH_X86_64", "SCMP_ARCH_X32"]),
     [("syscalls[0]", ("close", 5), ("close", 5), "x32")]),
]

# Profiles that have none: all that they deny is denied to 32-bit programs, or these may make no calls.
UNEVADED = [
    profile(denied("socket"), denied("shmget"), denied("close", (0, "GT", 5)), **ALLOWS_ALL),
    profile(entry("socket", args=[when(0, "NE", 40)]), architectures=["SCMP_ARCH_X86_64"]),
    profile(entry("socket", args=[when(0, "NE", 40)])),
    profile(entry("socket", args=[when(0, "NE", 40)]), architectures=["SCMP_ARCH_X86_64", "SCMP_ARCH_X32"]),
    profile(entry("read close"), **BOTH),
]


def told_of(place, first, second, abi):
    """Returns the line of a call that is denied at a place, and of the one that is let through."""
    made = [f"{name}({', '.join(f'0x{it:x}' for it in (*given, *[0] * (6 - len(given))))})" for name, *given in (first, second)]
    where = f"{place} ({first[0]})" if place.endswith("]") and ".args" not in place else place
    return line(where, "abi-evades", f"{made[0]} is denied, and let through is {made[1]} of {abi}, {SAID_OF_PROFILE['abi-evades']}")


BESIDES = " ".join(f"--allow {it}" for it in ("kills-exit", "high-half-evades", "allows-by-default", "condition-evaded"))

CHECKED = [
    *[case for given, told in EVADED for case in warned(given, *(told_of(*it) for it in told), words="--allow allows-by-default")],
    # One that no entry is for.
    *[it._replace(errors=INPUT + counted(1) + "\n" + it.errors)
      for it in warned(profile(entry("ipc read"), **BOTH), told_of("defaultAction", ("shmget",), ("ipc", 23), "x86"))],
    *[Case(f"check --oci --deny-warnings {BESIDES}", 0, "", of_others(given, ""), json.dumps(given)) for given in UNEVADED],
]

# A profile, an architecture, a call with its arguments, and the line.
ROWS = [
    (NO_VSOCK, "x86_64", "socket 40", DENIED + "no match: syscalls[0].args[0] of socket (41) does not hold"),
    (NO_VSOCK, "x86", "socket 40", DENIED + "no match: syscalls[0].args[0] of socket (359) does not hold"),
    (NO_VSOCK, "x86", "socket 2", "allow: syscalls[0] of socket (359)"),
    (NO_VSOCK, "x86", "socketcall 1 40", "allow: syscalls[0] of socketcall (102)"),
    (NO_VSOCK, "x86", "socketcall 2", DENIED + "no match: syscalls[0] of socketcall (102) does not hold"),
    (NO_VSOCK, "x86", "ipc 1", "allow: syscalls[1] of ipc (117)"),
    (NO_VSOCK, "x86", "ipc 23", "allow: syscalls[1] of ipc (117)"),
    (NO_VSOCK, "x86", "ipc 0x10001", DENIED + "no match: syscalls[1] of ipc (117) does not hold, the nearest of 2 entries"),
    (NO_VSOCK, "x86", "3", "allow: syscalls[2] of read (3)"),
    (NO_VSOCK, "x86", "waitpid", DENIED + "defaultAction of waitpid (7)"),
    (NO_VSOCK, "x86", "463", DENIED + "defaultAction of call 463"),
    (NO_VSOCK, "x32", "socket 0x100000028", DENIED + "no match: syscalls[0].args[0] of socket (1073741865) does not hold"),
    (NO_VSOCK, "x32", "read", "allow: syscalls[2] of read (1073741824)"),
    (NO_VSOCK, "x32", "readv", DENIED + "defaultAction of readv (1073742339)"),
    # A number of x86_64 is none of x32.
    (NO_VSOCK, "x32", "0", "kill_process: another architecture"),
    # Of conditions on one argument one is enough, but those on argument 0 are none of `socketcall`.
    (EITHER, "x86", "bind 7", "allow: syscalls[0] of bind (361)"),
    (EITHER, "x86", "socketcall 2 9", "allow: syscalls[0] of socketcall (102)"),
    (EITHER, "x86", "connect 7 9", DENIED + "no match: syscalls[1].args[1] of connect (362) does not hold"),
    (EITHER, "x86", "socketcall 3 8", "allow: syscalls[1] of socketcall (102)"),
    ({**NO_VSOCK, **SUBMAPPED, "architectures": None}, "x86", "read", "allow: syscalls[2] of read (3)"),
    ({**NO_VSOCK, "architectures": ["SCMP_ARCH_X86_64"]}, "x86", "read", "kill_thread: libseccomp, since architectures lacks it: read (3)"),
    ({**NO_VSOCK, "architectures": None}, "x32", "read", "kill_thread: libseccomp, since architectures lacks it: read (1073741824)"),
]

CASES = [
    *CHECKED,
    *[writes(f"explain -a {abi} --oci - {call}", json.dumps(given), f"{line}\n") for given, abi, call, line in ROWS],
    # Of a program the record's own call has a name.
    Case("compile -q --oci reads-profile.json | ./seccomptool explain -a x86 - read", 0, "kill_process: read (3)\n", ""),
    Case("compile -q --oci reads-profile.json | ./seccomptool explain -a x32 - readv", 0, "kill_thread: readv (1073742339)\n", ""),
    rejects("explain -a x86 --oci reads-profile.json renameat3", "", "No call of x86 has this name or number: renameat3.\n", TOOL),
    rejects("explain -a x32 --oci reads-profile.json waitpid", "", "No call of x32 has this name or number: waitpid.\n", TOOL),
]

SEED, PROFILES, RECORDS = 7, 25, 60
TEXTS = {"ERRNO": "errno 5", "TRACE": "trace 1", "KILL_PROCESS": "kill_process", "TRAP": "trap", "ALLOW": "allow", None: "kill_thread"}


def text_of(default, entries, listed):
    """Returns the text of a profile by chance."""
    number = lambda action: {"errnoRet": int(TEXTS[action].split()[1])} if action in ("ERRNO", "TRACE") else {}  # noqa: E731
    own = [entry(" ".join(names), f"SCMP_ACT_{action}", args=[when(*it) for it in conditions], **number(action)) for names, action, conditions in entries]
    arches = [f"SCMP_ARCH_{'X86' if it == 'i386' else 'X32'}" for it in listed]
    given = profile(*own, default=f"SCMP_ACT_{default}", architectures=["SCMP_ARCH_X86_64", *arches])
    return json.dumps({**given, **({"defaultErrnoRet": number(default)["errnoRet"]} if number(default) else {})})


def made_by_chance():
    """Returns profiles by chance, each with the architectures that it lists, and numbers of its conditions."""
    chance, made = random.Random(SEED), []
    for _ in range(PROFILES):
        made.append((*compat_decisions.by_chance(chance), [it for it in ("i386", "x32") if chance.random() < 0.8]))
    return made


MADE = made_by_chance()
FILES = {f"compat-{place}.json": text_of(default, entries, listed) for place, (default, entries, _, listed) in enumerate(MADE)}


def compare_explained(results, run):
    """Asks the program, by a function that runs it with a text, what profiles by chance decide of records: the action, and the entry."""
    chance = random.Random(SEED)
    for place, (default, entries, constants, listed) in enumerate(MADE):
        for abi, option in (("x86_64", "x86_64"), ("i386", "x86"), ("x32", "x32")):
            own = sorted({compat_decisions.number_on(abi, it) for names, *_ in entries for it in (*names, "socketcall", "ipc")} - {None})
            calls = [(chance.choice([*own, 400 + X32_BIT * (abi == "x32")]), [chance.choice([*constants, *range(25)]) for _ in range(6)])
                     for _ in range(RECORDS)]
            records = b"".join(record_of(number, AUDITED[abi], *arguments) for number, arguments in calls)
            status, output, errors = run(f"explain -a {option} --oci compat-{place}.json", records)
            lines, wrong = output.splitlines(), []
            for (number, arguments), line in zip(calls, lines):
                action, at, _ = compat_decisions.decided(abi, abi in listed, default, entries, number, arguments)
                begin = f"{named(TEXTS[action])}: " + (f"syscalls[{at}] of " if at is not None else "")
                if not line.startswith(begin) or (at is None and line.startswith(f"{begin}syscalls[")):
                    wrong.append((number, arguments, line, begin))
            results.compare(f"profile {place} by chance, {option}", (0, len(calls), "", []), (status, len(lines), errors, wrong[:2]))
