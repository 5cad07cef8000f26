"""The warnings that `check` has to print if a policy may not say what its author means.

The lines of a policy are found by trying its conditions on values, and not by their operators. Here are conditions on each
argument of each call, and tables of filters that have a code and of filters that just don't; conditions.py has each operator
on each border, and many by chance. calls.py is about the codes of calls by their names, and entries.py about those of
entries beside others, which are allowed here.
"""

import functools
import itertools
import json
import random
import re

from cases.forms import OUTPUT, FULL, Case, grouped, rejects, writes
from cases.warning_tables import ADDRESSES, CODES, FLAGS, SIBLINGS, SIGNED
from results import TOP

from .evasions import EVASIONS, LOW, PERMITS, WHOLE, actions_of, evasions_of, holds, mask_of

# What is so, and what to write instead.
SAID = {row["name"]: row["said"] for row in CODES if row["said"]}

# The codes of an entry beside others, and the options that allow them.
BESIDE = ("unreachable-entry", "redundant-entry", "undecided-entry")
ALLOWED = " ".join(f"--allow {it}" for it in BESIDE)

# The same, for filters of one call or none, under which nothing ends: calls.py has the warnings of that.
OF_PARTS = f"{ALLOWED} --allow kills-exit"

# Most filters of the tables deny whatever is called, which isn't what they are about. DENYING is the table of that.
NOT_ALL = "--allow denies-everything"

# The key of an action or a condition that a code is about, after its place.
KEYS = {row["name"]: f".{row['key']}" for row in CODES if row["key"]}

# A line for each section of docs/CHECKS.md: the code, and what the section begins with, without the marks.
PAGE = (TOP / "docs/CHECKS.md").read_text(encoding="utf-8")
SECTIONS = re.findall(r"^### `([a-z0-9-]+)`\n\n(.*)\n", PAGE, re.M)
MEANINGS = [(code, first.replace("`", "")) for code, first in SECTIONS]
# `check --list` prints of each what stands up to the first point or colon.
CODES_LISTED = "".join(f"{code:22} {re.split('[.:] ', said)[0].rstrip('.')}\n" for code, said in MEANINGS)

# An action that has no code, wherever it stands.
OTHER = {"errno": 2}


# Stands for the two calls of an evasion, where `warned` finds them.
CALLS = "CALLS"


def line(place, code, file="standard input", calls=CALLS):
    """Returns the line of a warning about a file, if this is the place of an action, an entry or a condition."""
    shown = f"{calls}, " if code in EVASIONS else ""
    return f"{file}: {place}{KEYS.get(code, '')}: warning [{code}]: {shown}{SAID[code]}\n"


def condition(length, operator, value, index=0):
    """Returns a condition."""
    return {"index": index, "type": length, "op": operator, "val": value}


def filter_of(conditions, mismatch="trap", match="allow"):
    """Returns a filter of one entry, which has these conditions, or none."""
    entries = [{"syscall": "read", "args": conditions}] if conditions else []
    return {"mismatch_action": mismatch, "match_action": match, "filter": entries}


def warned(filters, *lines, allowed=f"{OF_PARTS} {NOT_ALL}"):
    """Returns the cases of a policy that has exactly these warnings, if they are denied and if they aren't."""
    text, output = json.dumps(filters), grouped("".join(with_calls(filters, it) for it in lines))
    denied = Case(f"check {allowed} --deny-warnings", 1 if lines else 0, output, "", text)
    return [writes(f"check {allowed}", text, output), denied]


def with_calls(filters, it):
    """Returns the line with the two calls, if it is that of an evasion of these filters: as often as there are such calls."""
    if CALLS not in it:
        return it
    for name, own in filters.items():
        escaped = "".join(char if char.isprintable() else "".join(f"\\x{byte:02x}" for byte in char.encode()) for char in name)
        for (entry, place, code), calls in evasions_of(own).items():
            if f" {escaped}.filter[{entry}].args[{place}]: warning [{code}]: " in it:
                return "".join(it.replace(CALLS, each) for each in calls)
    return it


def of_action(action, codes):
    """Returns the cases of an action that has these codes, in either place of a filter."""
    return [
        *warned({"a": filter_of([], action, OTHER)}, *(line("a.mismatch_action", it) for it in codes)),
        *warned({"a": filter_of([], OTHER, action)}, *(line("a.match_action", it) for it in codes)),
    ]


def of_both(mismatch, match, codes):
    """Returns the cases of two actions, together with these codes of the second one."""
    default = [line("a.mismatch_action", "allows-by-default")] if mismatch in ("allow", "log") else []
    lines = [*default, *(line("a.match_action", it) for it in codes)]
    return warned({"a": filter_of([], mismatch, match)}, *lines, allowed=f"{OF_PARTS} --allow trace-without-tracer")


def of_condition(length, operator, value, codes, mismatch="trap", match="allow"):
    """Returns the cases of a condition that has these codes, after one and in an entry that have none."""
    plain = condition("dword", "eq", 7)
    filters = {"a": filter_of([plain, condition(length, operator, value, 5)], mismatch, match)}
    filters["a"]["filter"].insert(0, {"syscall": "write"})
    default = [line("a.mismatch_action", "allows-by-default")] if mismatch in ("allow", "log") else []
    return warned(filters, *default, *(line("a.filter[1].args[1]", it) for it in codes))


def masked(mask):
    """Returns the operator under this mask."""
    return {"masked_eq": mask}


# Actions, and their codes. One that kills, and one that lets calls through, has codes that depend on its place.
ACTIONS = [
    ({"errno": 0}, ["fake-success"]), ({"errno": 1}, []), ({"errno": 4}, ["endless-retry"]),
    ({"errno": 65540}, ["errno-too-large", "endless-retry"]), ({"errno": 11}, []), ({"errno": 4095}, []),
    ({"errno": 4096}, ["errno-too-large"]), ({"errno": 65535}, ["errno-too-large"]),
    ({"errno": 65536}, ["fake-success", "errno-too-large"]), ({"errno": 65537}, ["errno-too-large"]),
    ({"errno": 4294901760}, ["fake-success", "errno-too-large"]), ({"errno": 4294967295}, ["errno-too-large"]),
    ({"trace": 0}, ["trace-without-tracer"]), ({"trace": 4294967295}, ["trace-without-tracer"]), ("trap", []),
]

# Two actions, and what is so of them together.
DENYING = [
    ("trap", "kill_process", ["denies-everything"]), ({"errno": 1}, "trap", ["denies-everything"]),
    ("kill_thread", {"errno": 38}, ["denies-everything"]), ("trap", "allow", []), ("log", "trap", []), ("allow", "log", []),
    # A tracer may let a call through.
    ({"trace": 1}, "trap", []),
    ("kill_process", {"trace": 1}, []),
]

# Conditions that a filter has on an argument of each call: on addresses, on signed numbers, and on flags that change nothing.
O_CLOEXEC, SIGCHLD = 0x80000, 17
ASKED = [
    *(("qword", "eq", it) for it in (0, 0x1000)), *(("dword", "eq", it) for it in (1, 3, 0x400, O_CLOEXEC, O_CLOEXEC | 3)),
    *(("dword", masked(mask), value) for mask, value in ((LOW, 3), (O_CLOEXEC, 0), (O_CLOEXEC | 3, 1))), ("qword", masked(1), 1),
    ("qword", "ne", 1), ("qword", "le", 3), ("dword", "lt", 3), ("dword", "ge", 3), ("qword", "gt", 1),
]

# Entries of a call, each with its conditions, and the codes of evasions that they have: the whole filter decides both calls.
TIOCSTI, AT_WRITE = 0x5412, (1, "dword", "eq", 1)
BESIDE_OTHERS = [
    ("ioctl", [[(1, "qword", "eq", TIOCSTI)], [(1, "qword", "gt", LOW)]], []),
    ("ioctl", [[(1, "qword", "eq", TIOCSTI)], [(1, "qword", "gt", LOW + 2**32)]], ["filter[0].args[0] high-half-evades"]),
    ("ioctl", [[(1, "qword", "eq", TIOCSTI)], [(1, "dword", "eq", TIOCSTI)]], []),
    ("ioctl", [[(0, "dword", "eq", 1), (1, "qword", "eq", TIOCSTI)]], ["filter[0].args[1] high-half-evades"]),
    ("ioctl", [[(1, "qword", "gt", 4), (1, "qword", "lt", 9)]], ["filter[0].args[1] high-half-evades"]),
    ("ioctl", [[(1, "qword", "gt", 9), (1, "qword", "lt", 10)]], []),
    # Another condition excludes the number itself.
    ("ioctl", [[(1, "qword", "le", 9), (1, "qword", "ne", 9)]], ["filter[0].args[0] high-half-evades"]),
    ("ioctl", [[(1, "qword", "le", 9), (1, "qword", "ne", 9), (0, "dword", "lt", 3)], [(1, "qword", "gt", LOW)]], []),
    ("open", [[(1, "dword", "eq", 0)], [(1, "dword", "eq", O_CLOEXEC)]], []),
    ("open", [[AT_WRITE], [(1, "dword", "eq", O_CLOEXEC)]], ["filter[0].args[0] flag-evades", "filter[1].args[0] flag-evades"]),
    ("open", [[AT_WRITE, (2, "dword", "eq", 5)], [(1, "dword", "eq", O_CLOEXEC | 1), (2, "dword", "le", 4)]], [
        "filter[0].args[0] flag-evades", "filter[1].args[0] flag-evades"]),
    ("open", [[AT_WRITE, (2, "dword", "eq", 5)], [(1, "dword", "eq", O_CLOEXEC | 1), (2, "dword", "le", 5)]], []),
]


def of_entries(name, entries, codes):
    """Returns the cases of a filter that denies calls by entries, with the places and codes of its evasions."""
    made = [{"syscall": name, "args": [condition(*rest, index) for index, *rest in it]} for it in entries]
    filters = {"a": {"mismatch_action": "allow", "match_action": "trap", "filter": made}}
    lines = (line(f"a.{place}", code) for place, code in (it.split() for it in codes))
    return warned(filters, *lines, allowed=f"{OF_PARTS} --allow allows-by-default --allow pointer-compared --allow condition-evaded")


# Filters that let a call through by a condition, beside other entries, and the calls that evade it: what is asked of the first one, and the
# other one with what it takes. The index, operator and value of the condition are those of a "dword".
NEW_USER, READS, NO_EXEC = 0x10000000, (masked(3), 0), (masked(4), 0)
BY_OTHERS = ("openat2", "creat", "io_uring_setup")
DETOURED = [
    ("open", (1, *READS), ["openat"], [(2, "openat", 2, 2)]),
    *(("open", (1, *READS), [other], [(2, other, 0, 0)]) for other in BY_OTHERS),
    ("openat", (2, *READS), ["open"], [(2, "open", 1, 2)]),
    *(("openat", (2, *READS), [other], [(2, other, 0, 0)]) for other in BY_OTHERS),
    ("openat", (2, *READS), [*BY_OTHERS, "open"], [(2, "open", 1, 2), *((2, other, 0, 0) for other in BY_OTHERS)]),
    ("mmap", (2, *NO_EXEC), ["mprotect"], [(4, "mprotect", 2, 4)]),
    ("mmap", (2, *NO_EXEC), ["pkey_mprotect"], [(4, "pkey_mprotect", 2, 4)]),
    ("mmap", (2, "eq", 3), ["mprotect"], [(7, "mprotect", 2, 7)]),
    ("mprotect", (2, *NO_EXEC), ["pkey_mprotect"], [(4, "pkey_mprotect", 2, 4)]),
    ("pkey_mprotect", (2, *NO_EXEC), ["mprotect"], [(4, "mprotect", 2, 4)]),
    ("clone", (0, masked(NEW_USER), 0), ["unshare"], [(NEW_USER, "unshare", 0, NEW_USER)]),
    # unshare takes no signal.
    ("clone", (0, "eq", SIGCHLD), ["unshare"], [(NEW_USER | SIGCHLD, "unshare", 0, NEW_USER)]),
    ("unshare", (0, masked(NEW_USER), 0), ["clone"], [(NEW_USER, "clone", 0, NEW_USER)]),
    ("unshare", (0, masked(NEW_USER), 0), ["clone3"], [(NEW_USER, "clone3", 0, 0)]),
    ("socket", (0, "eq", 1), ["io_uring_setup"], [(17, "io_uring_setup", 0, 0)]),
    # The number of the condition is denied itself.
    ("socket", (0, "ne", 16), ["io_uring_setup"], [(16, "io_uring_setup", 0, 0)]),
    ("openat", (2, "gt", 4), ["open"], [(4, "open", 1, 4)]),
    ("openat", (2, "ge", 1), ["open"], [(0, "open", 1, 0)]),
    ("socket", (0, "le", 2), ["io_uring_setup"], [(18, "io_uring_setup", 0, 0)]),
    ("openat", (2, "lt", 2), ["open"], [(3, "open", 1, 3)]),
    # The other call is denied too: all of it, or by the same condition; another condition lets the same through, or doesn't.
    ("openat", (2, *READS), [], []), ("openat", (2, *READS), [("open", 1, *READS)], []),
    ("openat", (2, *READS), [("open", 1, "eq", 2)], [(2, "open", 1, 2)]), ("openat", (2, *READS), [("open", 1, "eq", 1)], []),
    ("mprotect", (2, *NO_EXEC), [("pkey_mprotect", 2, *NO_EXEC), ("mmap", 2, *NO_EXEC)], []),
    ("clone", (0, masked(NEW_USER), 0), [("unshare", 0, masked(NEW_USER), 0)], []),
    # What is asked is let through, by the condition or by another entry; the condition is on another argument; or the other call isn't
    # one of these.
    ("openat", (2, "eq", 2), ["open"], []), ("openat", (2, masked(1), 0), ["open"], []),
    ("openat", (2, *READS), ["open", ("openat", 2, "eq", 2)], []), ("openat", (3, *READS), ["open"], []),
    ("openat", (2, *READS), ["mmap"], []), ("socketpair", (0, "eq", 1), ["io_uring_setup"], []),
]
# The same of filters that deny a call by a condition, and let through what no entry matches: what the entry denies is asked of the other
# call, if that takes some of it.
WRITES, EXEC = (masked(3), 1), (masked(4), 4)
DENIED = [
    ("openat", (2, *WRITES), [], [(1, "open", 1, 1), *((1, other, 0, 0) for other in BY_OTHERS)]),
    ("open", (1, *WRITES), [], [(1, "openat", 2, 1), *((1, other, 0, 0) for other in BY_OTHERS)]),
    ("openat", (2, *WRITES), ["open", *BY_OTHERS], []),
    ("openat", (2, "gt", 4), ["openat2"], [(5, "open", 1, 5), (5, "creat", 0, 0), (5, "io_uring_setup", 0, 0)]),
    ("mmap", (2, *EXEC), [], [(4, "mprotect", 2, 4), (4, "pkey_mprotect", 2, 4)]),
    ("mmap", (2, "eq", 5), [("pkey_mprotect", 3, "eq", 1)], [(5, "mprotect", 2, 5), (5, "pkey_mprotect", 2, 5)]),
    ("mmap", (2, *EXEC), ["mprotect", "pkey_mprotect"], []), ("mprotect", (2, *EXEC), [], [(4, "pkey_mprotect", 2, 4)]),
    ("mprotect", (2, *EXEC), ["pkey_mprotect"], []), ("pkey_mprotect", (2, *EXEC), [], [(4, "mprotect", 2, 4)]),
    ("clone", (0, masked(NEW_USER), NEW_USER), [], [(NEW_USER, "unshare", 0, NEW_USER)]),
    ("unshare", (0, masked(NEW_USER), NEW_USER), [], [(NEW_USER, "clone", 0, NEW_USER), (NEW_USER, "clone3", 0, 0)]),
    ("socket", (0, "eq", 16), [], [(16, "io_uring_setup", 0, 0)]),
    ("socket", (0, "lt", 3), [], [(2, "io_uring_setup", 0, 0)]),
    # Nothing of it is asked of the other call.
    ("openat", (2, *READS), [], []),
    ("clone", (0, "eq", SIGCHLD), [], []),
    ("clone", (0, masked(NEW_USER), 0), [], []),
]
NOT_OF_THESE = "".join(f" --allow {it}" for it in ("clone-by-clone3", "flag-evades", "allows-by-default"))


def called(name, index, value):
    """Returns a call as it is shown, with this argument and else 0."""
    return f"{name}({', '.join(f'0x{value if it == index else 0:x}' for it in range(6))})"


def of_detours(name, asked, beside, evaded, mismatch="trap", match="allow", arch="x86_64"):
    """Returns the cases of a filter that lets a call through by a condition, beside other entries, and is evaded by these calls."""
    entries = [{"syscall": it} if isinstance(it, str) else {"syscall": it[0], "args": [condition("dword", *it[2:], it[1])]} for it in beside]
    own = {"syscall": name, "args": [condition("dword", *asked[1:], asked[0])]}
    filters = {"a": {"mismatch_action": mismatch, "match_action": match, "filter": [own, *entries]}}
    lines = (line("a.filter[0].args[0]", "condition-evaded", calls=f"{called(name, asked[0], more)} is denied, and let through is {called(*other)}")
             for more, *other in evaded)
    return warned(filters, *lines, allowed=f"-a {arch} {OF_PARTS} {NOT_ALL}{NOT_OF_THESE}")


# Actions that deny a call.
DENIES = ("kill_process", "kill_thread", "trap", {"errno": 1})

DEFAULTS = [
    *(it for action in PERMITS for it in warned({"a": filter_of([], action, "trap")}, line("a.mismatch_action", "allows-by-default"))),
    *(it for action in PERMITS for it in warned({"a": filter_of([], "trap", action)})),
    # If the listed calls are let through as well, nothing is denied that could be passed by.
    *of_condition("qword", "eq", 5, [], "allow", "log"),
    *of_condition("qword", "eq", 5, [], "trap", "kill_process"),
    *(it for action in DENIES for it in of_condition("qword", "eq", 5, ["high-half-evades"], "log", action)),
]

# Two filters: byte order of their names, the actions before the entries, and the entries in order.
SEVERAL = {
    "b\n": {"default_action": {"errno": 0}, "filter_action": {"errno": 65536}, "filter": [
        {"syscall": "read"},
        {"syscall": "read", "args": [condition("dword", "lt", 0), condition("dword", "ge", 2**32, 1)]},
        {"syscall": "write", "args": [condition("qword", masked(0), 0, 2)]}]},
    "a\u009b": filter_of([condition("qword", "eq", 1)], "log", "trap"),
}

IN_ORDER = [
    line("a\\xc2\\x9b.mismatch_action", "allows-by-default"), line("a\\xc2\\x9b.filter[0].args[0]", "high-half-evades"),
    line("b\\x0a.mismatch_action", "fake-success"), line("b\\x0a.match_action", "fake-success"),
    line("b\\x0a.match_action", "errno-too-large"), line("b\\x0a.filter[0]", "crate-differs"),
    line("b\\x0a.filter[1].args[0]", "never-holds"), line("b\\x0a.filter[1].args[1]", "high-half-ignored"),
    line("b\\x0a.filter[1].args[1]", "always-holds"), line("b\\x0a.filter[1].args[1]", "pointer-compared"),
    line("b\\x0a.filter[2].args[0]", "always-holds"),
]


# ---- the lines of a policy, whose conditions are tried on values


# Arguments by chance, which show nothing that borders don't: they are here for an operator whose borders lie elsewhere.
CHANCE = random.Random(1)
SOME = {CHANCE.getrandbits(bits) for bits in (32, 64) for _ in range(8)}


def tries(it):
    """Returns arguments that show whether a condition holds for all or for none: borders, and single bits."""
    near = {it["val"], it["val"] & LOW, *((it["val"] ^ 2**bit) for bit in range(64))}
    borders = {(border + step) & WHOLE for border in {*near, 0, 2**32} for step in (-1, 0, 1)}
    return borders | SOME | {2**bit for bit in range(64)}


@functools.cache
def outcomes(size, operator, value):
    """Returns which of true and false a condition is for arguments; a number is the mask of `masked_eq`."""
    it = condition(size, operator if isinstance(operator, str) else masked(operator), value)
    return {holds(it, argument) for argument in tries(it)}


def codes_of(name, it, evaded):
    """Returns the codes that a condition on an argument of a call has, with these codes of evasions, in their order."""
    mask = mask_of(it["op"])
    cut = LOW if it["type"] == "dword" else WHOLE
    holding = outcomes(it["type"], it["op"] if mask is None else mask, it["val"])
    found = {
        "high-half-ignored": it["type"] == "dword" and it["val"] != it["val"] & LOW,
        "value-outside-mask": mask is not None and it["val"] & ~(mask & cut) != 0, "always-holds": holding == {True},
        "never-holds": holding == {False}, **{code: code in evaded for code in EVASIONS},
        "pointer-compared": it["val"] != 0 and name in ADDRESSES.get(it["index"], ()),
        "signed-compared": it["op"] in ("ge", "gt", "le", "lt") and name in SIGNED.get(it["index"], ()),
    }
    return [code for code, so in found.items() if so]


def denies_everything(mismatch, match):
    """Returns whether both actions deny, and no tracer is asked."""
    return all(it not in PERMITS and not (isinstance(it, dict) and "trace" in it) for it in (mismatch, match))


def codes_of_action(action):
    """Returns the codes that an action has wherever it stands, in their order."""
    numbered = action if isinstance(action, dict) else {}
    found = {
        "fake-success": numbered.get("errno", 1) & 65535 == 0, "errno-too-large": numbered.get("errno", 1) >= 4096,
        "endless-retry": numbered.get("errno", 1) & 65535 == 4, "trace-without-tracer": "trace" in numbered,
    }
    return [code for code, so in found.items() if so]


# The calls that Linux goes on with by restart_syscall (-ERESTART_RESTARTBLOCK in its sources).
WAITING = ("nanosleep", "clock_nanosleep", "poll", "futex")

# The calls by which a thread or a process ends, or a signal handler returns.
EXITS = ("exit", "exit_group", "rt_sigreturn")


def asked_of(entries, name):
    """Returns the args of each entry that names this call: none if it has no args."""
    return [it.get("args") for it in entries if it["syscall"] == name]


def codes_of_unlisted(entries, mismatch, match):
    """Returns the calls that no entry names of which something is so, each with its code, in their order."""
    killed = [(name, "kills-exit") for name in EXITS if mismatch not in PERMITS and not asked_of(entries, name)]
    starts = match in PERMITS and mismatch not in PERMITS and asked_of(entries, "set_tid_address")
    if starts and not asked_of(entries, "execve") and not asked_of(entries, "execveat"):
        killed.append(("execve", "no-execve"))
    waits = match in PERMITS and mismatch not in PERMITS and any(asked_of(entries, it) for it in WAITING)
    if waits and not asked_of(entries, "restart_syscall"):
        killed.append(("restart_syscall", "no-restart"))
    is_list_of_denied = mismatch in PERMITS and match not in PERMITS
    if is_list_of_denied and asked_of(entries, "clone") and not asked_of(entries, "clone3"):
        return [*killed, ("clone3", "clone-by-clone3")]
    return killed


def siblings_left(name, entries):
    """Returns the calls by which what this call does can be done too, and that no entry names, in their order."""
    return [it for it in SIBLINGS.get(name, ()) if not asked_of(entries, it)]


def codes_of_entry(entry, entries, mismatch, match):
    """Returns the codes of one of these entries, each with the call that it tells, in their order. One with args has none."""
    if entry.get("args") is not None:
        return []
    name = entry["syscall"]
    is_list_of_allowed = match in PERMITS and mismatch not in PERMITS
    is_list_of_denied = mismatch in PERMITS and match not in PERMITS
    left = siblings_left(name, entries) if is_list_of_denied else []
    found = {
        "kills-exit": match not in PERMITS and name in EXITS,
        "clone-by-clone3": is_list_of_allowed and name == "clone3" and None not in asked_of(entries, "clone"),
        "sibling-allowed": left,
        "crate-differs": any(args is not None for args in asked_of(entries, name)),
    }
    return [(f" ({left[0]})" if code == "sibling-allowed" else "", code) for code, so in found.items() if so]


def hides_clone3(it):
    """Returns whether a filter answers each clone3 by errno 38, as a kernel that hasn't the call."""
    mismatch, match = (action.get("errno") if isinstance(action, dict) else None for action in actions_of(it))
    asked = asked_of(it["filter"], "clone3")
    return any(not args for args in asked) if match == 38 else mismatch == 38 and not asked


def hides_alone(it):
    """Returns whether a filter does this, and lets all other calls through."""
    return actions_of(it)[0] in PERMITS and hides_clone3(it) and all(entry["syscall"] == "clone3" for entry in it["filter"])


def settled_in(filters, it):
    """Returns the codes of which a filter of a text has no warning, since other filters of the text have to do with it."""
    if not any(hides_clone3(other) for other in filters):
        return []
    paired = hides_alone(it) and not all(hides_alone(other) for other in filters)
    return ["clone-by-clone3"] + ["allows-by-default"] * paired


def lines_of_filter(name, it, settled=()):
    """Returns the lines of the warnings of a filter of this name, but for those of the settled codes, as a list of single lines."""
    mismatch, match = actions_of(it)
    evasions = evasions_of(it)
    lines = [line(f"{name}.mismatch_action", code) for code in codes_of_action(mismatch)]
    if mismatch in PERMITS:
        lines.append(line(f"{name}.mismatch_action", "allows-by-default"))
    unlisted = codes_of_unlisted(it["filter"], mismatch, match)
    lines += [line(f"{name}.mismatch_action ({call})", code) for call, code in unlisted]
    lines += [line(f"{name}.match_action", code) for code in codes_of_action(match)]
    lines += [line(f"{name}.match_action", "denies-everything")] * denies_everything(mismatch, match)
    for entry, rule in enumerate(it["filter"]):
        codes = codes_of_entry(rule, it["filter"], mismatch, match)
        lines += [line(f"{name}.filter[{entry}]{call}", code) for call, code in codes]
        for place, compared in enumerate(rule.get("args") or []):
            calls = {code: evasions[entry, place, code] for code in EVASIONS if (entry, place, code) in evasions}
            codes = codes_of(rule["syscall"], compared, calls)
            lines += [line(f"{name}.filter[{entry}].args[{place}]", code, calls=each) for code in codes for each in calls.get(code, [CALLS])]
    return [it for it in lines if not any(f" [{code}]: " in it for code in settled)]


def lines_of(policy):
    """Returns the lines of the warnings of a policy, whose filters have names without control characters."""
    filters = json.loads(policy)
    names = sorted(filters, key=lambda name: name.encode())
    all_filters = list(filters.values())
    return grouped("".join(it for name in names for it in lines_of_filter(name, filters[name], settled_in(all_filters, filters[name]))))


def names_in(*tables):
    """Returns the calls that tables have by the index of an argument."""
    return {name for table in tables for calls in table.values() for name in calls}


def of_each_call():
    """Returns the texts of policies whose filters ask the same of an argument of each call that has a known one, and deny or allow by that.
    Calls that only have addresses are asked for 0 and another one."""
    for index, it in itertools.product(range(6), ASKED):
        names = names_in(SIGNED, *[ADDRESSES] * (it[2] in (0, 0x1000))) | {name for name, *_ in FLAGS}
        entries = [{"syscall": name, "args": [condition(*it, index)]} for name in sorted(names)]
        yield json.dumps({name: {"mismatch_action": mismatch, "match_action": match, "filter": entries}
                          for name, mismatch, match in (("a", "allow", "trap"), ("b", {"errno": 1}, "log"))})


FAULTY = json.dumps({"a": filter_of([condition("dword", "lt", 0)], {"errno": 0}, {"errno": 0})})

CASES = [
    *(it for action, codes in ACTIONS for it in of_action(action, codes)), *(it for row in DENYING for it in of_both(*row)),
    *(writes(f"check {ALLOWED}", it, lines_of(it)) for it in of_each_call()), *DEFAULTS,
    *(it for row in BESIDE_OTHERS for it in of_entries(*row)), *(it for row in DETOURED for it in of_detours(*row)),
    # Whatever lets calls through; and nothing that is listed is let through, or all is.
    *of_detours("openat", (2, *READS), ["open"], [(2, "open", 1, 2)], {"errno": 1}, "log"),
    *of_detours("openat", (2, "eq", 1), ["openat2"], [(1, "open", 1, 1), (1, "creat", 0, 0), (1, "io_uring_setup", 0, 0)], "allow", "trap"),
    *(it for row in DENIED for it in of_detours(*row, "allow", {"errno": 1})),
    *(it for row in DENIED for it in of_detours(*row[:3], [], "kill_process", {"errno": 1})),
    *of_detours("openat", (2, *READS), ["open"], [], "allow", "log"),
    # aarch64 has no open, and number 2 is io_submit.
    *of_detours("openat", (2, *READS), ["io_submit"], [], arch="aarch64"),
    *of_detours("openat", (2, *READS), ["openat2", "io_submit"], [(2, "openat2", 0, 0)], arch="aarch64"),
    *of_detours("socket", (0, "eq", 1), ["io_uring_setup"], [(17, "io_uring_setup", 0, 0)], arch="riscv64"),
    *warned(SEVERAL, *IN_ORDER),
    *warned({}),
    # A policy with a fault has no warnings.
    rejects("check", FAULTY, "a: expected two actions that differ, found the same one twice\n"),
    # If the warnings can't be written, that is told.
    rejects("check > /dev/full", json.dumps({"a": filter_of([], {"errno": 0}, "allow")}), FULL, OUTPUT),
]
