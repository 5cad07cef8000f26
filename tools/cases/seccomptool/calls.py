"""What `check` has to warn of by the names of calls: those that a filter has entries of, and those that it doesn't have.

The lines are those of warnings.py, but for some filters whose codes stand here. More filters come by chance.
"""

import json
import random

from cases.forms import policies_of, writes
from cases.warning_tables import SIBLINGS

from .warnings import ALLOWED, EXITS, NOT_ALL, PERMITS, WAITING, condition, line, lines_of, warned

# What an entry may ask of its call.
ASKED = [condition("dword", "eq", 7)]

# How many filters come by chance, how many a policy has of them, and the most entries of one.
BY_CHANCE, FILTERS, ENTRIES = 960, 6, 6
NAMES = (*EXITS, "clone", "clone3", "execve", "set_tid_address", "futex", "unshare")
ACTIONS = ("allow", "log", "kill_process", "kill_thread", "trap", {"errno": 38})


def entry(name, args=None):
    """Returns the entry of a call that asks for these args, or for none."""
    return {"syscall": name, "args": args} if args else {"syscall": name}


def asking(name):
    """Returns the entry of a call that asks for an argument."""
    return entry(name, ASKED)


def of_calls(mismatch, match, entries, warnings):
    """Returns the cases of a filter of these actions and entries, if an entry may be a name, that has these warnings,
    each a place and a code, beside `allows-by-default` if it does."""
    entries = [entry(it) if isinstance(it, str) else it for it in entries]
    filters = {"a": {"mismatch_action": mismatch, "match_action": match, "filter": entries}}
    default = [("mismatch_action", "allows-by-default")] if mismatch in PERMITS else []
    return warned(filters, *(line(f"a.{place}", code) for place, code in [*default, *warnings]), allowed=f"{ALLOWED} {NOT_ALL}")


def of_pair(first, second, warnings):
    """Returns the cases of a policy of two filters, each two actions and entries, that has these warnings, each a filter with a place
    and a code."""
    filters = {name: {"mismatch_action": mismatch, "match_action": match, "filter": [entry(it) if isinstance(it, str) else it for it in entries]}
               for name, (mismatch, match, entries) in zip("ab", (first, second))}
    return warned(filters, *(line(place, code) for place, code in warnings), allowed=f"{ALLOWED} {NOT_ALL}")


def killed(*calls):
    """Returns the warnings of calls that the mismatch action denies."""
    return [(f"mismatch_action ({it})", "kills-exit") for it in calls]


def at(code, *places):
    """Returns the warnings of this code of the entries at these places."""
    return [(f"filter[{it}]", code) for it in places]


def let_through(place, call):
    """Returns the warning of the entry at this place that this call does the same."""
    return (f"filter[{place}] ({call})", "sibling-allowed")


# Filters that have a code, and one that doesn't.
TOLD = [
    ("kill_process", "trap", ["exit_group", "rt_sigreturn"], [*killed("exit"), *at("kills-exit", 0, 1)]),
    ("trap", "allow", ["set_tid_address", *EXITS], [("mismatch_action (execve)", "no-execve")]),
    ({"errno": 1}, "log", [asking("futex"), *EXITS], [("mismatch_action (restart_syscall)", "no-restart")]),
    ("allow", {"errno": 1}, ["clone"], [("mismatch_action (clone3)", "clone-by-clone3"), let_through(0, "fork")]),
    ("trap", "allow", ["clone3", *EXITS], at("clone-by-clone3", 0)),
    ("allow", {"errno": 1}, ["ptrace", asking("ptrace")], [let_through(0, "process_vm_writev"), *at("crate-differs", 0)]),
    ("trap", "allow", ["clone", "read", *EXITS], []),
]

# Pairs of actions, and lists of entries that a filter of each pair has: of each code some by which the filter has it, if its actions do,
# and some that just don't. An entry with args names its call too.
PAIRS = [
    ("kill_process", "allow"), ("kill_thread", "log"), ({"errno": 1}, "allow"), ({"trace": 1}, "allow"), ("log", "allow"), ("allow", "log"),
    ("allow", "kill_process"), ("log", "kill_thread"), ("allow", {"errno": 1}), ("allow", "trap"), ("kill_process", "kill_thread"),
]
LISTS = [
    [], ["execve", "rt_sigprocmask"], ["rt_sigreturn", "exit"], ["exit_group", "exit", "exit"], ["exit_group", "rt_sigreturn", asking("exit")],
    [asking("exit_group"), "rt_sigaction"], ["exit_group", asking("exit")], [*EXITS],
    # A filter that a running program installs doesn't list the call by which programs start.
    ["set_tid_address"], [asking("set_tid_address")], *(["set_tid_address", it] for it in ("execve", "execveat", asking("execve"))), ["read"],
    # Linux goes on with `ppoll` by itself.
    *([it] for it in (*WAITING, asking("futex"), "ppoll")), ["nanosleep", "restart_syscall"], ["poll", asking("restart_syscall")],
    ["read", asking("clone")], ["clone", "clone3"], ["clone", asking("clone3")], ["clone3"], ["read", asking("clone"), "clone3", "clone3"],
    [asking("clone"), asking("clone3")], [asking("clone"), "clone", "clone3"], [asking("clone3"), "clone3"],
    *([name, *others[:count]] for name, others in SIBLINGS.items() for count in range(len(others) + 1)),
    ["openat2", "openat", "open"], ["kill", "pidfd_send_signal", asking("tgkill"), "tkill", asking("rt_sigqueueinfo")], [asking("kill")],
    ["kill", "tgkill", "kill"], ["execveat"], ["mprotect", "unshare", "socket", "connect"], ["unshare", "clone", "clone3", "fork", "vfork"],
    ["read", asking("read")], [asking("read"), "write", "read", "read"], [{"syscall": "read", "args": None}, asking("read")], ["read", "read"],
    [asking("read"), asking("read")], ["read", asking("readv"), asking("write")], ["exit", asking("exit")],
]

# The filter that is usually put beside another one, and one that lets clone3 through.
HIDES = ("allow", {"errno": 38}, ["clone3"])
LETS = ({"errno": 1}, "allow", [asking("clone"), "clone3", *EXITS])
OPEN = [("b.mismatch_action", "allows-by-default")]

TOGETHER = [
    # Neither has a warning.
    (LETS, HIDES, []),
    (("trap", "allow", ["clone3", *EXITS]), HIDES, []),
    (LETS, ("log", {"errno": 38}, ["clone3", asking("clone3")]), [("b.filter[0]", "crate-differs")]),
    # The other one does more, so that it may be meant to be alone.
    (LETS, ("allow", {"errno": 38}, ["clone3", "read"]), OPEN),
    (("allow", {"errno": 1}, ["read", asking("clone")]), HIDES, [
        ("a.mismatch_action", "allows-by-default"), ("a.filter[1].args[0]", "flag-evades")]),
    (HIDES, HIDES, [("a.mismatch_action", "allows-by-default"), *OPEN]),
    (LETS, ({"errno": 38}, "allow", EXITS), []),
    # It lets some clone3 through, or denies it by another errno.
    (LETS, ("allow", {"errno": 38}, [asking("clone3")]), [("a.filter[1]", "clone-by-clone3"), *OPEN]),
    (LETS, ("allow", {"errno": 1}, ["clone3"]), [("a.filter[1]", "clone-by-clone3"), *OPEN]),
    (LETS, ({"errno": 38}, "allow", [asking("clone3"), *EXITS]), [("a.filter[1]", "clone-by-clone3")]),
    (LETS, ({"errno": 38}, {"errno": 1}, ["clone3", *EXITS]), [
        ("a.filter[1]", "clone-by-clone3"), *((f"b.filter[{it}]", "kills-exit") for it in (1, 2, 3))]),
    (LETS, ("kill_process", {"errno": 38}, ["clone3", *EXITS]), [(f"b.filter[{it}]", "kills-exit") for it in (1, 2, 3)]),
]


def of_each_pair(entries):
    """Returns the text of a policy whose filters have these entries, if an entry may be a name, under each pair of actions."""
    entries = [entry(it) if isinstance(it, str) else it for it in entries]
    return json.dumps({f"f{number}": {"mismatch_action": mismatch, "match_action": match, "filter": entries}
                       for number, (mismatch, match) in enumerate(PAIRS)})


def some_filter(chance):
    """Returns a filter by chance, of entries that are mostly of calls that have codes."""
    mismatch, match = chance.sample(ACTIONS, 2)
    entries = [entry(chance.choice(NAMES), chance.choice([None, ASKED])) for _ in range(chance.randint(0, ENTRIES))]
    return {"mismatch_action": mismatch, "match_action": match, "filter": entries}


def policies_by_chance():
    """Returns the texts of policies whose filters come by chance."""
    chance = random.Random(1)
    return map(json.dumps, policies_of([some_filter(chance) for _ in range(BY_CHANCE)], FILTERS))


CASES = [
    *(it for row in TOLD for it in of_calls(*row)),
    *(it for row in TOGETHER for it in of_pair(*row)),
    *(writes(f"check {ALLOWED}", it, lines_of(it)) for it in (*map(of_each_pair, LISTS), *policies_by_chance())),
]
