"""What tools/try-jail shows of the codes of docs/CHECKS.md: what the running kernel does under filters that have them.

Of each code there are filters that have it and filters that just don't. Each has calls, with what `call` prints of them.
If seccomptool is built, `check` has to warn of exactly the codes that are stated.
"""

import json
import os
import platform
import random
import re
import sys
from typing import NamedTuple

from commands import TOP, run
from jail.cases import KILLED, TIOCSTI, X32_ANSWERS, X32_BIT, X32_CALLS, answer_of, denying, filter_of, when
from jail.running import EXAMPLES, TOOL
from model import numbers_on

LOW = 2**32 - 1
WHOLE = 2**64 - 1

# What `call` prints of a call that is denied with this errno, which no kernel gives; and of one that is made.
DENIED = answer_of(1000)
MADE = answer_of(0)
NO_TERMINAL, NO_ADDRESS, NO_FILE = answer_of(25), answer_of(14), answer_of(9)

CAT = json.loads((EXAMPLES / "cat-policy.json").read_text(encoding="utf-8"))["cat"]

# The calls by which a thread or a process ends, or a signal handler returns; and all calls of this machine.
EXITS = ("exit", "exit_group", "rt_sigreturn")
NAMES = sorted(numbers_on(platform.machine()))

# Arguments, and masks of two neighbouring bits.
MASKS = [(at, 3 << bit) for at in (0, 1) for bit in range(18)]

# An argument, and conditions on three bits of it by chance, none of which holds: a bit of each isn't the argument's.
PASSES = 0xA5A5_5A5A_C3C3
CHANCE = random.Random(1)
BITS = [[1 << bit for bit in CHANCE.sample(range(48), 3)] for _ in range(200)]
THREES = [(sum(it), PASSES & sum(it) ^ sum(CHANCE.sample(it, CHANCE.randint(1, 3)))) for it in BITS]

# How many of them a high half passes by that none of the others denies.
EVADED = sum(value <= LOW < mask and not any((value ^ mask & ~LOW) & it == other for it, other in THREES) for mask, value in THREES)

YIELD_OF_X32 = str(X32_BIT + X32_CALLS["sched_yield"])


# Calls that the kernel rejects for their arguments if a filter lets them through: flags that don't go together, and a
# structure of no size.
CLONE, CLONE3, INVALID = "clone 0x800", "clone3 0 0", answer_of(22)

TGKILL = "tgkill -1 -1 0"

# Calls by which `call` ends, with its exit status.
ENDED = [("exit 6", 6), ("exit_group 7", 7)]


class Shown(NamedTuple):
    """The codes of a filter, beside `allows-by-default` if it does, the filter, and calls with their answers. A list
    has the answers of kernels that are configured differently. A number is the exit status of `call` if it prints
    nothing."""

    codes: list
    filter: dict
    calls: list


def on_yield(codes, length, operator, value, denied, made):
    """Returns the filter that denies `sched_yield` by a condition, with first arguments that it denies and doesn't."""
    calls = [(f"sched_yield {it}", DENIED) for it in denied] + [(f"sched_yield {it}", MADE) for it in made]
    return Shown(codes, denying(when("sched_yield", (0, length, operator, value))), calls)


def on_terminal(codes, length, operator, others):
    """Returns the filter that denies TIOCSTI by a condition. Standard input is a pipe, so errno 25 is the kernel's."""
    calls = [("ioctl 0 0x5412", DENIED), ("ioctl 0 0x5413", NO_TERMINAL)]
    calls += [(f"ioctl 0 {it}", others) for it in ("0x100005412", "0x8000000000005412")]
    return Shown(codes, denying(when("ioctl", (1, length, operator, TIOCSTI))), calls)


def allowing(*entries):
    """Returns the filter of the example `cat` with these entries too, which answers all other calls with errno 1000."""
    return {**CAT, "mismatch_action": {"errno": 1000}, "filter": CAT["filter"] + denying(*entries)["filter"]}


def on_errno(codes, number, answered):
    """Returns the filter that answers calls with an errno, and what they return. The kernel would reject each of them,
    for an address or a user that isn't."""
    calls = [(it, answer_of(answered)) for it in ("chroot 0", "mkdir 0", "mkdirat 0 0", "setuid -1")]
    return Shown(codes, filter_of({"errno": number}, "allow", *(it.split()[0] for it, _ in calls)), calls)


# What is so of a condition by which `openat` is denied and `open`, `openat2`, `creat` and `io_uring_setup` aren't.
BY_OTHERS = ["condition-evaded"] * 4

WARNED = {
    "errno 0": on_errno(["fake-success"], 0, 0), "errno 65536": on_errno(["fake-success", "errno-too-large"], 65536, 0),
    "errno 1000": on_errno([], 1000, 1000), "errno 4095": on_errno([], 4095, 4095), "errno 4096": on_errno(["errno-too-large"], 4096, 4095),
    "errno 70000": on_errno(["errno-too-large"], 70000, 4095), "errno 4": on_errno(["endless-retry"], 4, 4),
    "errno 65537": on_errno(["errno-too-large"], 65537, 1),
    "trace": Shown(["trace-without-tracer"], filter_of({"trace": 1}, "allow", "sched_yield"), [("sched_yield", answer_of(38))]),
    "errno 38": Shown([], filter_of({"errno": 38}, "allow", "sched_yield"), [("sched_yield", answer_of(38))]),
    # The number of x32 is none of the list: the filter lets it through. What the kernel says then isn't the filter's.
    "denies a list": Shown([], denying("sched_yield"), [("sched_yield", DENIED), (YIELD_OF_X32, X32_ANSWERS)]),
    "allows a list": Shown([], {**CAT, "mismatch_action": {"errno": 1000}}, [("chroot 0", DENIED), (YIELD_OF_X32, DENIED)]),
    "the high half is ignored": on_yield(["high-half-ignored"], "dword", "eq", LOW + 6, [5, LOW + 6, 3 * (LOW + 1) + 5], [4, 6, LOW + 5]),
    "the high half is compared": on_yield([], "qword", "eq", LOW + 6, [LOW + 6], [5, 3 * (LOW + 1) + 5]),
    "a bit outside the mask": on_yield(["value-outside-mask"], "dword", {"masked_eq": 3}, 4, [0, 4, 8, 16], [1, 2, 5, 7]),
    "no bit outside the mask": on_yield([], "dword", {"masked_eq": 7}, 4, [4, 12], [0, 1, 8, 16]),
    "at most the greatest dword": on_yield(["always-holds"], "dword", "le", LOW, [0, 1, LOW, LOW + 1, WHOLE], []),
    "at most that of a qword": on_yield(["high-half-evades"], "qword", "le", LOW, [0, 1, LOW], [LOW + 1, WHOLE]),
    "less than 0": on_yield(["never-holds", "unreachable-entry"], "qword", "lt", 0, [], [0, 1, LOW, LOW + 1, WHOLE]),
    "less than 1": on_yield(["high-half-evades"], "qword", "lt", 1, [0], [1, LOW, LOW + 1, WHOLE]),
    "TIOCSTI as a qword": on_terminal(["high-half-evades"], "qword", "eq", NO_TERMINAL),
    "TIOCSTI under a mask": on_terminal(["high-half-evades"], "qword", {"masked_eq": WHOLE}, NO_TERMINAL),
    "TIOCSTI under a mask of its half": on_terminal([], "qword", {"masked_eq": LOW}, DENIED),
    "all but TIOCSTI as a qword": Shown(["high-half-evades"] + ["redundant-entry"] * 2, allowing(when("ioctl", (1, "qword", "ne", TIOCSTI))), [
        ("ioctl 0 0x5412", DENIED), ("ioctl 0 0x5413", NO_TERMINAL), ("ioctl 0 0x100005412", NO_TERMINAL)]),
    "all but TIOCSTI as a dword": Shown(["redundant-entry"] * 2, allowing(when("ioctl", (1, "dword", "ne", TIOCSTI))), [
        ("ioctl 0 0x5412", DENIED), ("ioctl 0 0x5413", NO_TERMINAL), ("ioctl 0 0x100005412", DENIED)]),
    "at most 16 as a qword": on_yield(["high-half-evades"], "qword", "le", 16, [0, 16], [17, LOW + 1, LOW + 17]),
    "at most 16 as a dword": on_yield([], "dword", "le", 16, [0, 16, LOW + 1, LOW + 17], [17]),
    "TIOCSTI as a dword": on_terminal([], "dword", "eq", DENIED),
    "TIOCSTI and all high halves": Shown([], denying(when("ioctl", (1, "qword", "eq", TIOCSTI)), when("ioctl", (1, "qword", "gt", LOW))), [
        ("ioctl 0 0x5412", DENIED), ("ioctl 0 0x100005412", DENIED), ("ioctl 0 0x5413", NO_TERMINAL)]),
    "kills at the end": Shown(["kills-exit"] * 2, filter_of("kill_process", "allow", "exit", "exit_group"), [
        ("exit 0", KILLED), ("exit_group 0", KILLED)]),
    "kills at a return": Shown(["kills-exit"], filter_of("kill_process", "allow", "rt_sigreturn"), ENDED),
    "kills at other arguments": Shown(
        [], filter_of("kill_process", "allow", *(when(it, (0, "qword", "eq", WHOLE - 1)) for it in EXITS)), ENDED),
    "allows all but the end": Shown(
        ["kills-exit"], filter_of("allow", "kill_process", *(it for it in NAMES if it not in EXITS)),
        [("exit 0", KILLED), ("exit_group 0", KILLED)]),
    "allows all": Shown([], filter_of("allow", "kill_process", *NAMES), ENDED),
    "allows all but a restart": Shown(
        ["no-restart"], filter_of("allow", "kill_process", *(it for it in NAMES if it != "restart_syscall")), ENDED),
    "fails at the end": Shown(["kills-exit"] * 2, filter_of({"errno": 1}, "allow", "exit_group", "rt_sigreturn"), []),
    "denies all": Shown(["denies-everything", "kills-exit"], filter_of("trap", {"errno": 1}), []),
    "opens to write": Shown(["flag-evades", *BY_OTHERS], denying(when("openat", (2, "dword", "eq", 1))), [
        ("openat 0 0 1", DENIED), ("openat 0 0 0x80001", NO_ADDRESS)]),
    "opens to write in either way": Shown(BY_OTHERS * 2, denying(*(when("openat", (2, "dword", "eq", it)) for it in (1, 0x80001))), [
        ("openat 0 0 1", DENIED), ("openat 0 0 0x80001", DENIED), ("openat 0 0 2", NO_ADDRESS)]),
    "opens to write as it ends": Shown(["flag-evades", *BY_OTHERS], denying(when("openat", (2, "dword", "eq", 0x80001))), [
        ("openat 0 0 0x80001", DENIED), ("openat 0 0 1", NO_ADDRESS)]),
    "a pipe": Shown(["flag-evades"], denying(when("pipe2", (1, "dword", "eq", 0))), [("pipe2 0 0", DENIED), ("pipe2 0 0x80000", NO_ADDRESS)]),
    "memory with a name that closes": Shown(["flag-evades"], denying(when("memfd_create", (1, "dword", "eq", 1))), [
        ("memfd_create 0 1", DENIED), ("memfd_create 0 0", NO_ADDRESS)]),
    "memory with a name": Shown(["flag-evades"], denying(when("memfd_create", (1, "dword", "eq", 0))), [
        ("memfd_create 0 0", DENIED), ("memfd_create 0 1", NO_ADDRESS)]),
    "opens to write under a mask": Shown(BY_OTHERS, denying(when("openat", (2, "dword", {"masked_eq": 3}, 1))), [
        ("openat 0 0 1", DENIED), ("openat 0 0 0x80001", DENIED), ("openat 0 0 0x80002", NO_ADDRESS), ("open 0 1", NO_ADDRESS)]),
    "opens to read and creates": Shown(["condition-evaded"] * 2, allowing("creat"), [("openat 0 0 2", DENIED), ("creat 0 0", NO_ADDRESS)]),
    "at an address": Shown(["pointer-compared"], denying(when("openat", (1, "qword", "eq", LOW + 2))), [
        (f"openat 0 {LOW + 2} 0", DENIED), (f"openat 0 {LOW + 3} 0", NO_ADDRESS)]),
    "at no address": Shown([], denying(when("openat", (1, "dword", "eq", 0))), [("openat 0 0 0", DENIED), ("openat 0 1 0", NO_ADDRESS)]),
    "past 9": Shown(["signed-compared"], denying(when("lseek", (1, "qword", "gt", 9))), [
        ("lseek -1 10 0", DENIED), ("lseek -1 -1 0", DENIED), ("lseek -1 9 0", NO_FILE)]),
    "at one offset": Shown([], denying(when("lseek", (1, "qword", "eq", LOW + 2))), [
        (f"lseek -1 {LOW + 2} 0", DENIED), ("lseek -1 -1 0", NO_FILE)]),
    "lists no execve": Shown(["no-execve"], {**CAT, "filter": [it for it in CAT["filter"] if it["syscall"] != "execve"]}, []),
    "denies clone": Shown(["clone-by-clone3", "sibling-allowed"], denying("clone"), [(CLONE, DENIED), (CLONE3, INVALID)]),
    "denies clone and its siblings": Shown([], denying("clone", "clone3", "fork", "vfork"), [(CLONE, DENIED), (CLONE3, DENIED), ("fork", DENIED)]),
    "allows clone3": Shown(["clone-by-clone3"], allowing("clone3"), [(CLONE, DENIED), (CLONE3, INVALID)]),
    "allows clone and clone3": Shown([], allowing("clone3", "clone"), [(CLONE, INVALID), (CLONE3, INVALID)]),
    "allows clone": Shown([], allowing("clone"), [(CLONE, INVALID), (CLONE3, DENIED)]),
    "denies kill": Shown(["sibling-allowed"], denying("kill"), [
        ("kill 0 0", DENIED), (TGKILL, INVALID), ("tkill -1 0", INVALID), ("rt_sigqueueinfo 0 0 0", NO_ADDRESS)]),
    "denies kill and its siblings": Shown([], denying("kill", "tgkill", "tkill", "rt_sigqueueinfo", "pidfd_send_signal"), [
        ("kill 0 0", DENIED), (TGKILL, DENIED), ("tkill -1 0", DENIED), ("rt_sigqueueinfo 0 0 0", DENIED)]),
    "denies open": Shown(["sibling-allowed"], denying("open"), [("open 0 0", DENIED), ("creat 0 0", NO_ADDRESS)]),
    "denies unlink": Shown(["sibling-allowed"], denying("unlink"), [("unlink 0", DENIED), ("unlinkat 0 0 0", NO_ADDRESS)]),
    "with and without args": Shown(
        ["crate-differs", "redundant-entry"], denying("sched_yield", when("sched_yield", (0, "dword", "eq", 5))),
        [("sched_yield 5", DENIED), ("sched_yield 4", DENIED)]),
    "with args": on_yield([], "dword", "eq", 5, [5], [4]),
    "more than 9 and less than 10": Shown(
        ["unreachable-entry"],
        denying(when("sched_yield", (0, "qword", "gt", 9), (0, "qword", "lt", 10))),
        [("sched_yield 9", MADE), ("sched_yield 10", MADE)]),
    "more than 9 and less than 11": Shown(
        ["high-half-evades"], denying(when("sched_yield", (0, "qword", "gt", 9), (0, "qword", "lt", 11))),
        [("sched_yield 9", MADE), ("sched_yield 10", DENIED), ("sched_yield 11", MADE)]),
    "one of three is covered": Shown(
        ["redundant-entry"], denying(*(when("sched_yield", (0, "dword", it, at)) for it, at in [("le", 4), ("ge", 9), ("eq", 3)])),
        [("sched_yield 3", DENIED), ("sched_yield 5", MADE), ("sched_yield 9", DENIED)]),
    "many masks": Shown(
        [], denying(*(when("sched_yield", (at, "dword", {"masked_eq": it}, it)) for at, it in MASKS)),
        [("sched_yield 3", DENIED), ("sched_yield 5 5", MADE), ("sched_yield 5 12", DENIED)]),
    # Sets of calls are split bit by bit. For the other entries a call is found that none but them denies.
    "masks that overlap": Shown(
        ["undecided-entry"] * 186 + ["high-half-evades"] * EVADED,
        denying(*(when("sched_yield", (0, "qword", {"masked_eq": mask}, value)) for mask, value in THREES)),
        [(f"sched_yield {PASSES}", MADE), (f"sched_yield {THREES[0][1]}", DENIED)]),
}

POLICY = {name: it.filter for name, it in WARNED.items()}

# The filter that allows clone3, and the one that makes the pair of it.
PAIR = {"main": WARNED["allows clone3"].filter, "main_clone3": filter_of({"errno": 38}, "allow", "clone3")}

# Sets the user, and prints who it is then.
SET_USER = "import os; os.setuid(os.getuid() + 1); print(os.getuid())"

# Handles a signal, and ends.
HANDLED = "trap 'echo caught' USR1; kill -USR1 $$; exit 7"

# Stops a command while it sleeps, goes on with it, and prints how it ends.
STOPPED = "exec 2>/dev/null; sleep 0.5 & sleep 0.1; kill -STOP $!; sleep 0.1; kill -CONT $!; wait $!; echo $?"


def try_warned(results, jailer, folder):
    """Makes the calls under the filters of each code, and compares what they return."""
    for name, it in WARNED.items():
        for words, answers in it.calls:
            out, err, status = run([*jailer.words, "warned.json", name, folder / "bin/call", *words.split()], folder)
            if isinstance(answers, int):
                wanted = "", "", answers
            else:
                among = answers if isinstance(answers, list) else [answers]
                wanted = out if out in among else among, "", 0
            results.compare(f"{jailer} {name}: {words}", wanted, (out, err, status))


def try_believed(results, jailer, folder):
    """Runs commands that believe in a call that isn't made: they go well, no folder is there, and the user is the same."""
    for name in (it for it, shown in WARNED.items() if "fake-success" in shown.codes):
        jailed = [*jailer.words, "warned.json", name]
        found = run([*jailed, "mkdir", "made"], folder), (folder / "made").exists()
        results.compare(f"{jailer} {name}: mkdir", (("", "", 0), False), found)
        found = run([*jailed, sys.executable, "-B", "-c", SET_USER], folder)
        results.compare(f"{jailer} {name}: setuid", (f"{os.getuid()}\n", "", 0), found)
    found = run([*jailer.words, "warned.json", "errno 1000", "mkdir", "made"], folder)
    results.compare(f"{jailer} errno 1000: mkdir", ("", 1, False), (found[0], found[2], (folder / "made").exists()))


def try_ended(results, jailer, folder):
    """Runs a command that ends, and one that returns from a signal handler first: they are killed if the filter does."""
    killed, caught = ("", "", KILLED), ("caught\n", "", 7)
    for name, at_end, at_return in [
        ("kills at the end", killed, ("caught\n", "", KILLED)), ("kills at a return", ("", "", 0), killed),
        ("kills at other arguments", ("", "", 0), caught), ("allows all but the end", killed, killed),
        ("allows all", ("", "", 0), caught),
    ]:
        jailed = [*jailer.words, "warned.json", name]
        results.compare(f"{jailer} {name}: true", at_end, run([*jailed, "true"], folder))
        results.compare(f"{jailer} {name}: a signal handler", at_return, run([*jailed, "sh", "-c", HANDLED], folder))


def try_stopped(results, jailer, folder):
    """Stops a command and goes on with it: it is killed if the filter denies the call by which Linux does that."""
    for name, status in [("allows all but a restart", 128 - KILLED), ("allows all", 0)]:
        found = run([*jailer.words, "warned.json", name, "sh", "-c", STOPPED], folder)
        results.compare(f"{jailer} {name}: a command that is stopped", (f"{status}\n", "", 0), found)


def try_pair(results, jailer, folder):
    """Makes clone3 under both filters of the pair: it fails as on a kernel that hasn't the call."""
    found = run([*jailer.words, "pair.json", "main_clone3,main", folder / "bin/call", *CLONE3.split()], folder)
    results.compare(f"{jailer} pair.json: {CLONE3}", (answer_of(38), "", 0), found)


def try_codes(results, folder):
    """Compares what `check` warns of in the filters with their codes, and all of these with the codes of docs/CHECKS.md."""
    page = (TOP / "docs/CHECKS.md").read_text(encoding="utf-8")
    # The codes after this heading are of profiles alone, which tools/cases/seccomptool/profile_checks.py has.
    page, heading, _ = page.partition("\n## Warnings of profiles\n")
    results.tell("the page has warnings of profiles", bool(heading), ())
    defaults = {name: ["allows-by-default"] * (it["mismatch_action"] in ("allow", "log")) for name, it in POLICY.items()}
    codes = {name: sorted(it.codes + defaults[name]) for name, it in WARNED.items()}
    listed = sorted(re.findall(r"^### `([a-z0-9-]+)`$", page, re.M))
    results.compare("each code has a filter", listed, sorted({code for it in codes.values() for code in it}))
    if TOOL.exists():
        out, err, status = run([TOOL, "check", "warned.json"], folder)
        found = re.findall(r"^warned\.json: ([^.\n]+)\.[^:\n]*: warning \[([a-z0-9-]+)\]: ", out, re.M)
        for name, stated in codes.items():
            results.compare(f"check of {name}", stated, sorted(code for it, code in found if it == name))
        results.compare("check of warned.json", (len(found), "", 0), (out.count("\n"), err, status))
        results.compare("check of pair.json", ("", "", 0), run([TOOL, "check", "pair.json"], folder))
