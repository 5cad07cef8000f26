"""What tools/try-jail tries of `seccomptool stack`: programs that a process installs one after the other, in each order, answer as the
one that `stack` makes of them, which is installed alone, and as `explain` says of it."""

import ctypes
import itertools
import os
import platform
import random
import re
import struct

from commands import run
from jail.running import TOOL
from jail.running_kernel import under
from model import ARCHITECTURES, numbers_on

# Calls that do nothing, by their numbers.
MACHINE = platform.machine()
CALLS = {it: numbers_on(MACHINE)[it] for it in ("sched_yield", "getuid", "getgid", "geteuid", "getegid", "getppid") if MACHINE in ARCHITECTURES}

# Return values of each action (linux/seccomp.h), and what a process without a tracer and without a supervisor sees of them: nothing,
# an error number, or SIGSYS.
SEEN = {
    0x80000000: "killed", 0x00000000: "killed", 0x00030000: "killed", 0x00050001: "errno 1", 0x00050002: "errno 2",
    0x7FC00000: "errno 38", 0x7FF00007: "errno 38", 0x7FFC0000: "made", 0x7FFF0000: "made",
}

# What `explain` calls them.
NAMES = {
    "kill_process": "killed", "kill_thread": "killed", "trap": "killed", "user_notif": "errno 38", "trace 7": "errno 38", "log": "made",
    "allow": "made", "errno 1": "errno 1", "errno 2": "errno 2"
}


def program(words):
    """Returns the program that answers each of CALLS by a word, and allows all others."""
    code = [(0x20, 0, 0, 0)]
    for number, word in zip(CALLS.values(), words):
        code += [(0x15, 0, 1, number), (6, 0, 0, word)]
    return b"".join(struct.pack("<HBBI", *it) for it in (*code, (6, 0, 0, 0x7FFF0000)))


def seen(programs, number):
    """Returns what a process sees of a call once it has installed these programs."""
    told, status = under(programs, lambda library, _, out: os.write(out, bytes([library.syscall(number) < 0 and ctypes.get_errno()])))
    return "killed" if status == -31 else "not installed" if status else f"errno {told[0]}" if told[0] else "made"


def try_stack(results, names, words, folder):
    """Tries programs in the order of these files."""
    programs = [(folder / name).read_bytes() for name in names]
    _, err, status = run([TOOL, "stack", "-a", platform.machine(), *names, "-o", "stack.bpf"], folder)
    results.compare(f"stack {names} {words}", ("", 0), (err, status))
    alone = [(folder / "stack.bpf").read_bytes()]
    for call, number in CALLS.items():
        line, _, _ = run([TOOL, "explain", "-a", platform.machine(), "stack.bpf", call], folder)
        told = NAMES.get(re.sub(r" \(E.*", "", line.partition(":")[0]))
        of_all = seen(programs, number)
        results.compare(f"{call} under {names} {words}: alone, and as explain says", (of_all, of_all), (seen(alone, number), told))


def try_stacks(results, folder):
    """Tries three programs in each order, and stacks of more by chance."""
    if not CALLS:
        print(f"no calls of {platform.machine()} are known, so no stacks are tried")
        return
    chance = random.Random(14)
    for _ in range(6):
        words = {f"layer.{k}.bpf": [chance.choice(list(SEEN)) for _ in CALLS] for k in range(3)}
        for name, answers in words.items():
            (folder / name).write_bytes(program(answers))
        single = [seen([(folder / name).read_bytes()], number) for name in words for number in CALLS.values()]
        results.compare(f"each program alone {words}", [SEEN[it] for answers in words.values() for it in answers], single)
        for names in itertools.permutations(words):
            try_stack(results, list(names), [words[name] for name in names], folder)
