"""What tools/check-program runs on large profiles: their answers, and how the work grows with them.

Work is counted in instructions by valgrind's callgrind: twice the profile may take at most MOST times as many. Where valgrind isn't
there, it is the least processor time of some runs, which other processes disturb, so the limit is higher.
"""

import json
import os
import re
import shutil
import subprocess

from model import numbers_on

MOST = 2.2
MOST_TIME = 3.5
RUNS = 3
SECONDS = 600

# What `check` warns of if it is denied.
ENDING = ["exit", "exit_group", "rt_sigreturn", "restart_syscall"]

# What it warns of since libseccomp lacks it.
LACKED = ["listmount", "lsm_get_self_attr", "lsm_list_modules", "lsm_set_self_attr", "mseal", "statmount", "uretprobe"]

CALLS = sorted(set(numbers_on("x86_64")) - set(ENDING) - set(LACKED))[:250]
ACTIONS = ("SCMP_ACT_ALLOW", "SCMP_ACT_LOG")


def profile(*entries):
    """Returns the text of a profile of these entries, which lets a process end, and go on with a call."""
    ending = {"names": ENDING, "action": "SCMP_ACT_ALLOW"}
    return json.dumps({"defaultAction": "SCMP_ACT_ERRNO", "syscalls": [ending, *entries]})


def alternating(number):
    """Returns a profile of so many entries, of which no two neighbours have one action."""
    return profile(*({"names": [CALLS[k % len(CALLS)]], "action": ACTIONS[k % 2]} for k in range(number)))


def conditioned(number):
    """Returns a profile of so many entries, of which no two neighbours have one action: each of one value of an argument."""
    return profile(*({"names": [CALLS[k % len(CALLS)]], "action": ACTIONS[(k + k // len(CALLS)) % 2],
                      "args": [{"index": 0, "value": k, "op": "SCMP_CMP_EQ"}]} for k in range(number)))


def valued(number):
    """Returns a profile of so many entries of one call, each of one value of an argument."""
    return profile(*({"names": [CALLS[0]], "action": ACTIONS[k % 2], "args": [{"index": 0, "value": k, "op": "SCMP_CMP_EQ"}]}
                     for k in range(number)))


def named(number):
    """Returns a profile with an entry of so many names, half of which are of no call."""
    return profile({"names": [CALLS[k // 2 % len(CALLS)] if k % 2 else f"no_call_{k}" for k in range(number)], "action": "SCMP_ACT_ALLOW"})


def long(number):
    """Returns a profile of so many bytes at least, in entries of which each has all that an entry may have."""
    entries, told = [], 0
    while told < number:
        k = len(entries)
        entries.append({
            "names": [CALLS[k % len(CALLS)]], "action": "SCMP_ACT_ALLOW", "comment": f"entry {k}",
            "args": [{"index": 0, "value": 1, "valueTwo": 2, "op": "SCMP_CMP_EQ"}],
            "includes": {"caps": ["CAP_SYS_ADMIN"], "minKernel": "4.8"}, "excludes": {"arches": ["riscv64"], "caps": ["CAP_KILL"]},
        })
        told += len(json.dumps(entries[-1])) + 2
    return profile(*entries)


def wrong(number):
    """Returns a policy of so many entries, each of which has an error."""
    entries = [{"syscall": "read", "args": [], "comment": f"entry {k}"} for k in range(number)]
    return json.dumps({"main": {"mismatch_action": "trap", "match_action": "allow", "filter": entries}})


TOO_LONG = ": The profile's program needs more than 4096 instructions.\n"
LEFT_OUT = ": 25000 names that x86_64 has no call for are left out\n"
FIRST = CALLS[0]

# Profiles of a size, with the words of a command, in which FILE is the profile; its status, its output, of which a text that ends
# with `..` says the beginning, how many lines that has, and what follows the file's name on standard error.
ANSWERS = [
    (alternating, 4000, "compile -o program.bpf FILE", 0, "", 0, ""),
    (alternating, 4000, "explain program.bpf " + CALLS[1], 0, f"log: {CALLS[1]} (..", 1, ""),
    (alternating, 4000, "check FILE", 0, "..", 4000 - len(CALLS), ""),
    (alternating, 4000, "explain FILE " + CALLS[1], 0, f"log: syscalls[2] of {CALLS[1]} (..", 1, ""),
    (conditioned, 2000, "compile -o program.bpf FILE", 0, "", 0, ""),
    (conditioned, 2000, f"explain program.bpf {FIRST} 250", 0, f"log: {FIRST} (..", 1, ""),
    (conditioned, 2000, "check --allow pointer-compared FILE", 0, "", 0, ""),
    (conditioned, 4000, "compile FILE", 2, "", 0, TOO_LONG),
    (conditioned, 4000, "check FILE", 1, "", 0, TOO_LONG),
    (conditioned, 4000, f"explain FILE {FIRST} 3750", 0, f"log: syscalls[3751] of {FIRST} (..", 1, ""),
    (named, 50000, "compile -o program.bpf FILE", 0, "", 0, LEFT_OUT),
    (named, 50000, f"explain program.bpf {FIRST}", 0, f"allow: {FIRST} (..", 1, ""),
    (named, 50000, "check FILE", 0, "", 0, LEFT_OUT),
    (named, 50000, f"explain FILE {FIRST}", 0, f"allow: syscalls[1] of {FIRST} (..", 1, ""),
    (long, 1000000, "compile -o program.bpf FILE", 0, "", 0, ""),
    (long, 1000000, "check FILE", 0, "", 0, ""),
    (long, 1000000, f"explain --cap CAP_SYS_ADMIN FILE {FIRST} 1", 0, f"allow: syscalls[1] of {FIRST} (..", 1, ""),
]

# Profiles whose size is doubled, from this one, and policies that are rejected.
GROWING = [(alternating, 1000), (conditioned, 1000), (valued, 1000), (named, 10000), (long, 200000), (wrong, 10000)]
COMMANDS = ("compile -o program.bpf FILE", "check FILE", f"explain FILE {FIRST}")


def words_of(tool, words, file):
    """Returns the command of a row."""
    return [str(tool), *(str(file) if it == "FILE" else it for it in words.split())]


def run(command, folder):
    """Runs a command; returns its status, output and standard error."""
    ran = subprocess.run(command, cwd=folder, stdin=subprocess.DEVNULL, capture_output=True, timeout=SECONDS, text=True)
    return ran.returncode, ran.stdout, ran.stderr


def check_answers(results, tool, folder, make):
    """Compares what the commands answer of the large profiles of one kind."""
    room = folder / f"answers-{make.__name__}"
    room.mkdir()
    for kind, number, words, status, begin, lines, told in ANSWERS:
        if kind is not make:
            continue
        file = room / f"{make.__name__}-{number}.json"
        if not file.exists():
            file.write_text(make(number))
        found, output, errors = run(words_of(tool, words, file), room)
        begins = output.startswith(begin[:-2]) if begin.endswith("..") else output == begin
        well = (found, output.count("\n"), errors) == (status, lines, told and f"seccomptool: {file}{told}") and begins
        results.tell(f"{words} of {make.__name__} {number}", well, (found, output, errors))


def work_of(command, folder):
    """Returns how much work a command is, as callgrind counts it, or as processor time if valgrind isn't there."""
    if shutil.which("valgrind"):
        told = run(["valgrind", "--tool=callgrind", "--callgrind-out-file=/dev/null", *command], folder)[2]
        return int(re.search(r"Collected *: *(\d+)", told)[1])
    times = []
    for _ in range(RUNS):
        child = os.spawnvp(os.P_NOWAIT, "sh", ["sh", "-c", 'cd "$0" && exec "$@" > /dev/null 2>&1', str(folder), *command])
        times.append(os.wait4(child, 0)[2].ru_utime)
    return min(times)


def check_growth(results, tool, folder, make, number):
    """Compares the work on a profile with that on one of twice the size."""
    room = folder / f"growth-{make.__name__}"
    room.mkdir()
    files = [room / f"{size}.json" for size in (number, 2 * number)]
    for file, size in zip(files, (number, 2 * number)):
        file.write_text(make(size))
    for words in COMMANDS:
        once, twice = (work_of(words_of(tool, words, file), room) for file in files)
        most = MOST if shutil.which("valgrind") else MOST_TIME
        results.tell(f"{words} of {make.__name__} twice {number}", twice <= most * once, (f"{once} and {twice}",))


def parts_of(tool, folder):
    """Returns the parts of what is run, each a function and what it is given after the results."""
    if not shutil.which("valgrind"):
        print(f"valgrind isn't there, so the work on profiles is processor time, and may be {MOST_TIME} times as much for twice a profile")
    makers = dict.fromkeys(make for make, *_ in ANSWERS)
    return [*((check_growth, tool, folder, *it) for it in GROWING), *((check_answers, tool, folder, it) for it in makers)]
