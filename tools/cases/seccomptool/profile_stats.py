"""What `stats` has to do of profiles as they are: the length and the steps of the one program, and the faults.

The numbers of the cases are counted by hand, and those of all other profiles, and of the policies of `examples/`, by a walk over
the instructions that `compile` writes, as `struct sock_filter` and linux/bpf_common.h have them.
"""

import json

from cases.forms import CLOSED, FOLDER, FULL, MISSING, OUTPUT, RESET, TOOL, Failing, rejects, writes
from model import ARCHITECTURES, JUMP, RETURN, TESTS, instructions_of, numbers_of, record_of, run as run_on
from results import TOP

from .compiled_profiles import PARSING, TOO_LONG, entry, profile
from .oci import COMMENTED, NO_NAME, WRONG_DEFAULT, arch_of, file_of, misused, unnamed, ways
from .profiles import PROFILES
from .stats import LOGS_STEPS

# The containers for which the example is measured.
CONTAINERS = ("", "--cap CAP_SYS_ADMIN", "--kernel 4.4", "-a aarch64", "-a riscv64 --cap CAP_SYS_ADMIN --kernel 4.4")


def most_steps(program):
    """Returns the most instructions on a way from a program's first instruction to a return, whatever its tests say."""
    ways_behind = [0] * len(program)
    for place in range(len(program) - 1, -1, -1):
        code, if_so, if_not, k = program[place]
        nexts = [] if code == RETURN else [k] if code == JUMP else [if_so, if_not] if code in TESTS else [0]
        ways_behind[place] = 1 + max((ways_behind[place + 1 + it] for it in nexts), default=0)
    return ways_behind[0]


def measured(words, written, what="profile"):
    """Returns the line of the numbers of a program in bytes, by a walk over its instructions."""
    program = instructions_of(written)
    _, passing = run_on(program, numbers_of(record_of(2**32 - 1, ARCHITECTURES[arch_of(words)])))
    return f"{what}: {len(written) // 8} instructions, at most {most_steps(program)} steps, {passing} passing\n"


def compare_measures(results, run):
    """Compares the numbers of each profile's program, and of the example's, with those of a walk over what `compile` writes."""
    files = [(words, file_of(place)) for place, (_, words, _, _) in enumerate(PROFILES)]
    for words, file in (*files, *[(it, "examples/oci-profile.json") for it in CONTAINERS]):
        status, written, _ = run(f"compile --oci -q {words} {file}", "")
        wanted = measured(words, written.encode("utf-8", "surrogateescape")) if status == 0 else ""
        for asked in ways("show --stats", f"{words} {file}"):
            results.compare(asked, (0, wanted, ""), run(asked, ""))


def compare_policies(results, run):
    """Compares the numbers of each filter of the policies of `examples/` with those of a walk over what `compile` writes."""
    for path in sorted(TOP.glob("examples/*-policy.json")):
        wanted = ""
        for name in sorted(json.loads(path.read_text(encoding="utf-8"))):
            wanted += f"filter {name}\n"
            for layout in ("linear", "tree"):
                _, written, _ = run(f"compile -q -f '{name}' --layout {layout} examples/{path.name}", "")
                wanted += measured("", written.encode("utf-8", "surrogateescape"), layout)
        results.compare(f"show --stats {path.name}", (0, wanted, ""), run(f"show --stats examples/{path.name}", ""))


def line(length, most, passing):
    """Returns the line of these numbers."""
    return f"profile: {length} instructions, at most {most} steps, {passing} passing\n"


# A load and a test of the architecture's word and the return of another one; a load of the number, and tests of it at 1, at the
# first number of x32 and after its last one; and the returns of three actions. A number after those of x32 takes each test.
READS = line(10, 7, 7)

# The same without an entry: the tests of x32, and two actions. The default action makes no difference.
NOTHING = ALL = line(8, 6, 6)

# On another architecture there is no x32: a load and a test of the architecture's word, and two returns.
NOTHING_ELSEWHERE = line(4, 3, 3)

# x32 is as the default action: a load and a test of the architecture's word, a load and a test of the number, and three returns.
KILLS = line(7, 5, 5)
OPENS = json.dumps(profile(entry("open")))

# Cases of files that are known as profiles, and of no container.
KNOWN = [
    writes("show --stats --oci reads-profile.json", "", READS),
    writes("show --stats --oci", json.dumps(profile(entry("read"))), READS),
    writes("show --stats --oci -", json.dumps(profile(entry("read"), default="SCMP_ACT_KILL")), KILLS),
    writes("show --stats --oci -", json.dumps(profile()), NOTHING),
    writes("show --stats --oci -", json.dumps(profile(entry("read"), default="SCMP_ACT_ALLOW")), ALL),
    # Of the architecture that is named; names that it doesn't have are left out, and not listed, nor are flags.
    writes("show --stats --oci --arch=amd64 -", OPENS, READS), writes("show --stats --oci -a arm64 -", OPENS, NOTHING_ELSEWHERE),
    writes("show --stats --oci -a riscv64 -", OPENS, NOTHING_ELSEWHERE), writes("show --stats --oci unknown-profile.json", "", READS),
    writes("show --stats --oci flags-profile.json", "", READS),
    # A program that just fits, and one that is too large.
    writes("show --stats --oci fitting-profile.json", "", "profile: 4095 instructions, at most .."),
    rejects("show --stats --oci large-profile.json", "", TOO_LONG, TOOL + "large-profile.json: "),
    # Files, inputs and outputs that fail.
    rejects("show --stats --oci missing.json", "", MISSING, TOOL + "missing.json: "),
    rejects("show --stats --oci examples", "", FOLDER, TOOL + "examples: "),
    rejects("show --stats --oci -", Failing(json.dumps(profile())), RESET),
    rejects("show --stats --oci reads-profile.json > /dev/full", "", FULL, OUTPUT),
    rejects("show --stats --oci reads-profile.json >&-", "", CLOSED, OUTPUT),
]

# The call 0 matches always. In the linear layout it has a test, two jumps and two returns, after 4 instructions and in front of a
# return; each call takes 3 steps to the number, a test, a jump and a return. In the tree it has a test and two returns after 4.
COMMENTED_STEPS = "filter a\nlinear: 10 instructions, at most 6 steps, 6 passing\ntree: 7 instructions, at most 5 steps, 5 passing\n"

CASES = [
    *KNOWN,
    *map(unnamed, KNOWN),
    writes("show --stats --oci --cap CAP_KILL --kernel 6.1 reads-profile.json", "", READS),
    writes("show --stats reads-profile.json --oci --kernel=6.1 --cap=CAP_KILL --cap=CAP_CHOWN", "", READS),
    # With `--oci` nothing else is a profile.
    rejects("show --stats --oci", "{", PARSING),
    # Without it, a policy is one whatever its filters are named, and whatever its text has in other places.
    writes("show --stats default-action.json", "", LOGS_STEPS.replace("filter a", "filter defaultAction")),
    writes("show --stats", COMMENTED, COMMENTED_STEPS),
    # So is each text that has none of the key's bytes, or another value.
    rejects("show --stats", r'{"default\u0041ction": "SCMP_ACT_ALLOW"}', WRONG_DEFAULT.format('"SCMP_ACT_ALLOW"')),
    writes("show --stats --oci", r'{"default\u0041ction": "SCMP_ACT_ALLOW"}', ALL),
    rejects("show --stats", '{"defaultAction": null}', WRONG_DEFAULT.format("null")),
    # What is no command.
    misused("show --stats --oci --kernel 6 reads-profile.json", "the value of --kernel isn't a version of two numbers, such as 6.1"),
    rejects("show --stats --oci --filter a reads-profile.json", "", NO_NAME, TOOL + "reads-profile.json: "),
    misused("show --stats --oci reads-profile.json reads-profile.json", "unexpected argument 'reads-profile.json' found"),
]
