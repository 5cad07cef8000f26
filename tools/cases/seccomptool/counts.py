"""How many warnings `compile` and `diff` say that policies have: each policy is of a few warnings that are counted by hand, from
docs/CHECKS.md."""

import json

from cases.forms import CLOSED, FULL, INPUT, LOGS, OUTPUT, RESET, TOOL, Case, Failing, rejects

TELLS = {1: "1 warning; seccomptool check prints it\n"}


def filter_of(mismatch, match, *calls):
    """Returns a filter with entries of these calls, without conditions."""
    return {"mismatch_action": mismatch, "match_action": match, "filter": [{"syscall": it} for it in calls]}


# Nothing is to be said of a filter that lists the three calls by which processes end or handlers return.
EXITS = ("exit", "exit_group", "rt_sigreturn")
NONE = filter_of({"errno": 1}, "allow", "read", *EXITS)
# What isn't listed is let through: allows-by-default.
ONE = filter_of("log", "allow")
# None of these is listed, and so each is denied: kills-exit.
THREE = filter_of("kill_process", "allow", "read")
# The same entry twice: each is redundant beside the other.
TWO = filter_of({"errno": 1}, "allow", "read", "read", *EXITS)
# An errno of 0 beside what is let through: fake-success, allows-by-default.
FAKED = filter_of("allow", {"errno": 0}, "read")

POLICIES = {
    "no-warning.json": ({"a": NONE}, 0), "one-warning.json": ({"a": ONE}, 1), "two-warnings.json": ({"a": TWO}, 2),
    "faked-warning.json": ({"a": FAKED}, 2), "three-warnings.json": ({"a": THREE}, 3), "without-filters.json": ({}, 0),
    "six-warnings.json": ({"c": NONE, "b": THREE, "a": ONE, "d": FAKED}, 6),
}
FILES = {name: json.dumps(policy) for name, (policy, _) in POLICIES.items()}


def noted(front, count):
    """Returns the line of standard error on a policy with so many warnings: none if there are none."""
    return (front + TELLS.get(count, f"{count} warnings; seccomptool check prints them\n")) * bool(count)


def compiles(name, words="-f a"):
    """Returns the cases of a policy's program, of its file and by standard input, with the note and without it."""
    policy, count = POLICIES[name]
    command = f"compile {words} --format listing"
    return [
        Case(f"{command} {name}", 0, "filter ..", noted(f"{TOOL}{name}: ", count)),
        Case(command, 0, "filter ..", noted(INPUT, count), json.dumps(policy)),
        Case(f"{command} -q {name}", 0, "filter ..", ""), Case(f"{command} --quiet {name}", 0, "filter ..", ""),
    ]


def compares(old, new, words=""):
    """Returns the cases of two policies, with the notes and without them."""
    notes = "".join(noted(f"{TOOL}{it}: ", POLICIES[it][1]) for it in (old, new))
    status = 0 if old == new else 1
    return [Case(f"diff {words}{old} {new}", status, "filter ..", notes), Case(f"diff -q {words}{old} {new}", status, "filter ..", "")]


CASES = [
    *[it for name, (policy, _) in POLICIES.items() if policy for it in compiles(name)],
    # All filters' warnings count, whichever is compiled or compared.
    *compiles("six-warnings.json", "--filter=c"), *compares("six-warnings.json", "six-warnings.json"),
    *compiles("three-warnings.json", "-a aarch64 -f a"),
    *[it for old in ("no-warning.json", "one-warning.json", "six-warnings.json") for new in ("no-warning.json", "three-warnings.json")
      for it in compares(old, new)],
    Case("diff without-filters.json without-filters.json", 0, "", ""),
    Case("diff - one-warning.json", 0, "filter a: same\n", noted(INPUT, 1) + noted(f"{TOOL}one-warning.json: ", 1), LOGS),
    Case("diff three-warnings.json -", 1, "filter a: ..", noted(f"{TOOL}three-warnings.json: ", 3) + noted(INPUT, 1), LOGS),
    Case("diff --most 0 one-warning.json three-warnings.json", 3, "filter a: undecided\n..",
         noted(f"{TOOL}one-warning.json: ", 1) + noted(f"{TOOL}three-warnings.json: ", 3)),
    Case("compile -o /dev/null three-warnings.json", 0, "", noted(f"{TOOL}three-warnings.json: ", 3)),
    # If a command fails there is its error alone.
    rejects("compile one-warning.json > /dev/full", "", FULL, OUTPUT),
    rejects("compile -f b one-warning.json", "", "No filter has this name: b.\n", TOOL + "one-warning.json: "),
    rejects("compile one-warning.json >&-", "", CLOSED, OUTPUT),
    Case("diff one-warning.json three-warnings.json > /dev/full", 2, "", OUTPUT + FULL),
    Case("diff one-warning.json -", 2, "", INPUT + RESET, Failing(LOGS)),
    Case("diff one-warning.json:b three-warnings.json", 2, "", TOOL + "one-warning.json: No filter has this name: b.\n"),
    Case("compile -q -q one-warning.json", 2, "", "error: .."), Case("diff --quiet=true logs.json logs.json", 2, "", "error: .."),
]
