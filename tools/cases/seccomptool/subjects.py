"""What is compared with what: two of a policy's filter, a profile and a program; and what names a filter of what has none."""

import json

from cases.forms import INPUT, LOGS, MISSING, TOOL, Case, rejects, writes

from .compile import TREE, TWO
from .compiled_profiles import entry, profile
from .diff import READS
from .explain import EXAMPLE_LINES
from .program_diffs import OTHERS_SAME, guarded
from .programs import returns

LOG = 0x7FFC0000

# `read` (0) is allowed and all else is logged, on x86_64: as a profile, as a policy (`allows-read.json`) and as a program
# (`reads.bpf`). And all is logged.
LOGGED, LOGS_READ = profile(default="SCMP_ACT_LOG"), profile(entry("read"), default="SCMP_ACT_LOG")

FILES = {"logs-profile.json": json.dumps(LOGGED), "logs-read-profile.json": json.dumps(LOGS_READ), "logs-all.bpf": guarded(returns(LOG)),
         "named": "{", "named:a": LOGS}

# What is measured of a filter without entries, by the name `a`.
A_STATS = "filter a\nlinear: 4 instructions, at most 3 steps, 3 passing\ntree: 4 instructions, at most 3 steps, 3 passing\n"

POLICIES = ("logs.json", "allows-read.json")
PROFILES = ("logs-profile.json", "logs-read-profile.json")
PROGRAMS = ("logs-all.bpf", "reads.bpf")


def x32_line(olds, news):
    """Returns the line of x32 numbers, on each but the last of which a profile kills the thread, if one of both sides is a profile."""
    if (olds is PROFILES) == (news is PROFILES):
        return ""
    change = "kill_thread -> log, more" if olds is PROFILES else "log -> kill_thread, less"
    return f"  x32 calls 1073741824 to 4294967294: {change}: {2**30}(0x0, 0x0, 0x0, 0x0, 0x0, 0x0)\n"


def compares(olds, news, title):
    """Returns the cases of two kinds of sides that decide alike, but for x32 numbers, and of two of which the new one permits more."""
    others = OTHERS_SAME if PROGRAMS in (olds, news) else ""
    line = x32_line(olds, news)
    is_more = line and olds is PROFILES
    return [
        *[Case(f"diff -q {old} {new}", 1 if line else 0, f"{title}: {'different' if line else 'same'}\n{line}{others}", "")
          for old, new in zip(olds, news)],
        Case(f"diff -q {olds[0]} {news[1]}", 1, f"{title}: different\n{READS}{line}{others}", ""),
        Case(f"diff -q --only-more {olds[1]} {news[0]}", 1 if is_more else 0,
             (f"{title}: more permissive\n{line}" if is_more else f"{title}: nowhere more permissive\n")
             + others.replace("same", "nowhere more permissive"), ""),
    ]


def unnamed(words, file):
    """Returns the case of a name of what has no filters with names."""
    return rejects(words, "", "No filter has this name: a.\n", f"{TOOL}{file}: ")


CASES = [
    *compares(POLICIES, PROFILES, "filter a"), *compares(PROFILES, POLICIES, "filter a"),
    *compares(POLICIES, PROGRAMS, "filter a"), *compares(PROGRAMS, POLICIES, "filter a"),
    *compares(PROFILES, PROGRAMS, "profile"), *compares(PROGRAMS, PROFILES, "profile"),
    *compares(PROGRAMS, PROGRAMS, "program"), *compares(PROFILES, PROFILES, "profile"),
    # Names of filters of what has none.
    *[unnamed(f"{command} {file}", file) for file in (PROFILES[0], PROGRAMS[0]) for command in (
        "compile -f a", "show -f a", "show --stats -f a")],
    *[unnamed(f"explain -f a {file} read", file) for file in (PROFILES[0], PROGRAMS[0])],
    *[unnamed(f"diff {file}:a {file}", file) for file in (PROFILES[0], PROGRAMS[0])],
    unnamed(f"diff logs.json {PROGRAMS[0]}:a", PROGRAMS[0]),
    *[unnamed(words, file) for file in (PROFILES[0], PROGRAMS[0]) for words in (
        f"compile {file}:a", f"show {file}:a", f"show --stats {file}:a", f"explain {file}:a read")],
    # The name of a filter behind the file, by each command that takes one; and not twice.
    writes("compile -q two-filters.json:a", "", TREE),
    writes("compile -q -- -:a", TWO, TREE),
    writes("show --stats two-filters.json:a", "", A_STATS),
    writes("explain two-filters.json:a read", "", "log: no entry of read (0)\n"),
    writes("explain --records examples/records.bin two-filters.json:a", "", EXAMPLE_LINES),
    rejects("compile two-filters.json:c", "", "No filter has this name: c.\n", TOOL + "two-filters.json: "),
    rejects("explain missing.json:a read", "", MISSING, TOOL + "missing.json: "),
    *[Case(f"{words} -f a", 2, "", "error: the filter is named twice: behind SUBJECT and by --filter\n..")
      for words in ("compile two-filters.json:a", "show two-filters.json:a", "explain two-filters.json:a read")],
    *[Case(f"explain {words}", 2, "", "error: SUBJECT and records can't both be read from standard input: ..", LOGS)
      for words in ("-- -:a", "--after=-:a logs.json")],
    # A file that has the whole name comes first; with one more colon the name is the file's in any case.
    *[writes(f"{command} {file}", "", TREE) for command in ("compile -q", "stack") for file in ("named:a", "named:a:", "named:a:a")],
    writes("compile -q named:a -f a", "", TREE),
    writes("show --stats named:a", "", A_STATS),
    writes("explain named:a read", "", "log: no entry of read (0)\n"),
    writes("explain --after named:a logs.json read", "", "log: logs.json of read (0)\n"),
    writes("diff -q named:a named:a:a", "", "filter a: same\n"),
    # One filter of several, by each command.
    writes("show -f a two-filters.json --stats", "", A_STATS),
    rejects("show -f b logs.json", "", "No filter has this name: b.\n", TOOL + "logs.json: "),
    rejects("show --stats -f b logs.json", "", "No filter has this name: b.\n", TOOL + "logs.json: "),
    # A profile's program, for people.
    writes("show logs-profile.json", "", "   0  ld [4]                      ; the architecture\n.."),
    # Each file of `check` says by itself what it is.
    Case("check logs-profile.json reads.bpf logs.json", 0, "..", ""),
    Case("check reads.bpf empty longest.bpf", 1, "", TOOL + "empty: .."),
    # Trouble counts more than what is rejected, and what is rejected more than what is accepted.
    Case("check logs.json missing.json no-json.json", 2, "..", TOOL + "missing.json: .."),
    # What is rejected says so once, and what is written beside it stays.
    Case("check -", 1, "", INPUT + 'line 1, column 66: invalid JSON: expected "," or "}", found the end of the text\n', LOGS[:-1]),
]
