"""What `compile` has to do: programs as bytes, as listings and for C, and the faults. What C makes of a program is
tried if the compilers cc and c++ are installed."""

import shutil

from cases.forms import (
    CLOSED, FOLDER, FULL, INPUT, LAYOUTS, EMPTY, LOGS, MISSING, NO_OBJECT, OUTPUT, TOOL, fails_to_read_and_write, quiet,
    rejects, rejects_in_both, writes
)
from cases.seccompc.commands import FRONTEND
from model import instructions_of

from .long_filters import of_masks, of_rules

# The programs of a filter without entries: the architecture's word is loaded and compared, another one
# kills the process, after the test in the chains, and at the end in the tree.
LINEAR = bytes.fromhex("""
    20 00 00 00 04 00 00 00  15 00 01 00 3e 00 00 c0  06 00 00 00 00 00 00 80  06 00 00 00 00 00 fc 7f
""")
TREE = bytes.fromhex("""
    20 00 00 00 04 00 00 00  15 00 00 01 3e 00 00 c0  06 00 00 00 00 00 fc 7f  06 00 00 00 00 00 00 80
""")

# The same for the architecture words of aarch64 and riscv64 (linux/audit.h).
WORDS = {"aarch64": "b7 00 00 c0", "arm64": "b7 00 00 c0", "riscv64": "f3 00 00 c0", "amd64": "3e 00 00 c0"}

EXAMPLE = "examples/readme-policy.json"

# A C file that writes the array whose initializer is in a file, as the machine has it. It compiles as C and as C++.
INCLUDES = """#include <linux/filter.h>
#include <stdio.h>

static const struct sock_filter program[] = {
#include INITIALIZER
};

int main(void)
{
    return fwrite(program, sizeof program, 1, stdout) != 1;
}
"""
COMPILERS = {"cc": "-x c -std=c11", "c++": "-x c++ -std=c++17"}

NO_FILTER = "No filter has this name: b.\n"
UNKNOWN_CALL = 'a.filter[0].syscall: unknown system call "nosyscall" on x86_64\n'

# Two filters, one without entries; the other one's name has a byte that steers a terminal.
TWO = LOGS[:-1] + r',"b\u009b":{"mismatch_action":"trap","match_action":"allow","filter":[]}}'
WHICH = "Name one of its filters: {}.\n"

# A filter that fits in the tree layout alone, since its rules are few tests there; and one that fits in none.
WIDE = "{" + of_rules("a", 813, ("write", "open", "close", "stat")) + "}"
NOWHERE = "{" + of_masks("a", 1400) + "}"
IN_LINEAR = "instructions in the linear layout; 4096 fit"
IN_TREE = "needs more than 4096 instructions in the tree layout"

FILES = {"-": LOGS, "two-filters.json": TWO, "includes.c": INCLUDES}


def of_word(word):
    """Returns the tree's program with another architecture's word."""
    return TREE[:12] + bytes.fromhex(word) + TREE[16:]


def listed(name, program):
    """Returns a program as `seccompc list` writes it."""
    lines = ["%04x %02x %02x %08x\n" % it for it in instructions_of(program)]
    return f"filter {len(lines)} {name}\n" + "".join(lines)


def in_c(program):
    """Returns a program as `tcpdump -dd` writes it."""
    return "".join("{ 0x%x, %d, %d, 0x%08x },\n" % it for it in instructions_of(program))


def included(layout, compiler, flags):
    """Returns the case of a program for C, of which a compiler makes the bytes that `compile` writes otherwise."""
    made = f"included-{layout}.{compiler}"
    words = f"compile --layout {layout} {EXAMPLE}"
    build = f"{compiler} {flags} -Wall -Wextra -Wpedantic -Werror -D INITIALIZER='\"{made}.inc\"' includes.c -o {made}"
    return writes(f"{words} --format c -o {made}.inc && ./seccomptool {words} -q -o {made}.raw && {build} &&"
                  f" ./{made} | cmp - {made}.raw; status=$?; rm -f {made}*; (exit $status)", "", "")


CASES = [quiet(it) for it in (
    # `compile` writes the bytes of both layouts, that of a tree if none is asked for.
    writes("compile -f a", LOGS, TREE), writes("compile --filter a --layout tree", LOGS, TREE),
    writes("compile --filter=a --layout=linear", LOGS, LINEAR), writes("compile -", LOGS, TREE), writes("compile ./-", "[]", TREE),
    writes("compile logs.json", "", TREE), writes("compile logs.json -fa --layout linear", "", LINEAR),
    writes("compile -f \"$(printf 'a\\n\\\\')\" names.json", "", TREE),
    # `compile` writes the forms that are asked for, bytes if none is.
    writes("compile --format raw logs.json", "", TREE),
    writes("compile logs.json --format=listing", "", listed("a", TREE)),
    writes("compile --format listing --layout linear", LOGS, listed("a", LINEAR)),
    writes("compile --format c logs.json", "", in_c(TREE)),
    writes("compile --format=c --layout=linear -", LOGS, in_c(LINEAR)),
    writes("compile --format c logs.json -o written.inc && cat written.inc && rm written.inc", "", in_c(TREE)),
    # A listing is that of `seccompc list`, but that no name steers a terminal.
    writes("compile two-filters.json -f \"$(printf 'b\\302\\233')\" --format listing | head -n 1", "", "filter 4 b\\xc2\\x9b\n"),
    writes("compile -f \"$(printf 'a\\n\\\\')\" names.json --format listing", "", listed(r"a\x0a\x5c", TREE)),
    writes(f"compile {EXAMPLE} --format listing --layout linear > listed.txt &&"
           f" ./seccompc list x86_64 < {EXAMPLE} | cmp - listed.txt; status=$?; rm listed.txt; (exit $status)", "", ""),
    *[included(layout, *it) for layout in ("linear", "tree") for it in COMPILERS.items() if shutil.which(it[0])],
    # The architecture is x86_64 if none is named.
    *[writes(f"compile -a {arch} logs.json", "", of_word(word)) for arch, word in WORDS.items()],
    # The policy's only filter is taken if none is named.
    writes("compile two-filters.json -f a", "", TREE),
    rejects("compile two-filters.json", "", WHICH.format("a, b\\xc2\\x9b"), TOOL + "two-filters.json: "),
    rejects("compile", "{}", "The policy has no filters.\n"),
    rejects("compile", '{"a":' + LOGS[5:-1] + ',"":' + LOGS[5:], WHICH.format("'', a")),
    rejects("compile", "[]", NO_OBJECT),
    rejects("compile", '{"a":{}}', EMPTY.format("a")),
    # `compile` writes a file, if there is no fault.
    writes("compile logs.json -o written && cat written && rm written", "", TREE),
    rejects("compile no-json.json -o unwritten; status=$?; test ! -e unwritten && (exit $status)", "",
            FRONTEND + "Error parsing Json: ..", TOOL + "no-json.json: "),
    rejects("compile logs.json -o missing/written", "", MISSING, TOOL + "missing/written: "),
    rejects("compile logs.json -o /dev/full", "", FULL, TOOL + "/dev/full: "),
    # `compile` tells the first fault.
    *rejects_in_both("compile -f b", "[]", NO_OBJECT),
    *rejects_in_both("compile -f b", LOGS, NO_FILTER),
    rejects("compile -f b no-json.json", "", FRONTEND + "Error parsing Json: ..", TOOL + "no-json.json: "),
    rejects("compile -f b unknown-call.json", "", UNKNOWN_CALL, TOOL + "unknown-call.json: "),
    rejects("compile -f b logs.json", "", NO_FILTER, TOOL + "logs.json: "),
    *[rejects(f"compile --format {it} -f b", LOGS, NO_FILTER) for it in ("listing", "c")],
    # The length of the filter's own program is asked for, and of no other.
    writes("compile -f a", LOGS[:-1] + "," + of_rules("b", 816) + "}", TREE),
    rejects("compile -f b too-large.json", "", NO_FILTER, TOOL + "too-large.json: "),
    # Of a program that is too large the length in the other layout is told if it fits there.
    rejects("compile --layout linear too-large.json", "", f"a: needs 10130 {IN_LINEAR}\n", TOOL + "too-large.json: "),
    rejects("compile -f a --layout linear", WIDE, f"a: needs 4106 {IN_LINEAR}; 14 in the tree layout\n"),
    rejects("compile --format c --layout linear", WIDE.replace('"a"', r'"a\u009b"'),
            f"a\\xc2\\x9b: needs 4106 {IN_LINEAR}; 14 in the tree layout\n"),
    rejects("compile", NOWHERE, f"a: {IN_TREE}\n"),
    rejects("compile --layout linear", NOWHERE, f"a: needs 8407 {IN_LINEAR}\n"),
    # `compile` answers faults of files, of its reader and its writer.
    rejects("compile missing.json", "", MISSING, TOOL + "missing.json: "),
    rejects("compile \"$(printf 'missing\\nfile')\"", "", MISSING, TOOL + "missing\\x0afile: "),
    *[case for it in LAYOUTS for case in fails_to_read_and_write("compile" + it)],
    rejects("compile examples", "", FOLDER, TOOL + "examples: "), ("compile < examples", 2, "", INPUT + FOLDER),
    ("compile <&-", 2, "", INPUT + CLOSED), ("compile < logs.json > /dev/full", 2, "", OUTPUT + FULL),
    *[rejects(f"compile --format {it} > /dev/full", LOGS, FULL, OUTPUT) for it in ("listing", "c")],
)]
