"""What seccomptool has to do of programs as C has them: the initialisers of `tcpdump -dd`, written by hand from linux/bpf_common.h, and
those that `compile --format c` writes, which are the same program again."""

import json
import shlex

from cases.forms import INPUT, LOGS, TOOL, Case, rejects, writes
from results import TOP

from .compile import TREE
from .program_diffs import OTHERS_SAME, SAME
from .programs import EXPLAINED, OF_READ, RECORDS

EXAMPLES = TOP / "examples"

# `read` (0) is allowed, and each other call fails with errno 1: a load, a jump if equal, two returns.
LINES = "{ 0x20, 0, 0, 0x00000000 },\n{ 0x15, 0, 1, 0x00000000 },\n{ 0x6, 0, 0, 0x7fff0000 },\n{ 0x6, 0, 0, 0x00050001 },\n"

# The same as C may have it otherwise.
FORMS = [
    LINES, LINES[:-2], LINES.replace("\n", "\r\n"), "{\n" + LINES + "}", "{ " + LINES[:-2] + " };\n",
    "{{32,0,0,0},{21,0,1,0},{6,0,0,2147418112},{6,0,0,327681}}",
    "\n\t{ 0x20, 0, 0, 0 }, // a load\n{ 0x15, 0,1,/* read */ 0 },\n/* { 6, 0, 0, 0 },\n\n */{6,0,0,0x7FFF0000},{6,0,0,0x50001},//",
    "{ /**/ 0x20,0,0,0 } , {0x15,0,1,0} , { /*/ 1 */ 6,0,0,0x7fff0000},{6,0,0,0x00050001}\n",
]

# What `tcpdump -dd -y EN10MB arp` writes (4.99.3): its first instruction loads 16 bits, which no seccomp program may.
OF_TCPDUMP = "{ 0x28, 0, 0, 0x0000000c },\n{ 0x15, 0, 1, 0x00000806 },\n{ 0x6, 0, 0, 0x00040000 },\n{ 0x6, 0, 0, 0x00000000 },\n"

BYTE, OPERAND, COMMA = "a number from 0 to 255", "a number from 0 to 4294967295", "a comma"
OPENING, CLOSING, END = "an opening brace", "a closing brace", "the end"

# Texts that aren't taken, the line of the first fault, and what was expected there.
FAULTS = [
    ("{1}", 1, COMMA), ("{ 0x20, 0, 0, 0 }\n{ 6, 0, 0, 0 }\n", 2, COMMA), ("{ 0x20, 0, 0 },\n", 1, COMMA),
    ("{ 0x20 0, 0, 0 },\n", 1, COMMA), ("{ 0x20, 0, 0, 0, 0 },\n", 1, CLOSING), ("{ 0x20, 0, 0, 0, },\n", 1, CLOSING),
    ("{ 0x20, 0, 0, 0\n\n", 3, CLOSING), ("{ 0x20, 0,, 0 },\n", 1, BYTE), ("{ 0x20, 0,\n", 2, BYTE), ("{ 0x20, -1, 0, 0 },\n", 1, BYTE),
    ("{ 0x20, 256, 0, 0 },\n", 1, BYTE), ("{ 0x20, 010, 0, 0 },\n", 1, BYTE), ("{ 0x20, 0, 0x, 0 },\n", 1, BYTE),
    ("{ 0x20, 0, 0x0u, 0 },\n", 1, BYTE), ("{ 0x120, 0, 0, 0 },\n", 1, BYTE), ("{ 0, BPF_K, 0, 0 },\n", 1, BYTE),
    ("{ 0, 0, 0, 0x100000000 },\n", 1, OPERAND), ("{ 0, 0, 0, 18446744073709551616 },\n", 1, OPERAND), ("{ 0, 0, 0, / },\n", 1, OPERAND),
    ("{{{ 0, 0, 0, 0 }}}", 1, BYTE), ("{{ 0, 0, 0, 0 }, { 0,\n0,\n0, 0 }", 3, COMMA), ("{{ 0, 0, 0, 0 }},\n", 1, END),
    ("{{ 0, 0, 0, 0 }};;\n{", 2, END), ("{ 0, 0, 0, 0 },,\n", 1, OPENING), ("{ 0, 0, 0, 0 },\n};\n", 2, OPENING),
    ("{ 0, 0, 0, 0 },\n{}\n", 2, BYTE), ("{ 0, 0, 0, 0 },\n\n/*\n*/ 6 // {\n", 4, OPENING), ("{ 0, 0, 0, 0 /* } */", 1, CLOSING),
    ("{ 0, 0, 0, 0 /* }\n", 2, CLOSING), ("{ 0, 0, 0, 0 } \0", 1, COMMA), ("{ 0, 0, 0, 0 } \x1b[2J", 1, COMMA),
    ("{ 0, 0, 0, \u0664 }", 1, OPERAND),
]


def subjects():
    """Returns the words of each filter of the examples, and of each profile and program."""
    policies = [(it, name) for it in sorted(EXAMPLES.glob("*-policy.json")) for name in json.loads(it.read_text(encoding="utf-8"))]
    others = sorted({*EXAMPLES.glob("**/*.bpf"), *EXAMPLES.glob("**/*-profile.json")})
    filters = [(it, f"-f {shlex.quote(name)} ") for it, name in policies]
    return [f"{words}examples/{it.relative_to(EXAMPLES)}" for it, words in [*filters, *((it, "") for it in others)]]


def rewritten(words, file):
    """Returns the case of a program that is written as C and read again: it is the same in bytes."""
    return Case(f"compile -q {words} -o {file}.bpf && ./seccomptool compile -q --format c {words} -o {file}.c && "
                f"./seccomptool compile {file}.c | cmp - {file}.bpf", 0, "", "")


FILES = {"read.c": LINES, "tcpdump.c": OF_TCPDUMP, "fault.c": "{ 6, 0, 0, 0 },\n6"}

CASES = [
    *[writes("compile -", text, OF_READ) for text in FORMS],
    *[rewritten(words, f"rewritten-{k}") for k, words in enumerate([*subjects(), "longest.bpf"])],
    # Each command takes them, as it takes bytes.
    writes("explain read.c read", "", "allow: read (0)\n"), writes("explain read.c 1", "", "errno 1 (EPERM): write (1)\n"),
    writes("explain read.c --records -", RECORDS, EXPLAINED), writes("explain - read", LINES, "allow: read (0)\n"),
    writes("show --stats read.c", "", "program: 4 instructions, at most 3 steps, 3 passing\n"),
    writes("show read.c", "", "   0  ld [0]                      ; the call number\n.."),
    writes("check read.c read.bpf", "", ""), writes("check --oci read.c", "", ""),
    Case("diff -q read.c read.bpf", 0, "program: same\n" + OTHERS_SAME, ""),
    Case("diff -q read.bpf -", 0, "program: same\n" + OTHERS_SAME, "", LINES),
    Case("compile -q --format c allows-read.json | ./seccomptool diff -q allows-read.json -", 0, SAME + OTHERS_SAME, ""),
    rejects("explain -f a read.c read", "", "No filter has this name: a.\n", TOOL + "read.c: "),
    # A program that isn't taken, as of bytes; and texts that are none.
    rejects("show tcpdump.c", "", "instruction 0: unknown operation 0x28\n", TOOL + "tcpdump.c: "),
    rejects("check tcpdump.c", "", "instruction 0: unknown operation 0x28\n", TOOL + "tcpdump.c: "),
    rejects("check -", "{ 6, 0, 0, 0 }," * 4097, "expected 1 to 4096 instructions, found 4097\n"),
    *[rejects("check -", text, f"line {line}: expected {expected}\n") for text, line, expected in FAULTS],
    rejects("explain fault.c read", "", f"line 2: expected {OPENING}\n", TOOL + "fault.c: "),
    Case("diff -q read.bpf -", 2, "", f"{INPUT}line 2: expected {OPENING}\n", FILES["fault.c"]),
    # What is JSON is none of them, whatever its texts have.
    writes("compile -q", LOGS.replace('{"a"', '{ "{ 0x20, 0, 0, 0 },"'), TREE),
    writes("check", "{ }", ""),
]
