"""Which words are a command, what is told of others, and help and the version."""

from cases.forms import FULL, OUTPUT, Case, Command, rejects, writes
from model import AARCH64, X86_64, record_of

from .compile import LINEAR, TREE

GREATEST = 2**64 - 1

# A policy of a filter whose name looks like an option, and of one without a name.
NAMED = (
    '{"--tree":{"mismatch_action":"log","match_action":"allow","filter":[]},'
    '"":{"mismatch_action":"log","match_action":"allow","filter":[]}}'
)

COMMANDS = ("check", "compile", "show", "explain", "diff", "stack", "learn", "call")

NO_VERSION = "error: the value of --kernel isn't a version of two numbers, such as 6.1\n.."

NO_NUMBER = "error: an ARG isn't a number from -9223372036854775808 to 18446744073709551615, decimal or hexadecimal after 0x\n.."

misused = Command("").misused

CASES = [
    # Help and the version.
    writes("--help", "", "Compiles, checks and explains seccomp policies\n\nUsage: seccomptool <COMMAND>\n.."),
    writes("-h", "", "Compiles, checks and explains seccomp policies\n\nUsage: seccomptool <COMMAND>\n.."),
    writes("help", "", "Compiles, checks and explains seccomp policies\n\nUsage: seccomptool <COMMAND>\n.."),
    *[writes(words, "", "seccomptool 0.6.0 (commit unknown, since it was built from sources)\n") for words in ("--version", "-V")],
    *[case for it in COMMANDS for case in (
        writes(f"help {it}", "", ".."), writes(f"{it} --help", "", ".."), writes(f"{it} no.json -h", "", ".."))],
    writes("help compile", "", "Write the program of a filter or of a profile\n\nUsage: seccomptool compile [OPTIONS] [SUBJECT]\n.."),
    # The words are read as the command that they are.
    writes("compile -q --filter=--tree", NAMED, TREE), writes("compile -q --filter= --layout linear", NAMED, LINEAR),
    writes("compile -q -f '' --layout linear", NAMED, LINEAR), writes("call --record read", "", record_of(0, X86_64)),
    writes("call --record 0 1 0x2 0xaBc 7 18446744073709551615 0xffffffffffffffff", "",
           record_of(0, X86_64, 1, 2, 0xABC, 7, GREATEST, GREATEST)),
    writes("call --record 0 1 -- -1 -0x10 -9223372036854775808", "", record_of(0, X86_64, 1, GREATEST, 2**64 - 16, 2**63)),
    # Options may stand between arguments.
    writes("call read 1 --record -a aarch64 2", "", record_of(63, AARCH64, 1, 2)),
    writes("call --record read 1 -a x86_64 0x2 -- -1", "", record_of(0, X86_64, 1, 2, GREATEST)),
    # Other words are refused.
    Case("", 2, "", "Compiles, checks and explains seccomp policies\n\nUsage: .."),
    misused("raw", "error: unrecognized subcommand 'raw'\n.."),
    misused("chek", "error: unrecognized subcommand 'chek'\n\n  tip: a similar subcommand exists: 'check'\n.."),
    misused("help nothing"),
    misused("compile -a x8664 logs.json",
            "error: invalid value 'x8664' for '--arch <ARCH>'\n"
            "  [possible values: x86_64, aarch64, riscv64, amd64, arm64]\n.."),
    misused("compile -a X86_64 logs.json"),
    misused("compile --layout chains logs.json", "error: invalid value 'chains' for '--layout <LAYOUT>'\n.."),
    misused("compile --tree logs.json", "error: unexpected argument '--tree' found\n.."),
    misused("compile logs.json logs.json"),
    misused("compile -f a -f b logs.json"),
    misused("compile -o"),
    misused("compile \"$(printf 'a\\377')\" < logs.json", "seccomptool: the arguments aren't UTF-8\n"),
    misused("compile --format elf logs.json", "error: invalid value 'elf' for '--format <FORMAT>'\n"
            "  [possible values: raw, listing, c]\n.."),
    misused("show --program logs.json", "error: unexpected argument '--program' found\n.."),
    misused("show --stats=yes logs.json"), misused("show logs.json logs.json"), misused("check --deny logs.json"),
    misused("check --deny-warnings=yes logs.json"),
    misused("check --allow fake-sucess logs.json",
            "error: invalid value 'fake-sucess' for '--allow <CODE>'\n  [possible values: fake-success, errno-too-large, .."),
    misused("check --allow"),
    misused("check --list=true"),
    misused("explain --format word logs.json read", "error: unexpected argument '--format' found\n.."),
    misused("explain < empty"),
    misused("explain logs.json read --records 63-bytes", "error: the argument '[CALL]' cannot be used with '--records <FILE>'\n.."),
    misused("explain -", "error: SUBJECT and records can't both be read from standard input: give CALL, --records or --log\n.."),
    misused("explain - --records -"),
    misused("diff logs.json"),
    misused("diff -- -: -", "error: OLD and NEW can't both be read from standard input\n.."),
    misused("diff -f a logs.json logs.json", "error: unexpected argument '-f' found\n.."),
    misused("diff --most ten logs.json 63-bytes",
            "error: the value of --most isn't a number from 0 to 18446744073709551615, "
            "decimal or hexadecimal after 0x\n.."),
    misused("diff --layout tree logs.json 63-bytes"), misused("compile --oci reads-profile.json reads-profile.json"),
    misused("compile --oci --cap"), misused("compile --runtime"), misused("compile --oci --strict=yes reads-profile.json"),
    misused("compile --oci --kernel 6.1 --kernel 6.2 reads-profile.json"),
    misused("compile -a x32 reads-profile.json", "error: invalid value 'x32' for '--arch <ARCH>'\n.."),
    *[misused(f"compile --oci --kernel={it} reads-profile.json", NO_VERSION) for it in (
        "6", "6.1.2", "v6.1", "''", ".", "6.", ".1", "+6.1", "-6.1", "6.-1", "6,1", "6.1-rc1", "' 6.1'", "0x6.1", "4294967296.0",
        "0.4294967296")],
    misused("compile --oci --kernel 6 missing.json", NO_VERSION), misused("call --record"), misused("call"),
    misused("call --record=yes read"),
    misused("call --record read 1 2 3 4 5 6 7", "error: unexpected value '7' for '[ARG]...' found; no more were expected\n.."),
    misused("call read 1 2 3 --record 4 5 6 7", "error: a call has at most 6 arguments\n.."),
    misused("call --record read -1", "error: unexpected argument '-1' found\n.."),
    misused("explain logs.json read 1a", NO_NUMBER),
    *[misused(f"call --record read {arguments}", NO_NUMBER) for arguments in (
        "0577", "0b1", "-- -07",
        "''", "0x", "0X1", "+1", "0x+1", "1a", "0xg", "18446744073709551616", "0x10000000000000000",
        "-- -0", "-- -9223372036854775809", "-- --1", "-- -", "-- +1")],
    # An output that takes nothing.
    rejects("--help > /dev/full", "", FULL, OUTPUT),
    rejects("--version > /dev/full", "", FULL, OUTPUT),
]
