"""What commands other than `check` have to write with --json: the objects of what their texts say.

The objects are made here of the texts of other tables, which are known by hand, and never of what the program writes.
"""

import json
import re

from cases.forms import FULL, INPUT, LOGS, MISSING, OUTPUT, TOOL, Case, Command, as_list, as_object, rejects, writes
from model import X86_64, instructions_of, numbers_on, record_of

from .compile import LINEAR, TREE, TWO
from .compiled_profiles import profile
from .diff import NO_LONGER_READS, OTHER_ERRNO, READS_5
from .explain import LINES, NEAR_LINES, SHORT, TWO_LINES, TWO_RECORDS
from .hostile import HOSTILE
from .learn import MORE, OF_MANY, OF_NAMED, OF_RAW, OF_RAW_AS_PROFILE, OF_STRANGE, STRANGE_LINES, filtered, learned
from .learn import entry as entry_of
from .logs import ON_DENIED, ON_TRACED
from .oci import EXAMPLE_LINES
from .program_diffs import READS, WRITES, others
from .programs import EXPLAINED, JUMP, JUMP_AT_LEAST, JUMP_EQUAL, JUMP_GREATER, JUMP_IF_SET, LOAD, MASK, OF_READ, RETURN
from .show import CALLS, CALLS_SHOWN, LOADS_SHOWN, LOGS_AS_TREE, OF_LOADS, READ_SHOWN
from .show import LOGS as SHOWN
from .stats import TWO_CALLS
from .warnings import CODES_LISTED, MEANINGS

CODES = {
    "ld": LOAD, "and": MASK, "ja": JUMP, "ret": RETURN, "jeq": JUMP_EQUAL, "jgt": JUMP_GREATER, "jge": JUMP_AT_LEAST, "jset": JUMP_IF_SET
}

# Return values (linux/seccomp.h) by the actions' names; errno and trace have their number in the low 16 bits.
VALUES = {
    "allow": 0x7FFF0000, "log": 0x7FFC0000, "trap": 0x00030000, "kill_thread": 0, "kill_process": 0x80000000, "errno": 0x00050000,
    "trace": 0x7FF00000
}

NUMBERS = numbers_on("x86_64")

BOTH = "error: the argument '--json' cannot be used with '--format <FORMAT>'\n.."


def program(name, binary):
    """Returns the object of a program in bytes."""
    found = [dict(zip(("code", "jt", "jf", "k"), it)) for it in instructions_of(binary)]
    return {"name": name, "length": len(found), "instructions": found}


def shown(name, text):
    """Returns the object of a program as `show` prints it, with the notes of its instructions."""
    found = []
    for line in text.splitlines():
        place, word, rest, note = re.fullmatch(r" *(\d+)  (\w+) ([^;]*?) *(?:; (.*))?", line).groups()
        k, *jumps = (int(it.strip("[]#"), 0) for it in rest.split(", "))
        jt, jf = (it - int(place) - 1 for it in jumps) if jumps else (0, 0)
        found.append({"code": CODES[word], "jt": jt, "jf": jf, "k": k - int(place) - 1 if word == "ja" else k, "note": note})
    return {"name": name, "length": len(found), "instructions": found}


def measure(name, line):
    """Returns the object of a line of numbers, in front of which a layout stands, or the name."""
    front, *numbers = re.fullmatch(r"(\w+): (\d+) instructions, at most (\d+) steps, (\d+) passing", line).groups()
    layout = None if front == name else front
    return {"name": name, "layout": layout, **dict(zip(("length", "most", "passing"), map(int, numbers)))}


def action(text):
    """Returns the object of an action as it is printed; one that is none in hexadecimal digits."""
    if text.startswith("0x"):
        return {"name": None, "number": None, "value": int(text, 16)}
    name, number = re.match(r"(\w+)(?: (\d+))?", text).groups()
    return {"name": name, "number": number and int(number), "value": VALUES[name] + int(number or 0)}


def decision(line, name="a", steps=None):
    """Returns the object of a line of `explain`, of a policy whose filter has this name, of a profile, or of a program."""
    caller, process, alone, text = re.fullmatch(r"(?:(\w+)\[(\d+)\]: |(\d+): )?(.*)\n?", line).groups()
    done, _, why = text.partition(": ")
    entry, condition = (re.search(rf"{it}\[(\d+)\]", why) for it in (r"(?:\.filter|syscalls)", r"\.args"))
    entry, condition = (int(it[1]) if it else None for it in (entry, condition))
    path = None if entry is None else f"syscalls[{entry}]" if "syscalls" in why else f"{name}.filter[{entry}]"
    number = re.search(r"\((\d+)\)|call (\d+)", why)
    call = re.search(r"(\w+) \(\d+\)", why)
    kinds = {"another": "another-architecture", "no match": "no-match", "no entry": "no-entry", "default": "no-entry",
             "libseccomp": "no-entry", "runc": "no-entry"}
    kind = "entry" if steps is None else "program"
    return {
        "action": action(done), "call": call and call[1], "number": number and int(number[1] or number[2]), "entry": entry,
        "reason": next((it for begin, it in kinds.items() if why.startswith(begin) and not steps), kind), "condition": condition,
        "path": path if condition is None else f"{path}.args[{condition}]", "steps": steps, "program": caller, "process": process or alone
    }


def decisions(*lines, **more):
    """Returns the object of lines of `explain`."""
    return as_list("decisions", [decision(it, **more) for it in lines])


def part(line, throughout):
    """Returns the object of a line of `diff` on one part of the calls, and whether what it says holds for all of them."""
    front, rest = re.fullmatch(r"  (.*?): (.*)\n", line).groups()
    bounds = [int(it, 0) for it in re.findall(r"\b0x[0-9a-f]+|\b\d+", front)]
    number = None if bounds else NUMBERS[front]
    least, greatest = bounds or (number, number)
    found = {"call": None if bounds else front, "number": number, "least": least, "greatest": greatest}
    old, new, change, arch, call, given, pointer = re.fullmatch(
        r"(?:undecided at instruction \d+ of OLD and \d+ of NEW|(.*) -> (.*), (\w+)): (?:(0x\w+) )?(\w+)\((.*)\)(?: at (0x\w+))?", rest).groups()
    example = {
        "number": NUMBERS[call] if call in NUMBERS else int(call), "architecture": int(arch, 0) if arch else X86_64,
        "instruction_pointer": pointer or "0x0", "arguments": given.split(", ")
    }
    verdict = "different" if change else "undecided"
    return {**found, "verdict": verdict, "old": old and action(old), "new": new and action(new), "change": change,
            "throughout": throughout if change else None, "example": example}


def found(old, new, verdict, *lines, arch="x86_64", throughout=True):
    """Returns the object of what is found of two filters, and whether that holds throughout."""
    return {"old": old, "new": new, "architecture": arch, "verdict": verdict, "parts": [part(it, throughout) for it in lines]}


def compared(words, status, *items, given=""):
    """Returns the case of `diff` that finds this."""
    return Case(f"diff -q --json {words}", status, as_list("compared", items), "", given)


def learns(words, given, text, kept, *notes, key="policy"):
    """Returns the case of `learn` that writes a policy's or a profile's text, with what is kept, and notes this."""
    notes = [TOOL + it for it in notes]
    other = {"policy": "profile", "profile": "policy"}[key]
    kept = [{"call": call, "number": NUMBERS[call], "index": index, "type": size[0] if size else "dword"} for call, index, *size in kept]
    output = as_object({"kept": kept, "notes": notes})[:-1] + f',"{other}":null,"{key}":{text[:-1]}}}\n'
    return Case(f"learn --json {words}", 0, output, "".join(f"{it}\n" for it in notes), given)


def calls(*found):
    """Returns the object of calls, each an architecture, a name and a number."""
    return as_list("calls", [dict(zip(("architecture", "name", "number"), it)) for it in found])


misused = Command("").misused

CODE_ITEMS = [dict(zip(("code", "meaning"), it)) for it in MEANINGS]
SAME, ELSEWHERE = found("a", "a", "same"), found("a", "program", "same", arch=None)
KEPT = [("fcntl", 1), ("ioctl", 1), ("prctl", 0), ("socket", 0), ("socket", 1), ("socket", 2)]
OF_X32 = "  x32 calls 1073741824 to 4294967295: log -> trap, less: 1073741824(0x0, 0x0, 0x0, 0x0, 0x0, 0x0)\n"
STEERING = json.dumps({HOSTILE: json.loads(LOGS)["a"]})

OF_PROGRAMS = [
    writes("compile -q --json logs.json", "", as_object(program("a", TREE)) + "\n"),
    writes("compile -q --json --layout linear -f \"$(printf 'b\\302\\233')\"", TWO.replace('"trap"', '"log"'),
           as_object(program("b\u009b", LINEAR)) + "\n"),
    writes("compile -q --json read.bpf", "", as_object(program("program", OF_READ)) + "\n"),
    writes("compile -q --json logs.json -o written.json && cat written.json && rm written.json", "", as_object(program("a", TREE)) + "\n"),
    writes("show --json -a aarch64", SHOWN, as_list("programs", [
        shown(name, text.split("\n", 1)[1]) for name, text in zip(("a", "b\n"), LOGS_AS_TREE.split("filter ")[1:], strict=True)])),
    writes("show --json -a aarch64 --layout linear -f a", CALLS, as_list("programs", [shown("a", CALLS_SHOWN.split("\n", 1)[1])])),
    writes("show --json read.bpf", "", as_list("programs", [shown("program", READ_SHOWN)])),
    writes("show --json -", OF_LOADS, as_list("programs", [shown("program", LOADS_SHOWN)])),
    writes("show --json", "{}", as_list("programs", [])),
    writes("show --json --stats", TWO_CALLS, as_list("measures", [
        measure("b\n\\", "linear: 17 instructions, at most 8 steps, 8 passing"),
        measure("b\n\\", "tree: 10 instructions, at most 7 steps, 6 passing")])),
    writes("show --json --stats", json.dumps(profile()), as_list("measures", [
        measure("profile", "profile: 8 instructions, at most 6 steps, 6 passing")])),
    writes("show --stats read.bpf --json", "", as_list("measures", [
        measure("program", "program: 4 instructions, at most 3 steps, 3 passing")])),
]

OF_DECISIONS = [
    *[writes("explain --json explained.json", record_of(number, X86_64, *arguments), decisions(line)) for number, arguments, line in LINES],
    *[writes("explain --json near.json", record_of(number, X86_64, *arguments), decisions(line, name="n\x07"))
      for number, arguments, line in NEAR_LINES],
    writes("explain --json explained.json fcntl 9 2 1", "", decisions(LINES[1][2])),
    writes("explain explained-logs.json --json", TWO_RECORDS, decisions(*TWO_LINES.splitlines())),
    writes("explain --json logs.json", "", decisions()),
    Case("explain --json explained-logs.json", 2, decisions(*TWO_LINES.splitlines()), INPUT + SHORT, TWO_RECORDS + bytes(1)),
    writes("explain --json reads-profile.json read", "", decisions("allow: syscalls[0] of read (0)")),
    writes("explain --json logged-profile.json write", "", decisions("trap: defaultAction of write (1)")),
    writes("explain --oci --json reads-profile.json --records examples/records.bin", "", decisions(*EXAMPLE_LINES.splitlines())),
    writes("explain --json read.bpf --records calls.bin", "", decisions(*EXPLAINED.splitlines(), steps=3)),
    writes("explain --json read.bpf read", "", decisions("allow: read (0)", steps=3)),
    writes("explain read.c 1 --json", "", decisions("errno 1 (EPERM): write (1)", steps=3)),
    writes("explain --json set.bpf 3221225472", "", decisions("errno 1 (EPERM): call 3221225472", steps=3)),
    writes("explain --json longest.bpf 0", "", decisions("allow: read (0)", steps=4096)),
    writes("explain --json returns-7fff0001.bpf read", "", decisions("0x7fff0001: read (0)", steps=1)),
    writes("explain --json logged.json --log denied.log", "", decisions(*ON_DENIED.splitlines())),
    writes("explain --json logged.json --log traced.trace", "", decisions(*ON_TRACED.splitlines())),
    writes("explain --json logs.json --log -", filtered(0, "\x1b\u202e", 5), as_list("decisions", [
        {**decision("log: no entry of read (0)"), "program": "\x1b\u202e", "process": "5"}])),
    Case("explain --json logs.json --log -", 0, decisions("log: no entry of getpid (39)"), INPUT + "1 line isn't understood: line 2\n",
         "getpid() = 1\nhello\n"),
]

# One set is parted by the argument, where NEW tests it. If it isn't 5 OLD is at `ret allow`, and NEW at `ret log` (`show` numbers them).
STOPPED = "  read: undecided at instruction 4 of OLD and 6 of NEW: read(0x0, 0x0, 0x0, 0x0, 0x0, 0x0)\n"

OF_COMPARISONS = [
    compared("logs.json logs.json", 0, SAME),
    compared("none.json none.json", 0),
    compared("logs.json allows-read-of-5.json", 1, found("a", "a", "different", READS_5, throughout=False)),
    compared("errno-1.json errno-2.json", 1, found("a", "a", "different", OTHER_ERRNO)),
    # Calls that change alike are elements of their own.
    compared("logs.json reads-writes.json", 1, found("a", "a", "different", READS, READS.replace("read", "write"))),
    compared("--only-more errno-1.json errno-2.json", 0, SAME),
    compared("--most 1 allows-read.json allows-read-of-5.json", 3, found("a", "a", "undecided", STOPPED)),
    compared("filters-b-a.json filters-c-a.json", 1, SAME, found("b", None, "different"), found(None, "c", "different")),
    compared("filters-b-a.json:b filters-c-a.json:c", 0, found("b", "c", "same")),
    compared("allows-read.json writes.bpf", 1, found("a", "program", "different", NO_LONGER_READS, WRITES), ELSEWHERE),
    compared("logs.json reads-from-5.bpf", 1, found(
        "a", "program", "different", READS[:-1] + " at 0x500000000\n", throughout=False), ELSEWHERE),
    compared("allows-read.json reads-x32.bpf", 1, found("a", "program", "different", OF_X32), ELSEWHERE),
    compared("allows-read.json reads-other-kills.bpf", 0, found("a", "program", "same"), found(
        "a", "program", "different", *others("kill_process -> 0x80000001, otherwise").splitlines(True), arch=None)),
    compared("--oci reads-profile.json reads-profile.json", 0, found("profile", "profile", "same")),
    compared("- logs.json:a", 0, found(HOSTILE, "a", "same"), given=STEERING),
]

OF_LESSONS = [
    learns("raw.trace", "", OF_RAW, KEPT),
    learns("named.trace", "", OF_NAMED, [("fcntl", 1), ("socket", 0), ("socket", 1), ("socket", 2)]),
    learns("--profile raw.trace", "", OF_RAW_AS_PROFILE, KEPT, key="profile"),
    learns("many.trace", "", OF_MANY, [("fcntl", 1)], "many.trace: " + MORE.format("ioctl", 16)),
    learns("--args close:0 short.trace", "", learned(*(entry_of("close", (0, "qword", it)) for it in (1, 2)), "getpid"), [("close", 0, "qword")]),
    learns("strange.trace", "", learned(*OF_STRANGE), [], *STRANGE_LINES),
    learns("short.trace -o learned.json && cat learned.json; rm learned.json", "", learned("close", "getpid"), []),
]

OF_CALLS = [
    writes("call --json fcntl", "", calls(("x86_64", "fcntl", 72), ("aarch64", "fcntl", 25), ("riscv64", "fcntl", 25))),
    writes("call --json 0x2 -a amd64", "", calls(("x86_64", "open", 2))),
    *[writes(f"check --list {it}", "", as_list("codes", CODE_ITEMS)) for it in ("--json", "--format json")],
    writes("check --list --format gcc", "", CODES_LISTED),
]

# Errors are the lines that they are without it.
OF_ERRORS = [
    rejects("call --json nocall", "", "No architecture has a call of this name or number: nocall.\n", TOOL),
    rejects("show --json -f b", LOGS, "No filter has this name: b.\n"),
    rejects("show --json --stats -f b", LOGS, "No filter has this name: b.\n"),
    *[rejects(f"{it} --json missing.json", "", MISSING, TOOL + "missing.json: ") for it in ("compile", "show", "explain", "learn")],
    rejects("diff --json logs.json missing.json", "", MISSING, TOOL + "missing.json: "),
    *[rejects(f"{it} > /dev/full", "", FULL, OUTPUT) for it in (
        "compile -q --json logs.json", "show --json logs.json", "explain --json logs.json read", "diff --json logs.json logs.json",
        "learn --json short.trace", "call --json read", "check --list --json")],
    *[misused(f"compile --json --format {it} logs.json", BOTH) for it in ("raw", "listing", "c")],
    *[misused(f"check --list --json --format {it}", BOTH) for it in ("gcc", "json")],
    misused("call --json --record read", "error: the argument '--json' cannot be used with '--record'\n.."),
    misused("show --json=yes logs.json", "error: .."),
]

CASES = [*OF_PROGRAMS, *OF_DECISIONS, *OF_COMPARISONS, *OF_LESSONS, *OF_CALLS, *OF_ERRORS]
