"""How text from outside is written that steers a terminal or isn't seen there: in each place of each command."""

import json
import shlex

from cases.forms import EMPTY, INPUT, LOGS, MISSING, TOOL, Case, rejects, writes
from model import X86_64, record_of

from .compile import TREE, listed
from .compiled_profiles import entry, left_out, profile
from .diff import policy
from .learn import filtered
from .show import LOGS_SHOWN
from .stats import LOGS_STEPS

# Control characters, marks and embeddings of the direction of writing, and characters without a width; and then what isn't hostile.
HOSTILE = "\x07\x1b\t\n\r\x7f\u0085\u009b\u061c\u200b\u200c\u200d\u200e\u200f\u2028\u202a\u202b\u202c\u202d\u202e\u2060\u2066\u2067\u2068\u2069\ufeff" \
    "\u00ad\u180e\u2061\u2064\u206a\u206f\ufff9\ufffb\U000e0001\U000e007f"
HARMLESS = "\u00b5\u0627\u2027\u202f\u200a\u2010\u2070\u00ac\u00ae\u180d\u180f\ufffc\U000e0100\U0001f600"


def told(text):
    """Returns a text as it is written for people."""
    return "".join("".join(f"\\x{byte:02x}" for byte in it.encode()) if it in HOSTILE else it for it in text)


def named(text):
    """Returns the policy of one filter of this name, without entries."""
    return LOGS.replace('"a"', json.dumps(text))


# Names of filters, of calls and of files, and words for them.
NAMES = [f"a{it}b" for it in HOSTILE + HARMLESS] + [HOSTILE, "\x1b[2J\x1b]0;title\x07"]
FIRST = "a\x1b[2Jb\u202e\u200b"
WORD = shlex.quote(FIRST)

FILES = {
    f"{FIRST}.json": LOGS, f"{FIRST}.bpf": b"\6\0", "hostile-filter.json": named(FIRST), "hostile-bad.json": '{"a":1}', "hostile.bpf": TREE,
}


def made_by(name):
    """Returns the line of a log about a call of a program of this name, which Linux writes in hexadecimal digits."""
    return filtered(0, "?", 5).replace('"?"', name.encode().hex().upper(), 1)


NO_FILTER = f"No filter has this name: {told(FIRST)}.\n"
NO_CALL = f"No call of x86_64 has this name or number: {told(FIRST)}.\n"


def unknown(name):
    """Returns what is told of a policy that names this call, which shows it as JSON, of more than 80 bytes the front."""
    shown = json.dumps(name, ensure_ascii=False)
    length, front = len(shown.encode()), shown
    while length > 80 and len(front[:-1].encode()) >= 57:
        front = front[:-1]
    front, more = told(front), f" .. ({length} bytes)" if length > 80 else ""
    return f"a.filter[0].syscall: unknown system call {front}{more} on x86_64\n"


BAD_CALL = unknown(FIRST)
OF_BAD_CALL = policy('{"syscall":' + json.dumps(FIRST) + "}")
WRONG = EMPTY.format(told(FIRST))

# The commands that read a file, and those that read two.
OF_ONE = ("compile", "show", "check", "check --oci", "explain", "show --stats", "show --stats --oci", "compile --oci")
CALLED = ("explain",)


def missing(words, status=2):
    """Returns the case of a file that isn't there."""
    return Case(words, status, "", f"{TOOL}{told(FIRST)}: {MISSING}")


CASES = [
    # A filter's name, in what is written.
    *[writes("show --layout linear", named(it), LOGS_SHOWN.replace("filter 4 a", "filter 4 " + told(it)))
      for it in NAMES if "\\" not in it],
    *[writes("show --stats", named(it), LOGS_STEPS.replace("filter a", "filter " + told(it))) for it in NAMES],
    writes("compile -q --format listing", named(FIRST), listed(told(FIRST), TREE)),
    writes(f"compile -q --format listing -f {WORD}", named(FIRST), listed(told(FIRST), TREE)),
    writes("explain hostile-filter.json", record_of(1, X86_64), "log: no entry of write (1)\n"),
    Case("diff -q hostile-filter.json hostile-filter.json", 0, f"filter {told(FIRST)}: same\n", ""),
    Case("diff -q hostile-filter.json logs.json", 1, f"filter {told(FIRST)}: only in OLD\nfilter a: only in NEW\n", ""),
    Case("diff -q logs.json hostile-filter.json", 1, f"filter a: only in OLD\nfilter {told(FIRST)}: only in NEW\n", ""),
    Case("diff -q hostile-filter.json hostile.bpf", 0, f"filter {told(FIRST)}: same\n..", ""),
    *[writes("check", policy("", default='"allow"', match='"log"').replace('"a"', json.dumps(it)),
             f"{INPUT[len(TOOL):]}{told(it)}.mismatch_action: warning [allows-by-default]: ..") for it in NAMES],
    # In what is wrong.
    *[rejects(f"{it} -f {WORD} logs.json", "", NO_FILTER, TOOL + "logs.json: ") for it in ("compile -q",)],
    rejects(f"explain -f {WORD} logs.json read", "", NO_FILTER, TOOL + "logs.json: "),
    Case(f"diff -q logs.json:{WORD} hostile.bpf", 2, "", f"{TOOL}logs.json: {NO_FILTER}"),
    Case(f"diff logs.json logs.json:{WORD}", 2, "", f"{TOOL}logs.json: {NO_FILTER}"),
    *[rejects(f"compile -q -f {shlex.quote(it)} logs.json", "", f"No filter has this name: {told(it)}.\n", TOOL + "logs.json: ")
      for it in NAMES],
    rejects("compile", named(FIRST)[:-1] + "," + LOGS[1:], f"Name one of its filters: a, {told(FIRST)}.\n"),
    *[rejects(it, '{' + json.dumps(FIRST) + ':{}}', WRONG) for it in ("compile", "show", "show --stats")],
    *[rejects(it, OF_BAD_CALL, BAD_CALL) for it in ("compile", "show", "show --stats")],
    *[rejects("show --stats", policy('{"syscall":' + json.dumps(it) + "}"), unknown(it)) for it in NAMES],
    Case("diff -q logs.json -", 2, "", INPUT + BAD_CALL, OF_BAD_CALL),
    Case("diff - hostile.bpf", 2, "", INPUT + BAD_CALL, OF_BAD_CALL),
    # A call that is asked for.
    *[rejects(f"{it} {WORD}", "", NO_CALL, TOOL) for it in ("call --record", "explain logs.json", "explain hostile.bpf")],
    *[rejects(f"call --record {shlex.quote(it)}", "", f"No call of x86_64 has this name or number: {told(it)}.\n", TOOL) for it in NAMES],
    # A profile's names and values.
    *[case for it in NAMES for case in left_out("", profile(entry("") | {"names": [it]}), [told(it)], ("read", "errno 1"))],
    *[rejects("compile --oci --strict", json.dumps(profile(entry("") | {"names": [it]})),
              f"not system calls of x86_64 (1): {told(it)}\n") for it in NAMES],
    # The path of a file.
    *[missing(f"{it} {WORD}") for it in OF_ONE if it not in CALLED], *[missing(f"{it} {WORD} read") for it in CALLED],
    missing(f"explain --records {WORD} logs.json"), missing(f"explain --records {WORD} hostile.bpf"),
    missing(f"diff {WORD} logs.json", 2), missing(f"diff logs.json {WORD}", 2),
    missing(f"diff {WORD} hostile.bpf", 2), missing(f"diff -q logs.json {WORD}", 2),
    *[rejects(f"check {shlex.quote(it)}", "", MISSING, f"{TOOL}{told(it)}: ") for it in NAMES],
    rejects(f"compile -q logs.json -o {WORD}/{WORD}", "", MISSING, f"{TOOL}{told(FIRST)}/{told(FIRST)}: "),
    rejects(f"explain {WORD}.bpf read", "", "..", f"{TOOL}{told(FIRST)}.bpf: "),
    writes(f"compile -q {WORD}.json", "", TREE),
    # The name of a program that made a call: it writes no line of its own.
    *[writes("explain logs.json --log -", made_by(it), f"{told(it)}[5]: log: no entry of read (0)\n") for it in NAMES],
    writes("explain logs.json --log -", made_by("a\nroot[1]: allow"), "a\\x0aroot[1]: allow[5]: log: no entry of read (0)\n"),
    # Words that are no command.
    *[Case(shlex.quote(f"a{it}b"), 2, "", f"error: unrecognized subcommand 'a{told(it)}b'\n..") for it in HOSTILE],
    *[Case(f"check {shlex.quote(words)} logs.json", 2, "", said)
      for it in "\n\r\t\u0085\u2028" for words, said in (
          (f"--cap=a{it}b", f"error: no capability is called 'a{told(it)}b'\n.."),
          (f"--arch=a{it}b", f"error: invalid value 'a{told(it)}b' for '--arch <ARCH>'\n.."),
          (f"--allow=a{it}b", f"error: invalid value 'a{told(it)}b' for '--allow <CODE>'\n.."),
          (f"--a{it}b=c", f"error: unexpected argument '--a{told(it)}b' found\n.."),
      )],
    Case(f"{WORD}", 2, "", f"error: unrecognized subcommand '{told(FIRST)}'\n.."),
    Case(f"check --cap {WORD} logs.json", 2, "", f"error: no capability is called '{told(FIRST)}'\n.."),
    *[Case(f"{it} -a {WORD}", 2, "", f"error: invalid value '{told(FIRST)}' for '--arch <ARCH>'\n..")
      for it in ("check", "compile", "show", "explain", "diff", "learn", "call")],
    *[Case(f"{it} --{WORD}", 2, "", f"error: unexpected argument '--{told(FIRST)}' found\n..")
      for it in ("check", "compile", "show", "explain", "diff", "learn", "call")],
    Case(f"check --allow {WORD}", 2, "", f"error: invalid value '{told(FIRST)}' for '--allow <CODE>'\n.."),
]
