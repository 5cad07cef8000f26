"""What `check` has to write for machines: with `--format gcc` and as JSON.

In the texts below a MARK stands in front of each byte whose line and column are told; the text that is checked is without the
marks. So places are counted here by the marks, and not by the program.
"""

import json
import shlex

from cases.forms import FULL, LOGS, MISSING, OUTPUT, TOOL, Case, as_list
from cases.seccompc.commands import FILES as SHARED, FRONTEND

from .compiled_profiles import LARGE, TOO_LONG, entry, profile
from .hostile import HOSTILE, NAMES, told
from .long_filters import of_rules
from .profile_checks import HAS_FLAGS, IS_DEFAULT, SAID_OF_PROFILE
from .warnings import ALLOWED, OF_PARTS, SAID

MARK = "\u2020"


def bare(text):
    """Returns a text without its marks."""
    return text.replace(MARK, "")


def places(text):
    """Returns the line and the column of each mark of a text, from 1; a column is that of a byte."""
    *fronts, _ = text.split(MARK)
    read, found = "", []
    for front in fronts:
        read += front
        *lines, last = read.split("\n")
        found.append((len(lines) + 1, len(last.encode()) + 1))
    return found


def said(severity, code, message, path, **more):
    """Returns what is said of a place, without the place."""
    return {"path": path, "code": code, "severity": severity, "message": message, "call": None, "suggestion": None, **more}


def wrong(code, message, path="", **more):
    """Returns the error of a code."""
    return said("error", code, message, path, **more)


def warned(code, path, message=None, **more):
    """Returns the warning of a code."""
    return said("warning", code, message or SAID[code], path, **more)


def placed(text, file, sayings):
    """Returns what is said of a text, each at the mark of its number: at none if that is None."""
    marks = places(text)
    return [{**saying, "file": file, "line": marks[nth][0] if nth is not None else None, "column": marks[nth][1] if nth is not None else None}
            for nth, saying in sayings]


def as_json(found):
    """Returns the object of what is said, as it is written."""
    return as_list("diagnostics", found)


def joined(found):
    """Returns what is said with the calls of which the same is said at one place together, where the first of them is."""
    lines = {}
    for nth, it in enumerate(found):
        same = (it["path"], it["code"], it["message"]) if it["call"] else nth
        lines.setdefault(same, {**it, "calls": []})["calls"].append(it["call"])
    return lines.values()


def as_gcc(found):
    """Returns the lines of what is said."""
    lines = []
    for it in joined(found):
        place = f":{it['line']}:{it['column']}" if it["line"] else ""
        call = f" ({', '.join(it['calls'])})" if it["call"] else ""
        path = f'"{it["path"]}"' if it["code"] == "unknown-key" else it["path"]
        about = f"{told(path)}{call}: " if it["path"] else ""
        lines.append(f"{told(it['file'])}{place}: {it['severity']}: {about}{told(it['message'])} [{it['code']}]\n")
    return "".join(lines)


def as_text(it):
    """Returns the line of what is said for people."""
    return f"{it['file']}: {it['path']}: warning [{it['code']}]: {it['message']}\n"


def cases_of(text, *sayings, words="", status=None, notes=""):
    """Returns the cases of both forms, of a text on standard input."""
    found = placed(text, "-", sayings)
    if status is None:
        status = int(any(it["severity"] == "error" for it in found))
    return [
        Case(f"check --format gcc{words}", status, as_gcc(found), notes, bare(text)),
        Case(f"check --format json{words}", status, as_json(found), notes, bare(text)),
        Case(f"check --json{words}", status, as_json(found), notes, bare(text)),
    ]


def filters(entries, mismatch='{"errno":1}', match='"allow"'):
    """Returns the policy whose one filter has these entries and actions."""
    return f'{{\n  "a": {{\n    "mismatch_action": {mismatch},\n    "match_action": {match},\n    "filter": [{entries}]\n  }}\n}}\n'


CONDITION = '{"index":%s,"type":"dword","op":%s,"val":%s}'
UNKNOWN = 'unknown system call "fnctl" on x86_64; did you mean "fcntl"?'
NAME = "\u00e9\U0001f600"

OBJECT_OF_FILTER = "expected an object with the actions and the entries of a filter, found "
REPEATED = FRONTEND + "Repeated key in Json."
PARSING = "invalid JSON: expected "

OF_ERRORS = [
    # What stands at a place: its first byte, behind spaces, tabs and line feeds.
    *cases_of(filters('\n\t {"syscall" :\n\u2020"fnctl"}'), (0, wrong("unknown-call", UNKNOWN, "a.filter[0].syscall", suggestion="fcntl"))),
    *cases_of(filters('{"syscall":"read","args":[' + CONDITION % (0, '"eq"', 1) + "," + CONDITION % (MARK + "6", '"eq"', 1) + "]}"),
              (0, wrong("wrong-value", "expected 0 to 5, found 6", "a.filter[0].args[1].index"))),
    *cases_of(filters('{"syscall":"read","args":\u2020[]}'),
              (0, wrong("wrong-value", "expected null or at least one condition, found an empty array", "a.filter[0].args"))),
    *cases_of(filters('{"syscall":"read","args":[' + CONDITION % (0, '{ "masked_eq" : \u2020-1}', 1) + "]}"),
              (0, wrong("wrong-value", "expected 0 to 18446744073709551615, found -1", "a.filter[0].args[0].op.masked_eq"))),
    *cases_of(filters("", mismatch='{"errno": \u20204294967296}'),
              (0, wrong("wrong-value", "expected 0 to 4294967295, found 4294967296", "a.mismatch_action.errno"))),
    # An object that lacks something; one with a key that isn't known, where the key stands; one with both keys of one thing.
    *cases_of(filters('{"syscall":"read"}, \u2020{"args":null}'), (0, wrong("missing-key", 'missing "syscall"', "a.filter[1]"))),
    *cases_of('{"a":\u2020{"match_action":"log","filter":[]}}',
              (0, wrong("missing-key", 'missing "mismatch_action" or "default_action"', "a"))),
    *cases_of(filters('{"syscall":"read", \u2020"arg":[]}'),
              (0, wrong("unexpected-key", '"arg": unknown key; expected syscall, args or comment', "a.filter[0]"))),
    *cases_of(filters('{"syscall":"read", \u2020"\\u0061rg":[]}'),
              (0, wrong("unexpected-key", '"arg": unknown key; expected syscall, args or comment', "a.filter[0]"))),
    *cases_of('{"a":\u2020{"match_action":"log","mismatch_action":"log","filter_action":"log","filter":[]}}',
              (0, wrong("both-keys", 'expected one of "match_action" and "filter_action", found both', "a"))),
    *cases_of('{"a":\u2020{"mismatch_action":"log","match_action":"log","filter":[]}}',
              (0, wrong("identical-actions", "expected two actions that differ, found the same one twice", "a"))),
    # Columns are those of bytes, and names are read as JSON writes them.
    *cases_of('{"' + NAME + '":\u2020[]}', (0, wrong("wrong-value", OBJECT_OF_FILTER + "an empty array", NAME))),
    *cases_of('{"\\u00e9\\ud83d\\ude00" :\u2020[]}', (0, wrong("wrong-value", OBJECT_OF_FILTER + "an empty array", NAME))),
    *cases_of('{"a\\"{[:,]}":\r\n\u20201, "b":\u2020null}', (0, wrong("wrong-value", OBJECT_OF_FILTER + "1", 'a"{[:,]}')), (1, wrong("wrong-value", OBJECT_OF_FILTER + "null", "b"))),
    *cases_of(" \u2020[1]", (0, wrong("wrong-value", "expected an object of filters, found an array of 1 value"))),
    *cases_of("\n\n  \u20207 ", (0, wrong("wrong-value", "expected an object of filters, found 7"))),
    # A key that an object has twice, at its second place; of several the first.
    *cases_of('{"a":1,\n \u2020"a":2}', (0, wrong("repeated-key", REPEATED, "a"))),
    *cases_of('{"b":{"x":[{"k":1,"l":2},{"l":3,"k":4,\u2020"\\u006c":5}]},"b":2}', (0, wrong("repeated-key", REPEATED, "b.x[1].l"))),
    *cases_of('{"a":{"a":[{"a":{"a":1}}],"b":1},"b":[[],[7,{"c":0}],{"a":0,\u2020"a":1}]}', (0, wrong("repeated-key", REPEATED, "b[2].a"))),
    # No JSON: where it stops being so, and why.
    *cases_of('{"a":\n [1,\u2020]}', (0, wrong("not-json", PARSING + 'a value, found "]"'))),
    *cases_of('\u2020// no comments\n{}', (0, wrong("not-json", PARSING + 'a value, found "//"'))),
    *cases_of('{"a":{"mismatch_action":{"errno":\u20200x1}}}', (0, wrong("not-json", PARSING + 'a number in decimal digits, found "0x1"'))),
    *cases_of('{"a":{},\n \u2020,}', (0, wrong("not-json", PARSING + 'a name in quotes, found ","'))),
    *cases_of('{"a":\u2020"b}\n', (0, wrong("not-json", "invalid JSON: a line ends inside a string"))),
    *cases_of('{"a":{}\n\u2020', (0, wrong("not-json", PARSING + '"," or "}", found the end of the text'))),
    # Several, in the text's order, each at its place and with its code.
    *cases_of('{ "b": \u2020{ "filter": [ { "syscall": \u2020"fnctl", \u2020"arg": 1 }, \u2020{}, { "syscall": "read", "args": \u2020[] } ],\n'
              '"mismatch_action": "log", "match_action": "log" }, "a": \u20201 }',
              (0, wrong("identical-actions", "expected two actions that differ, found the same one twice", "b")),
              (1, wrong("unknown-call", UNKNOWN, "b.filter[0].syscall", suggestion="fcntl")),
              (2, wrong("unexpected-key", '"arg": unknown key; expected syscall, args or comment', "b.filter[0]")),
              (3, wrong("missing-key", 'missing "syscall"', "b.filter[1]")),
              (4, wrong("wrong-value", "expected null or at least one condition, found an empty array", "b.filter[2].args")),
              (5, wrong("wrong-value", OBJECT_OF_FILTER + "1", "a"))),
    *cases_of(filters(",".join('{"syscall":\u2020"no_%d"}' % it for it in range(150))),
              *((it, wrong("unknown-call", f'unknown system call "no_{it}" on x86_64', f"a.filter[{it}].syscall")) for it in range(100)),
              (None, wrong("more-errors", "50 more errors"))),
    # A program that is too large, and bytes that are none.
    *cases_of("{" + of_rules("a", 816).replace("{", MARK + "{", 1) + "}", (0, wrong(
        "program-too-large", "needs 4101 instructions in the linear layout; 4096 fit; 13 in the tree layout", "a")), words=f" {OF_PARTS}"),
    # With its warnings.
    *cases_of("{" + of_rules("a", 816).replace("{", MARK + "{", 1).replace('"trap"', MARK + '"trap"') + "}",
              (0, wrong("program-too-large", "needs 4101 instructions in the linear layout; 4096 fit; 13 in the tree layout", "a")),
              *((1, warned("kills-exit", "a.mismatch_action", call=it)) for it in ("exit", "exit_group", "rt_sigreturn")), words=f" {ALLOWED}"),
    # An errno by its name.
    *cases_of(filters("", mismatch='{"errno":\u2020"EPERM"}'),
              (0, wrong("wrong-value", 'expected 0 to 4294967295, found "EPERM"; EPERM is 1', "a.mismatch_action.errno"))),
    *cases_of("{ 6, 0, 0, 0 }," * 4097, (None, wrong("not-a-program", "expected 1 to 4096 instructions, found 4097"))),
]

# A policy with each kind of place, and its warnings.
WARNED = '''{
  "b": {
    "filter": [
      { "syscall": "read", "args": [
        { "index": 0, "type": "qword", "op": { "masked_eq": 1 }, "val": \u20202 },
        \u2020{ "index": 1, "type": "dword", "op": "ge", "val": 0 }
      ] },
      \u2020{ "syscall": "stat" }, \u2020{ "syscall": "stat" }
    ],
    "filter_action": { "errno": \u20200 },
    "default_action": \u2020"allow"
  },
  "a": { "match_action": "allow", "mismatch_action": \u2020"kill_process", "filter": [
    { "syscall": "exit" }, { "syscall": "execve" }, { "syscall": "prctl" }, { "syscall": "seccomp" }
  ] }
}
'''
OF_WARNED = [
    (6, warned("kills-exit", "a.mismatch_action", call="exit_group")), (6, warned("kills-exit", "a.mismatch_action", call="rt_sigreturn")),
    (5, warned("allows-by-default", "b.mismatch_action")), (4, warned("fake-success", "b.match_action.errno")),
    (0, warned("value-outside-mask", "b.filter[0].args[0].val")), (1, warned("always-holds", "b.filter[0].args[1]")),
    (2, warned("redundant-entry", "b.filter[1]")), (3, warned("redundant-entry", "b.filter[2]")),
]

OF_WARNINGS = [
    *cases_of(WARNED, *OF_WARNED),
    *cases_of(WARNED, *OF_WARNED, words=" --deny-warnings", status=1),
    *cases_of(WARNED, *OF_WARNED[2:], words=" --deny-warnings --allow kills-exit", status=1),
    *cases_of("{}"),
    *cases_of(LOGS.replace('"log"', MARK + '"log"'), (0, warned("allows-by-default", "a.mismatch_action"))),
    # A program has no places, and no warnings.
    *[Case(f"check {it} hostile.bpf", 0, output, "") for it, output in (("--format gcc", ""), ("--json", as_json([])))],
]

# A profile with each kind of place.
PROFILE = '''{ "defaultAction": "SCMP_ACT_ERRNO", \u2020"sysCalls": [],
  "flags": \u2020["SECCOMP_FILTER_FLAG_LOG"],
  "syscalls": [
    { "names": ["exit", "exit_group", "rt_sigreturn", "execve", "prctl", "seccomp"], "action": "SCMP_ACT_ALLOW" },
    { "names": ["write"], "action": \u2020"SCMP_ACT_ERRNO" }
  ] }
'''

OF_PROFILES = [
    *cases_of(
        PROFILE, (1, warned("runtimes-differ", "flags", HAS_FLAGS)), (0, warned("unknown-key", "sysCalls", SAID_OF_PROFILE["unknown-key"])),
        (2, warned("no-effect", "syscalls[1].action", IS_DEFAULT)),
    ),
    *cases_of('{"defaultAction":"SCMP_ACT_ALLOW","syscalls":[{"names":["read"],"action":"SCMP_ACT_ERRNO","args":[\n'
              '{"index":\u20206,"value":1,"op":"SCMP_CMP_EQ"}]}]}', (0, wrong("not-a-profile", "expected 0 to 5, found 6", "syscalls[0].args[0].index"))),
    *cases_of('{"defaultAction":\u2020"ALLOW"}', (0, wrong(
        "not-a-profile", "expected SCMP_ACT_ALLOW, SCMP_ACT_ERRNO, SCMP_ACT_KILL, SCMP_ACT_KILL_PROCESS, SCMP_ACT_KILL_THREAD, SCMP_ACT_LOG, "
        'SCMP_ACT_NOTIFY, SCMP_ACT_TRACE or SCMP_ACT_TRAP, found "ALLOW"', "defaultAction"))),
    *cases_of(" \u2020[]", (0, wrong("not-a-profile", "expected an object, found an array")), words=" --oci"),
    *cases_of("[\u2020}", (0, wrong("not-json", PARSING + 'a value or "]", found "}"')), words=" --oci"),
    *cases_of(json.dumps(profile(entry("read", args=LARGE))), (None, wrong("program-too-large", TOO_LONG.rstrip()))),
]

# Several are one object, in their order; what can't be read is told on standard error as ever.
LOGS_SAID = {
    **warned("allows-by-default", "a.mismatch_action"), "file": "logs.json", "line": 1,
    "column": json.dumps(SHARED["logs.json"]).index('"log"') + 1
}


def hostile(name):
    """Returns the policy of a filter of a name whose mismatch action allows, with a mark at that."""
    key = json.dumps(name)
    return f'{{{key}:{{"mismatch_action":{MARK}"allow","match_action":"log","filter":[]}}}}'


OF_HOSTILE = [
    *[case for it in NAMES for case in cases_of(hostile(it), (0, warned("allows-by-default", f"{it}.mismatch_action")))[:2]],
    Case(f"check --json {shlex.quote(HOSTILE)}", 2, as_json([]), f"{TOOL}{told(HOSTILE)}: {MISSING}"),
]

OF_SEVERAL = [
    Case("check --json logs.json no-filters.json logs.json", 0, as_json([LOGS_SAID] * 2), ""),
    Case("check --format gcc logs.json no-filters.json logs.json", 0, as_gcc([LOGS_SAID] * 2), ""),
    Case("check --json logs.json missing.json logs.json", 2, as_json([LOGS_SAID] * 2), f"{TOOL}missing.json: {MISSING}"),
    Case("check --json logs.json logs.json missing.json", 2, as_json([LOGS_SAID] * 2), f"{TOOL}missing.json: {MISSING}"),
    Case("check --json missing.json", 2, as_json([]), f"{TOOL}missing.json: {MISSING}"),
]

BOTH = "error: the argument '--json' cannot be used with '--format <FORMAT>'\n.."

OF_WORDS = [
    *[Case(f"check {it} logs.json", 0, as_json([LOGS_SAID]), "") for it in ("--json", "--format=json")],
    *[Case(f"check --json --format {it} logs.json", 2, "", BOTH) for it in ("gcc", "json")],
    Case("check --format text --json logs.json", 2, "", "error: the argument '--format <FORMAT>' cannot be used with '--json'\n.."),
    Case("check --format text logs.json", 0, as_text(LOGS_SAID), ""),
    Case("check --format xml logs.json", 2, "", "error: invalid value 'xml' for '--format <FORMAT>'\n  [possible values: text, gcc, json]\n.."),
    # Output that takes nothing is trouble, whatever was found; of JSON it is told once.
    Case("check --json logs.json logs.json > /dev/full", 2, "", OUTPUT + FULL),
    Case("check --json no-filters.json > /dev/full", 2, "", OUTPUT + FULL),
    Case("check --format gcc logs.json > /dev/full", 2, "", OUTPUT + FULL),
]

CASES = [*OF_WORDS, *OF_ERRORS, *OF_WARNINGS, *OF_PROFILES, *OF_HOSTILE, *OF_SEVERAL]
