"""What `compile`, `explain`, `diff`, `stats` and `check` with `--oci` have to report of a value that is no profile: the place of its
first fault, and what is wrong there.

The texts are written by hand, from the tables of docs/OCI.md.
"""

import json

from cases.forms import INPUT, LOGS, TOOL, Case, rejects

from .compiled_profiles import configured, entry, profile, when

# What may stand under a key or at a place.
ACTION = ("SCMP_ACT_ALLOW, SCMP_ACT_ERRNO, SCMP_ACT_KILL, SCMP_ACT_KILL_PROCESS, SCMP_ACT_KILL_THREAD, SCMP_ACT_LOG, "
          "SCMP_ACT_NOTIFY, SCMP_ACT_TRACE or SCMP_ACT_TRAP")
OPERATOR = "SCMP_CMP_EQ, SCMP_CMP_GE, SCMP_CMP_GT, SCMP_CMP_LE, SCMP_CMP_LT, SCMP_CMP_MASKED_EQ or SCMP_CMP_NE"
FLAG = "SECCOMP_FILTER_FLAG_LOG, SECCOMP_FILTER_FLAG_SPEC_ALLOW, SECCOMP_FILTER_FLAG_TSYNC or SECCOMP_FILTER_FLAG_WAIT_KILLABLE_RECV"
OBJECT, LIST, TEXT, TEXT_OR_NULL = "an object", "null or an array", "a string", "null or a string"
INDEX, ACTION_NUMBER = "0 to 5", "null or 0 to 65535"
NUMBER, NUMBER_OR_NULL = "0 to 18446744073709551615", "null or 0 to 18446744073709551615"
VERSION = 'null or a version of two numbers, such as "4.8"'
ERROR_NAME = 'null or an errno by name or number, such as "EPERM" or "1"'

# Of each of these, values that may not stand there.
OTHERS = {
    ACTION: ["SCMP_ACT_USER_NOTIF", "SCMP_ACT_DENY", "allow", "scmp_act_allow", "SCMP_ACT_ALLOW ", "", None, True, 5, [], {}],
    OPERATOR: ["SCMP_CMP_EQUAL", "EQ", "scmp_cmp_eq", "", None, False, 5, ["SCMP_CMP_EQ"], {}],
    FLAG: ["SECCOMP_FILTER_FLAG_NEW_LISTENER", "SECCOMP_FILTER_FLAG_TSYNC_ESRCH", "", None, 1, [], {}],
    OBJECT: [None, "read", 5, True, [], [{}]], LIST: ["read", "", 5, True, {}, {"0": "read"}], TEXT: [None, False, 5, ["read"], {}],
    TEXT_OR_NULL: [False, 5, ["text"], {}], INDEX: [6, -1, 0.0, -0.0, 1.5, "0", None, [], {}],
    ACTION_NUMBER: [65536, -1, 1.0, "1", "", True, [1], {}], NUMBER: [-1, 1.0, "5", "0x5", None, [], {}],
    NUMBER_OR_NULL: [-1, 1.0, "5", True, [], {}],
    ERROR_NAME: [False, 5, ["EPERM"], {}, "eperm", " ", "EFOO", "E", "EIO\u009b", "65536", "-1", "+1", "0x1", "1.0", "4294967297"],
    VERSION: ["4", "4.8.0", "4.", ".8", "v4.8", "+4.8", "4.-8", " 4.8", "4294967296.0", 4.8, ["4.8"], {}],
}

# The keys of a profile, an entry, a condition and of what an entry includes or excludes, each with what may stand there.
OF_PROFILE = {"defaultAction": ACTION, "defaultErrnoRet": ACTION_NUMBER, "defaultErrno": ERROR_NAME, "architectures": LIST,
              "archMap": LIST, "flags": LIST, "syscalls": LIST}
OF_ENTRY = {"names": LIST, "name": TEXT_OR_NULL, "action": ACTION, "errnoRet": ACTION_NUMBER, "errno": ERROR_NAME, "args": LIST,
            "includes": OBJECT, "excludes": OBJECT, "comment": TEXT_OR_NULL}
# Objects of an entry that may be null too, as runtimes take them.
MAY_BE_NULL = ("includes", "excludes")
OF_CONDITION = {"index": INDEX, "value": NUMBER, "valueTwo": NUMBER_OR_NULL, "op": OPERATOR}
OF_CRITERIA = {"caps": LIST, "arches": LIST, "minKernel": VERSION}

# The same keys as they are listed if another is found.
ENTRY_KEYS = "names, name, action, errnoRet, errno, args, includes, excludes or comment"
CONDITION_KEYS = "index, value, valueTwo or op"
CRITERIA_KEYS = "caps, arches or minKernel"

# The actions that have no number.
PLAIN = [f"SCMP_ACT_{it}" for it in ("ALLOW", "KILL", "KILL_PROCESS", "KILL_THREAD", "LOG", "NOTIFY", "TRAP")]

ARGUMENT = when(0, "EQ", 5)

# A number that 64 bits don't hold, as JSON; and how it begins if it is shown, with the fewest digits that read back. What
# reads back may have a sign in its exponent or none.
TOO_GREAT, SHOWN_TOO_GREAT = "18446744073709551616", "1.8446744073709552e.."


def shown(value):
    """Returns how a value is shown that may not stand at its place."""
    kind = "an object" if isinstance(value, dict) else "an array" if isinstance(value, list) else None
    return kind or json.dumps(value, ensure_ascii=False).replace("\u009b", r"\xc2\x9b")


def stands(form, value):
    """Returns the words on a value in the place of another."""
    is_whole = form not in (INDEX, ACTION_NUMBER, NUMBER, NUMBER_OR_NULL) or not isinstance(value, float) or not 0 <= value < 2**64
    return f"expected {form}, found {shown(value)}" + ("" if is_whole else ", which isn't written as a whole number")


def strange(key, keys):
    """Returns the words on a key in the place of others."""
    return f'"{key}": unknown key; expected {keys}'


def missing(key):
    """Returns the words on a key that isn't there."""
    return f'missing "{key}"'


def numbered(key):
    """Returns the words on a number beside an action that has none."""
    return f'"{key}" is given, but the action takes no number'


BOTH = 'expected one of "names" and "name", found both'


def second(one):
    """Returns the profile whose second entry is this one."""
    return profile(entry("write"), one)


def in_condition(condition):
    """Returns the profile that has this condition after another, in the second entry."""
    return second(entry("read", args=[ARGUMENT, condition]))


def without(one, left):
    """Returns an object without a key."""
    return {key: it for key, it in one.items() if key != left}


ENTRY, CONDITION = "syscalls[1]", "syscalls[1].args[1]"

# Each key with each value that may not stand there.
WRONG_VALUES = [
    *[(f"{key}", stands(form, it), {**profile(), key: it}) for key, form in OF_PROFILE.items() for it in OTHERS[form]],
    *[(f"{ENTRY}.{key}", stands(form, it), second({**without(entry("read"), "names" if key == "name" else ""), key: it}))
      for key, form in OF_ENTRY.items() for it in OTHERS[form] if it is not None or key not in MAY_BE_NULL],
    *[(f"{CONDITION}.{key}", stands(form, it), in_condition({**ARGUMENT, key: it}))
      for key, form in OF_CONDITION.items() for it in OTHERS[form]],
    *[(f"{ENTRY}.{part}.{key}", stands(form, it), second(entry("read", **{part: {key: it}})))
      for part in ("includes", "excludes") for key, form in OF_CRITERIA.items() for it in OTHERS[form]],
]

# Each list with an item that may not stand there, after one that may.
WRONG_ITEMS = [
    *[("flags[1]", stands(FLAG, it), profile(flags=["SECCOMP_FILTER_FLAG_LOG", it])) for it in OTHERS[FLAG]],
    *[(ENTRY, stands(OBJECT, it), second(it)) for it in OTHERS[OBJECT]],
    *[(f"{ENTRY}.names[1]", stands(TEXT, it), second({**entry(""), "names": ["read", it]})) for it in OTHERS[TEXT]],
    *[(CONDITION, stands(OBJECT, it), in_condition(it)) for it in OTHERS[OBJECT]],
    *[(f"{ENTRY}.{part}.{key}[1]", stands(TEXT, it), second(entry("read", **{part: {key: ["arm64", it]}})))
      for part in ("includes", "excludes") for key in ("caps", "arches") for it in OTHERS[TEXT]],
    ("the profile", stands(OBJECT, []), []),
    *[("the profile", stands(OBJECT, it), it) for it in (None, "SCMP_ACT_ALLOW", 5, -1, 1.5, True, [profile()])],
    # The tenth place and further ones have two digits.
    ("syscalls[10].names[11]", stands(TEXT, 5), profile(*[entry("read")] * 10, {**entry(""), "names": [*["read"] * 11, 5]})),
]

# Keys that aren't there.
MISSING_KEYS = [
    ("the profile", missing("defaultAction"), {}), ("the profile", missing("defaultAction"), {"syscalls": []}),
    (ENTRY, missing("action"), second({})), (ENTRY, missing("action"), second({"names": ["read"]})),
    *[(CONDITION, missing(left), in_condition(without(ARGUMENT, left))) for left in ("index", "value", "op")],
]

# Keys that aren't known, and how they are written: control characters by the numbers of their bytes.
UNKNOWN = [("Names", "Names"), ("priority", "priority"), ("", ""), ("\u00b5", "\u00b5"), ('"', '"'), ("a\nb", r"a\x0ab"),
           ("a\\b", r"a\x5cb"), ("\u007f", r"\x7f"), ("\u009b2J", r"\xc2\x9b2J"), ("\u001b[2J", r"\x1b[2J")]
UNKNOWN_KEYS = [
    *[(ENTRY, strange(it, ENTRY_KEYS), second(entry("read", **{key: None})))
      for key, it in (*UNKNOWN, ("nams", "nams"), ("index", "index"), ("defaultAction", "defaultAction"))],
    *[(CONDITION, strange(it, CONDITION_KEYS), in_condition({**ARGUMENT, key: None}))
      for key, it in (*UNKNOWN, ("valuetwo", "valuetwo"), ("comment", "comment"), ("names", "names"))],
    *[(f"{ENTRY}.{part}", strange(it, CRITERIA_KEYS), second(entry("read", **{part: {key: None}})))
      for part in ("includes", "excludes") for key, it in (*UNKNOWN, ("cap", "cap"), ("comment", "comment"))],
]

# What stands beside something that it may not stand beside.
BESIDE = [
    *[("the profile", numbered("defaultErrnoRet"), profile(default=action, defaultErrnoRet=number))
      for action in PLAIN for number in (0, 1)],
    *[(ENTRY, numbered("errnoRet"), second(entry("read", action, errnoRet=number))) for action in PLAIN for number in (0, 65535)],
    *[("the profile", numbered("defaultErrno"), profile(default=action, defaultErrno=name)) for action in PLAIN for name in ("EPERM", "1")],
    *[(ENTRY, numbered("errno"), second(entry("read", action, errno="EPERM"))) for action in PLAIN],
    *[(ENTRY, BOTH, second({"names": names, "name": "write", "action": "SCMP_ACT_ALLOW"})) for names in (["read"], ["write"], [""])],
]

# Of two faults the first one. Inside an object that is a key that isn't known, wherever it stands, of several the least; of an
# entry its comment; the action, its number and its errno; and then the other keys in the order of docs/OCI.md.
FIRST = [
    ("the profile", missing("defaultAction"), {"defaultErrnoRet": -1, "syscalls": 5}),
    ("defaultAction", stands(ACTION, "allow"), profile(default="allow", defaultErrnoRet=-1, defaultErrno=5, flags=5)),
    ("defaultErrnoRet", stands(ACTION_NUMBER, -1), profile(default="SCMP_ACT_LOG", defaultErrnoRet=-1, defaultErrno=5)),
    ("defaultErrno", stands(ERROR_NAME, 5), profile(default="SCMP_ACT_LOG", defaultErrnoRet=1, defaultErrno=5)),
    ("the profile", numbered("defaultErrnoRet"), profile(default="SCMP_ACT_LOG", defaultErrnoRet=1, defaultErrno="EPERM")),
    ("defaultErrno", stands(ERROR_NAME, 5), profile(defaultErrno=5, architectures=5, archMap=5)),
    ("architectures", stands(LIST, 5), profile(architectures=5, archMap=6, flags=7)),
    ("archMap", stands(LIST, 6), profile(archMap=6, flags=7)),
    ("flags", stands(LIST, 7), {**profile(flags=7), "syscalls": 8}),
    ("flags[0]", stands(FLAG, 7), {**profile(flags=[7, 8]), "syscalls": 8}),
    ("syscalls[0].args[0].op", stands(OPERATOR, 5), profile(entry("read", args=[{**ARGUMENT, "op": 5}, 6]), 7)),
    ("syscalls[0]", strange("nams", ENTRY_KEYS), profile({"nams": 0, "comment": 5}, {"nams": 0})),
    ("syscalls[0].comment", stands(TEXT_OR_NULL, 5), profile({"comment": 5})),
    ("syscalls[0].action", stands(ACTION, 5), profile({"names": 5, "action": 5, "errnoRet": -1, "errno": 5})),
    ("syscalls[0].errnoRet", stands(ACTION_NUMBER, -1), profile(entry("read", errnoRet=-1, errno=5))),
    ("syscalls[0].errno", stands(ERROR_NAME, 5), profile(entry("read", errnoRet=1, errno=5))),
    ("syscalls[0]", numbered("errnoRet"), profile(entry("read", errnoRet=1, errno="EPERM"))),
    ("syscalls[0].errno", stands(ERROR_NAME, 5), profile({**entry(""), "names": 5, "errno": 5})),
    ("syscalls[0].names[0]", stands(TEXT, 5), profile({**entry(""), "names": [5, 6], "args": 7})),
    ("syscalls[0].name", stands(TEXT_OR_NULL, 5), profile({**entry(""), "names": 6, "name": 5, "args": 7})),
    ("syscalls[0]", BOTH, profile(entry("read", name="write", args=7))),
    ("syscalls[0].args", stands(LIST, 7), profile(entry("read", args=7, includes=8, excludes=9))),
    ("syscalls[0].args[0]", missing("index"), profile(entry("read", args=[{"value": -1}, 6], includes=8))),
    ("syscalls[0].args[0].index", stands(INDEX, 6), profile(entry("read", args=[{"op": 5, "valueTwo": -1, "index": 6}]))),
    ("syscalls[0].args[0]", missing("value"), profile(entry("read", args=[{"op": 5, "valueTwo": -1, "index": 5}]))),
    ("syscalls[0].args[0].valueTwo", stands(NUMBER_OR_NULL, -1), profile(entry("read", args=[{**ARGUMENT, "op": 5, "valueTwo": -1}]))),
    ("syscalls[0].includes", stands(OBJECT, 8), profile(entry("read", includes=8, excludes=9))),
    ("syscalls[0].includes.caps", stands(LIST, 5), profile(entry("read", includes={"minKernel": 7, "arches": 6, "caps": 5}))),
    ("syscalls[0].includes.arches[0]", stands(TEXT, 6), profile(entry("read", includes={"minKernel": 7, "arches": [6], "caps": []}))),
    ("syscalls[0].includes.minKernel", stands(VERSION, 7), profile(entry("read", includes={"minKernel": 7}, excludes=9))),
]

# Whole texts and lines, of numbers, characters and keys as Python doesn't write them.
WRITTEN = [
    ('{"defaultAction": "SCMP_ACT_ERRNO", "syscalls": [{}, {}, {}, {"action": "SCMP_ACT_LOG", "args": [{"index": 6}]}]}',
     'syscalls[0]: missing "action"\n'),
    ('{"defaultAction": "SCMP_ACT_LOG", "syscalls": [{"action": "SCMP_ACT_LOG", "args": [{"index": 1e0}]}]}',
     "syscalls[0].args[0].index: expected 0 to 5, found 1.0, which isn't written as a whole number\n"),
    *[('{"defaultAction": "SCMP_ACT_LOG", "syscalls": [{"action": "SCMP_ACT_LOG", "args": [{"index": 0, "value": 0, "%s": %s}]}]}'
       % (key, TOO_GREAT), f"syscalls[0].args[0].{key}: expected {form}, found {SHOWN_TOO_GREAT}")
      for key, form in (("value", NUMBER), ("valueTwo", NUMBER_OR_NULL))],
    ('{"defaultAction": "SCMP_ACT_\\u0044ENY"}', f'defaultAction: expected {ACTION}, found "SCMP_ACT_DENY"\n'),
    ('{"defaultAction": "a\\n\\"\\\\\\u00b5"}', f'defaultAction: expected {ACTION}, found "a\\n\\"\\\\\u00b5"\n'),
    # Of a key that stands twice the last one counts.
    ('{"defaultAction": "SCMP_ACT_LOG", "flags": [], "flags": 5}', "flags: expected null or an array, found 5\n"),
]

# A profile that is wrong in an entry, by itself and in a container's configuration; and a configuration without one.
IN_ENTRY = f'{CONDITION}.index: expected 0 to 5, found 6\n'
NO_PROFILE = f'the profile: {missing("defaultAction")}\n'
BARE = 'a container\'s configuration without a profile: missing "linux.seccomp"\n'
WRONG = in_condition({**ARGUMENT, "index": 6})

FILES = {"config.json": configured(WRONG), "wrong-profile.json": WRONG, "no-linux.json": {"ociVersion": "1.2.0", "process": {"args": ["sh"]}},
         "no-seccomp.json": {"ociVersion": "1.2.0", "linux": {"namespaces": []}}}

# What each command has of a profile that it reads, and the exit status.
COMMANDS = [
    ("compile --oci {}", 2), ("compile --oci --strict {}", 2), ("compile --oci -a riscv64 --cap CAP_KILL --kernel 6.1 {}", 2),
    ("compile --oci --format listing -q {}", 2), ("explain --oci {} read", 2), ("explain --oci --json {} read", 2),
    ("explain --oci {} < examples/records.bin", 2), ("diff --oci {} reads-profile.json", 2), ("diff --oci reads-profile.json {}", 2),
    ("diff --oci --only-more --most 0 {} reads-profile.json", 2), ("show --stats --oci {}", 2),
    ("show --stats --oci -a riscv64 --cap CAP_KILL --kernel 6.1 {}", 2),
    ("check --oci {}", 1),
    ("check --oci --deny-warnings --allow never-holds -a riscv64 --cap CAP_KILL --kernel 6.1 {}", 1),
]

CASES = [
    *[rejects("compile --oci", json.dumps(given), f"{place}: {words}\n")
      for place, words, given in (*WRONG_VALUES, *WRONG_ITEMS, *MISSING_KEYS, *UNKNOWN_KEYS, *BESIDE, *FIRST)],
    *[rejects("compile --oci", given, told) for given, told in WRITTEN],
    # A value is JSON, which leaves some characters that steer a terminal as they are.
    rejects("compile --oci", json.dumps({"defaultAction": "\u009b2J\u007f\u00b5"}),
            f'defaultAction: expected {ACTION}, found "\\xc2\\x9b2J\\x7f\u00b5"\n'),
    # Each command reports the same, after the file that is no profile.
    *[Case(words.format(file), status, "", f"{TOOL}{file}: {told}") for words, status in COMMANDS
      for file, told in (("wrong-profile.json", IN_ENTRY), ("config.json", IN_ENTRY), ("logs.json", NO_PROFILE), ("no-linux.json", BARE))],
    # So is a configuration that isn't called a profile.
    *[Case(words.replace("--oci ", "").format("no-seccomp.json"), status, "", f"{TOOL}no-seccomp.json: {BARE}")
      for words, status in COMMANDS if not {"--cap", "--strict", "reads-profile.json"} & {*words.split()}],
    rejects("compile --oci", json.dumps(FILES["no-seccomp.json"]), BARE),
    rejects("compile --oci", json.dumps(configured(None)), f"the profile: {stands(OBJECT, None)}\n"),
    rejects("compile --oci", json.dumps(configured({})), NO_PROFILE),
    *[Case(words.format("-"), status, "", INPUT + IN_ENTRY, json.dumps(WRONG)) for words, status in COMMANDS if "<" not in words],
    rejects("compile --oci --strict", LOGS, NO_PROFILE),
    # Of two that are none the first one.
    Case("diff --oci no-linux.json wrong-profile.json", 2, "", f"{TOOL}no-linux.json: {BARE}"),
    Case("diff --oci wrong-profile.json no-linux.json", 2, "", f"{TOOL}wrong-profile.json: {IN_ENTRY}"),
]
