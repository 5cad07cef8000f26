"""What `check` has to do: the faults of policies with their places, and policies without one."""

import errno
import json

from cases.forms import FOLDER, FULL, INPUT, MISSING, OUTPUT, RESET, TOOL, Case, Failing, rejects, writes
from cases.seccompc.commands import FRONTEND

from .long_filters import of_masks, of_rules
from .warnings import CODES_LISTED, OF_PARTS, line, lines_of

FINE = (
    '{"b":{"mismatch_action":{"errno":1},"match_action":"allow","filter":['
    '{"syscall":"read"},'
    '{"syscall":"write","args":[{"index":5,"type":"qword","op":{"masked_eq":255},'
    '"val":18446744073709551615,"comment":null}],"comment":"c"}]},'
    '"a":{"default_action":{"errno":4294967295},"filter_action":{"trace":0},"filter":[]}}'
)

# A condition without a fault, and a rule of 5000, which take two instructions each, and more than one jump
# reaches.
FAULTLESS = '{"index":0,"type":"dword","op":"eq","val":0}'
TOO_LONG = '{"syscall":"read","args":[' + ",".join([FAULTLESS] * 5000) + "]}"

REPEATED = FRONTEND + "Repeated key in Json.\n"
UNPARSED = 'line 1, column 2: invalid JSON: expected a name in quotes or "}", found "a"\n'


def told(policy, where, what):
    """Returns the case of a policy of which this is told at this place on x86_64."""
    return rejects("check", policy, f"{where}: {what}\n")


def all_told(policy, *faults, words="check"):
    """Returns the case of a policy of which each of these is told, in this order, on x86_64."""
    return Case(words, 1, "", "".join(f"{INPUT}{where}: {what}\n" if what else f"{INPUT}{where}\n" for where, what in faults), policy)


def too_long(policy, *faults):
    """Returns the case of a policy of whose filters each of these is told, without the warnings, which it has too."""
    return all_told(policy, *faults, words=f"check {OF_PARTS} --allow pointer-compared")


def stands(policy, where, what, may):
    """Returns the case of a policy in which this stands at a place, and something else may."""
    return told(policy, where, f"expected {may}, found {what}")


def strange(policy, where, key, keys):
    """Returns the case of a policy in which an object has a key that is none of these."""
    return told(policy, where, f'"{key}": unknown key; expected {keys}')


def unknown(policy, where, name, near=None):
    """Returns the case of a policy in which this stands for the name of a call, and one that is like it."""
    suggested = f'; did you mean "{near}"?' if near else ""
    return told(policy, where, f"unknown system call {name} on x86_64{suggested}")


def entries(text):
    """Returns the policy whose one filter has these entries."""
    return '{"a":{"mismatch_action":"trap","match_action":"log","filter":[' + text + "]}}"


def condition(text):
    """Returns the policy that has this condition after a faultless one, in the second entry."""
    return entries('{"syscall":"read"},{"syscall":"read","args":[' + FAULTLESS + "," + text + "]}")


def mismatch(text):
    """Returns the policy whose one filter has this mismatch action."""
    return '{"a":{"mismatch_action":' + text + ',"match_action":"log","filter":[]}}'


def compared(text):
    """Returns the policy whose last condition has this operator."""
    return condition('{"index":0,"type":"dword","op":' + text + ',"val":0}')


# A filter that fits in the tree layout alone: each entry has 4 instructions and a return in the chains. By any of its entries each
# other one is redundant, and each of three calls by which something ends traps.
EQUAL = entries(",".join(['{"syscall":"read","args":[{"index":0,"type":"dword","op":"eq","val":5}]}'] * 820)).replace("log", "allow")

CONDITION = "a.filter[1].args[1]"

FILTER = "an object with the actions and the entries of a filter"
INDEX = "0 to 5"
TWO_EQUAL = "expected two actions that differ, found the same one twice"
ACTION_NUMBER = "0 to 4294967295"
NUMBER = "0 to 18446744073709551615"
ACTIONS = '"allow", {"errno": N}, "kill_process", "kill_thread", "log", {"trace": N} or "trap"'
OPERATORS = '"eq", "ge", "gt", "le", "lt", {"masked_eq": N} or "ne"'

# What a filter of no keys lacks.
BARE = [("a", 'missing "mismatch_action" or "default_action"'), ("a", 'missing "match_action" or "filter_action"'), ("a", 'missing "filter"')]

# What is told of a condition that lacks some.
LACKS = [(CONDITION, f'missing "{it}"') for it in ("index", "type", "op", "val")]

# Numbers that aren't whole as they are written, whatever they come to; others are no smaller than 2 ** 64, or below 0. JSON of a
# float has its exponent with a sign.
FRACTIONS = [
    *[(text, f"{said}, which isn't written as a whole number")
      for text, said in (("1e0", "1.0"), ("1.0", "1.0"), ("0.5", "0.5"), ("1e18", "1e+18"), ("10E-1", "1.0"), ("0e0", "0.0"))],
    ("18446744073709551616", "1.8446744073709552e+19"), ("-1.5", "-1.5"), ("1e20", "1e+20"),
]

# Values that are longer than a line: their front, and how many bytes they have as JSON, the quotes among them.
LONG = [
    ("x" * 78, '"' + "x" * 78 + '"'), ("x" * 79, '"' + "x" * 56 + " .. (81 bytes)"),
    ("\u00e9" * 40, '"' + "\u00e9" * 28 + " .. (82 bytes)"), ("\u20ac" * 2000, '"' + "\u20ac" * 19 + " .. (6002 bytes)"),
    ("x" * 4194304, '"' + "x" * 56 + " .. (4194306 bytes)"),
]

IN_FILTERS = [
    stands("[]", "the policy", "an empty array", "an object of filters"),
    stands("1.5", "the policy", "1.5", "an object of filters"),
    stands(r'{"a\\\u0007é":[1]}', r"a\x5c\x07é", "an array of 1 value", FILTER),
    stands(r'{"a\u009b":[1]}', r"a\xc2\x9b", "an array of 1 value", FILTER),
    # Of one place in the order of docs/CHECKS.md, and a key that isn't known where the key stands.
    all_told('{"b":0,"a":{"filters":[]}}', ("b", f"expected {FILTER}, found 0"), *BARE,
             ("a", '"filters": unknown key; expected mismatch_action, default_action, match_action, filter_action or filter')),
    all_told('{"a":{}}', *BARE),
    all_told('{"a":{"y":0,"x":1,"y ":2}}', *BARE, *(
        ("a", f'"{it}": unknown key; expected mismatch_action, default_action, match_action, filter_action or filter')
        for it in ("y", "x", "y "))),
    told('{"a":{"match_action":"log","filter":[]}}', "a", 'missing "mismatch_action" or "default_action"'),
    told('{"a":{"match_action":"log","mismatch_action":"log","filter_action":"log","filter":[]}}', "a",
         'expected one of "match_action" and "filter_action", found both'),
    # A value is JSON, which leaves some characters that steer a terminal as they are.
    stands(mismatch(r'"\u009b2J\u007fµ"'), "a.mismatch_action", r'"\xc2\x9b2J\x7fµ"', ACTIONS),
    # An object of one name is an action by that name, and its number is at fault.
    stands(mismatch('{"errno":4294967296}'), "a.mismatch_action.errno", "4294967296", ACTION_NUMBER),
    stands('{"a":{"match_action":"log","default_action":{"errno":-1},"filter":[]}}', "a.default_action.errno", "-1", ACTION_NUMBER),
    stands('{"a":{"filter_action":{"trace":"1"},"mismatch_action":"log","filter":[]}}', "a.filter_action.trace", '"1"', ACTION_NUMBER),
    stands(mismatch('{"errno":{"trace":1}}'), "a.mismatch_action.errno", "an object", ACTION_NUMBER),
    stands(mismatch('{"errno":4294967296,"trace":1}'), "a.mismatch_action", "an object", ACTIONS),
    stands(mismatch('{"masked_eq":1}'), "a.mismatch_action", "an object", ACTIONS),
    stands(mismatch('"errno"'), "a.mismatch_action", '"errno"', ACTIONS),
    # The number of an errno that stands there by its name; other names and places have none.
    *[stands(mismatch('{"errno":"%s"}' % it), "a.mismatch_action.errno", f'"{it}"; {it} is {getattr(errno, it)}', ACTION_NUMBER)
      for it in ("EPERM", "EWOULDBLOCK", "ENOSYS", "ERFKILL")],
    *[stands(mismatch('{"errno":"%s"}' % it), "a.mismatch_action.errno", f'"{it}"', ACTION_NUMBER) for it in ("eperm", "EPER", " EPERM", "", "1")],
    stands(mismatch('{"trace":"EPERM"}'), "a.mismatch_action.trace", '"EPERM"', ACTION_NUMBER),
    stands(mismatch('"EPERM"'), "a.mismatch_action", '"EPERM"', ACTIONS),
    told('{"a":{"match_action":"log","mismatch_action":"trap"}}', "a", 'missing "filter"'),
    stands('{"a":{"match_action":"log","mismatch_action":"trap","filter":null}}', "a.filter", "null", "an array of entries"),
    told('{"a":{"match_action":"log","mismatch_action":"log","filter":[]}}', "a", TWO_EQUAL),
]

IN_AN_ENTRY = [
    stands(entries('{"syscall":"read"},[]'), "a.filter[1]", "an empty array", "an object with the call of an entry"),
    strange(entries('{"syscall":"read","arg":[]}'), "a.filter[0]", "arg", "syscall, args or comment"),
    stands(entries('{"syscall":"read","comment":1}'), "a.filter[0].comment", "1", "null or a string"),
    told(entries('{"args":null}'), "a.filter[0]", 'missing "syscall"'),
    stands(entries('{"syscall":-7}'), "a.filter[0].syscall", "-7", "the name of a system call"),
    stands(entries('{"syscall":"read","args":{}}'), "a.filter[0].args", "an object", "null or an array of conditions"),
    unknown(entries(r'{"syscall":"read"},{"syscall":"read","args":null},{"syscall":"op\"ne"}'), "a.filter[2].syscall", r'"op\"ne"'),
    stands(entries('{"syscall":"read","args":[]}'), "a.filter[0].args", "an empty array", "null or at least one condition"),
]

IN_A_CONDITION = [
    stands(condition("true"), CONDITION, "true", "an object with the four parts of a condition"),
    all_told(condition('{"index":0,"type":"dword","op":"eq","vall":0}'), LACKS[3],
             (CONDITION, '"vall": unknown key; expected index, type, op, val or comment')),
    all_told(condition('{"index":256,"comment":[1,2]}'), *LACKS[1:], (CONDITION + ".index", f"expected {INDEX}, found 256"),
             (CONDITION + ".comment", "expected null or a string, found an array of 2 values")),
    all_told(condition("{}"), *LACKS),
    all_told(condition('{"index":256}'), *LACKS[1:], (CONDITION + ".index", f"expected {INDEX}, found 256")),
    all_told(condition('{"index":0}'), *LACKS[1:]),
    all_told(condition('{"index":0,"type":"byte"}'), *LACKS[2:], (CONDITION + ".type", 'expected "dword" or "qword", found "byte"')),
    all_told(condition('{"index":0,"type":"dword"}'), *LACKS[2:]),
    all_told(condition('{"index":0,"type":"dword","op":17}'), LACKS[3], (CONDITION + ".op", f"expected {OPERATORS}, found 17")),
    *[stands(condition('{"index":0,"type":"dword","op":"eq","val":%s}' % it), CONDITION + ".val", said, NUMBER) for it, said in FRACTIONS],
    *[stands(condition('{"index":%s,"type":"dword","op":"eq","val":1}' % it), CONDITION + ".index", said, INDEX) for it, said in FRACTIONS],
    *[stands(mismatch('{"errno":%s}' % it), "a.mismatch_action.errno", said, ACTION_NUMBER) for it, said in FRACTIONS],
    stands(condition('{"index":0,"type":1e0,"op":"eq","val":1}'), CONDITION + ".type", "1.0", '"dword" or "qword"'),
    *[stands(condition('{"index":0,"type":"%s","op":"eq","val":1}' % it), CONDITION + ".type", said, '"dword" or "qword"') for it, said in LONG],
    stands(compared('{"masked_eq":-1}'), CONDITION + ".op.masked_eq", "-1", NUMBER),
    stands(compared('{"masked_eq":null}'), CONDITION + ".op.masked_eq", "null", NUMBER),
    stands(compared('{"masked_eq":1,"eq":2}'), CONDITION + ".op", "an object", OPERATORS),
    stands(compared('{"errno":-1}'), CONDITION + ".op", "an object", OPERATORS),
    told(condition('{"index":0,"type":"dword","op":"eq"}'), CONDITION, 'missing "val"'),
    stands(condition('{"index":0,"type":"dword","op":"eq","val":-1}'), CONDITION + ".val", "-1", NUMBER),
    stands(condition('{"index":6,"type":"dword","op":"eq","val":0}'), CONDITION + ".index", "6", INDEX),
]

# How far a call's name may be from the one that stands there, in characters that are put in, left out or replaced and
# neighbours that are exchanged: one, or one for each three of its bytes. So 9 bytes have a name at 3, and 5 bytes none at 2
# nor 6 at 3. Of several the nearest: `getgid`, at 2, stands in front of `getpid`; and of those that are as near the first in
# byte order, as `dup` in front of `dup2` and `dup3`.
SUGGESTIONS = [
    unknown(entries('{"syscall":"%s"}' % name), "a.filter[0].syscall", f'"{name}"', near)
    for name, near in [
        ("fnctl", "fcntl"), ("fstatat", "newfstatat"), ("send", "sendto"), ("READ", None), ("re", None), ("red", "read"), ("dup4", "dup"),
        ("getpidd", "getpid"), ("rt_sigretrun", "rt_sigreturn"), ("clock_nano_sleeep", "clock_nanosleep"), ("exit-group", "exit_group"),
        ("open64", "open"), ("socketts2", "socket"), ("brk12", None), ("oepn64", None), ("", None), ("x" * 65, None),
    ]
]

OPNE = 'unknown system call "opne" on x86_64; did you mean "open"?'

FAULTS_TOGETHER = [
    # In the text's order, whatever their kinds.
    all_told('{"b":1,"a":2}', ("b", f"expected {FILTER}, found 1"), ("a", f"expected {FILTER}, found 2")),
    all_told('{"a":{"mismatch_action":"log","match_action":"log","filter":[{"syscall":"opne"}]},"b":1}',
             ("a", TWO_EQUAL), ("a.filter[0].syscall", OPNE), ("b", f"expected {FILTER}, found 1")),
    all_told('{"a":{"mismatch_action":"log","match_action":"log","filter":['
             '{"syscall":"read","args":[{"index":5,"type":"dword","op":"eq","val":0},'
             '{"index":7,"type":"dword","op":"eq","val":0}]},{"args":[],"syscall":"opne"}]}}',
             ("a", TWO_EQUAL), ("a.filter[0].args[1].index", f"expected {INDEX}, found 7"),
             ("a.filter[1].args", "expected null or at least one condition, found an empty array"), ("a.filter[1].syscall", OPNE)),
    all_told('{"b":{"filter":[{"syscall":"opne"}],"mismatch_action":"log","match_action":"log"},'
             '"a":{"mismatch_action":"log","match_action":"log","filter":[]}}',
             ("b", TWO_EQUAL), ("b.filter[0].syscall", OPNE), ("a", TWO_EQUAL)),
    # The lengths of programs, only if nothing else is wrong.
    too_long("{" + of_rules("b", 816) + "," + of_rules("a", 816) + "}",
             *((it, "needs 4101 instructions in the linear layout; 4096 fit; 13 in the tree layout") for it in "ba")),
    all_told("{" + of_rules("b", 816) + ',"a":1}', ("a", f"expected {FILTER}, found 1")),
    # A hundred, and how many more.
    *[all_told(entries(",".join('{"syscall":"no_%d"}' % it for it in range(count))),
               *((f"a.filter[{it}].syscall", f'unknown system call "no_{it}" on x86_64') for it in range(min(count, 100))), *more)
      for count, more in ((100, []), (101, [("1 more error", None)]), (1000, [("900 more errors", None)]))],
]

# The warning of a file that the cases of both programs share, and what is wrong with another.
LOGS_LINE = line("a.mismatch_action", "allows-by-default", "logs.json")
NO_FILTER = "".join(f"{TOOL}no-filter.json: {where}: {what}\n" for where, what in BARE)

# Texts that are no JSON: where, and why.
NO_JSON = [
    rejects("check", text, f"line {line}, column {column}: invalid JSON: {what}\n")
    for text, line, column, what in [
        ("", 1, 1, "expected a value, found the end of the text"), (" \n ", 2, 2, "expected a value, found the end of the text"),
        ("{", 1, 2, 'expected a name in quotes or "}", found the end of the text'),
        ('{"a"', 1, 5, 'expected ":", found the end of the text'), ('{"a":', 1, 6, "expected a value, found the end of the text"),
        ('{"a":1', 1, 7, 'expected "," or "}", found the end of the text'), ('{"a":1,\n}', 2, 1, 'expected a name in quotes, found "}"'),
        ('{"a":1,,}', 1, 8, 'expected a name in quotes, found ","'), ('{"a":1;}', 1, 6, 'expected a number in decimal digits, found "1;"'),
        ('{"a" 1}', 1, 6, 'expected ":", found "1"'), ('{"a" "b"}', 1, 6, 'expected ":", found a string'),
        ('{"a":1 "b":2}', 1, 8, 'expected "," or "}", found a string'),
        ("{'a':1}", 1, 2, "expected a name in quotes or \"}\", found \"'a'\""), ("[1 2]", 1, 4, 'expected "," or "]", found "2"'),
        ("[1,]", 1, 4, 'expected a value, found "]"'), ("[,]", 1, 2, 'expected a value or "]", found ","'),
        ("[}", 1, 2, 'expected a value or "]", found "}"'), ('{"a":[1}', 1, 8, 'expected "," or "]", found "}"'),
        ('{"a":{"b":1]', 1, 12, 'expected "," or "}", found "]"'), ("{} {}", 1, 4, 'expected the end of the text, found "{"'),
        ("// no comments\n{}", 1, 1, 'expected a value, found "//"'),
        ('{"a":0x1}', 1, 6, 'expected a number in decimal digits, found "0x1"'),
        ('{"a":01}', 1, 6, 'expected a number in decimal digits, found "01"'),
        ('{"a":-}', 1, 6, 'expected a number in decimal digits, found "-"'),
        ('{"a":1e999}', 1, 6, 'expected a number below 1.8e308, found "1e999"'), ('{"a":True}', 1, 6, 'expected a value, found "True"'),
        ('{"a":' + "z" * 30 + "}", 1, 6, 'expected a value, found "' + "z" * 20 + '"'),
        ('{"a":"b}', 1, 6, "the text ends inside a string"), ('{"a":"b\\"', 1, 6, "the text ends inside a string"),
        ('{"a":"b,\n"c":1}', 1, 6, "a line ends inside a string"), ('{"a":"\t"}', 1, 6, "a control character inside a string"),
        ('{"a":"\\x"}', 1, 6, "an unknown escape inside a string"), ('{"a":"\\ud800"}', 1, 6, "an unknown escape inside a string"),
        ("[" * 128 + "]" * 128, 1, 128, "nested more than 127 deep"),
        ('{"a":' * 128 + "1" + "}" * 128, 1, 636, "nested more than 127 deep"), (b'{"a":"\xff"}', 1, 7, "the text isn't UTF-8"),
    ]
]

# The same of the files that the cases of both programs share, and files that can't be read.
OF_FILES = [
    writes("check logs.json", "", LOGS_LINE),
    ("check < logs.json", 0, line("a.mismatch_action", "allows-by-default"), ""),
    ("check - < logs.json", 0, line("a.mismatch_action", "allows-by-default"), ""),
    rejects("check list.json", "", "the policy: expected an object of filters, found an empty array\n", TOOL + "list.json: "),
    Case("check no-filter.json", 1, "", NO_FILTER),
    rejects("check unknown-call.json", "",
            'a.filter[0].syscall: unknown system call "nosyscall" on x86_64\n',
            TOOL + "unknown-call.json: "),
    rejects("check no-conditions.json", "",
            "a.filter[0].args: expected null or at least one condition, found an empty array\n",
            TOOL + "no-conditions.json: "),
    rejects("check index.json", "", "a.filter[0].args[0].index: expected 0 to 5, found 6\n", TOOL + "index.json: "),
    rejects("check equal-actions.json", "",
            "a: expected two actions that differ, found the same one twice\n", TOOL + "equal-actions.json: "),
    rejects(f"check {OF_PARTS} too-large.json", "", "a: needs 10130 instructions in the linear layout; 4096 fit\n", TOOL + "too-large.json: "),
    rejects("check no-json.json", "", UNPARSED, TOOL + "no-json.json: "),
    rejects("check repeated.json", "", REPEATED, TOOL + "repeated.json: "),
    rejects("check examples", "", FOLDER, TOOL + "examples: "),
]

# Several policies: each is checked, in their order, and the exit status is the greatest of theirs.
OF_SEVERAL = [
    writes("check logs.json no-filters.json", "", LOGS_LINE), writes("check no-filters.json logs.json logs.json", "", LOGS_LINE * 2),
    Case("check logs.json --deny-warnings no-filters.json", 1, LOGS_LINE, ""),
    Case("check no-filters.json logs.json --deny-warnings", 1, LOGS_LINE, ""),
    writes("check --deny-warnings no-filters.json no-filters.json", "", ""),
    # One that is rejected doesn't keep the others from being checked, wherever it stands.
    Case("check no-filter.json logs.json", 1, LOGS_LINE, NO_FILTER),
    Case("check logs.json no-filter.json logs.json", 1, LOGS_LINE * 2, NO_FILTER),
    Case("check no-filter.json index.json no-filter.json", 1, "",
         NO_FILTER + TOOL + "index.json: a.filter[0].args[0].index: expected 0 to 5, found 6\n" + NO_FILTER),
    Case("check missing.json logs.json", 2, LOGS_LINE, TOOL + "missing.json: " + MISSING),
    Case("check logs.json missing.json", 2, LOGS_LINE, TOOL + "missing.json: " + MISSING),
    # Standard input among files, and an architecture for all.
    Case("check logs.json - no-filters.json", 0, LOGS_LINE + lines_of(FINE), "", FINE),
    Case("check logs.json -", 1, LOGS_LINE, INPUT + "a.filter[0].args[0].index: expected 0 to 5, found 6\n",
         entries('{"syscall":"read","args":[{"index":6,"type":"dword","op":"eq","val":0}]}')),
    Case("check -a riscv64 unknown-call.json logs.json", 1, LOGS_LINE,
         TOOL + 'unknown-call.json: a.filter[0].syscall: unknown system call "nosyscall" on riscv64\n'),
    # A file's name is written as a filter's: what steers a terminal by its numbers.
    Case("check \"$(printf 'no\\nfile')\"", 2, "", TOOL + r"no\x0afile: " + MISSING),
    # If the output takes nothing, each policy with a warning fails.
    Case("check logs.json no-filters.json logs.json > /dev/full", 2, "", (OUTPUT + FULL) * 2),
]

# Codes that are allowed: of each policy those of all others are printed.
# Of the action alone, since each call that a process or thread ends by is listed.
TWO_CODES = json.dumps({"a": {"mismatch_action": {"errno": 65536}, "match_action": "log",
                              "filter": [{"syscall": it} for it in ("exit", "exit_group", "rt_sigreturn")]}})
OF_ALLOWED = [
    writes("check --allow allows-by-default logs.json", "", ""),
    writes("check --allow allows-by-default --deny-warnings logs.json", "", ""),
    writes("check logs.json no-filters.json logs.json --allow=allows-by-default", "", ""),
    writes("check --allow never-holds logs.json", "", LOGS_LINE),
    Case("check --allow never-holds --deny-warnings logs.json", 1, LOGS_LINE, ""),
    writes("check", TWO_CODES, lines_of(TWO_CODES)),
    *[Case(f"check --deny-warnings --allow {allowed}", 1, line("a.mismatch_action", left), "", TWO_CODES)
      for allowed, left in (("fake-success", "errno-too-large"), ("errno-too-large", "fake-success"))],
    writes("check --allow errno-too-large --deny-warnings --allow fake-success", TWO_CODES, ""),
    writes("check --allow errno-too-large --allow errno-too-large", TWO_CODES, line("a.mismatch_action", "fake-success")),
    # An error is none of the warnings.
    rejects("check --allow allows-by-default index.json", "",
            "a.filter[0].args[0].index: expected 0 to 5, found 6\n", TOOL + "index.json: "),
]

# `--list` prints the codes, whatever else is asked for.
OF_LIST = [
    writes("check --list", "", CODES_LISTED),
    writes("check --list missing.json --deny-warnings --allow never-holds", "", CODES_LISTED),
    rejects("check --list > /dev/full", "", FULL, OUTPUT),
]

CASES = [
    # Of a policy without faults `check` tells its warnings alone.
    writes("check", FINE, lines_of(FINE)),
    writes("check", "{}", ""),
    # `check` tells faults without a place as the library.
    rejects("check", '{"a":{"filter":1,"filter":2}}', REPEATED),
    rejects("check", "{a}", UNPARSED),
    # `check` tells the place in the filters, in an entry and in a condition, and the first fault.
    *IN_FILTERS, *IN_AN_ENTRY, *IN_A_CONDITION, *SUGGESTIONS, *FAULTS_TOGETHER, *NO_JSON,
    # `check` tells the filter that is too long, and its warnings, of which `compile` notes how many there are.
    too_long(entries(TOO_LONG), ("a", "needs 10130 instructions in the linear layout; 4096 fit")),
    Case("compile --format listing", 0, "filter 9 a\n..", INPUT + "823 warnings; seccomptool check prints them\n", EQUAL),
    Case("check", 1, lines_of(EQUAL) + "".join(line(f"a.filter[{place}]", "redundant-entry") for place in range(820)),
         INPUT + "a: needs 4107 instructions in the linear layout; 4096 fit; 9 in the tree layout\n", EQUAL),
    Case("check --deny-warnings --allow redundant-entry", 1, lines_of(EQUAL),
         INPUT + "a: needs 4107 instructions in the linear layout; 4096 fit; 9 in the tree layout\n", EQUAL),
    # If its tree fits, `check` tells how long that is.
    too_long("{" + of_rules("a", 813, ("write", "open", "close", "stat")) + "}",
             ("a", "needs 4106 instructions in the linear layout; 4096 fit; 14 in the tree layout")),
    too_long("{" + of_rules("a", 816) + "}", ("a", "needs 4101 instructions in the linear layout; 4096 fit; 13 in the tree layout")),
    too_long("{" + of_masks("a", 1400) + "}", ("a", "needs 8407 instructions in the linear layout; 4096 fit")),
    # `check` answers faults of its reader.
    rejects("check", Failing(FINE), RESET), *OF_FILES, *OF_SEVERAL, *OF_ALLOWED, *OF_LIST,
]
