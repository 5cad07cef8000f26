"""Rows of tools/rows: worked examples of what the library does, which no test in its own language repeats.

A row is a line `QUESTION => ANSWER`, or a statement, which has no answer. Lines that begin with a space go on with the row above them. A
question in which words stand for each other, as in `decide/returns 5`, is one for each of these in turn, and of several such words for
each pair; the error of a policy's text has `Json Frontend error: ` in front only for compile_from_json and programs_of.
tools/rows/row_cases.py asks seccompc, seccomptool, the library for C, or the program of crates/seccomp_vectors, and says which. Rows of
tools/rows/memory are asked of the last one, while requests for memory fail; behind an answer stands how many requests the library makes
for it: [0], [1], or [+] for some. Statements are

    policy ARCH MISMATCH MATCH    a filter without calls, of which the next rows ask; an action is `allow` or `errno(1)`
    call NUMBER[, COUNT times][: RULE | RULE]
                                  one entry more of a call for each rule, or one without rules; all of them maybe so many times
    call NUMBER, NUMBER ..        one entry more without rules of each of these calls
    calls FIRST STEP COUNT        so many calls without rules
    decisions ARCH START=VALUE .. decisions of the crate `seccomp_tree`, with the values of calls that have none
    call NUMBER: RULE gives VALUE | RULE gives VALUE
                                  one call more of them
    keep                          the filter above is the old one of the comparisons below

RULE is one condition or several with `&` between, each maybe so many times, as in `42 x 0 qword masked_eq(10) 14`: argument, length,
operator and value. CODE is instructions, each maybe so many times, as in `4096 x RET 0`, or `none`; an instruction may have a number for
a name, and distances. RECORD is `NUMBER [a0=..] [arch=..] [ip=..]`. Questions about the filter above, or the decisions, are

    program, tree                 the instructions in the linear layout, and in the tree layout; `program 91 to 93`: of these places
    record RECORD, tree record RECORD
                                  what the program of a layout returns for this call, and the steps that it takes
    records RECORD | RECORD ..    what both programs return for each of these calls
    decide RECORD, returns RECORD what is decided, and what the decisions' program returns
    compare, compare at most      on which call of which name the policy decides otherwise than the kept one, or permits more: the
                                  name and both actions, or `same`, or `nowhere more permissive`
    compare back, compare back at most
                                  the same of the kept policy beside this one
    to_bpf, to_tree_bpf, program_len, copy, equal
                                  what the call of the library gives: instructions, a length, whether a copy or the kept one is equal
    check program, check tree     whether a kernel takes the program, or at which place it doesn't
    compare_filters RELATION SETS [ARCH [LEAST GREATEST]]
                                  of the kept filter and this one, by so many sets of calls at most; RELATION is `alike` or `at_most`
    compare_program .., compare_tree ..
                                  of the filter's program, or its tree, and the filter
    made_by TEXT, made_of TEXT    whether the filter `a` of a policy's text is equal, and the one that `make_seccomp_filter` makes of it

and about what stands in the row

    check CODE                    as above
    raw CODE [for RECORD]         what a program of no policy returns for this call, as `seccomptool explain` prints it, or why it may not
                                  be run
    run CODE for RECORD           what it returns, and the steps
    fields CODE                   the fields of its first instruction
    install FLAGS CODE ERRNO CODE ERRNO of CODE
                                  how often both calls of a kernel are made that answers with these codes, and how it ends
    compare_code RELATION SETS [ARCH [LEAST GREATEST]]: CODE with CODE
                                  what a comparison of two programs tells
    code CONDITION @ OFFSET       the code of a condition that fails into the place so many instructions after its end
    rule RULE                     the code of a rule
    buffer CONDITION @ OFFSET, buffer RULE
                                  the same written into the caller's buffer of returns of 7
    condition CONDITION           its offsets, the halves of its value, and its length
    holds CONDITION for VALUES    whether the condition holds for `all` of these values of its argument, or for `none`
    holds RULE on RECORD, copy RULE, equal RULE with RULE
    action ACTION                 what a program returns for it
    architecture NAME, guard NAME its name and `AUDIT_ARCH_*` value, and the instructions that ask for it
    compile_from_json, programs_of, compile, policies_of, filters_of ARCH TEXT
                                  programs or filters by name, with their lengths, or JSON filters with the number of their entries
    failing FAULT CALL ARCH TEXT  the same, or the length of the text, of readers that give a byte at a time and fail after so many, from
                                  none to all; FAULT may be `never`
    make_seccomp_filter ARCH TEXT, widened ARCH TEXT, read_filters TEXT, repeats_key TEXT

An answer of instructions may begin with their number, and with how many relays are among them; `..` stands for any others, and
`<9 to 3 by 3: JEQ 0,0,N; JEQ 1,0,N-1>` for these two with each of the numbers 9, 6 and 3 as N. If a call is rejected the answer is the
error's text. In a TEXT `<3 x ENTRY>` stands for an entry three times.
"""

import itertools
import re
import struct

import model
from model import ARCHITECTURES, TESTS

CODES = {0x20: "LD", 0x54: "AND", 0x05: "JA", 0x06: "RET", 0x15: "JEQ", 0x25: "JGT", 0x35: "JGE"}

CONDITION = re.compile(r"(?:(\d+) x )?(\d+) (dword|qword) (?:(eq|ne|ge|gt|le|lt)|masked_eq\((\w+)\)) (\w+)")
INSTRUCTION = re.compile(r"(?:(\d+) x )?(\w+) (\w+)(?:,(\d+),(\d+))?")
CALL = re.compile(r"call (-?\d+(?:, -?\d+)*)(?:, (\d+) times)?(?:: (.*))?")
CALLS = re.compile(r"calls (-?\d+) (\d+) (\d+)")
ACTION = re.compile(r"(\w+)(?:\((\d+)\))?")
REPEATED = re.compile(r"<(\d+) x (.*?)>")
DESCENDING = re.compile(r"<(\d+) to (\d+) by (\d+): (.*?)>")
WANTED = re.compile(r"(?:(\d+ instructions)(, \d+ relays)?(?:: |$))?(.*)")
HEXADECIMAL = re.compile(r"\b0x[0-9a-f]+\b")

# What of a question stands in front of a text, and of an error of one.
HEAD = re.compile(r'[^{\["\\]*')
FRONTEND = "Json Frontend error: "


class NoRow(Exception):
    """A line that isn't understood."""


def matched(form, text):
    """Returns the groups of a text of this form."""
    found = form.fullmatch(text.strip())
    if not found:
        raise NoRow(f"not understood: {text}")
    return found.groups()


def action(text):
    """Returns an action as policies write it."""
    name, number = matched(ACTION, text)
    return {name: int(number)} if number else name


def conditions(text):
    """Returns the conditions of a rule as policies write them; none of an empty text."""
    made = []
    for part in text.split("&") if text.strip() else ():
        count, index, length, operator, mask, value = matched(CONDITION, part)
        operator = operator or {"masked_eq": int(mask, 0)}
        made += [{"index": int(index), "type": length, "op": operator, "val": int(value, 0)}] * int(count or 1)
    return made


def record_of(words):
    """Returns the 64 bytes of the record of a call, by its number and its fields that aren't 0 or x86_64's."""
    number, *fields = words.split()
    values = {"arch": ARCHITECTURES["x86_64"], "ip": 0, **{f"a{index}": 0 for index in range(6)}}
    for field in fields:
        name, is_one, value = field.partition("=")
        if name not in values or not is_one:
            raise NoRow(f"not understood: {field}")
        values[name] = ARCHITECTURES.get(value) or int(value, 0)
    return model.record_of(int(number, 0), values["arch"], *(values[f"a{index}"] for index in range(6)), pointer=values["ip"])


def runs_of(text):
    """Returns instructions, each with how often it stands there, and without distances if it has none."""
    made, codes = [], {name: code for code, name in CODES.items()}
    for part in text.split(";") if text.strip() not in ("", "none") else ():
        count, name, k, *distances = matched(INSTRUCTION, part)
        code = codes[name] if name in codes else int(name, 16)
        made.append((int(count or 1), code, int(k, 0), *(int(it) for it in distances if it)))
    return made


def instructions(text):
    """Returns instructions as `struct sock_filter` has them."""
    return b"".join(struct.pack("<HBBI", code, *(distances or (0, 0)), k) * count for count, code, k, *distances in runs_of(text))


def expanded(text):
    """Returns a policy's text with each entry as often as it stands there."""
    return REPEATED.sub(lambda found: ",".join([found[2]] * int(found[1])), text)


def shown(code):
    """Returns one instruction as rows write it."""
    kind, when, otherwise, k = code
    number = str(k) if k < 0x10000 and kind != 0x06 else f"0x{k:08x}"
    return f"{CODES.get(kind, hex(kind))} {number}" + (f",{when},{otherwise}" if kind in TESTS else "")


def shown_as(wanted, code):
    """Returns instructions in the form in which they are wanted: with their number, or a part of them."""
    told, relays, listed = matched(WANTED, wanted)
    lines = [shown(it) for it in code]
    heads = ([f"{len(code)} instructions"] if told else []) + ([f"{lines.count('JA 2')} relays"] if relays else [])
    front, gap, back = (it.strip("; ") for it in listed.partition(".."))
    if gap:
        first, last = (len(it.split(";")) if it else 0 for it in (front, back))
        lines = [*lines[:first], "..", *(lines[len(lines) - last:] if last else [])]
    return ": ".join(it for it in (", ".join(heads), "; ".join(lines) if listed or not told else "") if it)


def numbers_in(text):
    """Returns a text with its numbers in decimal digits."""
    return HEXADECIMAL.sub(lambda found: str(int(found[0], 16)), text)


def unrolled(text):
    """Returns an answer with the instructions that stand there once for several numbers."""
    def each(found):
        first, last, step, part = found.groups()
        return "; ".join(re.sub(r"\bN\b(?:-(\d+))?", lambda it: str(number - int(it[1] or 0)), part)
                         for number in range(int(first), int(last) - 1, -int(step)))
    return DESCENDING.sub(each, text)


def spelled_out(row):
    """Returns the rows for which one stands."""
    asked, is_asked, wanted = row.partition(" => ")
    head = HEAD.match(asked)[0]
    words = ([one + it[len(it.rstrip(";:")):] for one in it.rstrip(";:").split("/")] for it in head.split(" "))
    for some in itertools.product(*words) if is_asked else ():
        is_outer = "compile_from_json" not in head or {"compile_from_json", "programs_of"} & {*some}
        yield f"{' '.join(some)}{asked[len(head):]} => {wanted if is_outer else wanted.removeprefix(FRONTEND)}"
    if not is_asked:
        yield row


def rows_of(path):
    """Returns the rows of a file, each with the number of its first line."""
    rows = []
    for number, line in enumerate(path.read_text(encoding="utf-8").splitlines(), 1):
        if line.startswith(" ") and line.strip() and rows:
            rows[-1][1] += " " + line.strip()
        elif line.strip() and not line.startswith("#"):
            rows.append([number, line.strip()])
    return [(number, it) for number, row in rows for it in spelled_out(row)]


class Filter:
    """The filter of statements: entries, each the number of a call, how often it is there, and its conditions, if it has some."""

    def __init__(self, arch, mismatch, match):
        self.arch, self.mismatch, self.match, self.entries, self.steps = arch, action(mismatch), action(match), [], []

    def add(self, row):
        """Adds the calls of a statement."""
        if row.startswith("calls "):
            self.steps.append(tuple(map(int, matched(CALLS, row))))
            return
        numbers, count, rules = matched(CALL, row)
        for number, rule in itertools.product(numbers.split(", "), rules.split("|") if rules else ("",)):
            times, has_times, rest = rule.partition(" times ")
            self.entries.append((int(number), int(times) if has_times else int(count or 1), conditions(rest if has_times else rule)))

    def chains(self):
        """Returns the rules of each call; none if one of its entries has no conditions."""
        made = {first + step * place: [] for first, step, count in self.steps for place in range(count)}
        for number, count, rule in self.entries:
            made.setdefault(number, []).extend([rule] * count)
        return {number: rules if all(rules) else [] for number, rules in sorted(made.items())}


class Decisions:
    """The decisions of statements."""

    def __init__(self, arch, *defaults):
        self.arch, self.defaults, self.calls = arch, defaults, {}

    def add(self, row):
        """Adds the call of a statement, with its rulings."""
        number, _, rulings = matched(CALL, row)
        parts = [it.partition("gives ") for it in rulings.split("|")]
        self.calls[int(number)] = [(conditions(rule), int(value, 0)) for rule, _, value in parts]


def stated(row, above):
    """Returns what a statement that isn't `keep` begins, or what is above with what it adds."""
    kind, *words = row.split()
    if kind == "policy":
        return Filter(*words)
    if kind == "decisions":
        return Decisions(*words)
    above.add(row)
    return above
