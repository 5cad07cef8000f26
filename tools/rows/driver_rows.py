"""What the program of crates/seccomp_vectors is asked: questions of rows (tools/rows/row_grammar.py) that no other program can answer, about
scripted kernels and readers, copies, counts of comparisons, and values that no program shows; and each question of tools/rows/memory.

A question is a line `KIND SUBJECT VERB ..`, with numbers in place of most words, the length of each list before it, and a text behind a
tab. `stdin` of that crate has the lines of tools/rows, and `stdout` what is answered, which `rt ci` compares as two compilers build the
program; but no long lines, and of readers that fail only the first and the last. `tools/check rows --write` writes both anew.
"""

import collections
import re
import struct
import subprocess

from model import ARCHITECTURES
from rows import row_grammar
from rows.library_calls import OPERATORS, RELATIONS
from rows.row_grammar import NoRow, conditions, numbers_in, record_of, rows_of, runs_of, shown_as
from running import PROGRAMS, TOP, run_refused

CRATE = TOP / "crates/seccomp_vectors"
PROGRAM = PROGRAMS["seccomp_vectors"]
MEMORY = TOP / "tools/rows/memory"

ACTIONS = ("allow", "errno", "kill_process", "kill_thread", "log", "trap")
ARCHES = tuple(ARCHITECTURES)
COUNTED = re.compile(r"(.*?)(?: \[([0-9]+|\+)\])?")
OUT_OF_MEMORY = "Out of memory."

# What tools/cases/short-calls.c is told, and with which number the first request fails: it alone, or with all after it.
REFUSALS = (("REFUSED", 1), ("GRANTED", 0))

# A stored line has fewer characters.
LONGEST = 4000

# How an answer of numbers reads, and of names with numbers; any other is an error's text.
NUMBERS = re.compile(r"\d+(?: \d+)*")
NAMED = re.compile(r"(\S+ \d+)(?: |$)")
COUNT = re.compile(r"\d+ instructions")


def action_words(action):
    """Returns the number of an action's kind, and its own."""
    name, number = next(iter(action.items())) if isinstance(action, dict) else (action, 0)
    return f"{ACTIONS.index(name)} {number}"


def condition_words(it):
    """Returns the numbers of a condition."""
    operator, mask = ("masked_eq", it["op"]["masked_eq"]) if isinstance(it["op"], dict) else (it["op"], 0)
    return f"{it['index']} {4 if it['type'] == 'dword' else 8} {OPERATORS.index(operator)} {mask} {it['val']}"


def counted(items):
    """Returns words with how many there are in front of them."""
    return " ".join([str(len(items)), *items])


def rule_words(rule):
    """Returns the numbers of a rule."""
    return counted([condition_words(it) for it in rule])


def filter_words(filter):
    """Returns the numbers of a filter."""
    calls = [f"{number} {counted([*map(rule_words, rules)])}" for number, rules in filter.chains().items()]
    return f"{ARCHES.index(filter.arch)} {action_words(filter.mismatch)} {action_words(filter.match)} {counted(calls)}"


def decisions_words(decisions):
    """Returns the numbers of decisions."""
    defaults = [" ".join(str(int(it, 0)) for it in word.split("=")) for word in decisions.defaults]
    calls = [f"{number} {counted([f'{value} {rule_words(rule)}' for rule, value in rulings])}"
             for number, rulings in decisions.calls.items()]
    return f"{ARCHES.index(decisions.arch)} {counted(defaults)} {counted(calls)}"


def about(it):
    """Returns what a question about a filter or decisions begins with."""
    return f"filter {filter_words(it)}" if isinstance(it, row_grammar.Filter) else f"decisions {decisions_words(it)}"


def record_words(record):
    """Returns the numbers of a record."""
    return " ".join(map(str, struct.unpack("<8Q", record_of(record))))


def code_words(text):
    """Returns the numbers of instructions."""
    return counted([" ".join(map(str, (code, k, *(distances or (0, 0))))) for count, code, k, *distances in runs_of(text)
                    for _ in range(count)])


def comparison_words(text):
    """Returns the numbers of a comparison: of all calls, those of an architecture, or some of its numbers."""
    relation, most, *calls = text.split()
    of_arch = [str(ARCHES.index(calls[0])), *calls[1:]] if calls else []
    return " ".join([str(RELATIONS[relation]), most, str(min(len(calls), 2)), *of_arch])


def as_it_is(told, _):
    """Reads a text, or numbers."""
    return told


def in_numbers(form):
    """Returns what reads an answer of numbers, and gives another back as it is."""
    return lambda told, _: form(*map(int, told.split())) if NUMBERS.fullmatch(told) else told


def in_words(true, false, read=as_it_is):
    """Returns what reads whether something is so, and has another answer read."""
    return lambda told, wanted: {"true": true, "false": false}.get(told) or read(told, wanted)


def code_in(told, wanted):
    """Reads instructions."""
    numbers = iter(map(int, told.split())) if NUMBERS.fullmatch(told) else None
    return shown_as(wanted, list(zip(*[numbers] * 4))) if numbers else told


def named_in(told, _):
    """Reads names with numbers, in any order."""
    return told if NAMED.sub("", told) else ", ".join(sorted(NAMED.findall(told))) or "none"


def calls_in(told, _):
    """Reads numbers of calls."""
    return told if NUMBERS.sub("", told) else f"[{', '.join(told.split())}]"


value_in = in_numbers(lambda value, *_: f"{value:#010x}")
outcome_in = in_numbers(lambda value, steps: f"{value:#010x} {steps}")
facts_in = in_numbers(lambda high, low, *rest: "offsets {} {}, value {} {}, length {}".format(high, low, *rest))
count_in = in_numbers(lambda length: f"{length} instructions")
bytes_in = in_numbers(lambda length: f"{length} bytes")
yes_in = in_words("yes", "no")
check_in = in_words("checked", "", lambda told, _: told.replace("false", "unfit at"))
comparison_in = in_words("holds", "undecided", in_numbers(lambda *it: " and ".join(f"{word:#010x}" for word in it)))

# What is asked of a filter or of decisions: the verb, from what stands in the row, and what reads the answer.
OF_FILTER = {
    "program_len": (lambda _: "length", as_it_is),
    "copy": (lambda _: "copy", yes_in),
    "decide": (lambda rest: f"decide {record_words(rest)}", value_in),
    "to_bpf": (lambda _: "linear code", code_in),
    "to_tree_bpf": (lambda _: "tree code", code_in),
    "check program": (lambda _: "linear check", check_in),
    "check tree": (lambda _: "tree check", check_in),
    "record": (lambda rest: f"linear run {record_words(rest)}", outcome_in),
    "tree record": (lambda rest: f"tree run {record_words(rest)}", outcome_in),
    "compare_program": (lambda rest: f"linear compare {comparison_words(rest)}", comparison_in),
    "compare_tree": (lambda rest: f"tree compare {comparison_words(rest)}", comparison_in),
}
OF_DECISIONS = {
    "decide": OF_FILTER["decide"],
    "to_bpf": (lambda _: "code", code_in),
    "check program": (lambda _: "check", check_in),
    "record": (lambda rest: f"run {record_words(rest)}", outcome_in),
    "returns": (lambda rest: f"run {record_words(rest)}", value_in),
}

# What is asked of a text, or of a reader of it: the kind, the verb, and what reads the answer.
OF_TEXT = {
    **{it: ("reader", it, named_in) for it in ("compile_from_json", "compile")},
    **{it: ("text", it, named_in) for it in ("programs_of", "policies_of", "filters_of", "read_filters")},
    "text_of": ("reader", "text_of", bytes_in),
    "repeats_key": ("text", "repeats_key", yes_in),
    "make_seccomp_filter": ("entries", "length", as_it_is),
    "widened": ("entries", "widened", calls_in),
}


def of_text(call, rest, fault=""):
    """Returns the line about a text, or about a reader that fails so, and what reads the answer."""
    kind, verb, read = OF_TEXT[call]
    arch, _, text = ("x86_64", "", rest) if call in ("read_filters", "repeats_key") else rest.partition(" ")
    return f"{kind} {ARCHES.index(arch)} {verb}{fault}\t{row_grammar.expanded(text)}", read


def of_part(kind, rest):
    """Returns the line about a condition at an offset, or a rule, and what reads the answer."""
    text, has_offset, offset = rest.partition(" @ ")
    about_it = f"condition {condition_words(*conditions(text))}" if has_offset else f"rule {rule_words(conditions(rest))}"
    return f"{about_it} {'buffer' if kind == 'buffer' else 'code'} {offset}".rstrip(), code_in


def of_row(kind, rest):
    """Returns the line of a question that has all that it asks about in its row, and what reads the answer."""
    first, _, second = rest.partition({"holds": " on ", "run": " for ", "install": " of ", "equal": " with "}.get(kind, "\n"))
    if kind in ("code", "rule", "buffer"):
        return of_part(kind, rest)
    made = {
        "architecture": (lambda: f"arch value\t{rest}", as_it_is),
        "guard": (lambda: f"arch guard\t{rest}", code_in),
        "action": (lambda: f"action {action_words(row_grammar.action(rest))}", value_in),
        "fields": (lambda: f"code {code_words(rest)}", as_it_is),
        "check": (lambda: f"code {code_words(rest)} check", check_in),
        "run": (lambda: f"code {code_words(first)} run {record_words(second)}", outcome_in),
        "install": (lambda: f"code {code_words(second)} install {first}", as_it_is),
        "condition": (lambda: f"condition {condition_words(*conditions(rest))} facts", facts_in),
        "copy": (lambda: f"rule {rule_words(conditions(rest))} copy", yes_in),
        "holds": (lambda: f"rule {rule_words(conditions(first))} holds {record_words(second)}", yes_in),
        "equal": (lambda: f"rule {rule_words(conditions(first))} equal {rule_words(conditions(second))}", yes_in),
    }
    if kind not in made:
        raise NoRow(f"not understood: {kind}")
    line, read = made[kind]
    return line(), read


def question(asked, above, kept, wanted=""):
    """Returns the lines of a question about its row, or what stands above it, and what reads an answer to one. If the number of
    instructions is wanted alone, they aren't printed."""
    lines, read = asked_in(asked, above, kept)
    lines = [lines] if isinstance(lines, str) else lines
    if read is code_in and COUNT.fullmatch(wanted) and lines[0].endswith(" code"):
        return [lines[0].removesuffix("code") + "count"], count_in
    return lines, read


def asked_in(asked, above, kept):
    """Returns the line of a question, or its lines, and what reads an answer to one."""
    kind, _, rest = asked.partition(" ")
    two = " ".join(asked.split()[:2])
    of_above = OF_FILTER if isinstance(above, row_grammar.Filter) else OF_DECISIONS
    if kind == "failing":
        fault, call, text = rest.split(" ", 2)
        text = text if text.partition(" ")[1] else f"{text} "
        count = len(row_grammar.expanded(text.partition(" ")[2]).encode()) + 1
        return [of_text(call, text, f" {fault} {before}")[0] for before in range(count)], OF_TEXT[call][2]
    if kind in OF_TEXT:
        return of_text(kind, rest)
    if kind in ("made_by", "made_of"):
        of = "text" if kind == "made_by" else "entries"
        return f"{of} {ARCHES.index(above.arch)} {kind} {filter_words(above)}\t{rest}", yes_in
    if asked == "equal":
        return f"filters {filter_words(kept)} {filter_words(above)} equal", yes_in
    if kind == "compare_filters":
        return f"filters {filter_words(kept)} {filter_words(above)} compare {comparison_words(rest)}", comparison_in
    for word, of_rest in ((two, asked[len(two) + 1:]), (kind, rest)):
        if word in of_above and (kind != "copy" or not rest):
            verb, read = of_above[word]
            return f"{about(above)} {verb(of_rest)}", read
    return of_row(kind, rest)


def ask(lines, **how):
    """Has the built program answer lines; returns its status and its own lines. It is proved and built first, if it isn't."""
    ran = subprocess.run([TOP / "tools/run-program", CRATE.name], input="\n".join(lines), capture_output=True, text=True, **how)
    return ran.returncode, ran.stdout.removesuffix("\n").split("\n")


def read_alike(read, told, wanted):
    """Reads answers that have to be the same."""
    found = list(dict.fromkeys(read(it, wanted) for it in told))
    return found[0] if len(found) == 1 else f"several answers: {found[:3]}"


def stored(lines):
    """Returns the lines of a question that are kept for `rt ci`."""
    kept = lines if len(lines) < 3 else [lines[0], lines[-1]]
    return [it for it in kept if len(it) < LONGEST]


def compare_stored(results, asked):
    """Compares the stored run with questions, and with what is answered to them: each its lines, and their answers."""
    kept = [it for lines, told in asked for it in zip(lines, told) if it[0] in stored(lines)]
    for name, place in (("stdin", 0), ("stdout", 1)):
        text = "".join(f"{it[place]}\n" for it in kept)
        is_same = (CRATE / name).read_text(encoding="utf-8") == text
        results.tell(f"crates/seccomp_vectors/{name} is as tools/check rows --write makes it", is_same, ())


class Refused:
    """Rows that are asked while requests for memory fail."""

    def __init__(self, results, name, folder):
        self.results, self.name, self.folder = results, name, folder
        self.rows, lines, above, kept = [], [], None, None
        for number, row in rows_of(MEMORY / name):
            row, count = COUNTED.fullmatch(row).groups()
            asked, is_asked, wanted = row.partition(" => ")
            if is_asked:
                (line,), read = question(asked, above, kept, wanted)
                lines.append(line)
                self.rows.append((number, row, wanted, read, count))
            elif row == "keep":
                kept = above
            else:
                above = row_grammar.stated(row, above)
        # How often each row is answered by that memory ran out, while one request fails alone.
        self.found = collections.Counter()
        self.given = folder / f"{name}.asked"
        self.given.write_text("\n".join(lines), encoding="utf-8")

    def told(self, how, number):
        """Returns whether a request failed, the status and the lines."""
        with open(self.given, "rb") as given:
            is_refused, (status, output, _) = run_refused([PROGRAM], self.folder, {how: number}, stdin=given)
        return is_refused, status, output.decode().split("\n")

    def differing(self, told):
        """Returns rows that are answered otherwise."""
        pairs = ((row, wanted, read(line, wanted)) for (_, row, wanted, read, _), line in zip(self.rows, told))
        return [(row, found) for row, wanted, found in pairs if numbers_in(wanted) != numbers_in(found)]

    def check(self, how, number):
        """Has a request fail; returns whether one did. All rows are answered as ever, and one maybe by that memory ran out before; or none
        is, if the program has no memory for the rows themselves. If there is no more memory at all, the rows may end early."""
        is_refused, status, told = self.told(how, number)
        lines = [line for line in told if line != OUT_OF_MEMORY]
        short = [place - before for before, place in enumerate(place for place, line in enumerate(told) if line == OUT_OF_MEMORY)]
        differ = self.differing(lines[:-1])
        if status == 0:
            well = len(lines) == len(self.rows) + 1 and len(short) <= is_refused
        else:
            well = is_refused and status == 1 and lines[-1:] == [""] and (how == "GRANTED" or told == [""])
        self.results.tell(f"rows of {self.name}, {how}={number}", well and not differ, (status, len(lines), *differ[:3]))
        if how == "REFUSED":
            self.found.update(short)
        return is_refused

    def check_all(self, step=1):
        """Has each request fail, or one of so many; then compares how many the library makes for each row."""
        for how, first in REFUSALS:
            number = first
            while self.check(how, number):
                number += step
            print(f"rows of {self.name}: {(number - first) // step} runs of {how} in steps of {step}", flush=True)
        for place, (number, row, _, _, count) in enumerate(self.rows):
            found = self.found[place]
            well = count is not None and (found > 0 if count == "+" else found == int(count))
            self.results.tell(f"{self.name}:{number}: {row[:100]}: {count} requests", well, (found,))


def check_refused(results, name, folder, step):
    """Asks rows while requests for memory fail, one of so many."""
    Refused(results, name, folder).check_all(step)


def write(asked):
    """Writes the stored run of these questions anew, each its lines."""
    lines = [line for it in asked for line in stored(it)]
    status, told = ask(lines)
    (CRATE / "stdin").write_text("".join(f"{it}\n" for it in lines), encoding="utf-8")
    (CRATE / "stdout").write_text("".join(f"{it}\n" for it in told), encoding="utf-8")
    return status
