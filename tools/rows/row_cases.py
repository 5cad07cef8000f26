"""Asks the built programs and the library for C the rows of tools/rows (tools/rows/row_grammar.py).

`seccompc list` and `run` answer for the linear layout, and `list` for policies as texts; `seccomptool compile` for the tree, whose steps
are counted here, and `diff` for what is compared by parts. What `seccomptool explain` says that the filter decides has to be what both
programs return. If a call has no name, or a program is too long, the library for C (tools/rows/library_calls.py) answers, and compares
programs; and all that is left, such as errors of the library's own calls, the program of crates/seccomp_vectors (tools/rows/driver_rows.py).
"""

import json
import re
import struct

import model
from results import TOP
from rows import driver_rows, library_calls
from rows.row_grammar import (Filter, NoRow, conditions, expanded, instructions, matched, numbers_in, record_of, rows_of, shown_as, stated, unrolled)
from running import run

ROWS = TOP / "tools/rows"

# How many instructions the code of a condition has: of low halves, and of both.
LENGTHS = {"dword": ({"masked_eq": 3}, 2), "qword": ({"masked_eq": 6, "eq": 4, "ne": 4}, 5)}

PLACES = re.compile(r"(\d+) to (\d+)")
LISTED = re.compile(r"filter (\d+) (.*)")
TOO_LONG = "too many BPF instructions"
LAYOUTS = {"program": "linear", "tree": "tree"}


def compared_in(rest):
    """Returns the programs of a comparison, and the words before them."""
    words, _, both = rest.partition(": ")
    return [*map(instructions, both.split(" with ")), *words.split()]


def compared_as(rest, told):
    """Returns what a comparison of programs tells, with what both return for the call that it gives."""
    if isinstance(told, int):
        return {1: "holds", library_calls.UNDECIDED: "undecided"}.get(told, f"the code {told}")
    values = (model.run(model.instructions_of(it), model.numbers_of(told))[0] for it in compared_in(rest)[:2])
    return " and ".join(f"0x{it:08x}" for it in values)


class Asked(Exception):
    """A question for the program of crates/seccomp_vectors: its lines, and what reads an answer to one."""


def length_of(condition):
    """Returns how many instructions the code of a condition has."""
    own, other = LENGTHS[condition["type"]]
    operator = condition["op"]
    return own.get(operator if isinstance(operator, str) else "masked_eq", other)


class Policy(Filter):
    """A filter, and what the built programs make of it."""

    def __init__(self, folder, arch, mismatch, match):
        super().__init__(arch, mismatch, match)
        self.folder, self.names, self.made = folder, model.names_of(arch) if arch in model.ARCHITECTURES else {}, {}

    def is_named(self):
        """Returns whether each call has a name."""
        return not self.steps and all(number in self.names for number, _, _ in self.entries)

    def policy(self):
        """Returns the policy's text."""
        entries = [{"syscall": self.names[number], **({"args": rule} if rule else {})} for number, count, rule in self.entries
                   for _ in range(count)]
        return json.dumps({"a": {"mismatch_action": self.mismatch, "match_action": self.match, "filter": entries}})

    def program(self, layout):
        """Returns the instructions of a layout, or the text of the error."""
        if layout not in self.made:
            (self.folder / "row.json").write_text(self.policy())
            self.made[layout] = self.listed() if layout == "linear" else self.compiled()
        return self.made[layout]

    def listed(self):
        """Returns the linear program as `seccompc list` writes it."""
        status, output, errors = run(f"./seccompc list {self.arch} < row.json", self.folder)
        head, *lines = output.splitlines() or [""]
        if status:
            return errors.rstrip("\n") if not output else f"{output}{errors}"
        if head != f"filter {len(lines)} a":
            return f"the line {head} above {len(lines)} instructions"
        return [tuple(int(it, 16) for it in line.split()) for line in lines]

    def compiled(self):
        """Returns the tree as `seccomptool compile` writes it."""
        command = f"./seccomptool compile -q -a {self.arch} --layout tree -o row.bpf row.json"
        status, output, errors = run(command, self.folder)
        if status:
            return (output + errors).rstrip("\n")
        return model.instructions_of((self.folder / "row.bpf").read_bytes())

    def outcomes(self, records, layout="linear"):
        """Returns what a layout's program returns for records, and the steps that it takes; or what differs."""
        linear, tree = self.program("linear"), self.program("tree")
        if isinstance(linear, str) or isinstance(tree, str) and layout == "tree":
            raise NoRow("a record under a policy that is rejected")
        (self.folder / "row.json").write_text(self.policy())
        (self.folder / "row.bin").write_bytes(b"".join(records))
        ran = run(f"./seccompc run {self.arch} row.json a < row.bin", self.folder)[1].splitlines()
        told = run(f"./seccomptool explain -a {self.arch} --json --records row.bin row.json", self.folder)
        decided = [f"{it['action']['value']:08x}" for it in json.loads(told[1] or '{"decisions": []}')["decisions"]]
        if not len(ran) == len(decided) == len(records):
            return [f"{len(ran)} lines of run and {len(decided)} of explain"] * len(records)
        trees = [None if isinstance(tree, str) else model.run(tree, model.numbers_of(it)) for it in records]
        return [self.agreed(*it, layout) for it in zip(ran, decided, trees)]

    def compared(self, old, words):
        """Returns what `seccomptool diff` says of an old policy and this one."""
        for policy, name in ((old, "old.json"), (self, "row.json")):
            (self.folder / name).write_text(policy.policy())
        status, output, errors = run(f"./seccomptool diff --each {words} -a {self.arch} old.json row.json", self.folder)
        head, *lines = output.splitlines() or [""]
        if status == 0 and not lines:
            return head.removeprefix("filter a: ")
        return "; ".join(it.strip().partition(",")[0] for it in lines) if status == 1 else (output + errors).strip()

    @staticmethod
    def agreed(line, decided, of_tree, layout):
        """Returns a program's word and steps, if both programs return what is decided."""
        word, steps = line.split()
        if word != decided or of_tree is not None and word != f"{of_tree[0]:08x}":
            return f"{word} of run, {decided} of explain, {of_tree} of the tree"
        return f"0x{word} {steps if layout == 'linear' else of_tree[1]}"


class Bench:
    """Answers rows one after the other, or says which lines are left for the program of crates/seccomp_vectors."""

    def __init__(self, folder, library):
        self.folder, self.library, self.above, self.kept, self.is_asked = folder, library, None, None, True

    def of_rule(self, rule, arch="x86_64"):
        """Returns the policy that allows call 7 by one rule, and traps all others."""
        made = Policy(self.folder, arch, "trap", "allow")
        made.entries.append((7, 1, rule))
        return made

    def state(self, row):
        """Takes a statement."""
        if row == "keep":
            self.kept, self.is_asked = self.above, True
            return
        kind, *words = row.split()
        if kind in ("policy", "decisions"):
            if not self.is_asked:
                raise NoRow("nothing is asked of what is above")
            self.is_asked = False
        elif self.is_asked:
            raise NoRow("a call stands behind a question")
        self.above = Policy(self.folder, *words) if kind == "policy" else stated(row, self.above)

    def answer(self, asked, wanted):
        """Returns the answer to a question, in the form in which it is wanted."""
        kind, _, rest = asked.partition(" ")
        self.is_asked = True
        told = self.of_programs(kind, rest, asked)
        if told is None:
            told = self.of_library(kind, rest)
        if told is None:
            raise Asked(*driver_rows.question(asked, self.above, self.kept, wanted))
        return told if isinstance(told, str) else shown_as(wanted, told)

    def of_programs(self, kind, rest, asked):
        """Returns what seccompc and seccomptool answer; nothing if they aren't asked."""
        is_named = isinstance(self.above, Policy) and self.above.is_named()
        if kind == "compare":
            old, new = (self.above, self.kept) if rest.startswith("back") else (self.kept, self.above)
            return new.compared(old, {"": "", "at most": "--only-more"}[rest.removeprefix("back").strip()])
        if kind == "records":
            outcomes = self.above.outcomes([record_of(it) for it in rest.split("|")])
            return " and ".join(sorted({it.split()[0] for it in outcomes}))
        if is_named and (kind == "record" or asked.startswith("tree record ")):
            record = record_of(rest.removeprefix("record "))
            return self.above.outcomes([record], "linear" if kind == "record" else "tree")[0]
        if kind == "raw":
            return self.ran(rest)
        if kind == "holds" and " for " in rest:
            return self.held(rest)
        if kind == "compile_from_json":
            return self.lengths(*rest.split(" ", 1))
        return self.code_of(kind, rest, is_named)

    def code_of(self, kind, rest, is_named):
        """Returns the instructions that a question is after, or the text of an error."""
        if kind in LAYOUTS and is_named and not rest.startswith("record "):
            return self.part(self.above.program(LAYOUTS[kind]), rest)
        if kind == "code":
            return self.code_at(*rest.split(" @ "))
        if kind == "rule" and rest:
            code = self.of_rule(conditions(rest)).program("linear")
            return None if TOO_LONG in code else code if isinstance(code, str) else code[5:-3]
        if kind == "action":
            code = Policy(self.folder, "x86_64", rest, "log" if rest != "log" else "allow").program("linear")
            return code if isinstance(code, str) else f"0x{code[-1][3]:08x}"
        if kind == "guard":
            code = Policy(self.folder, rest, "trap", "allow").program("linear")
            return code if isinstance(code, str) else code[:3]
        return None

    @staticmethod
    def part(code, places):
        """Returns the instructions from a place to another, or all."""
        first, last = matched(PLACES, places) if places else (0, len(code) - 1)
        return code if isinstance(code, str) else code[int(first):int(last) + 1]

    def of_library(self, kind, rest):
        """Returns what the library for C answers; nothing if it isn't asked, or returns a code."""
        told, is_filter = None, isinstance(self.above, Filter)
        if kind == "rule" and rest:
            told = self.library.rule(conditions(rest))
        elif kind == "compare_code":
            return compared_as(rest, self.library.compare(*compared_in(rest)))
        elif kind == "holds":
            rule, _, record = rest.partition(" on ")
            number = int(record.split()[0], 0)
            made = Policy(self.folder, "x86_64", "trap", "allow")
            made.entries.append((number, 1, conditions(rule)))
            told = {0x7FFF0000: "yes", 0x00030000: "no"}.get(self.library.decide(made, record_of(record)))
        elif kind == "check" and rest not in LAYOUTS:
            told = self.library.check(instructions(rest))
        elif is_filter and kind == "check":
            program = self.library.program(self.above, LAYOUTS[rest])
            told = program if isinstance(program, int) else self.library.check(program)
        elif is_filter and kind in LAYOUTS and not rest.startswith("record "):
            told = self.library.program(self.above, LAYOUTS[kind])
        elif is_filter and kind == "program_len":
            told = self.library.length(self.above)
            return None if told < 0 else str(told)
        elif is_filter and kind == "decide":
            told = self.library.decide(self.above, record_of(rest))
            return None if told < 0 else f"0x{told:08x}"
        return model.instructions_of(told) if isinstance(told, bytes) else told if isinstance(told, str) else None

    def code_at(self, text, offset):
        """Returns the code of a condition at an offset: one less instruction of other conditions stand after it."""
        (condition,), behind = conditions(text), int(offset) - 1
        front = conditions("0 dword masked_eq(1) 1") * (behind % 2)
        front += conditions("0 dword eq 1") * ((behind - 3 * len(front)) // 2)
        code = self.of_rule([*front, condition]).program("linear")
        return code if isinstance(code, str) else code[7:7 + length_of(condition)]

    def lengths(self, arch, text):
        """Returns the names of a text's filters, with the lengths of their programs, as `seccompc list` writes them; or the error."""
        (self.folder / "row.json").write_text(expanded(text))
        status, output, errors = run(f"./seccompc list {arch} < row.json", self.folder)
        found = [it for it in map(LISTED.fullmatch, output.splitlines()) if it]
        return errors.rstrip("\n") if status else ", ".join(f"{it[2]} {it[1]}" for it in found) or "none"

    def ran(self, rest):
        """Returns the action that `seccomptool explain` prints of a program, or why it isn't taken."""
        text, _, record = rest.partition(" for ")
        (self.folder / "row.bpf").write_bytes(instructions(text))
        (self.folder / "row.bin").write_bytes(record_of(record or "0"))
        _, output, errors = run("./seccomptool explain --records row.bin row.bpf", self.folder)
        return output.partition(": ")[0] or errors.strip().removeprefix("seccomptool: row.bpf: ")

    def held(self, rest):
        """Returns whether a condition holds for all of some values, or for none; else what each gives."""
        text, _, values = rest.partition(" for ")
        (condition,) = rule = conditions(text)
        records = [record_of(f"7 a{condition['index']}={it}") for it in values.split()]
        if not records:
            raise NoRow("no values")
        words = [it.split()[0] for it in self.of_rule(rule).outcomes(records)]
        return {("0x7fff0000",): "all", ("0x00030000",): "none"}.get(tuple(sorted(set(words))), " ".join(words))


def answered(bench, row):
    """Takes a row; returns what is wanted, and what is answered or why it can't be taken, or the question for the driver; nothing of a
    statement."""
    asked, is_asked, wanted = row.partition("=>")
    asked, wanted = asked.strip(), unrolled(wanted.strip())
    try:
        if not is_asked:
            return bench.state(asked)
        if not re.search(r"[\w\[]", wanted):
            raise NoRow("no answer is stated")
        return wanted, bench.answer(asked, wanted)
    except Asked as question:
        return wanted, question
    except (NoRow, ValueError, AttributeError, TypeError, IndexError, KeyError, struct.error) as fault:
        return "a row that is understood", f"{type(fault).__name__}: {fault}"


def taken(path, folder, library):
    """Takes the rows of a file; returns what each is, what it wants and what is answered, and whether each filter is asked of."""
    bench, told = Bench(folder, library), []
    for number, row in rows_of(path):
        compared = answered(bench, row)
        if compared:
            told.append((f"tools/rows/{path.name}:{number}: {row[:100]}", *compared))
    return told, bench.is_asked


def asked_of_driver(folder):
    """Returns the lines of each question of the rows that only the program of crates/seccomp_vectors can answer."""
    library = library_calls.Library(folder)
    told = [it for path in sorted(ROWS.glob("*.rows")) for it in taken(path, folder, library)[0]]
    return [it.args[0] for _, _, it in told if isinstance(it, Asked)]


def compare_rows(results, folder, part="*"):
    """Asks the built programs, in the folder where they are, each row of each file, or of one."""
    try:
        library, told = library_calls.Library(folder), []
    except library_calls.NoLibrary as fault:
        results.tell("the library for C, which answers rows", False, (str(fault),))
        return
    for path in sorted(ROWS.glob(f"{part}.rows")):
        found, is_asked = taken(path, folder, library)
        told += found
        results.compare(f"tools/rows/{path.name}: each policy is asked of", (True, True), (bool(found), is_asked))
    questions = [it for _, _, it in told if isinstance(it, Asked)]
    status, lines = driver_rows.ask([line for it in questions for line in it.args[0]])
    results.compare("crates/seccomp_vectors: status, and lines", (0, sum(len(it.args[0]) for it in questions)), (status, len(lines)))
    lines, answers = iter(lines), []
    for what, wanted, found in told:
        if isinstance(found, Asked):
            answers.append((found.args[0], [next(lines, "") for _ in found.args[0]]))
            found = driver_rows.read_alike(found.args[1], answers[-1][1], wanted)
        results.compare(what, (wanted,), (wanted if numbers_in(wanted) == numbers_in(found) else found,))
    if part == "*":
        driver_rows.compare_stored(results, answers)
