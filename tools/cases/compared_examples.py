"""What `diff` of seccomptool finds of the examples and of programs of other compilers, each beside each other one. It is held against
an interpreter of classic BPF, as linux/bpf_common.h has it, on records by chance: a part whose calls change throughout has no call that
is decided otherwise, and each call that both decide differently is of a part.

The records are near the numbers that the programs test, always the same ones.
"""

import itertools
import json
import random

from model import TESTS, X86_64, instructions_of, run as run_on

# How many records there are.
RECORDS = 10_000

# `AUDIT_ARCH_*` values (linux/audit.h): of i386, arm, aarch64 and riscv64; and the bit of x32 numbers.
OTHERS, X32 = (0x40000003, 0x40000028, 0xC00000B7, 0xC00000F3), 0x40000000

# Compares the subjects of each line, which are separated by tabs.
DIFFS = 'while IFS="	" read -r old new; do "$0" diff -q --json --most 100000 "$old" "$new"; done'


def subjects_in(top, compile):
    """Returns subjects with their programs. compile(words) returns the bytes of a program."""
    found = {}
    for path in sorted([*top.glob("examples/*.json"), *top.glob("examples/foreign/*.json")]):
        value = json.loads(path.read_text(encoding="utf-8"))
        filters = [None] if "defaultAction" in value else sorted(value)
        for name in filters:
            found[f"{path}:{name}" if name else str(path)] = compile([*(("-f", name) if name else ()), path])
    found.update((str(path), path.read_bytes()) for path in sorted(top.glob("examples/foreign/*.bpf")))
    return {subject: instructions_of(code) for subject, code in found.items()}


def records(programs):
    """Returns records near the numbers that the programs test."""
    draw = random.Random(110)
    tested = sorted({k for program in programs for code, _, _, k in program if code in TESTS})
    near = sorted({(k + step) % 2**32 for k in tested for step in (-1, 0, 1)})

    def number():
        return draw.choice((draw.randrange(500), X32 + draw.randrange(600), draw.choice(near), draw.getrandbits(32)))

    def architecture():
        return draw.choice((X86_64, X86_64, X86_64, X86_64, draw.choice(OTHERS), draw.choice(near), draw.getrandbits(32)))

    def half():
        return draw.choice((0, draw.randrange(10), draw.choice(near), draw.getrandbits(32)))

    return [(number(), architecture(), *(half() for _ in range(14))) for _ in range(RECORDS)]


def is_within(record, is_other, part):
    """Returns whether a record is of the calls of a part, which are known by their number, or by another architecture."""
    return is_other == (record[1] != X86_64) and part["least"] <= record[is_other] <= part["greatest"]


def faults_of(found, old, new, drawn):
    """Returns what is wrong with what is found of two programs, whose answers to the records are these."""
    parts = [(item["architecture"] is None, part) for item in found for part in item["parts"]]
    of_call = {part["number"]: part for is_other, part in parts if not is_other and part["number"] is not None}
    ranges = [it for it in parts if it[1]["number"] is None]
    others = any(item["architecture"] is None for item in found)
    for record, was, now in zip(drawn, old, new):
        if record[1] != X86_64 and not others:
            continue
        one = of_call.get(record[0]) if record[1] == X86_64 else None
        part = one or next((part for is_other, part in ranges if is_within(record, is_other, part)), None)
        if part is None:
            if was != now:
                yield f"no part has the record {record}, which {was:#x} and {now:#x} decide"
        elif part["throughout"] and (part["old"]["value"], part["new"]["value"]) != (was, now):
            yield f"{was:#x} and {now:#x} decide the record {record} of {part}"


def check_examples(results, folder, top, tool, run):
    """Compares each two of the subjects. run(command, path) returns the exit status, the output and the errors of a command that reads
    the file at a path."""
    subjects = subjects_in(top, lambda words: run([tool, "compile", "-q", *words], "/dev/null")[1])
    drawn = records(subjects.values())
    answers = {subject: [run_on(program, record)[0] for record in drawn] for subject, program in subjects.items()}
    pairs = list(itertools.combinations(subjects, 2))
    given = folder / "pairs"
    given.write_text("".join(f"{old}\t{new}\n" for old, new in pairs), encoding="utf-8")
    status, output, errors = run(["sh", "-c", DIFFS, tool], given)
    texts = output.decode().split('{"compared":')[1:]
    results.tell("diff of examples has an answer for each two", len(texts) == len(pairs) and not errors, (status, errors))
    for (old, new), text in zip(pairs, texts):
        found = json.loads('{"compared":' + text)["compared"]
        fault = next(faults_of(found, answers[old], answers[new], drawn), None)
        results.tell(f"diff {old} {new} on records by chance", fault is None, fault)
