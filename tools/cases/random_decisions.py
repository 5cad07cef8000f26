"""Random decisions with several return values and all operators: what the tree of each returns is compared with what is decided.

`decide` below is the definition, written from the meaning of the operators alone. Per decisions the program of
crates/seccomp_vectors is asked for the instructions, and for a record what is decided, and what the program returns, which has
to be one that a kernel takes, and in how many steps; the machine of model.py runs the instructions on this record and on
more. The records lie at the values of the conditions and beside them. `try_on_kernel` installs some programs, and makes the calls.
"""

import ctypes
import functools
import os
import random
import struct
import sys

from jail.running_kernel import under
from model import ARCHITECTURES, DWORD, OPERATORS, QWORD, holds, instructions_of, numbers_of, record_of, run
from rows import driver_rows
from rows.row_grammar import instructions, stated

COUNT, SEED, RECORDS, ASKED = 10_000, 57, 24, 1
ON_KERNEL = 200

KILL_PROCESS, ALLOW, ERRNO = 0x80000000, 0x7FFF0000, 0x00050000
VALUES = [0, KILL_PROCESS, ALLOW, 0x00030000, 0x7FFC0000, ERRNO | 1, ERRNO | 38, 0x7FF00005]
OFTEN = [*OPERATORS, "eq", "eq", "eq"]
NUMBERS = [0, 1, 2, 3, 5, DWORD - 1, DWORD, DWORD + 1, QWORD - 1, 1 << 31, 1 << 63, 5 * DWORD + 7, 7 * DWORD]
MASKS = [0, 1, 0xFF, DWORD - 1, QWORD - 1, QWORD - DWORD]


def decide(decisions, record):
    """The value that is decided: of the first ruling that holds, else the default of the number."""
    arch, defaults, calls = decisions
    own, number, arguments = record
    if own != ARCHITECTURES[arch]:
        return KILL_PROCESS
    for conditions, value in calls.get(number, []):
        if all(holds(size, operator, arguments[index], of, mask) for index, size, operator, of, mask in conditions):
            return value
    return [value for start, value in defaults if start <= number][-1]


def some_condition(draw, index=None, size=None):
    index = draw.choice([0, 1, 1, 5]) if index is None else index
    mask = draw.choice([*MASKS, draw.getrandbits(64)])
    return index, size or draw.choice([DWORD, QWORD]), draw.choice(OFTEN), draw.choice([*NUMBERS, draw.getrandbits(64)]), mask


def some_rulings(draw, values):
    """Rulings of a call: one without conditions; a run of comparisons of one argument, maybe parted; or any."""
    kind = draw.random()
    if kind < 0.3:
        return [([], draw.choice(values))]
    if kind < 0.65:
        index, size = draw.choice([0, 3]), draw.choice([DWORD, QWORD])
        base, gap = draw.choice(NUMBERS), draw.choice([1, 2, 7, DWORD])
        run = [([(index, size, draw.choice(OFTEN[-4:]), (base + gap * draw.randrange(30)) % QWORD, 0)], draw.choice(values))
               for _ in range(draw.randint(1, 12))]
        if draw.random() < 0.4:
            run.insert(draw.randrange(len(run)), ([some_condition(draw) for _ in range(draw.randint(0, 2))], draw.choice(values)))
        if draw.random() < 0.4:
            run.append(([some_condition(draw, index, size)], draw.choice(values)))
        return run
    return [([some_condition(draw) for _ in range(draw.choice([0, 1, 1, 2, 2, 3, 7]))], draw.choice(values))
            for _ in range(draw.randint(1, 5))]


def some_decisions(draw, arch, values, low, high):
    """Decisions on calls of numbers from `low` up to `high`, and on some others if all numbers may be."""
    others = [1 << 30, (1 << 30) + 1, 1 << 31, DWORD - 2, DWORD - 1, 0] if high > 1 << 31 else []
    numbers = {draw.choice([draw.randrange(low, low + 20), draw.randrange(low, low + 464), *others]) for _ in range(draw.randint(0, 10))}
    starts = sorted({0, draw.choice([10, 300, 463, 1 << 30])}) if others and draw.random() < 0.4 else [0]
    return arch, [(it, draw.choice(values)) for it in starts], {it: some_rulings(draw, values) for it in sorted(numbers)}


def records_of(draw, decisions, count):
    """Records at what is compared and beside it."""
    arch, defaults, calls = decisions
    starts = [it for it, _ in defaults] + list(calls)
    for _ in range(count):
        number = draw.choice(starts) if draw.random() < 0.8 else max(0, min(DWORD - 1, draw.choice(starts) + draw.choice([-1, 1])))
        arguments = [0] * 6
        conditions = [it for all_of, _ in calls.get(number, []) for it in all_of]
        draw.shuffle(conditions)
        for index, size, _, value, mask in conditions:
            beside = (value + draw.choice([0, 0, 0, -1, 1])) % size
            kept = draw.choice([beside, beside & mask, beside ^ draw.choice([1, DWORD, 1 << 63])])
            arguments[index] = (kept + (draw.choice([0, DWORD]) if size == DWORD else 0)) % QWORD
        own = ARCHITECTURES[arch] if draw.random() < 0.97 else draw.choice([*ARCHITECTURES.values(), 0])
        yield own, number, arguments


def statements_of(decisions):
    """The statements of rows."""
    arch, defaults, calls = decisions
    yield f"decisions {arch} " + " ".join(f"{start}={value:#x}" for start, value in defaults)
    for number, rulings in calls.items():
        parts = []
        for conditions, value in rulings:
            words = [f"{index} {'dword' if size == DWORD else 'qword'} {operator}{f'({mask})' if operator == 'masked_eq' else ''} {of}"
                     for index, size, operator, of, mask in conditions]
            parts.append(f"{' & '.join(words)} gives {value:#x}")
        yield f"call {number}: " + " | ".join(parts)


def words_of(record):
    arch, number, arguments = record
    return f"{number} arch={arch:#x} " + " ".join(f"a{index}={it:#x}" for index, it in enumerate(arguments))


def ask(all_of):
    """Asks crates/seccomp_vectors about decisions with records; returns the answers of each."""
    asked = []
    for decisions, records in all_of:
        above = functools.reduce(lambda above, row: stated(row, above), statements_of(decisions), None)
        rows = ["to_bpf", *(f"{it} {words_of(record)}" for record in records[:ASKED] for it in ("decide", "record"))]
        asked.append([driver_rows.question(row, above, None) for row in rows])
    lines = [line for questions in asked for (line,), _ in questions]
    status, told = driver_rows.ask(lines)
    if (status, len(told)) != (0, len(lines)):
        sys.exit(f"the program of crates/seccomp_vectors ends with {status} after {len(told)} of {len(lines)} answers")
    told = iter(told)
    return [[read(next(told), "") for _, read in questions] for questions in asked]


def fault_of(decisions, records, answers):
    """Returns what is wrong with answers about decisions, or nothing."""
    code = instructions_of(instructions(answers[0]))
    for place, record in enumerate(records):
        wanted = decide(decisions, record)
        arch, number, arguments = record
        value, steps = run(code, numbers_of(record_of(number, arch, *arguments)))
        told = answers[1 + 2 * place:3 + 2 * place] if place < ASKED else [f"{wanted:#010x}", f"{value:#010x} {steps}"]
        if value != wanted or told != [f"{wanted:#010x}", f"{wanted:#010x} {steps}"]:
            return words_of(record), f"{wanted:#010x}", f"{value:#010x} {steps}", told
    return None


def compare_decisions(results, count=COUNT, seed=SEED):
    """Compares random decisions; `results` counts each of them as a case."""
    all_of = []
    for place in range(count):
        draw = random.Random(f"{seed}, {place}")
        values = draw.sample(VALUES, draw.randint(1, 5))
        decisions = some_decisions(draw, draw.choice(list(ARCHITECTURES)), values, 0, DWORD)
        all_of.append((decisions, list(records_of(draw, decisions, RECORDS))))
    for place, ((decisions, records), answers) in enumerate(zip(all_of, ask(all_of))):
        wrong = fault_of(decisions, records, answers)
        told = f"{'; '.join(statements_of(decisions))}: {wrong}" if wrong else ""
        results.compare(f"random decisions {place}", ("",), (told,))


# Numbers of no call, of which a kernel says so if they are allowed.
FREE = 1000
NO_CALL = 38
ERRORS = [ALLOW, *(ERRNO | it for it in (1, 2, 13, 4095))]


def called(program, records):
    """Installs a program in a process of its own, makes the calls, and returns their error numbers; none if it isn't installed."""
    def act(library, _, out):
        for _, number, arguments in records:
            ctypes.set_errno(0)
            library.syscall(ctypes.c_long(number), *(ctypes.c_uint64(it) for it in arguments))
            os.write(out, struct.pack("=H", ctypes.get_errno()))

    told, status = under([program], act)
    return [] if status else list(struct.unpack(f"={len(told) // 2}H", told))


def try_on_kernel(results, count=ON_KERNEL, seed=SEED):
    """Compares what calls of no use fail with, under programs of random decisions that allow all other calls."""
    if not driver_rows.PROGRAM.exists():
        print("seccomp_vectors isn't built, so no random decisions were installed")
        return
    all_of = []
    for place in range(count):
        draw = random.Random(f"kernel {seed}, {place}")
        arch, _, calls = some_decisions(draw, os.uname().machine, ERRORS, FREE, FREE)
        decisions = arch, [(0, ALLOW), (FREE, draw.choice(ERRORS)), (2 * FREE, ALLOW)], calls
        records = [(own, number, arguments) for own, number, arguments in records_of(draw, decisions, 2 * RECORDS)
                   if own == ARCHITECTURES[arch] and FREE <= number < 2 * FREE]
        all_of.append((decisions, records))
    for place, ((decisions, records), answers) in enumerate(zip(all_of, ask(all_of))):
        wanted = [NO_CALL if value == ALLOW else value & 0xFFFF for value in (decide(decisions, it) for it in records)]
        found = called(instructions(answers[0]), records)
        differ = [(words_of(record), *both) for record, *both in zip(records, wanted, found) if both[0] != both[1]]
        results.compare(f"random decisions on the kernel, {place}", (len(records), []), (len(found), differ[:3]))
