"""Programs in which one number is another: `diff` of seccomptool prints the calls on which such a program returns another value, or
says that there are none. Both are held against an interpreter of classic BPF, as linux/bpf_common.h has it: on the call of each
line both programs return two values, and each record at random whose run comes to the place of the mutation, and for which they do,
is of a call that has a line. If it is of a range, and the line isn't of some calls, they return the same two values.

The programs are those of examples/foreign and some that are made at random, and the numbers are the constant of a jump or a returned
value, always the same ones.
"""

import random
import re
import struct

from model import ARCHITECTURES, JUMP, LOAD, MASK, RETURN, TESTS, X86_64, instructions_of, numbers_on, run as run_on

# Return values (linux/seccomp.h).
WORDS = (0x7FFF0000, 0x7FFC0000, 0x00050001, 0x00050026, 0x00030000, 0, 0x80000000)

# How many mutations there are, of each program of examples/foreign, and of each one that is made; and how often a record is looked
# for that comes to the place of one.
MUTATIONS = 1000
OF_FOREIGN = 10
OF_MADE = 18
TRIES = 10
FOREIGN = ("one-test", "two-borders", "two-halves", "mask-of-a-bit", "crun", "runc", "chromium-a", "chromium-b", "flatpak",
           "libseccomp-calls")

# Compares a file with each of others, and prints the exit statuses.
DIFFS = 'old=$1; shift; for new; do "$0" diff -q --each --all "$old" "$new" > "${new%.bpf}.out" 2>&1; echo $?; done'

# A line of calls on which two programs differ: other numbers, other architectures or a name; whether it is of some calls; and at its end
# an example, its name or number, after the `AUDIT_ARCH_*` value if that is another, its arguments, and the instruction pointer.
LINE = re.compile(r"  (?:(?:other|x32) calls? (\d+)(?: to (\d+))?|other architectures? 0x([0-9a-f]+)(?: to 0x([0-9a-f]+))?|(\w+))(, some calls)?"
                  r": [^:]*: (?:0x([0-9a-f]+) )?(\w+)\(" + ", ".join(["0x([0-9a-f]+)"] * 6) + r"\)(?: at 0x([0-9a-f]+))?")

# The architectures that have names (linux/audit.h).
ARCHES = {"i386": 0x40000003, "arm": 0x40000028, **ARCHITECTURES}


def next_of(program, place):
    """Returns the places to which an instruction leads."""
    code, if_so, if_not, k = program[place]
    if code in TESTS:
        return place + 1 + if_so, place + 1 + if_not
    return () if code == RETURN else (place + 1 + (k if code == JUMP else 0),)


def answer_of(program, record):
    """Returns what a program returns for the sixteen numbers of a record."""
    return run_on(program, record)[0]


def made(numbers):
    """Returns a program of x86_64 that is made at random: tests of a call's number, and then of an argument, under a mask or not."""
    code = [(LOAD, 0, 0, 4), (0x15, 1, 0, X86_64), (RETURN, 0, 0, 0x80000000), (LOAD, 0, 0, 0)]
    for _ in range(numbers.randrange(1, 6)):
        test, number, word = numbers.choice((0x15, 0x25, 0x35, 0x45)), numbers.randrange(400), numbers.choice(WORDS)
        if numbers.randrange(2):
            code += [(test, 0, 1, number), (RETURN, 0, 0, word)]
        else:
            inner = numbers.choice(tuple(TESTS))
            code += [(test, 0, 5, number), (LOAD, 0, 0, 16 + 4 * numbers.randrange(12)),
                     (MASK, 0, 0, numbers.choice((0xFFFFFFFF, 0xFF, 6))), (inner, 0, 1, numbers.randrange(8)), (RETURN, 0, 0, word),
                     (LOAD, 0, 0, 0)]
    return [*code, (RETURN, 0, 0, numbers.choice(WORDS))]


def mutated(numbers, program):
    """Returns a program in which a returned value or the constant of a test is another, and the place of that."""
    places = [place for place, it in enumerate(program) if it[0] == RETURN or it[0] in TESTS]
    place = numbers.choice(places)
    code, if_so, if_not, k = program[place]
    others = WORDS if code == RETURN else (k ^ 1, k + 1, k - 1, k ^ 0x40000000, k ^ 1 << numbers.randrange(32), numbers.getrandbits(32))
    k = numbers.choice([it % 2**32 for it in others if it % 2**32 != k])
    return [*program[:place], (code, if_so, if_not, k), *program[place + 1:]], place


def near(numbers, mask, k):
    """Returns numbers that a test under a mask may tell from others."""
    chance = numbers.getrandbits(32)
    return [k, (k + 1) % 2**32, (k - 1) % 2**32, k & mask | chance & ~mask, chance & ~k]


def way_to(numbers, program, place, leads):
    """Returns the tests on a way to a place, chosen at random among the places that lead there: for each number of a record those that
    it has to meet; and which number is loaded at the end, under which mask."""
    at, loaded, mask, asked = 0, 0, 0, {}
    while at != place:
        code, if_so, _, k = program[at]
        if code == LOAD:
            loaded, mask = k // 4, 2**32 - 1
        elif code == MASK:
            mask &= k
        then = numbers.choice([it for it in next_of(program, at) if it in leads])
        if code in TESTS:
            asked.setdefault(loaded, []).append((mask, TESTS[code], k, then == at + 1 + if_so))
        at = then
    return asked, loaded, mask


def records_to(numbers, program, place, wanted):
    """Returns records whose runs come to a place, at random. A number that is tested there is near one of those wanted, if the way to
    the place lets it."""
    leads, records = {place}, []
    for at in range(place - 1, -1, -1):
        leads.update([at] if leads.intersection(next_of(program, at)) else [])
    for _ in range(TRIES if 0 in leads else 0):
        asked, loaded, mask = way_to(numbers, program, place, leads)
        record = [numbers.getrandbits(32) for _ in range(16)]
        first = numbers.sample([it for k in wanted for it in near(numbers, mask, k)], 5 * len(wanted))
        for number, tests in {loaded: [], **asked}.items():
            tried = [*(first if number == loaded else ()), record[number]]
            tried += [it for mask, _, k, _ in reversed(tests) for it in near(numbers, mask, k)]
            record[number] = next((it for it in tried if all(test(it & mask, k) == so for mask, test, k, so in tests)), None)
        records += [] if None in record else [record]
    return records


def found_on(line):
    """Returns what a line of `diff` says: that of records whose number in a place, 0 or 1, lies between two others, this one is answered
    otherwise; and whether it says of all that they are answered as this one. None if it says no such thing."""
    said = LINE.fullmatch(line)
    if not said:
        return None
    least, greatest, first, last, name, some, arch, call, *arguments, pointer = said.groups()
    wide = [int(it or "0", 16) for it in (pointer, *arguments)]
    number = int(call) if call.isdigit() else numbers_on("x86_64")[call]
    record = number, int(arch, 16) if arch else X86_64, *(half for it in wide for half in (it % 2**32, it >> 32))
    if name in ARCHES:
        return (1, ARCHES[name], ARCHES[name]), record, not some
    if name:
        return (0, *(numbers_on("x86_64")[name],) * 2), record, False
    if first:
        return (1, int(first, 16), int(last or first, 16)), record, not some
    return (0, int(least), int(greatest or least)), record, not some


def is_within(record, part):
    """Returns whether a record is of the calls of a line: those of x86_64 are known by their number, and others by the architecture."""
    place, least, greatest = part
    return place == (record[1] != X86_64) and least <= record[place] <= greatest


def programs(numbers, top):
    """Returns programs with their names, and how many mutations there are of each."""
    for name in FOREIGN:
        yield name, instructions_of((top / f"examples/foreign/{name}.bpf").read_bytes()), OF_FOREIGN
    for number in range((MUTATIONS - OF_FOREIGN * len(FOREIGN)) // OF_MADE):
        yield f"made {number}", made(numbers), OF_MADE


def compared(run, tool, folder, old, mutations):
    """Returns what `diff` says of a program and each of these: its exit status, and what it prints."""
    files = [folder / f"{number}.bpf" for number in range(len(mutations) + 1)]
    for file, program in zip(files, [old, *mutations]):
        file.write_bytes(b"".join(struct.pack("<HBBI", *it) for it in program))
    statuses = run(["sh", "-c", DIFFS, tool, *files], "/dev/null")[1].split()
    return [(int(status), file.with_suffix(".out").read_text(encoding="utf-8")) for status, file in zip(statuses, files[1:])]


def is_right(old, new, records, status, lines):
    """Returns whether each line of `diff` is so, and none is missing of those that records show."""
    def answers(record):
        return answer_of(old, record), answer_of(new, record)

    found = [found_on(line) for line in lines]
    if status != bool(lines) or None in found:
        return False
    well = all(is_within(it, part) and len(set(answers(it))) == 2 for part, it, _ in found)
    alike = all(answers(other) == answers(it) for part, it, all_of_them in found if all_of_them for other in records if is_within(other, part))
    return well and alike and all(len(set(answers(it))) == 1 or any(is_within(it, part) for part, *_ in found) for it in records)


def check_mutations(results, folder, top, tool, run):
    """Compares programs with mutated ones. run(command, path) returns the exit status, the output and the errors of a command that reads
    the file at a path."""
    numbers, tried, reached = random.Random(62), 0, 0
    for name, old, count in programs(numbers, top):
        mutations = [mutated(numbers, old) for _ in range(count)]
        for (new, place), (status, output) in zip(mutations, compared(run, tool, folder, old, [it for it, _ in mutations])):
            lines = [line for line in output.split("\n") if line.startswith("  ")]
            records = records_to(numbers, old, place, (old[place][3], new[place][3]))
            tried, reached = tried + 1, reached + bool(records)
            well = is_right(old, new, records, status, lines)
            results.tell(f"{name}, with {new[place]} at {place} in the place of {old[place]}", well, (status, output))
    results.tell("so many mutations are tried, and records come to most of them", tried == MUTATIONS and reached >= MUTATIONS * 4 // 5,
                 (tried, reached))
