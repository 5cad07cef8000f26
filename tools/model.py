"""What calls, conditions and programs mean, from manual pages and headers alone: the records of calls, the operators of conditions, and
the instructions of classic BPF (linux/bpf_common.h). What the programs answer is held against this."""

import functools
import pathlib
import struct

# A file of names and numbers of calls for each architecture, as the Rust crate has them.
NAMES = pathlib.Path(__file__).resolve().parent / "call_names"

# `AUDIT_ARCH_*` values (linux/audit.h).
ARCHITECTURES = {"x86_64": 0xC000003E, "aarch64": 0xC00000B7, "riscv64": 0xC00000F3}
X86_64, AARCH64, RISCV64 = ARCHITECTURES.values()

DWORD, QWORD = 1 << 32, 1 << 64

# An argument, a value and a mask.
OPERATORS = {
    "eq": lambda a, v, m: a == v, "ne": lambda a, v, m: a != v, "ge": lambda a, v, m: a >= v, "gt": lambda a, v, m: a > v,
    "le": lambda a, v, m: a <= v, "lt": lambda a, v, m: a < v, "masked_eq": lambda a, v, m: a & m == v & m,
}

SET, LOAD, MASK, JUMP, RETURN = 0x00, 0x20, 0x54, 0x05, 0x06
TESTS = {0x15: lambda a, k: a == k, 0x25: lambda a, k: a > k, 0x35: lambda a, k: a >= k, 0x45: lambda a, k: a & k != 0}


@functools.cache
def numbers_on(arch):
    """Returns the numbers of an architecture's calls, by their names."""
    name = {"amd64": "x86_64", "arm64": "aarch64"}.get(arch, arch)
    return {name: int(number) for name, number in map(str.split, (NAMES / name).read_text(encoding="ascii").splitlines())}


@functools.cache
def names_of(arch):
    """Returns the names of an architecture's calls, by their numbers."""
    return {number: name for name, number in numbers_on(arch).items()}


def called(call, arch="x86_64"):
    """Returns how `explain` prints a call, given by its name or number: with both, or by its number if that has no name."""
    number = numbers_on(arch).get(call)
    number = int(str(call), 0) if number is None else number
    name = names_of(arch).get(number)
    return f"{name} ({number})" if name else f"call {number}"


def record_of(number, architecture, *arguments, pointer=0):
    """Returns the record of a call with these arguments, and zeros after them: its number and the `AUDIT_ARCH_*` value in 4 bytes each,
    the instruction pointer, and six arguments in 8 bytes each, all with the low byte first."""
    return struct.pack("<IIQ6Q", number, architecture, pointer, *arguments, *[0] * (6 - len(arguments)))


def numbers_of(record):
    """Returns the sixteen numbers of a record."""
    return struct.unpack("<16I", record)


def instructions_of(program):
    """Returns the instructions of a program in bytes, each its code, two distances and an operand."""
    return list(struct.iter_unpack("<HBBI", program))


def holds(size, operator, argument, value, mask=0):
    """Whether a condition holds, of the argument or its low half: `size` is DWORD or QWORD."""
    return OPERATORS[operator](argument % size, value % size, mask % size)


def is_met(condition, argument):
    """Whether a condition of a policy holds of an argument, as docs/JSON.md says of its operator."""
    operator, size = condition["op"], DWORD if condition["type"] == "dword" else QWORD
    if isinstance(operator, dict):
        return holds(size, "masked_eq", argument, condition["val"], operator["masked_eq"])
    return holds(size, operator, argument, condition["val"])


def run(program, record):
    """Runs instructions on the sixteen numbers of a record. Returns the value that is returned, and the steps; no value if an
    instruction isn't known."""
    place = accumulator = steps = 0
    while True:
        code, if_so, if_not, k = program[place]
        place, steps = place + 1, steps + 1
        if code == RETURN:
            return k, steps
        if code == SET:
            accumulator = k
        elif code == LOAD:
            accumulator = record[k // 4]
        elif code == MASK:
            accumulator &= k
        elif code == JUMP:
            place += k
        elif code in TESTS:
            place += if_so if TESTS[code](accumulator, k) else if_not
        else:
            return None, steps
