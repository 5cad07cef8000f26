"""What bench/kernel and bench/lengths share: the steps of a program on a call, and the programs that libseccomp makes."""

import ctypes
import struct
import tempfile

# From linux/audit.h.
AUDIT = {"x86_64": 0xC000003E, "aarch64": 0xC00000B7, "riscv64": 0xC00000F3}
# The numbers of `enum scmp_compare` of seccomp.h.
OPERATORS = {"ne": 1, "lt": 2, "le": 3, "eq": 4, "ge": 5, "gt": 6, "masked_eq": 7}
ALLOW = 0x7FFF0000
SCMP_FLTATR_CTL_OPTIMIZE = 8


class Comparison(ctypes.Structure):
    """`struct scmp_arg_cmp` of seccomp.h."""

    _fields_ = [("arg", ctypes.c_uint), ("op", ctypes.c_int), ("a", ctypes.c_uint64), ("b", ctypes.c_uint64)]


def libseccomp():
    """Returns the library, or None if it isn't installed."""
    try:
        library = ctypes.CDLL("libseccomp.so.2")
    except OSError:
        return None
    library.seccomp_init.restype = ctypes.c_void_p
    library.seccomp_attr_set.argtypes = [ctypes.c_void_p, ctypes.c_int, ctypes.c_uint32]
    library.seccomp_rule_add_array.argtypes = [ctypes.c_void_p, ctypes.c_uint32, ctypes.c_int, ctypes.c_uint, ctypes.c_void_p]
    library.seccomp_export_bpf.argtypes = [ctypes.c_void_p, ctypes.c_int]
    library.seccomp_release.argtypes = [ctypes.c_void_p]
    return library


def exported(library, level, default, rules):
    """Returns the program that libseccomp makes at a level of optimization of a default value and of rules, each a value, a call's
    number and comparisons; or None if it takes one of them for wrong."""
    context = library.seccomp_init(default)
    done = library.seccomp_attr_set(context, SCMP_FLTATR_CTL_OPTIMIZE, level)
    for value, number, comparisons in rules:
        row = (Comparison * max(1, len(comparisons)))(*(Comparison(*it) for it in comparisons))
        done = done or library.seccomp_rule_add_array(context, value, number, len(comparisons), row if comparisons else None)
    with tempfile.TemporaryFile() as file:
        done = done or library.seccomp_export_bpf(context, file.fileno())
        library.seccomp_release(context)
        file.seek(0)
        return None if done else file.read()


def comparison_of(condition):
    """Returns what libseccomp is asked for a policy's condition. By a mask it compares the low half for equality; other operators
    compare 64 bits."""
    index, operator, value = condition["index"], condition["op"], condition["val"]
    low = 0xFFFFFFFF if condition["type"] == "dword" else 0xFFFFFFFFFFFFFFFF
    if isinstance(operator, dict):
        mask = operator["masked_eq"] & low
        return index, OPERATORS["masked_eq"], mask, value & mask
    if condition["type"] == "dword" and operator == "eq":
        return index, OPERATORS["masked_eq"], low, value & low
    return index, OPERATORS[operator], value, 0


def rules_of(entries, numbers):
    """Returns libseccomp's rules of a policy's entries, which allow what they list."""
    return [(ALLOW, numbers[entry["syscall"]], [comparison_of(it) for it in entry.get("args") or []]) for entry in entries]


def result_of(program, arch, number, arguments):
    """Returns what a program returns on a call, and its steps: instructions as linux/bpf_common.h has them."""
    code = list(struct.iter_unpack("<HBBI", program))
    record = struct.pack("<IIQ6Q", number, AUDIT[arch], 0, *arguments)
    place = steps = accumulator = 0
    while True:
        operation, met, other, k = code[place]
        place, steps = place + 1, steps + 1
        if operation == 0x06:
            return k, steps
        if operation in (0x20, 0x54):
            accumulator = struct.unpack_from("<I", record, k)[0] if operation == 0x20 else accumulator & k
        elif operation == 0x05:
            place += k
        else:
            is_met = {0x15: accumulator == k, 0x25: accumulator > k, 0x35: accumulator >= k, 0x45: accumulator & k}[operation]
            place += met if is_met else other
