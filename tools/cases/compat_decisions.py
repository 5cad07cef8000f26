"""What a profile decides of the calls of i386 and x32, from docs/OCI.md alone, and what libseccomp makes of profiles by chance with
`SCMP_ARCH_X86` and `SCMP_ARCH_X32`: on each record the same, unless entries that are met name several actions. A profile here is the name of its
default action, and entries of names, an action and conditions as libseccomp_rows.py has them. If libseccomp isn't installed, that is left out."""

import ctypes
import ctypes.util
import random
import tempfile

import model
from cases.libseccomp_rows import ACTIONS, COMPARES, Comparison

# The constants of libseccomp for an architecture (seccomp.h), those of records (linux/audit.h), and bit 30 of an x32 number.
LISTED = {"i386": 0x40000003, "x32": 0x4000003E}
AUDITED = {"x86_64": model.X86_64, "i386": 0x40000003, "x32": model.X86_64}
X32_BIT = 0x40000000
KILL_THREAD = 0
STRICTEST_FIRST = ("KILL_PROCESS", "TRAP", "ERRNO", "TRACE", "ALLOW")
FEW = model.DWORD


def number_on(abi, name):
    """Returns the number of a call in records, or None if there is no such call."""
    number = model.numbers_on(abi).get(name)
    return number if number is None or abi != "x32" else number + X32_BIT


def are_alternatives(conditions):
    """Returns whether one of the conditions is enough: if two of them are on one argument."""
    return len({it[0] for it in conditions}) < len(conditions)


def rules_of(conditions):
    """Returns what a runtime makes a rule of."""
    return [[it] for it in conditions] if are_alternatives(conditions) else [conditions]


def cut(condition):
    """Returns a condition with the low 32 bits of its numbers."""
    index, operator, *numbers = condition
    return (index, operator, *(it % FEW for it in numbers))


def taken(abi, entries):
    """Returns the entries that count for calls, each with its place in the profile."""
    if abi == "x86_64":
        return [(place, *it) for place, it in enumerate(entries)]
    own = [(place, names, action, [*map(cut, conditions)]) for place, (names, action, conditions) in enumerate(entries)]
    if abi == "x32":
        return own
    # `socketcall` and `ipc` stand for other calls, by their first argument.
    return own + [
        (place, [call], action, [(0, "EQ", model.numbers_on(call)[name]), *(it for it in rule if it[0])])
        for place, names, action, conditions in own for name in names for call in ("socketcall", "ipc") if name in model.numbers_on(call)
        for rule in rules_of(conditions)]


def is_met(abi, condition, arguments):
    """Returns whether the arguments of a call meet a condition."""
    index, operator, *numbers = condition
    size = model.QWORD if abi == "x86_64" else FEW
    return model.holds(size, operator.lower(), arguments[index], numbers[-1], numbers[0])


def tested(conditions):
    """Returns the conditions that are tested: none if each has a mask of 0, or one that is enough."""
    idle = [it[1] == "MASKED_EQ" and it[2] == 0 for it in conditions]
    return [] if any(idle) and are_alternatives(conditions) or all(idle) else conditions


def are_met(abi, conditions, arguments):
    """Returns whether the arguments meet the conditions of an entry."""
    return (any if are_alternatives(conditions) else all)(is_met(abi, it, arguments) for it in conditions)


def decided(abi, listed, default, entries, number, arguments):
    """Returns what a profile decides of a call: the action, or None if it isn't listed, the place of the entry, if it is one, and whether entries
    that are met name one action."""
    if abi != "x86_64" and not listed:
        return None, None, True
    own = [(action, place, tested(conditions)) for place, names, action, conditions in taken(abi, entries)
           if action != default and number in [number_on(abi, it) for it in names]]
    settled = [it for it in own if not it[2]][:1]
    met = settled or [it for it in own if are_met(abi, it[2], arguments)]
    first = min(met, key=lambda it: STRICTEST_FIRST.index(it[0]), default=(default, None, None))
    return first[0], first[1], len({it[0] for it in met}) < 2


def made_by(library, default, entries, listed):
    """Returns the instructions of libseccomp's program, or None if it rejects an entry."""
    library.seccomp_init.restype = ctypes.c_void_p
    for name in ("seccomp_arch_add", "seccomp_release", "seccomp_export_bpf"):
        getattr(library, name).argtypes = [ctypes.c_void_p, ctypes.c_uint32][:1 if name == "seccomp_release" else 2]
    library.seccomp_rule_add_array.argtypes = [ctypes.c_void_p, ctypes.c_uint32, ctypes.c_int, ctypes.c_uint, ctypes.POINTER(Comparison)]
    made = library.seccomp_init(ACTIONS[default])
    for arch in listed:
        library.seccomp_arch_add(made, LISTED[arch])
    for names, action, conditions in entries:
        for name in names if action != default else []:
            number = library.seccomp_syscall_resolve_name(name.encode())
            for rule in rules_of(conditions):
                asked = [(index, COMPARES[operator], numbers[0], sum(numbers[1:])) for index, operator, *numbers in rule]
                if library.seccomp_rule_add_array(made, ACTIONS[action], number, len(asked), (Comparison * len(asked))(*asked)):
                    library.seccomp_release(made)
                    return None
    with tempfile.TemporaryFile() as file:
        library.seccomp_export_bpf(made, file.fileno())
        file.seek(0)
        program = file.read()
    library.seccomp_release(made)
    return model.instructions_of(program)


SEED, PROFILES, MADE, SEVERAL_FEW = 32, 120, 90, 200
NAMES = ["socket", "bind", "accept", "accept4", "send", "semop", "shmget", "semtimedop", "sendmsg", "socketcall", "ipc", "read", "ioctl",
         "waitpid", "clock_gettime64", "execve", "mmap2"]
CONSTANTS = [0, 1, 2, 3, 5, 16, 2**31, 2**32 - 1, 2**32, 2**32 + 1, 2**33, 2**64 - 1]


def by_chance(chance):
    """Returns a profile: its default action, its entries, and the numbers of conditions. One entry without conditions names a call of each
    architecture, without which libseccomp loses entries."""
    default, *actions = chance.sample(sorted(ACTIONS), 3)
    constants = chance.sample(CONSTANTS, 3)
    entries = [(["getpid"], actions[0], [])]
    for _ in range(chance.randint(1, 6)):
        conditions = []
        for _ in range(chance.choice([0, 0, 1, 1, 2])):
            operator = chance.choice(["EQ", "MASKED_EQ"])
            conditions.append((chance.randint(0, 2), operator, *chance.choices(constants, k=2 if operator == "MASKED_EQ" else 1)))
        entries.append((chance.sample(NAMES, chance.randint(1, 3)), chance.choice(actions[:1] * 3 + actions), conditions))
    return default, entries, constants


def compare_compat(results):
    """Compares what profiles by chance decide with what libseccomp's programs return."""
    file = ctypes.util.find_library("seccomp")
    if file is None:
        print("profiles of i386 and x32 by chance: libseccomp isn't installed, so they are left out")
        return
    library, chance, made, several, differ = ctypes.CDLL(file), random.Random(SEED), 0, 0, []
    for _ in range(PROFILES):
        default, entries, constants = by_chance(chance)
        listed = [it for it in LISTED if chance.random() < 0.8]
        program = made_by(library, default, entries, listed)
        made += program is not None
        for abi in AUDITED if program else []:
            own = {number_on(abi, it) for names, *_ in entries for it in (*names, "socketcall", "ipc")} - {None}
            for number in sorted(own | {400 + X32_BIT * (abi == "x32")}):
                for _ in range(12):
                    values = [chance.choice([*constants, *range(25), chance.choice(constants) ^ FEW]) for _ in range(6)]
                    arguments = [it % FEW for it in values] if abi == "i386" else values
                    action, _, is_one = decided(abi, abi in listed, default, entries, number, arguments)
                    record = model.record_of(number, AUDITED[abi], *arguments)
                    returned = model.run(program, model.numbers_of(record))[0]
                    if returned != ACTIONS.get(action, KILL_THREAD):
                        several += not is_one
                        differ += [(abi, number, arguments, action, returned, default, entries)] if is_one else []
    results.compare("profiles of i386 and x32 by chance: what differs", ([],), (differ[:3],))
    results.compare("profiles of i386 and x32 by chance: many are made, few differ", (True, True), (made >= MADE, several < SEVERAL_FEW))
