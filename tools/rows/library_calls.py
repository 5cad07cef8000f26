"""Calls of the library for C, as a shared object of its archive, which tools/build-archive builds if it isn't there."""

import ctypes
import os
import struct
import subprocess
import threading

from model import ARCHITECTURES
import prover

ARCHIVE = prover.TOP / "crates/seccompiler_c/out/libseccompiler_c.a"

# The actions and the operators of rows, as include/seccompiler.h has them.
KINDS = {"allow": 0x7FFF0000, "errno": 0x00050000, "kill_process": 0x80000000, "kill_thread": 0, "log": 0x7FFC0000, "trace": 0x7FF00000,
         "trap": 0x00030000}
OPERATORS = ("eq", "ne", "gt", "ge", "lt", "le", "masked_eq")
LAYOUTS = {"linear": 0, "tree": 1}
RELATIONS = {"alike": 0, "at_most": 1}
UNDECIDED = -20

MOST = 4096


class NoLibrary(Exception):
    """The shared object can't be built."""


def built(folder):
    """Builds the shared object in a folder, and returns it with the types of its answers."""
    if prover.newer_source(ARCHIVE, "seccompiler_c"):
        ran = subprocess.run([prover.TOP / "tools/build-archive"], capture_output=True, text=True)
        if ran.returncode:
            raise NoLibrary(f"the library for C isn't built: {ran.stderr.strip()[-200:]}")
    file = folder / "libseccompiler.so"
    heap = prover.kit() / "c/liblibc_c.a"
    words = [os.environ.get("CC", "cc"), "-shared", "-o", file, "-Wl,--whole-archive", ARCHIVE, heap, "-Wl,--no-whole-archive"]
    ran = subprocess.run(words, capture_output=True, text=True)
    if ran.returncode:
        raise NoLibrary(f"the library for C isn't linked: {ran.stderr.strip()[-200:]}")
    library = ctypes.CDLL(str(file))
    for name in ("compile_rules", "rules_length", "compile_rule", "decide_rules", "run", "compare"):
        getattr(library, f"seccompiler_{name}").restype = ctypes.c_int64
    return library


def on_stack(size, call):
    """Makes a call in a thread with a stack of so many bytes; returns what it returns."""
    found, before = [], threading.stack_size(size)
    thread = threading.Thread(target=lambda: found.append(call()))
    thread.start()
    threading.stack_size(before)
    thread.join()
    return found[0]


def sized(items):
    """Returns what a function takes for an array in bytes: where it is, and how many there are."""
    data, count = items
    return ctypes.create_string_buffer(data, max(len(data), 1)), ctypes.c_size_t(count)


def conditions_of(rule):
    """Returns the conditions of a rule as the header's structure."""
    made = []
    for it in rule:
        operator, mask = ("masked_eq", it["op"]["masked_eq"]) if isinstance(it["op"], dict) else (it["op"], 0)
        length = {"dword": 4, "qword": 8}[it["type"]]
        made.append(struct.pack("<QQBBB5x", it["val"], mask, it["index"], length, OPERATORS.index(operator)))
    return b"".join(made)


def action_of(action):
    """Returns the kind and the data of an action."""
    name, data = next(iter(action.items())) if isinstance(action, dict) else (action, 0)
    return ctypes.c_uint32(KINDS[name]), ctypes.c_uint32(data)


class Library:
    """Calls with a filter, a rule or programs of rows. An answer below 0 is a code."""

    def __init__(self, folder):
        self.library = built(folder)

    @staticmethod
    def words_of(filter):
        """Returns what functions of rules take for a filter: its arrays, its actions and its architecture."""
        chains = filter.chains()
        rules = [rule for of_call in chains.values() for rule in of_call]
        arrays = ((b"".join(struct.pack("<qQ", number, len(it)) for number, it in chains.items()), len(chains)),
                  (struct.pack(f"<{len(rules)}Q", *map(len, rules)), len(rules)),
                  (b"".join(map(conditions_of, rules)), sum(map(len, rules))))
        words = [word for array in arrays for word in sized(array)]
        return [*words, *action_of(filter.mismatch), *action_of(filter.match), ctypes.c_uint32(ARCHITECTURES[filter.arch])]

    def program(self, filter, layout):
        """Returns the bytes of a filter's program, or the code."""
        program = ctypes.create_string_buffer(8 * MOST)
        words = [*self.words_of(filter), ctypes.c_uint32(LAYOUTS[layout]), program, ctypes.c_size_t(MOST)]
        count = self.library.seccompiler_compile_rules(*words)
        return program.raw[:8 * count] if count >= 0 else count

    def length(self, filter):
        """Returns how long a filter's linear program is."""
        return self.library.seccompiler_rules_length(*self.words_of(filter), ctypes.c_uint32(LAYOUTS["linear"]))

    def decide(self, filter, record):
        """Returns what a filter decides of a record."""
        return self.library.seccompiler_decide_rules(*self.words_of(filter), record)

    def rule(self, rule):
        """Returns the bytes of a rule's code, or the code of the error."""
        code = ctypes.create_string_buffer(8 * (8 * len(rule) + 8))
        words = [*sized((conditions_of(rule), len(rule))), code, ctypes.c_size_t(len(code) // 8)]
        count = self.library.seccompiler_compile_rule(*words)
        return code.raw[:8 * count] if count >= 0 else count

    def check(self, code):
        """Returns whether a kernel takes instructions, or at which place it doesn't."""
        place = ctypes.c_size_t(MOST + 1)
        taken = self.library.seccompiler_check_at(*sized((code, len(code) // 8)), ctypes.byref(place))
        return "checked" if taken and place.value > MOST else f"unfit at {place.value}"

    def compare(self, first, second, relation, most, arch="", least=0, greatest=(1 << 32) - 1):
        """Returns whether a relation holds for all calls, those of an architecture, or those of some of its numbers, after so many sets at
        most; the record of a call for which it doesn't; or a code."""
        numbers = (RELATIONS[relation], ARCHITECTURES[arch] if arch else 0, int(least), int(greatest))
        record = ctypes.create_string_buffer(64)
        both = [word for code in (first, second) for word in sized((code, len(code) // 8))]
        answer = self.library.seccompiler_compare(*both, *map(ctypes.c_uint32, numbers), ctypes.c_size_t(int(most)), record)
        return record.raw if answer == 0 else answer
