"""Holds the tables of call names against the files of tools/call_names, which have the Rust crate's pairs in its order: each pair is
looked up, and texts that name no call. Then against other sources of the machine: the kernel's headers, through a C compiler, and the
resolver of libseccomp, if they are installed. Both may be older than the tables, or newer, so a name that they lack is passed over."""

import ctypes
import ctypes.util
import re
import subprocess

from model import ARCHITECTURES, NAMES, numbers_on
from rows import driver_rows

# The header of each architecture, and what its own header defines before it. Of x86_64 it is the machine's.
WANTED = "-D__ARCH_WANT_NEW_STAT -D__ARCH_WANT_SET_GET_RLIMIT -D__ARCH_WANT_SYS_CLONE3 -D__ARCH_WANT_MEMFD_SECRET"
HEADERS = {
    "x86_64": ("asm/unistd_64.h", ""),
    "aarch64": ("asm-generic/unistd.h", f"{WANTED} -D__ARCH_WANT_RENAMEAT"),
    "riscv64": ("asm-generic/unistd.h", WANTED),
    "i386": ("asm/unistd_32.h", ""),
    "x32": ("asm/unistd_x32.h", ""),
}

# How a table of 32-bit programs numbers what has a header of its own: `socketcall` and `ipc` of i386.
ASKED = {"socketcall": ("linux/net.h", "SYS_"), "ipc": ("linux/ipc.h", "")}

# The constants by which libseccomp knows architectures (seccomp.h), and the bit that a number of x32 has.
SECCOMP_ARCHITECTURES = {**ARCHITECTURES, "i386": 0x40000003, "x32": 0x4000003E}
X32_BIT = 0x40000000

# The least number of names that a source shares with a table.
SHARED = 280

# Texts that name no call on any architecture: before all names and behind them, and one byte, the case of one letter or the
# length away from a name.
ABSENT = ("", "zz", "closd", "closf", "blose", "close1", "clos", "lose", " close", "close ", "close\0", "Close", "closE", "CLOSE",
          "_sysctk", "writew", "nosyscall")

# The constants of a table, and what a look-up answers: the number, if there is one, and how many names are compared.
TEXT = re.compile(r'_NAMES: &str = "(.*?)";$', re.M | re.S)
NUMBERS = re.compile(r"_NUMBERS: .* = \[(.*?)\];$", re.M | re.S)
FOUND = re.compile(r"(?:([0-9]+) )?([0-9]+)")

# What a header defines that is no call.
BORDERS = {"arch_specific_syscall", "syscalls"}


def defined_in(header, defined, prefix):
    """Returns the numbers that a header defines of names with this prefix; none if there is no header or no compiler."""
    words = ["env", "cc", "-E", "-dM", *defined.split(), "-include", header, "-x", "c", "/dev/null"]
    try:
        ran = subprocess.run(words, capture_output=True, text=True)
    except FileNotFoundError:
        return {}
    defines = dict(re.findall(r"^#define (\w+) (?:\(__X32_SYSCALL_BIT \+ )?(\w+)\)?$", ran.stdout if ran.returncode == 0 else "", re.M))
    numbers = {name: defines.get(value, value) for name, value in defines.items()}
    return {name.removeprefix(prefix): int(number) for name, number in numbers.items() if name.startswith(prefix) and number.isdigit()}


def in_header(arch):
    """Returns the numbers of an architecture's names as its header has them."""
    return defined_in(*HEADERS[arch], "__NR_")


def in_libseccomp(arch, names):
    """Returns the numbers of names as libseccomp resolves them; none if it isn't installed. A number below 0 is its own."""
    file = ctypes.util.find_library("seccomp")
    if file is None:
        return {}
    resolve = ctypes.CDLL(file).seccomp_syscall_resolve_name_arch
    resolve.argtypes = [ctypes.c_uint32, ctypes.c_char_p]
    found = {name: resolve(SECCOMP_ARCHITECTURES[arch], name.encode()) for name in names}
    return {name: number & ~X32_BIT if arch == "x32" else number for name, number in found.items() if number >= 0}


def compare_with(results, what, pairs, other):
    """Compares a table with another source, if they share names."""
    if not other:
        print(f"{what}: there is no such source, so it is left out")
        return
    shared = pairs.keys() & other.keys()
    differ = sorted(f"{name} {pairs[name]} {other[name]}" for name in shared if pairs[name] != other[name])
    results.compare(f"{what}: numbers that differ", ([],), (differ,))
    results.compare(f"{what}: {SHARED} names or more", (True,), (len(shared) >= SHARED,))
    # A number that the table has too has one name.
    others = sorted(name for name, number in other.items() if name not in pairs and number in pairs.values())
    results.compare(f"{what}: other names of the table's numbers", ([],), ([it for it in others if it not in BORDERS],))


def pairs_in(path):
    """Returns the pairs of an architecture's file of constants."""
    text = path.read_text(encoding="ascii")
    names = TEXT.search(text)[1].replace("\\\n", " ").split()
    numbers = NUMBERS.search(text)[1].replace(",", " ").split()
    return [(name, int(number)) for name, number in zip(names, numbers, strict=True)]


def compare_table(results, arch):
    """Compares an architecture's table with the file of its pairs, and looks up each name, each name without its last letter, and texts
    that are no name. A look-up compares at most 9 names, and at least 8 if none is found at an end of the table."""
    pairs = [(name, int(number)) for name, number in map(str.split, (NAMES / arch).read_text(encoding="ascii").splitlines())]
    numbers = dict(pairs)
    results.compare(f"{arch}: names, numbers", (len(pairs),) * 2, (len(numbers), len(set(numbers.values()))))
    results.compare(f"{arch}: the table's pairs", (sorted(pairs),), (pairs_in(driver_rows.TOP / f"crates/seccomp_tables/src/{arch}.rt"),))
    asked = [*dict.fromkeys([*numbers, *(name[:-1] for name in numbers), *ABSENT])]
    status, told = driver_rows.ask([f"call {driver_rows.ARCHES.index(arch)}\t{name}" for name in asked])
    results.compare(f"{arch}: look-ups", (0, len(asked)), (status, len(told)))
    for name, row in zip(asked, told):
        found = FOUND.fullmatch(row)
        number, compared = (found[1] or "none", int(found[2])) if found else (row, 0)
        least = 8 if name in ABSENT else 1
        results.compare(f"{arch}: {name!r}", (str(numbers.get(name, "none")), True), (number, least <= compared <= 9))


def compare_compat(results, name):
    """Compares a table of 32-bit programs with the file of its pairs."""
    pairs = [(call, int(number)) for call, number in map(str.split, (NAMES / name).read_text(encoding="ascii").splitlines())]
    results.compare(f"{name}: names, numbers", (len(pairs),) * 2, (len(dict(pairs)), len({number for _, number in pairs})))
    results.compare(f"{name}: the table's pairs", (pairs,), (pairs_in(driver_rows.TOP / f"crates/seccomp_names/src/{name}.rt"),))


def compare_tables(results):
    """Compares each table with its pairs, then with each source, and riscv64's with aarch64's, which has the same calls but for three.
    Names of 32-bit programs that are newer than the headers are x86_64's, whose numbers from 424 on are everybody's."""
    for arch in ARCHITECTURES:
        compare_table(results, arch)
    for name in ("i386", "x32", *ASKED):
        compare_compat(results, name)
    for name, (header, prefix) in ASKED.items():
        found = {call.lower(): number for call, number in defined_in(header, "", prefix).items()}
        asked = numbers_on(name)
        results.compare(f"{name}: {header}", (asked,), ({call: found.get(call) for call in asked},) if found else (asked,))
    tables = {arch: numbers_on(arch) for arch in HEADERS}
    generic = {name: number for name, number in tables["aarch64"].items() if name != "renameat"}
    results.compare("riscv64: aarch64", (tables["riscv64"],), ({**generic, "riscv_flush_icache": 259, "riscv_hwprobe": 258},))
    for arch, pairs in tables.items():
        compare_with(results, f"{arch}: {HEADERS[arch][0]}", pairs, in_header(arch))
        compare_with(results, f"{arch}: libseccomp", pairs, in_libseccomp(arch, pairs))
