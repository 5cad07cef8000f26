"""The package for aarch64, tried on an emulator if Debian's compiler for aarch64 and qemu-user are installed; a part of
tools/check-package. The emulator installs no filters, so no command is run under one."""

import os
import pathlib
import re
import subprocess

from commands import TOP, VERSION, is_there, run, symbols_of, told
from jail.cases import write_policies
from jail.refusals import try_refusals
from jail.running import Jailer
from packages.aids import check_hardening
from packages.crate import IN_KERNEL, cargo_environment, run_tests, write_project
from packages.installed import check_debian, files_below

COMPILER, QEMU = "aarch64-linux-gnu-gcc", "qemu-aarch64"
EMULATOR = [QEMU, "-L", "/usr/aarch64-linux-gnu"]
TRIPLE = "aarch64-unknown-linux-gnu"
EM_AARCH64 = 183
# What only the package for x86_64 has: the two programs, their manual pages and their completions.
PROGRAMS = re.compile(r"bin/seccomp(c|tool)$|share/(man/man1/seccomp|bash-completion/.*/seccomp|zsh/.*/_seccomp|fish/.*/seccomp)")


def make(results, folder):
    """Makes the package twice, and returns the unpacked one, or None, and those for Debian."""
    environment = {**os.environ, "TMPDIR": str(folder)}
    environment.pop("SOURCE_DATE_EPOCH", None)
    environment.pop("CC", None)
    for name in ("one", "two"):
        words = [TOP / "tools/package", "--target", "aarch64", folder / name]
        ran = subprocess.run(words, env=environment, stdout=subprocess.DEVNULL, stderr=subprocess.PIPE, text=True, check=False)
        if not results.compare("tools/package --target aarch64", ("", 0), (ran.stderr, ran.returncode)):
            return None, []
    made = [sorted((folder / name).glob("*")) for name in ("one", "two")]
    same = [it.name for it, other in zip(*made) if it.read_bytes() != other.read_bytes()]
    results.compare("packages for aarch64 that differ the second time", ([], len(made[0])), (same, len(made[1])))
    archive = next(it for it in made[0] if it.name.endswith(".tar.gz"))
    results.compare("the name for aarch64", f"seccompiler-{VERSION}-aarch64-linux.tar.gz", archive.name)
    run(["tar", "-xpzf", archive, "-C", folder], folder)
    return folder / archive.name.removesuffix(".tar.gz"), [it for it in made[0] if it.name.endswith(".deb")]


def machine_of(path):
    """Returns the machine of the first object of a file, as its header has it."""
    content = path.read_bytes()
    at = content.find(b"\x7fELF")
    return int.from_bytes(content[at + 18:at + 20], "little") if at >= 0 else None


def check_files(results, unpacked, other):
    """Compares the files with those of the package for x86_64, and looks at what is built."""
    files, theirs = files_below(unpacked), files_below(other)
    wanted = sorted(it for it in theirs if not PROGRAMS.match(it))
    results.compare("the files for aarch64", wanted, sorted(files))
    built = [it for it in wanted if it.startswith(("bin/", "lib/libseccompiler")) and not it.endswith(".so")]
    differing = sorted(it for it in wanted if files.get(it) != theirs[it])
    texts = ["README", "share/doc/seccompiler/README"]
    results.compare("files that differ for aarch64", sorted([*built, *texts]), differing)
    results.compare("lines of README for aarch64", 13, len((unpacked / "README").read_text().splitlines()))
    machines = {machine_of(unpacked / it) for it in built}
    results.compare("machines of what is built", {EM_AARCH64}, machines)
    for name in ("jail", "call", "catch-filter"):
        check_hardening(results, unpacked / "bin" / name, "aarch64-linux-gnu-")
    for name, *options in (("libseccompiler.a", "-g"), ("libseccompiler.so.1", "-D")):
        for which in ("--defined-only", "--undefined-only"):
            shown = [symbols_of(it / "lib" / name, *options, which, tools=front) for it, front in (
                (other, ""), (unpacked, "aarch64-linux-gnu-"))]
            results.compare(f"{name} for aarch64: {which}", *shown)
    needed = {it for line in told(["aarch64-linux-gnu-readelf", "-dW", unpacked / "lib/libseccompiler.so.1"])
              for it in re.findall(r"\(NEEDED\).*\[(.*)\]", line)}
    results.compare("the shared object for aarch64 needs", {"libc.so.6"}, needed)


def check_library(results, unpacked, folder, programs):
    """Builds whole programs of the page on C that install nothing, over both libraries, and runs them on the emulator."""
    for place, text, shown in programs:
        if "_install(" in text:
            continue
        (folder / "program.c").write_text(text)
        for library in ("libseccompiler.a", "libseccompiler.so"):
            words = [COMPILER, "-std=gnu11", "-Wall", "-Wextra", "-Werror", "-I", unpacked / "include", "program.c",
                     unpacked / "lib" / library, "-o", "program"]
            if results.compare(f"{place} for aarch64", ("", "", 0), run(words, folder)):
                words = [*EMULATOR, "-E", f"LD_LIBRARY_PATH={unpacked / 'lib'}", "./program"]
                results.compare(f"{place} for aarch64, {library}", (shown, "", 0), run(words, folder))


def check_programs(results, unpacked, folder):
    """Runs the jailer's usage and refusals on the emulator, and the two other programs."""
    place = folder / "jail"
    place.mkdir()
    write_policies(place)
    for layout in ([], ["--tree"]):
        jailer = Jailer(unpacked / "bin/jail", layout, EMULATOR)
        try_refusals(results, jailer, place, "aarch64")
    under = [*EMULATOR, unpacked / "bin/jail", "--log", "actions.json", "errno", "touch", "run"]
    out, err, status = run(under, place)
    found = out, err.startswith("jail: actions.json: installing errno: "), status, (place / "run").exists()
    results.compare(f"the emulator installs no filter: {err}", ("", True, 125, False), found)
    for words, wanted in (
        (["call", "getpgid", "4194304"], ("errno 3: No such process\n", "", 0)),
        (["call", "open"], ("", "call: open: no such call\n", 125)),
        (["catch-filter"], ("", "catch-filter: expected a command, or -p PID\nTry 'catch-filter --help'.\n", 2)),
    ):
        results.compare(f"{words} for aarch64", wanted, run([*EMULATOR, unpacked / "bin" / words[0], *words[1:]], place))
    for name in ("jail", "call", "catch-filter"):
        out, err, status = run([*EMULATOR, unpacked / "bin" / name, "--version"], place)
        results.compare(f"{name} --version for aarch64", (True, "", 0), (out.startswith(f"{name} {VERSION} "), err, status))


def check_crate(results, unpacked, folder):
    """Runs the tests of the Rust crate on the emulator, if there is a standard library for aarch64."""
    environment = cargo_environment()
    target = subprocess.run(["rustc", "--print", "target-libdir", "--target", TRIPLE], capture_output=True, text=True, check=False) \
        if environment else None
    if target is None or not pathlib.Path(target.stdout.strip()).is_dir():
        print(f"there is no cargo, or no standard library of Rust for {TRIPLE}, so the crate isn't built for it")
        return
    name = TRIPLE.upper().replace("-", "_")
    more = {
        **environment, "RUSTFLAGS": "-D warnings", f"CARGO_TARGET_{name}_LINKER": COMPILER,
        f"CARGO_TARGET_{name}_RUNNER": " ".join(EMULATOR),
    }
    place = folder / "fresh"
    write_project(unpacked, place)
    run_tests(results, place, more, "--target", TRIPLE, but=IN_KERNEL)


def check_aarch64(results, other, folder, programs):
    """Makes the package for aarch64, and tries it; returns where it is unpacked, or None. `other` is the one for x86_64."""
    place = folder / "aarch64"
    place.mkdir()
    if not is_there("no package for aarch64 is made and tried", COMPILER, QEMU):
        return None
    unpacked, packages = make(results, place)
    if unpacked is not None:
        check_files(results, unpacked, other)
        check_library(results, unpacked, place, programs)
        check_programs(results, unpacked, place)
        check_debian(results, unpacked, packages, place, "aarch64")
        check_crate(results, unpacked, place)
    return unpacked
