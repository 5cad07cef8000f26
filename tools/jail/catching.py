"""What tools/try-jail tries of examples/jail/catch-filter.c: the programs that it writes are those that were installed.

Each program that is installed here allows all calls, and they differ in length; except those that runc and crun install for
a container, which seccomptool shows, explains and compares with the profile. If the kernel allows no process to be traced, or
tells nobody which programs a process has, or a runtime isn't installed or runs no container, it is said, and the cases that need
it aren't run.
"""

import json
import os
import pathlib
import random
import re
import shutil
import socket
import struct
import subprocess
import sys

from cases.forms import named
from commands import ENVIRONMENT, TOP, run
from jail.running import EXAMPLES, TOOL, step
from jail.running_kernel import SECCOMP

ALLOW = struct.pack("<HBBI", 6, 0, 0, 0x7FFF0000)
LOAD = struct.pack("<HBBI", 0x20, 0, 0, 0)

# Installs programs in the order of the arguments: by prctl, by seccomp, by seccomp for all threads, by seccomp in a child,
# by seccomp in a thread; and two that the kernel rejects. Then it may say that it is ready, and wait.
INSTALLING = f"""
import ctypes, os, sys, threading
library = ctypes.CDLL(None, use_errno=True)
library.prctl(38, 1, 0, 0, 0)
def install(how, loads):
    code = bytes.fromhex("{LOAD.hex()}") * loads + bytes.fromhex("{ALLOW.hex()}")
    header = (ctypes.c_uint64 * 2)(len(code) // 8, ctypes.addressof(ctypes.create_string_buffer(code, len(code))))
    kept = ctypes.create_string_buffer(code, len(code))
    header[1] = ctypes.addressof(kept)
    if how == "prctl":
        return library.prctl(22, 2, header, 0, 0)
    if how == "no program":
        return library.syscall({SECCOMP}, 1, 0, None)
    if how == "no instructions":
        header[0] = 0
    return library.syscall({SECCOMP}, 1, 1 if how == "all threads" else 0, header)
for loads, how in enumerate(sys.argv[1:]):
    if how == "wait":
        print("ready", flush=True)
        sys.stdin.read()
    elif how == "child":
        child = os.fork() or os._exit(install(how, loads))
        os.waitpid(child, 0)
    elif how == "thread":
        thread = threading.Thread(target=install, args=(how, loads))
        thread.start()
        thread.join()
    else:
        install(how, loads)
"""

HOWS = ["prctl", "seccomp", "no program", "all threads", "child", "no instructions", "thread"]
TAKEN = [k for k, how in enumerate(HOWS) if not how.startswith("no ")]


def program_of(loads):
    """Returns the program of so many loads."""
    return LOAD * loads + ALLOW


def caught(room, prefix):
    """Returns the programs of the files of a prefix in a folder, by their numbers, and the names of all other files."""
    files = {it.name: it.read_bytes() for it in room.iterdir() if it.is_file()}
    programs = []
    while f"{prefix}.{len(programs) + 1}.bpf" in files:
        programs.append(files.pop(f"{prefix}.{len(programs) + 1}.bpf"))
    return programs, sorted(files)


def told(prefix, programs):
    """Returns what is said of the files of programs, but the numbers of the processes."""
    lengths = [len(it) // 8 for it in programs]
    lines = [f"catch-filter: {prefix}.{k}.bpf: {n} instruction{'s' * (n != 1)}, of process" for k, n in enumerate(lengths, 1)]
    return "".join(f"{it} N\n" for it in lines)


def without_numbers(text):
    """Returns a text with N for the number of each process."""
    return "".join(f"{it.rpartition(' ')[0]} N\n" if ", of process " in it else f"{it}\n" for it in text.splitlines())


def try_command(results, program, folder):
    """Catches the programs of a command, of its child and of its thread."""
    out, err, status = run([program, "-o", "of", sys.executable, "-c", INSTALLING, *HOWS], folder)
    wanted = [program_of(k) for k in TAKEN]
    results.compare("catch-filter: the programs of a command", (wanted, []), caught(folder, "of"))
    results.compare("catch-filter: what it says of them", ("", told("of", wanted), 0), (out, without_numbers(err), status))
    usage = "Try 'catch-filter --help'.\n"
    for words, text, wanted in (
        (["true"], "catch-filter: no program was installed\n", 1), (["false"], "catch-filter: no program was installed\n", 1),
        (["no\n\x1b\\such"], r"catch-filter: no\x0a\x1b\x5csuch: can't be run: No such file or directory" + "\n", 2),
        (["-o", "no/such", sys.executable, "-c", INSTALLING, "prctl"],
         "catch-filter: no/such.1.bpf: can't be written: No such file or directory\n", 2),
        ([], "catch-filter: expected a command, or -p PID\n" + usage, 2),
        (["-p", "1", "true"], "catch-filter: expected a command, or -p PID\n" + usage, 2),
        (["-p", "x"], "catch-filter: x: expected the number of a process\n", 2),
        (["-p", "0"], "catch-filter: 0: expected the number of a process\n", 2),
        (["--a\x1b\x9b"], r"catch-filter: --a\x1b\xc2\x9b: unexpected" + "\n" + usage, 2),
        (["-\x1b"], r"catch-filter: -\x1b: unexpected" + "\n" + usage, 2),
        (["--help=1"], "catch-filter: --help=1: unexpected\n" + usage, 2),
        (["-o"], "catch-filter: -o: expected an argument\n" + usage, 2),
    ):
        results.compare(f"catch-filter {words[:2]}", ("", text, wanted), run([program, *words], folder))
    for name, text, wanted in ((program.name, ": can't be written", 2), ("call", "", 125)):
        line = f"{name}: standard output{text}: No space left on device\n"
        found = run(["sh", "-c", '"$1" --help >/dev/full', "sh", program.parent / name], folder)
        results.compare(f"{name} --help >/dev/full", ("", line, wanted), found)
    before = sorted(folder.iterdir())
    (folder / "full.1.bpf").mkdir()
    text = "catch-filter: full.1.bpf: can't be written: Is a directory\n"
    found = run([program, "-o", "full", sys.executable, "-c", INSTALLING, "prctl"], folder)
    (folder / "full.1.bpf").rmdir()
    results.compare("catch-filter: nothing half written", (("", text, 2), before), (found, sorted(folder.iterdir())))


def try_process(results, program, folder):
    """Reads the programs of a process that waits, the oldest first."""
    words = [sys.executable, "-c", INSTALLING, "prctl", "seccomp", "all threads", "wait"]
    with subprocess.Popen(words, stdin=subprocess.PIPE, stdout=subprocess.PIPE, env=ENVIRONMENT) as process:
        process.stdout.readline()
        out, err, status = run([program, "--pid", str(process.pid), "--output", "by"], folder)
        process.stdin.close()
    results.compare("catch-filter: a process goes on after its programs were read", 0, process.returncode)
    if status == 2:
        print(f"the kernel tells no programs of a process here: {err.strip()}")
        return
    wanted = [program_of(k) for k in range(3)]
    results.compare("catch-filter: the programs of a process", wanted, caught(folder, "by")[0])
    results.compare("catch-filter: what it says of them", ("", told("by", wanted), 0), (out, without_numbers(err), status))
    with subprocess.Popen(["sleep", "60"]) as process:
        found = run([program, "-p", str(process.pid)], folder)
        process.kill()
    results.compare("catch-filter: a process without programs", ("", "catch-filter: the process has no program\n", 1), found)


PROFILE = EXAMPLES / "oci-profile.json"

# Runs a command where no cgroups of both versions are mounted: crun takes only one.
ALONE = ["unshare", "--mount", "sh", "-c", 'umount /sys/fs/cgroup/unified 2> /dev/null; exec "$@"', "sh"]

# What the profile says of calls in a container without capabilities.
EXPLAINED = [
    ("read", "allow"), ("memfd_create", "log"), ("kexec_load", "kill_process"), ("mount", "errno 1"), ("clone3", "errno 38"),
    ("clone 0x800", "allow"), ("clone 0x10000000", "errno 38"), ("personality 0xffffffff", "allow"), ("personality 1", "errno 38"),
]

# By the runtime and the architectures of the container's profile, what a program does with `read` of x32 and with a number above
# those of x32. A profile's program kills the thread at both. libseccomp's tests for at least 0x40000000, and that of runc in front of
# it for the bit, and answers other numbers above the profile's with ENOSYS (libcontainer/seccomp/patchbpf).
X32, ABOVE = str(2**30), str(2**31)
NUMBERS = {
    ("crun", "X86_64"): ("kill_thread", "kill_thread"), ("crun", "X86_64 X32"): ("allow", "errno 38"),
    ("runc", "X86_64"): ("kill_thread", "errno 38"), ("runc", "X86_64 X32"): ("allow", "errno 38"),
}


def given_to_runtime(profile, architectures):
    """Returns what an engine makes of a profile for the runtime of a container without capabilities."""
    entries = [{key: it[key] for key in ("names", "action", "errnoRet", "args") if key in it}
               for it in profile["syscalls"] if not it.get("includes", {}).get("caps")]
    defaults = {key: profile[key] for key in ("defaultAction", "defaultErrnoRet")}
    return {**defaults, "architectures": [f"SCMP_ARCH_{it}" for it in architectures.split()], "syscalls": entries}


def contained(folder, runtime, seccomp):
    """Returns the words that run `true` in a container, with this as the part `seccomp` of its config.json."""
    linux = {"namespaces": [{"type": "mount"}, {"type": "pid"}], **({"seccomp": seccomp} if seccomp else {})}
    process = {"user": {"uid": 0, "gid": 0}, "args": ["/true"], "cwd": "/", "noNewPrivileges": True}
    mounts = [{"destination": "/proc", "type": "proc", "source": "proc"}]
    config = {"ociVersion": "1.0.2", "process": process, "root": {"path": "root"}, "mounts": mounts, "linux": linux}
    (folder / "config.json").write_text(json.dumps(config))
    return [*ALONE, runtime, "--root", folder / "state", "run", "--bundle", folder, f"catch-filter-{os.getpid()}"]


def try_runtime(results, program, folder, runtime, architectures):
    """Catches the program that a runtime installs for a profile, and looks what seccomptool says of it."""
    profile = json.loads(PROFILE.read_text(encoding="utf-8"))
    name = pathlib.Path(runtime).name
    what = f"{name} {architectures}"
    words = contained(folder, runtime, given_to_runtime(profile, architectures))
    found = run([program, "-o", what, *words], folder)
    if not results.compare(f"{what}: one program is caught", (1, 0), (len(caught(folder, what)[0]), found[2])):
        print(found[1])
        return
    file = folder / f"{what}.1.bpf"
    out, err, status = run([TOOL, "show", file], folder)
    results.compare(f"{what}: shown", (file.stat().st_size // 8, False, "", 0), (out.count("\n"), "unknown" in out, err, status))
    numbers = NUMBERS[name, architectures]
    for call, action in [*EXPLAINED, *zip((X32, ABOVE), numbers)]:
        out, err, status = run([TOOL, "explain", file, *call.split()], folder)
        results.compare(f"{what}: {call}", (named(action), "", 0), (out.partition(": ")[0], err, status))
    # It differs from the profile at most on numbers from those of x32 on, and there by both of these.
    wanted = {named(action) for action in numbers if action != "kill_thread"}
    out, err, status = run([TOOL, "diff", "-q", PROFILE, file], folder)
    first, *lines = out.partition("other architectures: ")[0].splitlines()
    found = {it[1] for it in map(re.compile(r"  (?:\d+ ranges of )?x32 call.*?: kill_thread -> (.*?), .*").fullmatch, lines) if it}
    well = wanted <= found and all("x32 call" in it for it in lines) and bool(lines) == bool(wanted)
    results.compare(f"{what}: compared", ("profile: different" if wanted else "profile: same", True, "", int(bool(wanted))),
                    (first, well or lines, err, status))


# Calls that x86 has by socketcall(2) and ipc(2), these two, and another one; and how many profiles of them are tried.
MULTIPLEXED = "bind listen sendmmsg semop shmget semtimedop socketcall ipc mount".split()
PROFILES = 40


def multiplexed(draw):
    """Returns a profile by chance of entries without args for these calls."""
    actions = [f"SCMP_ACT_{it}" for it in ("KILL_PROCESS", "TRAP", "ERRNO", "ALLOW")]
    entries = [{"names": draw.sample(MULTIPLEXED, draw.randint(1, 4)), "action": draw.choice(actions)} for _ in range(draw.randint(2, 4))]
    architectures = [f"SCMP_ARCH_{it}" for it in ("X86_64", "X86", "X32")]
    return {"defaultAction": "SCMP_ACT_ALLOW", "architectures": architectures, "syscalls": entries}


def try_refused(results, folder, runtime):
    """Starts containers with profiles by chance: `check` of config.json warns exactly of those with which none starts."""
    draw = random.Random(5)
    starts = []
    for _ in range(PROFILES):
        profile = multiplexed(draw)
        status = run(contained(folder, runtime, profile), folder)[2]
        out, err, code = run([TOOL, "check", "config.json"], folder)
        starts.append(status == 0)
        warned = "[refused-by-libseccomp]" in out
        results.compare(f"{pathlib.Path(runtime).name}: {profile['syscalls']}", (status == 0, 0), (not warned, code))
    results.compare(f"{pathlib.Path(runtime).name}: containers start with some profiles", True, len(set(starts)) == 2)


# What profiles have beside the default action to allow and an entry of calls that a supervisor decides; its calls; and whether runc
# starts a container with it. crun does with each.
NOTIFIED = [
    ({"listenerPath": "SOCKET"}, ["mkdirat"], True), ({"listenerPath": "SOCKET"}, ["mkdirat", "write"], False), ({}, ["mkdirat"], False),
    ({}, ["fnctl"], False), ({"listenerPath": "SOCKET", "defaultAction": "SCMP_ACT_NOTIFY"}, ["mkdirat"], False),
]


def try_notified(results, folder, runtime):
    """Starts containers whose calls a supervisor decides: `check` warns exactly of those with which runc starts none."""
    name = pathlib.Path(runtime).name
    with socket.socket(socket.AF_UNIX) as listener:
        listener.bind(str(folder / f"{name}.sock"))
        listener.listen(len(NOTIFIED))
        for more, calls, starts in NOTIFIED:
            given = {key: str(folder / f"{name}.sock") if it == "SOCKET" else it for key, it in more.items()}
            profile = {"defaultAction": "SCMP_ACT_ALLOW", "architectures": ["SCMP_ARCH_X86_64"],
                       "syscalls": [{"names": calls, "action": "SCMP_ACT_NOTIFY"}], **given}
            words = contained(folder, runtime, profile)
            out, _, code = run([TOOL, "check", "config.json"], folder)
            results.compare(f"check {more} {calls}", (not starts, 0), ("[runtimes-differ]" in out, code))
            if name == "runc" or "defaultAction" not in more:
                results.compare(f"{name}: {more} {calls}", starts or name == "crun", run(words, folder)[2] == 0)


def try_runtimes(results, program, folder):
    """Runs a container by each runtime that is installed."""
    (folder / "root").mkdir()
    (folder / "true.c").write_text("int main(void) { return 0; }\n")
    linked = run(["cc", "-static", "true.c", "-o", "root/true"], folder)
    for name in ("runc", "crun"):
        runtime = shutil.which(name, path="/usr/bin:/bin:/usr/sbin:/sbin")
        if os.geteuid() != 0 or runtime is None or linked[2] != 0:
            why = "not installed" if runtime is None else "nothing links a static program" if linked[2] else "only root runs it"
            print(f"{name}: {why}, so no program of its containers is caught")
            continue
        out, err, status = run(contained(folder, runtime, None), folder)
        if status == 0:
            for _, architectures in (it for it in NUMBERS if it[0] == name):
                try_runtime(results, program, folder, runtime, architectures)
            try_refused(results, folder, runtime)
            try_notified(results, folder, runtime)
        else:
            print(f"{name} runs no container here, so no program of its containers is caught: {(err or out).strip()}")


def try_catching(results, folder):
    """Builds examples/jail/catch-filter.c, and runs its cases."""
    program = folder / "bin/catch-filter"
    flags = ["-std=gnu11", "-O2", "-Wall", "-Wextra", "-Wpedantic", "-Werror", '-DVERSION="1.2.3"']
    if not step(results, "catch-filter.c", ["cc", *flags, TOP / "examples/jail/catch-filter.c", "-o", program]):
        return
    results.compare("catch-filter --version", ("catch-filter 1.2.3\n", "", 0), run([program, "--version"], folder))
    room = pathlib.Path(folder / "caught")
    room.mkdir()
    os.chmod(room, 0o700)
    out, err, status = run([program, "true"], room)
    if "allows no process to be traced" in err:
        print(f"no command is traced here: {err.strip()}")
        return
    try_command(results, program, room)
    try_process(results, program, room)
    if TOOL.exists():
        try_runtimes(results, program, room)
