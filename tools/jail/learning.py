"""What tools/try-jail runs under policies that `seccomptool learn` makes of traces.

Each of PROGRAMS is traced by strace, and runs under the policy of its traces as it does without a filter. If strace or the kernel
traces nothing here, on Debian 12 the traces of examples/traces are taken, which were made there. Under each policy a call that no trace has
kills; `explain` says so of the line in the kernel's log, or of one of that form if that log can't be read or leaves the line out; and
a policy that learns the line allows the call. Of a program in C the plain path is traced, and what the C library calls by itself then
runs under the policy. What isn't installed is said, and left out.
"""

import os
import platform
import re
import shutil
import signal
import subprocess
import time

from commands import SECONDS, TOP, run
from jail.cases import KILLED, answer_of, outcome_of
from jail.running import EXAMPLES, TOOL
from jail.services import PATH, gunicorn, memcached, mosquitto, nginx, postgres, postgres_programs, redis, redis_that_saves, sshd
from model import ARCHITECTURES, numbers_on

MACHINE = platform.machine()
NUMBERS = numbers_on(MACHINE) if MACHINE in ARCHITECTURES else {}

# What strace prints of a thread that ends before strace knows its call: none, or one whose number is that of a process.
ENDED = re.compile(r"^\d+ +(\?\?\?|syscall_0x)\S.*\n", re.M)

# Arguments are traced as numbers; and which calls are those of 32-bit programs, which strace doesn't say by itself in a file.
STRACE = ["strace", "-f", "-X", "raw", "--quiet=attach", "-o"]

SCRIPT = "import socket; s = socket.socket(); s.close(); print(len(open('numbers').read()))"

# Calls of `call` under the policy of any of the programs, and their answers: each of the programs closes files, none loads a
# kernel, and none makes a socket of netlink.
INJECTED = [("close -1", 9), ("kexec_load", KILLED), ("socket 16 3 0", KILLED)]

# A call that no trace has and the kernel makes: the number of a process that isn't there.
MISSING_CALL, MISSING_ANSWER = "getpgid 4194304", 3

LINE = ('audit: type=1326 audit(1700000000.123:456): auid=0 uid=0 gid=0 ses=1 subj=unconfined pid=77 comm="call" exe="/usr/bin/call" '
        "sig={} arch={} syscall={} compat=0 ip=0x7f code={}\n")


def by_command(words, front, folder):
    """Returns what came of a command."""
    return run([*front, *words], folder)


def grep(folder):
    """Returns the command of grep, how it is run, and what comes of it."""
    found = "".join(f"{number}:{it}\n" for number, it in enumerate((folder / "numbers").read_text().split(), 1) if "7" in it)
    return ["grep", "-n", "7", "numbers"], by_command, (found, "", 0)


def python3(folder):
    """Returns the command of Python, how it is run, and what comes of it."""
    return ["python3", "-I", "-S", "-c", SCRIPT], by_command, (f"{(folder / 'numbers').stat().st_size}\n", "", 0)


# The programs, the traces of the examples that policies are made of where nothing is traced, and how they are run.
PROGRAMS = [
    ("grep", "grep", grep), ("python3", "python", python3), ("nginx", "nginx", nginx), ("redis-server", "redis", redis),
    ("memcached", None, memcached), ("mosquitto", None, mosquitto), ("gunicorn", None, gunicorn), ("sshd", None, sshd),
    ("postgres", None, postgres),
]

# The parts of tools/jail/library-calls.c that its trace doesn't have, and how each ends.
PARTS = {"plain": 0, "threads": 0, "large": 0, "sort": 0, "failure": 3, "sleep": 0, "abort": -signal.SIGABRT, "system": 0, "popen": 0,
         "time": 0}

# Those that are tried if the shell is the one that docs/LEARNING.md names.
IN_DASH = {"shell": 0}


def traced(results, name, example, prepare, folder):
    """Traces two runs of a program; returns the files of the traces, or that of the examples or none if nothing is traced here."""
    words, used, wanted = prepare(folder)
    results.compare(f"{name} without a filter", wanted, used(words, [], folder))
    if shutil.which("strace", path=PATH) is None or run([*STRACE, "true.trace", "true"], folder)[2] != 0:
        here = run(["sh", "-c", ". /etc/os-release && echo $ID $VERSION_ID"], folder)[0]
        files = [EXAMPLES / f"traces/{example}.trace"] if example and here == "debian 12\n" else []
        print(f"strace traces nothing here, so the policy of {name} is that of {files[0].name if files else 'no trace'}")
        return files
    files = [f"{name}.{k}.trace" for k in (1, 2)]
    for file in files:
        results.compare(f"strace {name}", wanted, by_strace(used, words, file, folder))
    return files


def by_strace(used, words, file, folder):
    """Traces a run into a file; returns what came of it."""
    came = used(words, [*STRACE, file], folder)
    (folder / file).write_text(ENDED.sub("", (folder / file).read_text()))
    return came


def learned(results, name, files, folder, *more):
    """Makes a policy of traces; returns its file."""
    policy = f"{name}.json"
    words = [TOOL, "learn", "-a", MACHINE, "--strict", "--runnable", "--name", name, *more, "-o", policy, *files]
    out, notes, status = run(words, folder)
    others = [it for it in notes.splitlines() if "different values were seen" not in it]
    results.compare(f"learn {name} {more}", ("", [], 0), (out, others, status))
    alone = [] if "--old-clone" in more else ["--allow", "clone-by-clone3", "--allow", "allows-by-default"]
    words = [TOOL, "check", "-a", MACHINE, "--deny-warnings", *alone, policy]
    results.compare(f"check {policy} {more}", ("", "", 0), run(words, folder))
    return policy


def try_program(results, jailers, folder, name, files, prepare):
    """Runs a program under the policy of its traces, and calls that this allows or doesn't."""
    policy = learned(results, name, files, folder)
    for jailer in jailers:
        words, used, wanted = prepare(folder)
        jailed = [*jailer.words, policy, "--"]
        results.compare(f"{jailer} {policy}", wanted, used(words, jailed, folder))
        for call, wanted in INJECTED:
            found = run([*jailed, folder / "bin/call", *call.split()], folder)
            results.compare(f"{jailer} {policy}: {call}", outcome_of(wanted), found)


def try_old_clone(results, jailer, folder, files):
    """Runs memcached, whose threads glibc makes by `clone3`, under a policy whose second filter answers that with ENOSYS."""
    policy = learned(results, "memcached", files, folder, "--old-clone")
    words, used, wanted = memcached(folder)
    jailed = [*jailer.words, policy, "memcached_clone3,memcached", "--"]
    results.compare(f"{jailer} {policy}: both filters", wanted, used(words, jailed, folder))
    for call, wanted in (("clone3", 38), ("kexec_load", KILLED)):
        found = run([*jailed, folder / "bin/call", call], folder)
        results.compare(f"{jailer} {policy}: {call} under both", outcome_of(wanted), found)


def try_library(results, jailer, folder):
    """Traces the plain path of a program in C, as glibc and as musl link it, and runs what the C library calls by itself under the
    policy of that trace: each part ends as without a filter."""
    parts = dict(PARTS)
    if os.path.basename(os.path.realpath("/bin/sh")) == "dash":
        parts |= IN_DASH
    else:
        print("the shell isn't dash, so it runs nothing under the policy of what the C library calls")
    for compiler, *flags in (["cc"], ["cc", "-static"], ["musl-gcc"], ["musl-gcc", "-static"]):
        name = "-".join(["library-calls", compiler, *(it.strip("-") for it in flags)])
        if shutil.which(compiler) is None:
            print(f"{compiler} isn't installed, so nothing is linked with its C library")
            continue
        words = [compiler, "-O2", "-Wall", "-Wextra", "-Werror", "-pthread", *flags, TOP / "tools/jail/library-calls.c", "-o", name]
        built = run(words, folder)
        if flags and built[2] != 0:
            print(f"{compiler} links nothing with {flags[0]} here")
            continue
        results.compare(f"{name} is built", ("", "", 0), built)
        if run([*STRACE, "plain.trace", f"./{name}", "plain"], folder)[2] != 0:
            print(f"strace traces nothing here, so {name} isn't jailed")
            return
        policy = learned(results, name, ["plain.trace"], folder)
        for part, status in parts.items():
            without = run([f"./{name}", part], folder)
            results.compare(f"{name} {part}", status, without[2])
            results.compare(f"{jailer} {policy}: {part}", without, run([*jailer.words, policy, "--", f"./{name}", part], folder))
        stopped_and_continued(results, jailer, folder, policy, f"./{name}")


def try_i386_trace(results, folder):
    """Traces a program that makes one call by the interrupt of 32-bit programs: it is left out, and counted."""
    program = folder / "bin/call-of-i386"
    if not program.exists() or run([program], folder)[2] != 0 or run([*STRACE, "i386.trace", program], folder)[2] != 0:
        print("no 32-bit call is traced here, so none is left out")
        return
    noted = "", "seccomptool: i386.trace: 1 call is of another architecture\n", 0
    words = [TOOL, "learn", "-a", MACHINE, "--strict", "-o", "i386.json", "i386.trace"]
    results.compare("learn i386.trace", noted, run(words, folder))


def try_units(results, jailer, folder, files):
    """Lets systemd look at the drop-ins of examples/systemd, and at one that is learned."""
    if shutil.which("systemd-analyze") is None:
        print("systemd isn't installed, so it looks at no drop-in")
        return
    words = [TOOL, "learn", "-a", MACHINE, "--strict", "--runnable", "--unit", "--otherwise", "errno:1", *files]
    text, notes, status = run(words, folder)
    wanted = [f"seccomptool: {files[0]}: SystemCallFilter= has no conditions, so {it} is allowed with any arguments" for it in ("fcntl", "ioctl")]
    results.compare("learn --unit", (wanted, 0), (notes.splitlines(), status))
    (folder / "web.service").write_text("[Service]\nExecStart=/usr/bin/true\n")
    dropins = folder / "web.service.d"
    dropins.mkdir(exist_ok=True)
    examples = {it.name: it.read_text() for it in sorted((EXAMPLES / "systemd").iterdir())}
    for name, text in {**examples, "learned.conf": text}.items():
        (dropins / "only.conf").write_text(text.replace("/usr/bin/jail", str(jailer.words[0])))
        found = run(["systemd-analyze", "verify", "web.service"], folder, SYSTEMD_UNIT_PATH=f"{folder}:")
        results.compare(f"systemd-analyze verify {name}", ("", "", 0), found)


def stopped_and_continued(results, jailer, folder, policy, program):
    """Stops a program that sleeps under a policy, and lets it go on."""
    ran = subprocess.Popen([*jailer.words, policy, "--", program, "sleep"], cwd=folder)
    try:
        for number in (signal.SIGSTOP, signal.SIGCONT):
            time.sleep(0.3)
            ran.send_signal(number)
        results.compare(f"{jailer} {policy}: stopped and continued", 0, ran.wait(SECONDS))
    finally:
        ran.kill()
        ran.wait()


def try_saving(results, jailer, folder, files):
    """Runs redis-server when it saves: under the policy of runs that didn't save this fails; under one that learns another run it
    doesn't."""
    def came_of(*front, how=None):
        words, used, wanted = redis_that_saves(folder)
        return wanted, how(used, words, "saving.trace", folder) if how else used(words, front, folder)

    policy = learned(results, "saving", files, folder, "--otherwise", "errno:1")
    _, (answers, _) = came_of(*jailer.words, policy, "--")
    results.compare(f"{jailer} {policy}: nothing is saved", ("+OK", "$1", "err"), (*answers[:2], answers[3]))
    results.compare("strace redis-server that saves", *came_of(how=by_strace))
    wider = ["learn", "-a", MACHINE, "--strict", "--into", policy, "-o", "saves.json", "saving.trace"]
    results.compare(f"learn --into {policy}", ("", "", 0), run([TOOL, *wider], folder))
    results.compare(f"{jailer} saves.json", *came_of(*jailer.words, "saves.json", "--"))


def kernel_log():
    """Returns a descriptor of the kernel's log at its end; None if it can't be read."""
    try:
        log = os.open("/dev/kmsg", os.O_RDONLY | os.O_NONBLOCK)
        os.lseek(log, 0, os.SEEK_END)
        return log
    except OSError as error:
        print(f"the kernel's log can't be read here ({error.strerror}), so lines of its form are explained")
        return None


def line_in(log, number):
    """Waits for a line on a filtered call of this number by the program `call`; returns it, or none after a second."""
    end = time.monotonic() + 1
    while time.monotonic() < end:
        try:
            line = os.read(log, 8192).decode("utf-8", "replace").partition(";")[2].partition("\n")[0]
        except BlockingIOError:
            time.sleep(0.02)
        except BrokenPipeError:
            pass
        else:
            if "type=1326" in line and 'comm="call"' in line and f" syscall={number} " in line:
                return line + "\n"
    return None


def logged(results, jailed, folder, call, wanted, code):
    """Makes a call under a filter, and again if the kernel leaves out its line, as it does if there are many; returns its line, or
    one of its form."""
    number, log = NUMBERS[call.split()[0]], kernel_log()
    line = None
    for wait in (0, 6, 6) if log is not None else (0,):
        time.sleep(wait)
        results.compare(f"{jailed[0]} {call}", wanted, run([*jailed, folder / "bin/call", *call.split()], folder))
        line = line_in(log, number) if log is not None else None
        if line:
            break
    if log is not None:
        os.close(log)
        if not line:
            print(f"the kernel's log has no line of {call}, so one of its form is explained")
    return line or LINE.format(31 if wanted[2] == KILLED else 0, f"{ARCHITECTURES[MACHINE]:x}", number, code)


def explained(results, folder, policy, line, action, call):
    """Explains the line of a call that a policy has no entry of."""
    (folder / "kernel.log").write_text(line)
    process = re.search(r" pid=(\d+) ", line)[1]
    wanted = f"call[{process}]: {action}: no entry of {call} ({NUMBERS[call]})\n", "", 0
    results.compare(f"explain {policy} --log of {line}", wanted, run([TOOL, "explain", "-a", MACHINE, policy, "--log", "kernel.log"], folder))


def try_lines(results, jailer, folder, files):
    """Explains the kernel's lines on a call that kills and one that is logged, and learns the latter."""
    policy = learned(results, "strict", files, folder)
    line = logged(results, [*jailer.words, policy, "--"], folder, "kexec_load", ("", "", KILLED), "0x80000000")
    explained(results, folder, policy, line, "kill_process", "kexec_load")
    logging, call = learned(results, "logging", files, folder, "--otherwise", "log"), MISSING_CALL.split()[0]
    answer = answer_of(MISSING_ANSWER), "", 0
    line = logged(results, [*jailer.words, logging, "--"], folder, MISSING_CALL, answer, "0x7ffc0000")
    explained(results, folder, logging, line, "log", call)
    words = [TOOL, "learn", "-a", MACHINE, "--into", policy, "-o", "wider.json", "kernel.log"]
    results.compare(f"learn --into {policy} of {line}", ("", "", 0), run(words, folder))
    for it, wanted in ((policy, ("", "", KILLED)), ("wider.json", answer)):
        found = run([*jailer.words, it, "--", folder / "bin/call", *MISSING_CALL.split()], folder)
        results.compare(f"{jailer} {it}: {MISSING_CALL}", wanted, found)


def try_learning(results, jailers, folder):
    """Makes policies of traces, and runs the traced programs and single calls under them."""
    if not NUMBERS:
        print(f"no names of calls of {MACHINE} are known, so nothing is learned")
        return
    try_i386_trace(results, folder)
    try_library(results, jailers[0], folder)
    for name, example, prepare in PROGRAMS:
        path = f"{PATH}:{postgres_programs()}" if name == "postgres" else PATH
        if shutil.which(name, path=path) is None or name == "sshd" and os.geteuid() != 0:
            print(f"{name} isn't installed, or isn't root's, so no policy is learned for it")
            continue
        files = traced(results, name, example, prepare, folder)
        if not files:
            continue
        try_program(results, jailers, folder, name, files, prepare)
        if name == "grep":
            try_lines(results, jailers[0], folder, files)
            try_units(results, jailers[0], folder, files)
        if name == "redis-server" and files[0] == f"{name}.1.trace":
            try_saving(results, jailers[0], folder, files)
        if name == "memcached":
            try_old_clone(results, jailers[0], folder, files)
