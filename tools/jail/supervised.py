"""What tools/try-jail tries of calls that a supervisor decides: of a program that `seccomptool compile` makes of a profile with
`SCMP_ACT_NOTIFY` the kernel asks the supervisor, and exactly of the calls of which `explain` says so. Under a jailer nobody listens."""

import ctypes
import errno
import fcntl
import json
import os
import platform
import struct
import threading

from commands import run
from jail.cases import answer_of
from jail.running import TOOL
from jail.running_kernel import under
from jail.stacks import CALLS

# Of `linux/seccomp.h`: the flag by which seccomp(2) returns the listener, and the two requests of a listener, with `struct
# seccomp_notif` and `struct seccomp_notif_resp`.
NEW_LISTENER = 8
RECEIVE, SEND = 0xC0502100, 0xC0182101

PROFILE = {"defaultAction": "SCMP_ACT_ALLOW", "syscalls": [
    {"names": ["getppid"], "action": "SCMP_ACT_NOTIFY"},
    {"names": ["getuid"], "action": "SCMP_ACT_NOTIFY", "args": [{"index": 0, "value": 5, "op": "SCMP_CMP_EQ"}]},
    {"names": ["getgid"], "action": "SCMP_ACT_ERRNO", "args": [{"index": 0, "value": 5, "op": "SCMP_CMP_EQ"}]},
    {"names": ["getgid"], "action": "SCMP_ACT_NOTIFY", "args": [{"index": 1, "value": 6, "op": "SCMP_CMP_EQ"}]},
]}

# Calls with arguments, and their actions; a supervisor that is asked answers EXDEV.
DECIDED = [
    ("getppid", (), "user_notif"), ("getuid", (5,), "user_notif"), ("getuid", (4,), "allow"), ("getgid", (5, 6), "errno 1 (EPERM)"),
    ("getgid", (4, 6), "user_notif"), ("getegid", (5, 6), "allow"),
]
SEEN = {"user_notif": errno.EXDEV, "errno 1 (EPERM)": errno.EPERM, "allow": 0}
NOTE = "calls that a supervisor decides fail with errno 38 (ENOSYS), unless one listens\n"


def supervise(listener):
    """Answers each call that it is asked about by an error, until the process ends."""
    while True:
        asked = bytearray(80)
        fcntl.ioctl(listener, RECEIVE, asked)
        fcntl.ioctl(listener, SEND, bytearray(struct.pack("@QqiI", struct.unpack_from("@Q", asked)[0], 0, -errno.EXDEV, 0)))


def seen_with_supervisor(program):
    """Returns the errno of each call in a process whose threads but one have this program and a supervisor, 0 for none."""
    def act(library, listener, out):
        threading.Thread(target=supervise, args=(listener,), daemon=True).start()
        for call, arguments, _ in DECIDED:
            made = library.syscall(CALLS[call], *map(ctypes.c_ulong, arguments)) >= 0
            os.write(out, bytes([0 if made else ctypes.get_errno()]))

    told, status = under([program], act, NEW_LISTENER)
    return list(told), status


def try_supervised(results, jailers, folder):
    """Makes the calls with a supervisor, and under each jailer without one."""
    if not CALLS:
        print(f"no calls of {platform.machine()} are known, so no supervisor is asked")
        return
    (folder / "asking.json").write_text(json.dumps(PROFILE))
    words = ["-a", platform.machine(), "asking.json"]
    found = run([TOOL, "compile", *words, "-o", "asking.bpf"], folder)
    results.compare("compile of a profile that asks a supervisor", ("", f"seccomptool: asking.json: {NOTE}", 0), found)
    for call, arguments, action in DECIDED:
        out, err, status = run([TOOL, "explain", *words, call, *map(str, arguments)], folder)
        results.compare(f"explain {call} {arguments}", (action, "", 0), (out.partition(": ")[0], err, status))
    found, status = seen_with_supervisor((folder / "asking.bpf").read_bytes())
    results.compare("calls with a supervisor", ([SEEN[it] for *_, it in DECIDED], 0), (found, status))
    for jailer in jailers:
        found = run([*jailer.words, "--oci", "asking.json", "--", folder / "bin/call", "getppid"], folder)
        results.compare(f"{jailer}: nobody listens", (answer_of(errno.ENOSYS), f"seccomptool: asking.json: {NOTE}", 0), found)
