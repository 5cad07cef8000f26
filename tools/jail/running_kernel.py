"""What the running kernel does with filters: tools/try-jail and tools/check-package ask."""

import ctypes
import os
import platform
import struct

# The numbers of seccomp(2) on each architecture.
SECCOMP = {"x86_64": 317}.get(platform.machine(), 277)

ALLOW = struct.pack("<HBBI", 6, 0, 0, 0x7FFF0000)


def under(programs, act, flags=0):
    """Installs programs in bytes in a process of its own, the first one first, and has it act; returns the bytes that it writes, and how
    it ends. `act` is given the C library, what the last seccomp(2) returned, and a descriptor to write to. If a program isn't taken
    the errno is written, and the exit status is 255."""
    library = ctypes.CDLL(None, use_errno=True)
    kept = [ctypes.create_string_buffer(it, len(it)) for it in programs]
    headers = [struct.pack("@HP", len(it) // 8, ctypes.addressof(buffer)) for it, buffer in zip(programs, kept)]
    reading, writing = os.pipe()
    child = os.fork()
    if child == 0:
        given = [library.prctl(38, 1, 0, 0, 0)]
        for header in headers:
            given += [library.syscall(SECCOMP, 1, flags, header)] if given[-1] >= 0 else []
        if given[-1] < 0:
            os.write(writing, bytes([min(ctypes.get_errno(), 255)]))
            os._exit(255)
        act(library, given[-1], writing)
        os._exit(0)
    os.close(writing)
    with os.fdopen(reading, "rb") as written:
        told = written.read()
    return told, os.waitstatus_to_exitcode(os.waitpid(child, 0)[1])


def refusal_of_kernel():
    """Returns why the kernel takes no filter from a process like this one, or None."""
    told, status = under([ALLOW], lambda *_: None, flags=1)
    return os.strerror(told[0]) if status else None
