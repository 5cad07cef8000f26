"""Runs the built programs, for tools/check-documents and tools/check-program: the one form of a case of both, and its runner."""

import contextlib
import os
import socket
import subprocess
import tempfile
from typing import NamedTuple, Union

from results import TOP

PROGRAMS = {name: TOP / f"crates/{name}/out/{name}" for name in ("seccompc", "seccomptool", "seccomp_vectors")}
SHORT_CALLS = TOP / "tools/cases/short-calls.c"
SECONDS = 60


class Failing(NamedTuple):
    """Standard input that gives this text, and then fails."""

    given: Union[str, bytes]


class Calls(NamedTuple):
    """Reads from a descriptor, or writes to it: at most so many bytes a call, and after so many bytes in all each
    call fails with an error number; without one none fails."""

    descriptor: int
    at_once: int
    passed: int = 0
    error: int = 0

    def words(self):
        """Returns what tools/cases/short-calls.c is told."""
        return dict(zip(("DESCRIPTOR", "AT_ONCE", "BYTES", "ERROR"), self))


class Case(NamedTuple):
    """What stands after the program's name, the status, standard output, and standard error; if one of these
    ends with `..`, it only has to begin so. Standard input is empty if a case has none. Calls may fall short."""

    words: str
    status: int
    output: Union[str, bytes]
    errors: str
    given: Union[str, bytes, Failing] = ""
    calls: Union[Calls, None] = None


def bytes_of(given):
    """Returns the bytes of a text, or bytes as they are."""
    return given.encode() if isinstance(given, str) else given


def text_of(given):
    """Returns bytes, or none, as a text that keeps each byte."""
    return given if isinstance(given, str) else (given or b"").decode("utf-8", "surrogateescape")


def run(command, folder, **more):
    """Runs a command in the folder; returns its status, standard output and standard error."""
    streams = {"stdin": subprocess.DEVNULL, "stdout": subprocess.PIPE, "stderr": subprocess.PIPE}
    ran = subprocess.run(["sh", "-c", command], cwd=folder, timeout=SECONDS, **{**streams, **more})
    return ran.returncode, text_of(ran.stdout), text_of(ran.stderr)


@contextlib.contextmanager
def standard_input(given):
    """Gives a file of these bytes; or, if reading is to fail after them, a socket whose other end went away
    without reading what was sent to it, which Linux answers by ECONNRESET once all was read."""
    if isinstance(given, Failing):
        read, other = socket.socketpair()
        with read:
            with other:
                read.sendall(b"unread")
                other.sendall(bytes_of(given.given))
            yield read
    else:
        with tempfile.TemporaryFile() as read:
            read.write(bytes_of(given))
            read.seek(0)
            yield read


def given_by(case, program, folder):
    """Runs a program of a folder on a case; returns what it gives. Calls that fall short are those of the folder."""
    told = {"LD_PRELOAD": "./short-calls.so", **case.calls.words()} if case.calls else {}
    before = "".join(f"{name}={word} " for name, word in told.items())
    with standard_input(case.given) as read:
        return run(f"{before}./{program} {case.words}", folder, stdin=read)


def build_short_calls(folder):
    """Builds tools/cases/short-calls.c in a folder; returns whether that can be, and what the compiler says."""
    words = ["env", "cc", "-O1", "-Wall", "-Wextra", "-shared", "-fPIC", "-o", folder / "short-calls.so", SHORT_CALLS]
    ran = subprocess.run(words, capture_output=True)
    return ran.returncode == 0, text_of(ran.stderr)


def run_short(words, folder, told, **how):
    """Runs a program with the calls of a folder, which are told how they fall short; returns its status, output and errors."""
    environment = {"LD_PRELOAD": str(folder / "short-calls.so"), **{name: str(number) for name, number in told.items()}}
    ran = subprocess.run(words, capture_output=True, timeout=SECONDS, env=environment, **how)
    return ran.returncode, ran.stdout, ran.stderr


def run_refused(words, folder, told, **how):
    """Runs a program likewise; returns whether a request for memory was refused, and the rest."""
    reads, writes = os.pipe()
    try:
        answer = run_short(words, folder, {**told, "TOLD": writes}, pass_fds=[writes], **how)
    finally:
        os.close(writes)
    with open(reads, "rb") as refused:
        return refused.read() == b"x", answer


def is_built(results, name, words, status):
    """Builds a program if it isn't; counts whether it ends with this status."""
    ran = subprocess.run([TOP / "tools/run-program", name, *words], stdin=subprocess.DEVNULL, capture_output=True)
    return results.tell(f"{name} is built, and has ample memory", ran.returncode == status, (ran.returncode, text_of(ran.stderr)))
