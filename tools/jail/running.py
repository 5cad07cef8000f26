"""What tools/try-jail runs with: the jailers, and steps of a build."""

import os
import subprocess
import sys

from commands import TOP

EXAMPLES = TOP / "examples"
ARCHIVE = TOP / "crates/seccompiler_c/out/libseccompiler_c.a"
TOOL = TOP / "crates/seccomptool/out/seccomptool"
BUILD_SECONDS = 1800


class Jailer:
    """One of the two programs, which run a command under a filter; on an emulator, if its words are given."""

    def __init__(self, program, layout=(), emulator=()):
        self.words = [*emulator, program, *layout]
        self.name = program.name
        self.shown = " ".join([*emulator[:1], self.name, *layout])

    def __str__(self):
        return self.shown

    def error(self, number):
        """Returns the text of an error number, as the program says it."""
        return os.strerror(number) + (f" (os error {number})" if self.name == "jail-rs" else "")

    def told(self, what, why, failing="", hint=""):
        """Returns the line that the program writes of an error number, or of a text. The jailer in Rust names a failing
        call of the kernel."""
        front = f"{failing}: " if failing and self.name == "jail-rs" else ""
        return f"{self.name}: {what}: {front}{self.error(why) if isinstance(why, int) else why}{hint}\n"


def step(results, what, words, place=TOP):
    """Runs a step of the build, in which a warning is an error; returns whether it went well."""
    ran = subprocess.run(
        words, cwd=place, stdin=subprocess.DEVNULL, stdout=subprocess.PIPE, stderr=subprocess.STDOUT,
        timeout=BUILD_SECONDS, env={**os.environ, "CFLAGS": "-Werror", "RUSTFLAGS": "-D warnings"}
    )
    if ran.returncode:
        sys.stdout.buffer.write(ran.stdout)
    return results.compare(what, 0, ran.returncode)
