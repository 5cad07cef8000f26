"""Builds bench/library-cost.c over the library for C, for bench/run and bench/compare."""

import json
import os
import pathlib
import subprocess
import sys

TOP = pathlib.Path(__file__).resolve().parent.parent
ARCHIVE = TOP / "crates/seccompiler_c/out/libseccompiler_c.a"


class LibraryCost:
    """The program, built in a folder."""

    def __init__(self, folder):
        if not ARCHIVE.exists():
            sys.exit(f"{ARCHIVE} isn't built: run `rt lib` in crates/seccompiler_c")
        self.program, self.policy = folder / "library-cost", folder / "timed.json"
        page = subprocess.run(["rt", "doc"], check=True, capture_output=True, text=True).stdout
        archives = [ARCHIVE, pathlib.Path(page.strip()).parent / "c/liblibc_c.a"]
        words = [os.environ.get("CC", "cc"), "-O2", TOP / "bench/library-cost.c", *archives, "-o", self.program]
        subprocess.run(words, check=True)

    def of(self, one):
        """Returns the lengths of a filter's programs, the sets of their comparison, and the nanoseconds of that and of a
        compilation from its text."""
        self.policy.write_text(json.dumps({"a": one}))
        told = subprocess.run([self.program, self.policy], capture_output=True, check=True)
        return [int(word) for word in told.stdout.split()]
