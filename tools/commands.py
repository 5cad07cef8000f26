"""Runs commands where the kit isn't found, for tools/check-package and tools/try-jail."""

import os
import re
import shutil
import subprocess

from results import TOP

SECONDS = 300
ENVIRONMENT = {"PATH": "/usr/bin:/bin", "LC_ALL": "C"}

# The newest version with a date, and its day.
VERSION, DAY = re.search(r"^## \[(\d\S*)\] - (\S+)$", (TOP / "CHANGELOG.md").read_text(encoding="utf-8"), re.M).groups()


def run(words, folder, given="", pass_fds=(), **more):
    """Runs a command in the folder, with more in its environment; returns its standard output, standard error and status, or
    none and why there is none."""
    try:
        ran = subprocess.run(
            [os.fsencode(it) for it in words], cwd=folder, input=given.encode(), capture_output=True, timeout=SECONDS,
            env={**ENVIRONMENT, **more}, pass_fds=pass_fds
        )
    except (OSError, subprocess.TimeoutExpired) as error:
        return "", str(error), None
    return *(it.decode("utf-8", "surrogateescape") for it in (ran.stdout, ran.stderr)), ran.returncode


def is_there(otherwise, *commands):
    """Returns whether all of these commands are installed; else says which isn't, and what isn't done."""
    missing = [it for it in commands if shutil.which(it, path=ENVIRONMENT["PATH"]) is None]
    if missing:
        print(f"{missing[0]} isn't installed, so {otherwise}")
    return not missing


def shell_of(folder, path):
    """Returns what runs a command of a shell in the folder with this path, and returns its exit status and all that it prints."""
    def ran(command):
        out, _, status = run(["sh", "-c", f"exec 2>&1\n{command}"], folder, PATH=path)
        return status, out
    return ran


def told(words):
    """Returns the lines that a command of the linker's kind prints; none if it fails."""
    out, _, status = run(words, "/")
    return out.splitlines() if status == 0 else []


def symbols_of(path, *options, tools=""):
    """Returns the names of a library's symbols that `nm` prints, without their versions, what names these, and what may be missing.
    The commands of another architecture have a name of `tools` in front."""
    lines = [it.split() for it in told([f"{tools}nm", *options, path])]
    return sorted(it[-1].partition("@")[0] for it in lines if len(it) > 1 and it[-2] not in "wA")
