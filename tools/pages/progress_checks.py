"""Checks of what `seccomptool` writes to a terminal, a part of tools/check-documents: the progress of `diff` and `verify`,
and the bytes that aren't written there.

It needs the built program, and pseudo-terminals. A comparison that takes longer than two seconds is made by each command,
with standard error as a terminal and as a pipe:

- on the terminal come lines that name the call and how many sets were looked at, each from the line's begin on, and the
  last one is erased; the numbers are sums of tries with 10,000 sets, and with four times as many each time;
- on the pipe comes nothing;
- the exit status and standard output are the same, and what they have to be.

A comparison that takes no time shows nothing on a terminal, and if a policy is rejected the error stands there alone,
as on a pipe.

If nobody reads standard output any more, a command ends at once with status 2, and says nothing.

If standard output is a terminal, a command that would write bytes there fails and writes none; text is written as it is.
"""

import concurrent.futures
import itertools
import json
import os
import pathlib
import pty
import re
import subprocess
import tempfile

SECONDS = 300

# How many sets the first try looks at, and the last one at most.
FIRST, MOST = 10_000, 32_000_000

# What goes back to the begin of a line, and what erases it from there on.
BACK, ERASE = b"\r", b"\x1b[K"
LINE = re.compile(BACK + rb"seccomptool: ([a-z ]+): ([0-9]+) sets of calls looked at" + re.escape(ERASE))

# Two arguments, each under 15 masks of two neighbouring bits, and a third under 4: sets of their values are split bit by bit.
# A comparison of these takes seconds of a fast processor.
MASKS = [(at, 3 << bit) for at, count in ((0, 15), (1, 15), (2, 4)) for bit in range(count)]


def policy(masks):
    """Returns a policy that allows `read` if an argument has all bits of a mask."""
    entries = [
        {"syscall": "read", "args": [{"index": at, "type": "dword", "op": {"masked_eq": mask}, "val": mask}]}
        for at, mask in masks
    ]
    return json.dumps({"a": {"mismatch_action": "kill_process", "match_action": "allow", "filter": entries}})


def on_terminal(program, folder, words, stream="stderr"):
    """Runs the program with one of its outputs as a terminal; returns its status, its other output and what the terminal got."""
    ours, its = pty.openpty()
    with open(ours, "rb", buffering=0) as terminal, tempfile.TemporaryFile() as output:
        outputs = {"stdout": output, "stderr": output, stream: its}
        ran = subprocess.Popen([program, *words], cwd=folder, stdin=subprocess.DEVNULL, **outputs)
        os.close(its)
        shown = b""
        while read := read_from(terminal):
            shown += read
        status = ran.wait(timeout=SECONDS)
        output.seek(0)
        return status, output.read().decode(), shown


def read_from(terminal):
    """Reads what a terminal got; returns nothing at its end, which Linux answers by EIO."""
    try:
        return terminal.read(65536)
    except OSError:
        return b""


def on_pipe(program, folder, words):
    """Runs the program with standard error as a pipe; returns its status, its output and what the pipe got."""
    ran = subprocess.run([program, *words], cwd=folder, stdin=subprocess.DEVNULL, capture_output=True, timeout=SECONDS)
    return ran.returncode, ran.stdout.decode(), ran.stderr


def sums_of_tries():
    """Returns how many sets all tries so far looked at, after each try but the last one, which has an answer."""
    tries = [FIRST]
    while 4 * tries[-1] < MOST:
        tries.append(4 * tries[-1])
    return list(itertools.accumulate(tries))


def compare_lines(results, shown):
    """Compares the lines on a terminal with the sums of tries, of which the first ones come too early."""
    results.compare("progress: the last line is erased", (ERASE + BACK + ERASE,), (shown[-len(ERASE + BACK + ERASE):],))
    results.compare("progress: there is nothing but lines", (BACK + ERASE,), (LINE.sub(b"", shown),))
    lines = LINE.findall(shown)
    results.compare("progress: the call", ({b"read"},), ({name for name, _ in lines},))
    given = [int(it) for _, it in lines]
    stated = [it for it in sums_of_tries() if it >= min(given, default=0)]
    results.compare("progress: how many sets", (True, stated), (bool(given), given))


def compare_progress(results, program):
    """Makes all comparisons of this file, of the program with this path."""
    with tempfile.TemporaryDirectory(prefix="progress-") as room, concurrent.futures.ThreadPoolExecutor(2) as lanes:
        folder = pathlib.Path(room)
        (folder / "old.json").write_text(policy(MASKS))
        (folder / "new.json").write_text(policy(reversed(MASKS)))
        (folder / "none.json").write_text("{")
        compiled = subprocess.run([program, "compile", "new.json"], cwd=folder, capture_output=True, timeout=SECONDS)
        (folder / "new.bpf").write_bytes(compiled.stdout)
        words = ["diff", "--quiet", "--most", str(MOST), "old.json", "new.bpf"]
        runs = [lanes.submit(it, program, folder, words) for it in (on_terminal, on_pipe)]
        on_the_terminal, on_the_pipe = (it.result() for it in runs)
        stated = 0, "filter a: same\nother architectures: same\n"
        results.compare(f"seccomptool {' '.join(words)} on a pipe", (*stated, b""), on_the_pipe)
        results.compare(f"seccomptool {' '.join(words)} on a terminal", stated, on_the_terminal[:2])
        compare_lines(results, on_the_terminal[2])
        for words in (["diff", "old.json", "old.json"], ["diff", "old.json", "new.json"], ["diff", "--most", "0", "old.json", "old.json"],
                      ["diff", "none.json", "old.json"]):
            status, output, errors = on_pipe(program, folder, words)
            stated = status, output, errors.replace(b"\n", b"\r\n")
            results.compare(f"seccomptool {' '.join(words)} on a terminal", stated, on_terminal(program, folder, words))


# Commands that write bytes, and some that write text, each with what it writes.
PROFILE = '{"defaultAction": "SCMP_ACT_ALLOW"}'
OF_BYTES = (
    ["compile", "-q", "few.json"], ["compile", "-q", "--format", "raw", "few.json"], ["compile", "-q", "profile.json"],
    ["call", "--record", "read"],
)
FEW = "".join(
    f"{{ {it} }},\n" for it in ("0x20, 0, 0, 0x00000004", "0x15, 0, 1, 0xc000003e", "0x6, 0, 0, 0x00030000", "0x6, 0, 0, 0x80000000")
)
OF_TEXT = (
    (["compile", "-q", "-o", "few.bpf", "few.json"], ""), (["compile", "-q", "-o", "profile.bpf", "profile.json"], ""),
    (["compile", "-q", "--format", "c", "few.json"], FEW),
)
NO_BYTES = "seccomptool: standard output: bytes aren't written to a terminal; use a file or a pipe\n"


# Commands whose output nobody reads: each ends at once, and says nothing. A file behind the first isn't looked for.
UNREAD = (["check", "few.json", "missing.json"], ["show", "few.json"], ["explain", "few.json", "read"], ["call", "read"], ["--help"])


def compare_outputs(results, program):
    """Runs commands with standard output as a terminal, and as a pipe that nobody reads, of the program with this path."""
    with tempfile.TemporaryDirectory(prefix="terminal-") as room:
        folder = pathlib.Path(room)
        (folder / "few.json").write_text('{"a":{"mismatch_action":"trap","match_action":"allow","filter":[]}}')
        (folder / "profile.json").write_text(PROFILE)
        for words in OF_BYTES:
            found = on_terminal(program, folder, words, "stdout")
            results.compare(f"seccomptool {' '.join(words)} to a terminal", (2, NO_BYTES, b""), found)
        for words, text in OF_TEXT:
            found = on_terminal(program, folder, words, "stdout")
            results.compare(f"seccomptool {' '.join(words)} to a terminal", (0, "", text.replace("\n", "\r\n").encode()), found)
        for words in UNREAD:
            reads, writes = os.pipe()
            os.close(reads)
            with open(writes, "wb") as output:
                ran = subprocess.run(
                    [program, *words], cwd=folder, stdin=subprocess.DEVNULL, stdout=output, stderr=subprocess.PIPE, timeout=SECONDS)
            results.compare(f"seccomptool {' '.join(words)} with an output that nobody reads", (2, b""), (ran.returncode, ran.stderr))
