"""What seccompc has to do if reads and writes pass few bytes a call, or fail after some; and, for tools/check-program, if few
of its requests for memory are granted. The calls are those of tools/cases/short-calls.c, and FILE of `run` has a descriptor of its own."""

import errno

from cases.seccompc.commands import INDEX, PROBED, UNREAD, UNWRITTEN, USAGE
from model import X86_64, record_of
from running import TOP, Calls, Case

from .policies import LOGS, LOGS_LISTED, UNREAD_RECORDS
from .probes import ALLOWED, LINE, PROBE
from .runs import LINES, RECORDS as CALLED

INPUT, OUTPUT, FILE = 0, 1, 3
OUT_OF_MEMORY = "Out of memory.\n"
UNTRACED = "run x86_64 run-logs.json a"


def slow(words, given, output, *calls):
    """Returns the case of a command that writes this output all the same."""
    return Case(words, 0, output, "", given, Calls(*calls))


def unread(words, given, text, *calls):
    """Returns the cases of a reading that fails, with this text, and that wants memory."""
    return [
        Case(words, 1, "", told, given, Calls(*calls, error))
        for told, error in ((text, errno.EIO), (OUT_OF_MEMORY, errno.ENOMEM))
    ]


def unwritten(words, given, output, at_once, taken, error):
    """Returns the case of a writing that fails after so many bytes of this output."""
    return Case(words, 1, output[:taken], UNWRITTEN, given, Calls(OUTPUT, at_once, taken, error))


RECORDS = (TOP / "examples/records.bin").read_bytes()

CASES = [
    # Little is read at once: records, the policy in FILE, the policy on standard input.
    *[slow(PROBE, RECORDS, PROBED, INPUT, at_once) for at_once in (1, 63, 65)],
    slow("run x86_64 run-complex.json main_thread", CALLED, LINES, FILE, 1),
    slow("list x86_64", LOGS, LOGS_LISTED, INPUT, 1),
    # Reading fails, or wants memory, after so many bytes.
    *[case for length in (0, 1, 63, 64) for case in unread(PROBE, ALLOWED, UNREAD_RECORDS, INPUT, 64, length)],
    *[case for length in (0, 1, len(LOGS)) for case in unread("list x86_64", LOGS, UNREAD, INPUT, 1, length)],
    *unread(UNTRACED, "", UNREAD, FILE, 7, len(LOGS)),
    *unread(UNTRACED, bytes(64), UNREAD_RECORDS, INPUT, 64, 64),
    # Writing fails after so many bytes, and does not if it takes each, a byte a call.
    *[unwritten(PROBE, RECORDS, PROBED, 1, taken, error) for error in (errno.EPIPE, errno.ENOMEM) for taken in range(len(PROBED))],
    *[unwritten("list x86_64", LOGS, LOGS_LISTED, 1, taken, errno.ENOMEM) for taken in range(len(LOGS_LISTED))],
    unwritten("list x86_64", LOGS, LOGS_LISTED, len(LOGS_LISTED), 0, errno.ENOMEM),
    unwritten("list x86_64", LOGS, LOGS_LISTED, 3, 3, errno.ENOMEM),
    slow(PROBE, RECORDS, PROBED, OUTPUT, 1, len(PROBED), errno.EIO),
    slow("list x86_64", LOGS, LOGS_LISTED, OUTPUT, 1, len(LOGS_LISTED), errno.ENOMEM),
    slow("list x86_64", LOGS, LOGS_LISTED, OUTPUT, len(LOGS_LISTED), len(LOGS_LISTED), errno.ENOMEM),
]

# Commands that are granted one request for memory more at each run, and what they answer once they have enough.
GRANTED = [
    Case(PROBE, 0, LINE, "", ALLOWED),
    Case("list x86_64", 0, LOGS_LISTED, "", LOGS),
    Case("run x86_64 run-complex.json main_thread", 0, "000503e8 25\n", "", record_of(102, X86_64)),
]

# Two commands of words of the same lengths, of which one is none. Reading words takes no memory, and neither does
# an index that no argument has, so both have enough of as many requests.
ALIKE = [Case("probe x86_64 1 6 0", 1, "", "Backend error: " + INDEX), Case("Probe x86_64 1 6 0", 2, "", USAGE)]
