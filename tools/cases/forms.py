"""What the cases of several commands name."""

import errno
import json
import re

from running import Case, Failing

# What stands in front of each message: the program, and the place that it is about.
TOOL = "seccomptool: "
INPUT = TOOL + "standard input: "
OUTPUT = TOOL + "standard output: "

# Errors of the system, as Linux names them.
MISSING = "No such file or directory (os error 2)\n"
CLOSED = "Bad file descriptor (os error 9)\n"
FOLDER = "Is a directory (os error 21)\n"
FULL = "No space left on device (os error 28)\n"
RESET = "Connection reset by peer (os error 104)\n"
SYSTEM = (MISSING, CLOSED, FOLDER, FULL, RESET)

NO_ARCHITECTURE = "Backend error: Invalid target arch: x8664.\n"
NO_OBJECT = "the policy: expected an object of filters, found an empty array\n"

# What a command other than `check` reports of a filter that is an empty object, at whose path it stands.
EMPTY = '{}: missing "mismatch_action" or "default_action" (2 more errors; seccomptool check prints them)\n'

# A filter without entries.
LOGS = '{"a":{"mismatch_action":"log","match_action":"allow","filter":[]}}'

# The same under a name with U+009B, which some terminals take as the beginning of a command.
STEERS = LOGS.replace('"a"', r'"a\u009b"')

# The words that choose each layout.
LAYOUTS = (" --layout linear", " --layout=tree")


# Of several names of a number the one by which the kernel's headers define the others, or the only one that they have; and one that
# Python doesn't know (asm-generic/errno.h).
DEFINED = {11: "EAGAIN", 35: "EDEADLK", 95: "EOPNOTSUPP", 133: "EHWPOISON"}


def named(action):
    """Returns an action as it is printed for people: an errno has its name after it, if there is one of this number."""
    kind, _, number = action.partition(" ")
    name = {**errno.errorcode, **DEFINED}.get(int(number)) if kind == "errno" else None
    return f"{action} ({name})" if name else action


def quiet(case):
    """Returns the case of a command that notes warnings without the notes, which have cases of their own."""
    command, space, rest = case[0].partition(" ")
    return Case(f"{command} -q{space}{rest}", *case[1:])


def as_object(value):
    """Returns the text of a value as `--json` writes it."""
    return json.dumps(value, sort_keys=True, separators=(",", ":")).replace("\x7f", r"\u007f")


def as_list(name, items):
    """Returns the object of a list as `--json` writes it: each item in a line."""
    lines = ",\n".join(map(as_object, items))
    return f'{{"{name}":[' + (f"\n{lines}\n" if lines else "") + "]}\n"


def policies_of(filters, count):
    """Returns policies that have so many of these filters each, by names whose order isn't that of their numbers."""
    parts = (filters[start:start + count] for start in range(0, len(filters), count))
    return [{f"f{number}": it for number, it in enumerate(part)} for part in parts]


def writes(words, given, output):
    """Returns the case of words that write this output, and end with 0."""
    return Case(words, 0, output, "", given)


def refuses(words, given, told):
    """Returns the case of words of seccompc that write no output, tell this line, and end with 1."""
    return Case(words, 1, "", told, given)


def rejects(words, given, told, place=INPUT):
    """Returns the case of words that write no output and tell this line of a place: `check` answers so, unless it is the system
    that refuses, and every other command is in trouble."""
    return Case(words, 1 if words.split()[0] == "check" and told not in SYSTEM else 2, "", place + told, given)


def rejects_in_both(words, given, told):
    """Returns the same cases of both layouts."""
    return [rejects(words + layout, given, told) for layout in LAYOUTS]


class Command:
    """Makes the cases of a command, whose words begin so."""

    def __init__(self, begin):
        self.begin = begin

    def same(self, words, output, given=""):
        """Returns the case of words that write this output, and end with 0."""
        return Case(self.begin + words, 0, output, "", given)

    def differ(self, words, output, given=""):
        """Returns the case of words that write this output, and end with 1."""
        return Case(self.begin + words, 1, output, "", given)

    def fails(self, words, told, place=TOOL, given=""):
        """Returns the case of words that write no output and tell this line of a place."""
        return Case(self.begin + words, 2, "", place + told, given)

    def misused(self, words, told="error: .."):
        """Returns the case of words that are no command."""
        return Case(self.begin + words, 2, "", told)


def fails_to_read_and_write(words, read=LOGS, written=LOGS):
    """Returns the cases of a policy after which reading fails, and of one whose output can't be written."""
    return [
        rejects(words, Failing(read), RESET),
        rejects(words + " > /dev/full", written, FULL, OUTPUT),
        rejects(words + " >&-", written, CLOSED, OUTPUT),
    ]


def grouped(text):
    """Returns lines of warnings as `check` writes them: of those about one place, the ones that are alike but for a call in
    parentheses are one, which names all."""
    place, written = None, []
    for line in text.splitlines():
        front, call, said = re.fullmatch(r"(.*?)( \([a-z0-9_]+\))?(: warning \[.*)", line).groups()
        if front != place:
            place, of_place = front, {}
        if call and said in of_place:
            written[of_place[said]][1].append(call[2:-1])
            continue
        if call:
            of_place[said] = len(written)
        written.append((front, [call[2:-1]] if call else [], said))
    return "".join(front + (f" ({', '.join(calls)})" if calls else "") + f"{said}\n" for front, calls, said in written)
