"""What the words of `seccompc` mean, and words that are none of its commands, for tools/check-documents."""

import shlex

from cases.seccompc.commands import INDEX, UNOPENED, USAGE
from model import X86_64, record_of


def probe(*numbers):
    """Returns the words of a probe on x86_64."""
    return ["probe", "x86_64", *numbers]


# The three numbers of a probe, and the call that they name: its number, an argument's index and its value.
MEANINGS = [
    (("0", "0", "0"), (0, 0, 0)), (("-0", "005", "010"), (0, 5, 10)), (("007", "1", "0018446744073709551615"), (7, 1, 2**64 - 1)),
    (("4294967295", "00", "18446744073709551615"), (2**32 - 1, 0, 2**64 - 1)),
]

# Words of commands, and the refusal that tells what they mean.
REFUSED = [
    (probe("-1", "5", "1"), "Backend error: Invalid syscall number: -1.\n"),
    (probe("4294967296", "5", "1"), "Backend error: Invalid syscall number: 4294967296.\n"),
    (probe("9223372036854775807", "0", "0"), "Backend error: Invalid syscall number: 9223372036854775807.\n"),
    (probe("-9223372036854775808", "0", "0"), "Backend error: Invalid syscall number: -9223372036854775808.\n"),
    (probe("0", "007", "010"), "Backend error: " + INDEX),
    (probe("0", "0255", "0"), "Backend error: " + INDEX),
    *(([*words, name, *more], f"Backend error: Invalid target arch: {name}.\n")
      for words, more in ((["probe"], ["1", "2", "3"]), (["list"], [])) for name in ("", "x8664", "probe", "µ")),
    (["run", "", "", ""], UNOPENED),
]

# Words that are no command.
OTHERS = [
    [], [""], ["probe"], probe("72", "1"), probe("72", "1", "0", "0"), probe("72", "1", "0", ""), ["Probe", "x86_64", "72", "1", "0"],
    ["probe ", "x86_64", "72", "1", "0"], ["list", "x86_64", "72", "1", "0"], ["x86_64", "72", "1", "0"], ["list"],
    ["list", "x86_64", "x86_64"], ["List", "x86_64"], ["probe", "x86_64"], ["run", "x86_64", "policy.json"],
    ["run", "x86_64", "policy.json", "a", "a"], ["run", "x86_64"], ["list", "x86_64", "policy.json", "a"],
    # What is no number, or one that its place doesn't hold.
    *(probe(it, "0", "0") for it in (
        "+1", "", "-", "--1", "-+1", "1-", " 1", "1 ", "0x1", "1_000", "१", "9223372036854775808",
        "-9223372036854775809")),
    *(probe("72", it, "0") for it in ("256", "", "+1", "-0", "a", "18446744073709551616")),
    *(probe("72", "1", it) for it in ("18446744073709551616", "", "+1", "-1", "1.0")),
]

FILES = {f"called-{at}": record_of(number, X86_64, *[0] * index, value) for at, (_, (number, index, value)) in enumerate(MEANINGS)}

CASES = [
    *((shlex.join(probe(*numbers)) + f" < called-{at}", 0, "7fff0000 10\n", "") for at, (numbers, _) in enumerate(MEANINGS)),
    *((shlex.join(words) + " < empty", 1, "", text) for words, text in REFUSED),
    *((shlex.join(words) + " < empty", 2, "", USAGE) for words in OTHERS),
]
