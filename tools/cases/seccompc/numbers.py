"""Numbers at the ends of their ranges, in each place of a policy that takes one."""

from typing import Callable, NamedTuple

from cases.seccompc.commands import INDEX as ABOVE_5

from .instructions import ERRNO, TRACE, jump_equal, load, mask, program
from .policy_texts import CODE_OF_EQUALS_5, UNPARSED, listed, replaced, shape, told

# Whole numbers of at most 5, of at most 8, 32 and 64 bits.
INDICES = ["0", "1", "5"]
OF_8_BITS = ["6", "254", "255"]
OF_32_BITS = ["256", "257", "65535", "65536", "65537", "4294967295"]
OF_64_BITS = ["4294967296", "4294967297", "9223372036854775807", "9223372036854775808", "18446744073709551614", "18446744073709551615"]

# Numbers of JSON that are greater than these, less than 0, or not written as whole numbers; and what is no number.
UNFIT = [
    "18446744073709551616", "18446744073709551617", "340282366920938463463374607431768211456",
    "-1", "-256", "-9223372036854775808", "-9223372036854775809", "-0",
    "0.0", "5.0", "5.5", "5e0", "1E+2", '"5"', "null", "[5]",
]

# What JSON has no number for.
NO_NUMBERS = ["05", "+5", "5.", ".5", "0x5", "1e400", "NaN"]


class Place(NamedTuple):
    """Where a number is put: what of the policy goes, what comes around the number, and the program that it gives."""

    part: str
    before: str
    after: str
    given: Callable


# The programs of the policy with a number in one of its places.


def under_word(action):
    """Returns how a number gives the program whose mismatch action is of this kind, with the number's low 16 bits."""
    return lambda number: program((0, CODE_OF_EQUALS_5), mismatched=action + number % 2**16)


def at_index(number):
    """The argument of this index is compared."""
    return program((0, [load(16 + 8 * number), jump_equal(5, 0, 1)]))


def equals_low(number):
    """The low half of argument 0 is compared with the number's."""
    return program((0, [load(16), jump_equal(number % 2**32, 0, 1)]))


def equals(number):
    """Both halves of argument 0 are compared with the number's."""
    high, low = divmod(number, 2**32)
    return program((0, [load(20), jump_equal(high, 0, 3), load(16), jump_equal(low, 0, 1)]))


def masks_low(number):
    """The low half of argument 0 is compared with 5 under the number's."""
    low = number % 2**32
    return program((0, [load(16), mask(low), jump_equal(5 & low, 0, 1)]))


def masks(number):
    """Both halves of argument 0 are compared with those of 5 under the number's."""
    high, low = divmod(number, 2**32)
    code_of_high = [load(20), mask(high), jump_equal(0, 0, 4)]
    return program((0, [*code_of_high, load(16), mask(low), jump_equal(5 & low, 0, 1)]))


INDEX = Place('"index":0', '"index":', "", at_index)
ACTIONS = [Place('"trap"', '{"errno":', "}", under_word(ERRNO)), Place('"trap"', '{"trace":', "}", under_word(TRACE))]
VALUES = [
    Place('"val":5', '"val":', "", equals_low),
    Place('"eq"', '{"masked_eq":', "}", masks_low),
    # The same of both halves of an argument.
    Place('"dword","op":"eq","val":5', '"qword","op":"eq","val":', "", equals),
    Place('"dword","op":"eq"', '"qword","op":{"masked_eq":', "}", masks),
]

# The numbers that a place takes, and those that give a filter another shape.
FITTING = [
    (INDEX, INDICES, OF_32_BITS + OF_64_BITS + UNFIT),
    *((it, INDICES + OF_8_BITS + OF_32_BITS, OF_64_BITS + UNFIT) for it in ACTIONS),
    *((it, INDICES + OF_8_BITS + OF_32_BITS + OF_64_BITS, UNFIT) for it in VALUES),
]


def with_number(place, number):
    """Returns the policy that has this number in the place."""
    return replaced(place.part, place.before + number + place.after)


CASES = [
    *(listed(with_number(place, it), place.given(int(it))) for place, fit, _ in FITTING for it in fit),
    *(told(with_number(place, it), shape()) for place, _, unfit in FITTING for it in unfit),
    *(told(with_number(INDEX, it), ABOVE_5) for it in OF_8_BITS),
    *(told(with_number(place, it), UNPARSED) for place, _, _ in FITTING for it in NO_NUMBERS),
]
