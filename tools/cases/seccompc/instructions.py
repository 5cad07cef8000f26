"""Instructions of classic BPF by name, and the programs that are made of them, as `list` writes both.

The layout of a program is that of docs/ARCHITECTURE.md, "The way of a filter to its program", for rules whose
conditions need no relay; the code of a condition is that of crates/seccompiler/specs/ConditionCode.antt. Words and
codes are those of linux/seccomp.h and linux/filter.h.
"""

from model import X86_64

KILL_PROCESS = 0x8000_0000
KILL_THREAD = 0x0000_0000
TRAP = 0x0003_0000
ERRNO = 0x0005_0000
TRACE = 0x7FF0_0000
LOG = 0x7FFC_0000
ALLOW = 0x7FFF_0000


def instruction(code, k, jt=0, jf=0):
    """Returns the line of an instruction."""
    return f"{code:04x} {jt:02x} {jf:02x} {k:08x}\n"


def load(k):
    """Loads the word at byte `k` of the record."""
    return instruction(0x20, k)


def mask(k):
    """Keeps the bits of the accumulator that are set in `k`."""
    return instruction(0x54, k)


def jump(k):
    """Jumps over `k` instructions."""
    return instruction(0x05, k)


def jump_equal(k, jt, jf):
    """Jumps over `jt` instructions if the accumulator equals `k`, else over `jf`."""
    return instruction(0x15, k, jt, jf)


def give(k):
    """Ends, and returns the word `k`."""
    return instruction(0x06, k)


def program(*chains, mismatched=TRAP, matched=ALLOW, architecture=X86_64):
    """Returns the program of chains: each is a call number with the code of the conditions of its rules, in which
    the first condition comes last. A chain without rules is laid out as one of a rule without conditions."""
    code = [load(4), jump_equal(architecture, 1, 0), give(KILL_PROCESS)]
    code += [load(0)] if chains else []
    for number, *rules in chains:
        code.append(jump_equal(number, 0, 1))
        for conditions in rules or [[]]:
            # On to the conditions; past them, their return, and the first jump of the next rule.
            code += [jump(1), jump(len(conditions) + 2), *conditions, give(matched)]
        code.append(give(mismatched))
    return [*code, give(mismatched)]


def listing(name, code):
    """Returns what `list` writes of a program under a name, which is given as it is written."""
    return f"filter {len(code)} {name}\n" + "".join(code)
