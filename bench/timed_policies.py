"""The policies that bench/compare, bench/text-cost, bench/tree-cost and bench/growth measure."""

import json
import pathlib
import re

TOP = pathlib.Path(__file__).resolve().parent.parent


def call_names(arch):
    """Returns the names of an architecture's calls, as the tables have them."""
    table = TOP / f"crates/seccomp_tables/src/{arch}.rt"
    return re.findall(r'^    \("(\w+)", \d+\),$', table.read_text(), re.M)


def example(name):
    """Returns a policy of examples/."""
    return json.loads((TOP / "examples" / name).read_text())


def one(entries):
    """Returns the policy of a filter with these entries."""
    return {"a": {"mismatch_action": "kill_process", "match_action": "allow", "filter": entries}}


def is_equal(index, value):
    """Returns the condition that an argument's low half has this value."""
    return {"index": index, "type": "dword", "op": "eq", "val": value}


def values_with_gaps(n):
    """Returns a policy that allows a call for every third value of an argument, n in all: no two of them merge."""
    return one([{"syscall": "ioctl", "args": [is_equal(1, 3 * k)]} for k in range(n)])


def rules_of_two_conditions(n):
    """Returns a policy with n rules of one call, each of two conditions, no two alike."""
    return one([{"syscall": "ioctl", "args": [is_equal(1, 3 * k), is_equal(2, 7 * k)]} for k in range(n)])


def allowed_calls(n):
    """Returns a policy that allows n calls."""
    return one([{"syscall": name} for name in call_names("x86_64")[:n]])


def timed_policies():
    """Returns the policies that are timed, each with its name."""
    test = {"index": 0, "type": "dword", "op": "eq"}
    mask = {"index": 0, "type": "qword", "op": {"masked_eq": 255}, "val": 1}
    return [
        ("the README's policy", example("readme-policy.json")),
        ("the complex policy", example("complex-policy.json")),
        ("300 allowed calls", allowed_calls(300)),
        ("817 rules of one call", one([{"syscall": "read", "args": [{**test, "val": k}]} for k in range(817)])),
        ("672 masked conditions", one([{"syscall": "read", "args": [mask] * 672}])),
    ]
