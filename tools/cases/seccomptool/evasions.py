"""The evasions of a filter that are found, each as `IsEvasion` of crates/seccomp_warnings says: two calls that differ in what changes
nothing of what is denied, or of which the second can do the same; the filter denies the first and lets the second through."""

from cases.warning_tables import DETOURS, FLAGS
from model import is_met as holds

LOW = 2**32 - 1
WHOLE = 2**64 - 1

# The codes whose warnings show two calls.
EVASIONS = ("high-half-evades", "flag-evades", "condition-evaded")

# The actions that let a call through.
PERMITS = ("allow", "log")


def mask_of(operator):
    """Returns the mask of an operator, or none."""
    return operator["masked_eq"] if isinstance(operator, dict) else None


def actions_of(it):
    """Returns the two actions of a filter: that of what no entry matches, and that of what one does."""
    return it.get("mismatch_action", it.get("default_action")), it.get("match_action", it.get("filter_action"))


def edge_of(it):
    """Returns the number of a condition: its value as far as it is compared, or that below the border of `ge` and `lt`."""
    value = it["val"] & (LOW if it["type"] == "dword" else WHOLE)
    return value & mask_of(it["op"]) if isinstance(it["op"], dict) else max(value - 1, 0) if it["op"] in ("ge", "lt") else value


def likely_arguments(conditions):
    """Returns arguments that mostly meet conditions: those of the last one on each."""
    arguments = [0] * 6
    for it in conditions:
        arguments[it["index"]] = edge_of(it) + (it["op"] in ("ge", "gt", "ne")) & WHOLE
    return arguments


def met_arguments(conditions):
    """Returns the least arguments that meet conditions, of small numbers and those about the conditions' own; none if there are none."""
    near = {edge_of(it) + more for it in conditions for more in (0, 1)} | set(range(64))
    numbers = sorted(near | {2**32 | number & LOW for number in near})
    met = [[number for number in numbers if all(holds(it, number) for it in conditions if it["index"] == index)] for index in range(6)]
    return [it[0] for it in met] if all(met) else None


def met_pairs(name, conditions, it, permits, bits):
    """Returns the pair of calls of a condition by a call that meets its entry; of one that lets calls through, a call with these high bits,
    for which without them the condition doesn't hold."""
    index, unmet = it["index"], {"ge": "lt", "gt": "le", "ne": "eq"}
    if permits != (it["op"] in ("ge", "gt", "ne")):
        return []
    asked = [{**it, "type": "dword", "op": unmet[it["op"]]}, {**it, "op": {"masked_eq": WHOLE - LOW}, "val": bits}] if permits else []
    arguments = met_arguments([*conditions, *asked])
    if arguments is None:
        return []
    calls = [(name, arguments), (name, with_argument(arguments, index, arguments[index] ^ bits))]
    return [calls[::-1] if permits else calls]


def bits_of(code, name, it):
    """Returns the bits of an argument in which the two calls of the pairs of a condition on it differ, a number for each; 0 if there
    are none."""
    mask = mask_of(it["op"])
    if code == "high-half-evades":
        is_low = it["type"] == "qword" and it["val"] & (WHOLE if mask is None else mask) <= LOW
        return [0 if not is_low else 2**32 if mask is None else mask & ~LOW]
    found = []
    for call, index, flag, is_closing in FLAGS:
        if (call, index) == (name, it["index"]):
            is_alone = mask == flag if mask is not None else edge_of(it) == flag and not is_closing
            found.append(0 if is_alone else flag)
    return found


def is_let_through(actions, entries, call):
    """Returns whether a filter lets a call through, a name and its arguments: by the conditions of its entries of each name."""
    name, arguments = call
    return actions[any(all(holds(it, arguments[it["index"]]) for it in args) for args in entries.get(name, ()))] in PERMITS


def with_argument(arguments, index, value):
    """Returns arguments with this one replaced."""
    return arguments[:index] + [value] + arguments[index + 1:]


def pairs_of(code, name, conditions, it, permits):
    """Returns the pairs of calls of a condition among others of an entry, which lets calls through or not."""
    index, edge, arguments = it["index"], edge_of(it), likely_arguments(conditions)
    if code != "condition-evaded":
        changed = [bits for bits in bits_of(code, name, it) if bits]
        pairs = [[(name, with_argument(arguments, index, value)) for value in (edge, edge ^ bits)] for bits in changed]
        return pairs + [pair for bits in changed for pair in met_pairs(name, conditions, it, permits, bits) if code == "high-half-evades"]
    found = []
    for call, asking, bits, other, other_index, kept in DETOURS:
        above = it["op"] in ("ge", "gt", "ne")
        asked = edge | bits * (not above) if permits else edge + above & WHOLE
        # Of an entry that denies calls the other call takes some of what is asked.
        if (call, asking) == (name, index) and (permits or asked & (kept or WHOLE)):
            found.append([(name, with_argument(arguments, index, asked)), (other, with_argument([0] * 6, other_index, asked & kept))])
    return found


def decides(code, it, calls, permits):
    """Returns whether a condition of an entry, which lets calls through or not, decides between two calls: it holds for one of them
    alone, or by it the entry denies the first if they are calls of two names."""
    holding = [holds(it, arguments[it["index"]]) for _, arguments in calls]
    return holding[0] != permits if code == "condition-evaded" else holding[0] != holding[1]


def shown(calls):
    """Returns what is said of a call that is denied and one that is let through."""
    denied, passed = (f"{name}({', '.join(f'0x{value:x}' for value in arguments)})" for name, arguments in calls)
    return f"{denied} is denied, and let through is {passed}"


def evasions_of(filter_):
    """Returns the evasions of a filter, by the place of their entry, that of their condition, and their code: pairs of calls that differ
    by the condition, of which the filter denies the first and lets the second through. The architecture is x86_64."""
    found, entries, actions = {}, {}, actions_of(filter_)
    for rule in filter_["filter"]:
        entries.setdefault(rule["syscall"], []).append(rule.get("args") or [])
    for entry, rule in enumerate(filter_["filter"]):
        conditions = rule.get("args") or []
        for place, it in enumerate(conditions):
            permits = actions[1] in PERMITS
            for code in EVASIONS:
                for calls in pairs_of(code, rule["syscall"], conditions, it, permits):
                    if decides(code, it, calls, permits) and [is_let_through(actions, entries, call) for call in calls] == [False, True]:
                        found.setdefault((entry, place, code), []).append(shown(calls))
                        if code == "high-half-evades":
                            break
    return found
