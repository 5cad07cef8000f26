"""Texts of filters that are long."""

EQUALS_5 = '{"index":0,"type":"dword","op":"eq","val":5}'


def of_rules(name, rules, always=()):
    """Returns a filter of this name whose call 0 has 2 rules of 6 instructions and so many of 4, each with a
    return. The chains take 7 instructions more than these rules, and 5 more of each call that always matches. The tree has
    one test of what the rules of two conditions compare first, one of what is left of both, and one of all others together."""
    entries = [f'{{"syscall":"read","args":[{EQUALS_5},{EQUALS_5}]}}'] * 2
    entries += [f'{{"syscall":"read","args":[{EQUALS_5}]}}'] * rules
    entries += [f'{{"syscall":"{call}"}}' for call in always]
    return f'"{name}":{{"mismatch_action":"trap","match_action":"allow","filter":[{",".join(entries)}]}}'


def of_masks(name, rules):
    """Returns a filter of this name whose call 0 has so many rules with a mask, of two arguments by turns. Each has 4
    instructions and two jumps in the chains, which take 7 more, and 3 instructions in the tree."""
    entries = [f'{{"syscall":"read","args":[{{"index":{at % 2},"type":"dword","op":{{"masked_eq":1}},"val":1}}]}}'
               for at in range(rules)]
    return f'"{name}":{{"mismatch_action":"trap","match_action":"allow","filter":[{",".join(entries)}]}}'
