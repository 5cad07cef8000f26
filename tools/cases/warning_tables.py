"""What crates/seccomp_warnings knows of calls, and what it says of each code: its tables, read from their source. The definitions of
warnings cite the first, and page_checks.py compares both with docs/CHECKS.md."""

import ast
import re

from results import TOP

SOURCES = TOP / "crates/seccomp_warnings/src"


def value_of(word):
    """Returns what a literal of Rattle is: a text, a number, or true or false."""
    if word in ("true", "false"):
        return word == "true"
    return ast.literal_eval(word if word.startswith('"') else word.replace("_", ""))


def rows_of(name):
    """Returns the rows of a table of calls, each a tuple of its fields."""
    text = (SOURCES / "tables.rt").read_text(encoding="utf-8")
    body = re.search(rf"const {name}: \[[^;]*; (\d+)\] = (?:\[|rows! \{{)\n(.*?)\n[\]}}];", text, re.S)
    rows = [tuple(value_of(it.strip()) for it in row.split(",")) for row in re.findall(r"\(([^()]*)\)", body[2])]
    # Rows in one: what they have in common, and their calls; or a call, and those that it has.
    for head, arrow, calls in re.findall(r"^    (\S[^:=;]*?)(:| =>)([^;]*);$", body[2], re.M):
        common = [value_of(it) for it in head.split()]
        rows += [(*common, call) if arrow != ":" else (call, *common) for call in map(value_of, calls.split())]
    assert len(rows) == int(body[1]), name
    return rows


def by_index(rows):
    """Returns the calls of rows by the index of an argument."""
    return {index: [name for name, at in rows if at == index] for index in sorted({index for _, index in rows})}


def codes_in():
    """Returns the rows of the codes of warnings, each by the names of its fields."""
    text = (SOURCES / "text.rt").read_text(encoding="utf-8")
    word = r"(\"(?:[^\"\\]|\\.)*\")"
    rows = re.findall(rf"\n    (\w+), {word}, (?:None|Some\({word}\)),\s+{word},\s+{word},\s+{word};", text)
    fields = ("name", "key", "said", "of_profile", "paragraph")
    return [{"code": f"Code::{code}", **{field: ast.literal_eval(it) if it else None for field, it in zip(fields, texts)}}
            for code, *texts in rows]


# The calls whose argument of an index is an address, or is signed.
ADDRESSES, SIGNED = by_index(rows_of("ADDRESSES")), by_index(rows_of("SIGNED"))
# Flags that change nothing of what a call is denied for: the call, the index of the argument, the flag, and whether it closes on exec.
FLAGS = rows_of("FLAGS")
# Calls with the index of the argument that says what is asked, the bits of it that ask for more, and other calls by which the same can
# be done: the index at which they take it, and which bits of it they take there.
DETOURS = rows_of("DETOURS")
# The calls by which what a call does can be done too.
SIBLINGS = {}
for _name, _other in rows_of("SIBLINGS"):
    SIBLINGS.setdefault(_name, []).append(_other)
# The codes, in their order.
CODES = codes_in()
