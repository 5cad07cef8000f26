"""The functions of a source, as tools/try-edits cuts them out of its text."""

import functools
import re

# A head ends with the brace that begins the body, after a line of clauses or on the last line of the signature, or
# with the whole of a body without statements, or with a semicolon if there is no body.
HEAD = r'(?m)^( *)(?:pub(?:\((?:crate|super)\))? )?(?:unsafe )?(?:extern "C" )?fn (\w+)(?:.|\n)*?(?:(?: |^\1)\{\}?$|;$)'
TYPE = r"(?m)^ *(?:pub(?:\((?:crate|super)\))? )?(?:struct|enum|union) (\w+)"


class Function:
    """A function of a source: its name, its type's where it is a method, where its text begins, with what stands above
    it, and where its body does."""

    def __init__(self, text, head):
        self.indent, self.name, self.begin = head[1], head[2], text.rindex("{", 0, head.end()) + 1
        is_empty = text[self.begin] == "}"
        self.end = head.end() + 1 if is_empty else text.find(f"\n{self.indent}}}\n", self.begin) + len(self.indent) + 3
        above = text[text.rfind("\n\n", 0, head.start()) + 2 : head.start()]
        self.start = head.start() - len(above.rpartition(" {\n")[2])
        self.head, self.body = text[self.start : self.begin], text[self.begin : self.end]
        block = re.findall(r"(?m)^(?:impl|trait)\b.* \{$", text[: self.start])[-1:] if self.indent else []
        self.is_of_trait = any(" for " in it or it.startswith("trait") for it in block)
        self.type = type_of(block[0]) if block else ""

    def calls(self):
        """Returns the names of what its body may call: those that stand before a parenthesis."""
        return set(re.findall(r"\b(\w+)\(", self.body))

    def cycle(self):
        """Returns the name of the cycle of calls that it says it is in, or its own if it may call itself, or None."""
        return self.cycle_said() or (self.name if self.name in self.calls() else None)

    def cycle_said(self):
        """Returns the name of the cycle of calls that it says it is in, or None."""
        found = re.search(r"#\[cycle\((\w+)\)\]", self.head)
        return found[1] if found else None

    def copy(self, text, name, changes):
        """Returns its text under another name, with the body changed, or None if there is no such copy: of a
        trait's method, of a function that says it is in a cycle, and if a change isn't of the body."""
        body = self.body
        if self.is_of_trait or self.cycle_said():
            return None
        for old, new in changes:
            if body.count(old) != 1 or text.count(old) != 1:
                return None
            body = body.replace(old, new)
        return re.sub(rf"\bfn {self.name}\b", f"fn {name}", self.head, count=1) + body

    def without_body(self):
        """Returns its text with a body that never ends, which may stand wherever another does."""
        head = re.sub(r"(?m)^ *#\[cycle\(.*\n", "", self.head)
        return f"{head}\n{self.indent}    loop {{}}\n{self.indent}}}\n"


def type_of(block):
    """Returns what a check calls the type that a block's functions are of, by the block's first line: `TargetArch`, or
    `TargetArchDisplay` and `U32FromSeccompAction` if the block is of a trait."""
    found = re.match(r"impl(?:<[^>]*>)? (?:\w+::)*(\w+)(?:<(\w+)>)? for (\w)(\w*)", block)
    if found:
        return found[3].upper() + found[4] + found[1] + (found[2] or "")
    return re.sub(r"^impl(<[^>]*>)? |<.*| \{$", "", block)


@functools.lru_cache(maxsize=None)
def functions_of(text):
    """Returns the functions of a source that have bodies, in their order."""
    return [Function(text, it) for it in re.finditer(HEAD, text) if text[it.end() - 1] != ";"]


def types_of(text):
    """Returns the names of the types that a source declares."""
    return re.findall(TYPE, text)


# A source of each form of a body, and the names and bodies of its functions.
SAMPLE = """pub fn two() -> u8 {
    2
}

impl Kept {
    /// Computes nothing.
    pub fn agree(&self)
        ensures { result }
    {}

    fn behind(&self, part: &[u8])
        requires { part }
    {
        part.len()
    }
}

trait Asked {
    fn ask(&self) -> bool;
}
"""
BODIES = [("two", "\n    2\n}\n"), ("agree", "}\n"), ("behind", "\n        part.len()\n    }\n")]


def check_itself():
    """Fails if the sample's functions are cut out otherwise: then an edit could change another function's body."""
    found = [(it.name, it.body) for it in functions_of(SAMPLE)]
    assert found == BODIES, found
    assert "".join(it.without_body() for it in functions_of(SAMPLE)).count("loop {}") == len(BODIES)
