"""The manual page of a program in C or of a command, which is its help in other clothes; for tools/make-man."""

import ast
import datetime
import re

# A heading of a help, an entry of a list, and a text of C with its name.
HEADING = re.compile(r"([A-Z][a-z]+(?: [a-z]+)?): ?")
ENTRY = re.compile(r" +(\S.*?)(?:  +(\S.*))?$")
TEXT_OF_C = re.compile(r'static const char (\w+)\[\] =\s*((?:"(?:[^"\\]|\\.)*"\s*)+);')
ORDER = ("NAME", "SYNOPSIS", "DESCRIPTION", "COMMANDS", "ARGUMENTS", "OPTIONS", "EXIT STATUS", "EXAMPLES", "SEE ALSO")


def escaped(text):
    """Returns a text as roff shows it."""
    text = text.replace("\\", r"\e").replace("-", r"\-")
    return re.sub(r"^([.'])", r"\\&\1", text, flags=re.M)


def hanging(line):
    """Returns a line whose further lines hang, if it is too wide."""
    return f".in +4n\n.ti -4n\n{escaped(line)}\n.in\n"


def help_of_source(path):
    """Returns the help that a program in C prints: its usage and what stands after that."""
    texts = dict(TEXT_OF_C.findall(path.read_text(encoding="utf-8")))
    return "".join(ast.literal_eval(f"({texts[it]})") for it in ("usage", "help") if it in texts)


def listed(block):
    """Returns the entries of a list, each with its own tag, and text as it is filled."""
    text = ""
    for line in block.splitlines():
        entry = ENTRY.match(line)
        text += f".TP\n.B {escaped(entry[1])}\n{escaped(entry[2] or '')}\n" if entry else f"{escaped(line)}\n"
    return text.replace("\n\n", "\n")


def sections_of(help_text):
    """Returns the sections of a help: its blocks by their headings."""
    sections = {}
    for block in re.split(r"\n\n+", help_text.strip("\n")):
        heading = HEADING.match(block)
        if re.match("usage:", block, re.I):
            forms = [re.sub(r"^([Uu]sage:| *or:)? *", "", it) for it in block.splitlines()]
            name, text = "SYNOPSIS", "".join(map(hanging, forms))
        elif heading:
            name, text = heading[1].upper(), listed(block[heading.end():].lstrip("\n"))
        else:
            name, text = "ARGUMENTS" if "OPTIONS" in sections else "DESCRIPTION", escaped(block) + "\n"
        sections[name] = f"{sections[name]}.PP\n{text}" if name in sections else text
    return sections


def page(name, about, help_text, more, stamp):
    """Returns the page of a program or command. What `more` has are further sections, as roff; `stamp` is the version, the
    seconds since 1970 and the licence."""
    version, seconds, licence = stamp
    day = datetime.datetime.fromtimestamp(seconds, datetime.timezone.utc).strftime("%B %Y")
    name = name.replace(" ", "-")
    sections = {"NAME": f"{escaped(name)} \\- {escaped(about)}\n", **more, **sections_of(help_text)}
    front = f'.\\" Made by tools/make-man. {licence}\n'
    front += f'.TH {name.upper()} 1 "{day}" "seccompiler {version}" "User Commands"\n.nh\n.ad l\n'
    return front + "".join(f".SH {it}\n{sections[it]}" for it in ORDER if it in sections)
