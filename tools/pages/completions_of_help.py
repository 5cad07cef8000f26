"""The completions of a program for bash, zsh and fish: the rows of its help, and the parts of tools/pages/completions.sh and
tools/pages/completions.fish that go over them; for tools/make-man."""

import re

from model import ARCHITECTURES
from results import TOP

# An option of a help: its short form, what it takes, what is said of it, and the values that are listed.
OPTION = re.compile(r"^ +(?:(-\w), )?(--[a-z][a-z-]*)(?: <([A-Z]+)[^>]*>)?((?: .*?)?)(?: \[possible values: ([^]]*)\])?$", re.M)

# What is completed for an argument or a value, by its name in a help; for others nothing is. And by its name in the usage of seccompc.
FILES = ("FILE", "NEW", "OLD", "POLICY", "PROFILE", "PROGRAM", "SUBJECT", "TRACE")
TAKES = {**{it: "<files>" for it in FILES}, "FILTER": "<filters>", "CALL": "<calls>", "COMMAND": "<command>"}
OF_USAGE = {**TAKES, "NAME": "<filters>", "ARCH": " ".join(ARCHITECTURES)}

# The file of each shell's completions and what stands above them, how it finds a program, and the last part.
SHELLS = {
    "bash": ("{0}.bash", "# Completions of {0} for bash: source this file, or install it as share/bash-completion/completions/{0}.\n", "type -P"),
    "zsh": ("_{0}", "#compdef {0}\n# Completions of {0} for zsh: install it as _{0} in a folder of $fpath that comes before zsh's own.\n", "whence -p"),
    "fish": ("{0}.fish", "# Completions of {0} for fish: install it in a folder of $fish_complete_path.\n", ""),
}


def commands_of(text):
    """Returns the commands that a help lists, each with what is said of it."""
    listed = re.search(r"^Commands:\n((?:  .*\n)+)", text, re.M)
    return re.findall(r"^  ([a-z]+) +(.*)", listed[1] if listed else "", re.M)


def arguments_of(command, text):
    """Returns the arguments of a command, by its help: how each is named, and whether it may come again."""
    usage = re.search(rf"^Usage: \w+ {command}(?: \[OPTIONS\])?(.*)$", text, re.M)
    return [(kind, bool(again)) for kind, again in re.findall(r"([A-Z]+)[>\]](\.\.\.)?", usage[1] if usage else "")]


def taken_by(kind, text, values=""):
    """Returns what is completed for an argument or a value of this name, with - if the help says that it is standard input."""
    is_input = re.search(rf"^ +[<\[]{kind}[>\]].* - for standard input", text, re.M)
    return values.replace(", ", " ") or TAKES.get(kind, "<>") + " -" * bool(is_input)


def rows_of_tool(helps):
    """Returns the rows of a program by the helps of its commands, of which the one of no command is its own."""
    listed = commands_of(helps[""])
    rows = [("", name, f"={name}", said) for name, said in listed] + [("help", "#1", " ".join(name for name, _ in listed), "")]
    for command, text in helps.items():
        rows += [(command, form, taken_by(kind, text, values) if kind else "", said.strip())
                 for short, option, kind, said, values in OPTION.findall(text) for form in (short, option) if form]
        rows += [(command, "#+" if again else f"#{place}", taken_by(kind, text), "")
                 for place, (kind, again) in enumerate(arguments_of(command, text) if command else [], 1)]
    return rows


def rows_of_usage(usage):
    """Returns the rows of a program whose usage has a form for each command."""
    forms = [it.split() for it in usage.strip().partition(" seccompc ")[2].split(" | ")]
    return [row for command, *kinds in forms for row in (
        ("", command, f"={command}", ""), *((command, f"#{place}", OF_USAGE.get(kind, "<>"), "") for place, kind in enumerate(kinds, 1)))]


def rows_of_jailer(text):
    """Returns the rows of the jailer, by its help: an option of a form stands for another command. The form of the only filter has none."""
    rows = [("", option, "", said.strip()) for _, option, _, said, _ in OPTION.findall(text)]
    for form in re.findall(r"jail \[OPTION\]\.\. (.*) \[--\] COMMAND", text):
        command, *_ = re.findall(r"(?<!\[)--\w+", form) or [""]
        kinds = [*re.findall(r"(?:^| )([A-Z]+)(?!\])\b", re.sub(r"\[.*?\]", "", form)), "COMMAND"]
        rows += [("", command, f"={command}", "")] * bool(command) + [(command, "--", f"#{len(kinds)}", "")]
        rows += [(command, option, TAKES.get(kind, "<>"), "") for option, kind in re.findall(r"\[(--\w+) ([A-Z]+)\]", form)]
        rows += [(command, f"#{place}", TAKES[kind], "") for place, kind in enumerate(kinds, 1)]
    return rows


def parts_of(file):
    """Returns the parts of a file beside this one, by their names."""
    text = (TOP / "tools/pages" / file).read_text(encoding="utf-8")
    named = re.split(r"^#\[(\w+)\]\n", text, flags=re.M)[1:]
    return dict(zip(named[::2], named[1::2]))


def completions(name, rows, licence):
    """Returns the completions of a program with these rows, by their files' names."""
    found = {}
    for shell, (file, head, which) in SHELLS.items():
        parts, lines = parts_of("completions.fish" if shell == "fish" else "completions.sh"), ["|".join(it) for it in rows]
        if shell == "fish":
            shown = " \\\n    ".join("'{}'".format(it.replace("\\", r"\\").replace("'", r"\'")) for it in lines)
        else:
            shown = "\n".join(it.replace("'", r"'\''") for it in lines)
        text = head.format(name) + f"# Made by tools/make-man. {licence}\n\n" + parts["walk"] + parts[name] + parts[shell]
        found[file.format(name)] = text.replace("WHICH", which).replace("NAME", name).replace("ROWS", shown)
    return found
