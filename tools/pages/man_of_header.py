"""The manual page of the library for C, which is include/seccompiler.h in other clothes; for tools/make-man."""

import datetime
import re
import textwrap

from pages.man_of_help import escaped, hanging
from results import TOP

HEADER = TOP / "include/seccompiler.h"

# A comment with what stands after it up to an empty line or the next comment.
PART = re.compile(r"^/\*(.*?)\*/\n((?:(?!/\*|\n)[^\n]*\n)*)", re.M | re.S)
HEADING = re.compile(r"^([A-Z]+(?:,? [A-Z]+)*)$")
FUNCTION = re.compile(r"\b(seccompiler_\w+)\(")
DEFINE = re.compile(r"^#define (SECCOMPILER_\w+) (\S+)$", re.M)


def plain(comment):
    """Returns the lines of a comment without its marks."""
    return [re.sub(r"^ ?\* ?", "", it).rstrip() for it in comment.strip("\n").splitlines()]


def paragraphs(lines):
    """Returns the paragraphs of lines, each as its lines."""
    return [it.splitlines() for it in re.split(r"\n\n+", "\n".join(lines).strip("\n")) if it]


def verbatim(lines):
    """Returns lines that stay as they are."""
    return ".nf\n" + escaped("\n".join(lines)) + "\n.fi\n"


def running(lines):
    """Returns the paragraphs of lines as running text; one whose lines after the first are indented has it as tag."""
    text = ""
    for lines_of_one in paragraphs(lines):
        if len(lines_of_one) > 1 and all(it.startswith("    ") for it in lines_of_one[1:]):
            text += f".TP\n.I {escaped(lines_of_one[0])}\n"
            lines_of_one = lines_of_one[1:]
        else:
            text += ".PP\n"
        text += escaped("\n".join(it.strip() for it in lines_of_one)) + "\n"
    return text


def opening(comment):
    """Returns what the first comment of the header opens with, and its sections by their headings."""
    sections = {"": []}
    heading = ""
    for line in plain(comment):
        if HEADING.match(line):
            heading = line
            sections[heading] = []
        else:
            sections[heading].append(line)
    return sections.pop(""), sections


def declared(behind):
    """Returns the declaration after a comment, without what a header has besides."""
    return re.sub(r"^#(?:if|endif|include|ifdef).*\n|^extern.*\n|^}\n", "", behind, flags=re.M).rstrip("\n")


def parts():
    """Returns each comment of the header with what it stands in front of."""
    text = HEADER.read_text(encoding="utf-8")
    return [(comment.strip(" "), declared(behind)) for comment, behind in PART.findall(text)]


def defined(found, is_code):
    """Returns the constants that are codes, or the others, with their comments."""
    text = ""
    for comment, behind in found:
        names = [it for it in DEFINE.findall(behind) if it[1].startswith("(-") == is_code]
        if names:
            first, *others = (rf".B {name} {escaped(value.strip('()'))}" for name, value in names)
            text += "\n".join([".TP", first, *(f".TQ\n{it}" for it in others)]) + "\n"
            text += escaped(" ".join(it.strip() for it in plain(comment))).strip() + "\n"
    return text


def functions(found):
    """Returns the functions' names, their declarations, and what their comments say."""
    names, declarations, text = [], [], ""
    for comment, behind in found:
        name = FUNCTION.search(behind)
        if name and not behind.startswith("#"):
            names.append(name[1])
            declarations.append(" ".join(behind.split()))
            text += f".SS {name[1]}\n" + running(plain(comment)).removeprefix(".PP\n")
    return names, declarations, text


def structures(found):
    """Returns the structures with their comments."""
    text = ""
    for comment, behind in found:
        if behind.startswith("struct "):
            text += ".PP\n" + escaped(" ".join(it.strip() for it in plain(comment))).strip() + "\n"
            text += ".PP\n" + verbatim(f"{behind}\n".splitlines())
    return text


def page(version, seconds, licence):
    """Returns the page of this version, with its day in seconds since 1970."""
    _, (comment, _), *found = parts()
    first, sections = opening(comment)
    about = re.sub(r"^seccompiler: |\.$", "", first[0])
    names, declarations, text = functions(found)
    day = datetime.datetime.fromtimestamp(seconds, datetime.timezone.utc).strftime("%B %Y")
    return "".join([
        f'.\\" Made by tools/make-man of include/seccompiler.h. {licence}\n',
        f'.TH SECCOMPILER 3 "{day}" "seccompiler {version}" "Library Functions"\n.nh\n.ad l\n',
        f".SH NAME\n{', '.join(names)} \\- {escaped(about)}\n",
        ".SH SYNOPSIS\n", verbatim(["#include <seccompiler.h>"]), *(f".PP\n{hanging(it)}" for it in declarations),
        ".PP\n", escaped("cc program.c $(pkg-config --cflags --libs seccompiler)"), "\n",
        ".SH DESCRIPTION\n", running(first[1:]).removeprefix(".PP\n"), text, ".SH STRUCTURES\n", structures(found).removeprefix(".PP\n"),
        ".SH CONSTANTS\n", defined(found, False), ".SH ERRORS\n", defined(found, True),
        *(f".SH {heading}\n" + (verbatim(textwrap.dedent("\n".join(lines)).splitlines()) if heading == "EXAMPLE" else running(lines).removeprefix(".PP\n"))
          for heading, lines in sections.items()),
        ".SH SEE ALSO\n.BR seccomptool (1),\n.BR seccompc (1),\n.BR seccomp (2)\n",
    ])
