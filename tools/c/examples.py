"""Writes the C examples of the pages and of the header into a folder, a file for each.

usage: tools/c/examples.py FOLDER

A page's example is a block of C, and the header's the part EXAMPLE of its first comment. A file's name tells
where its example stands.
"""

import pathlib
import re
import sys

from pages.console_blocks import blocks_of
from results import TOP

HEADER = TOP / "include/seccompiler.h"
EXAMPLE = re.compile(r"^ \* EXAMPLE\n(.*?)^ \* [A-Z]+", re.M | re.S)


def main():
    folder = pathlib.Path(sys.argv[1])
    for page in [TOP / "README.md", *sorted((TOP / "docs").glob("*.md"))]:
        for number, lines in blocks_of(page, "c"):
            (folder / f"{page.name}:{number}.c").write_text("\n".join([*lines, ""]))
    example = EXAMPLE.search(HEADER.read_text())[1]
    (folder / f"{HEADER.name}.c").write_text(re.sub(r"^ \* ?", "", example, flags=re.M))


main()
