#!/usr/bin/env -S python3 -B
"""Makes the pages of a package those of an installation: tools/packages/pages.py STAGE.

A link leads to where its file lies in the package, and is mere text if the package hasn't that file. Commands have no `./` in
front, since the programs are on PATH; they are run in the folder of `docs` and `examples`.
"""

import os
import pathlib
import re
import sys

TOP = pathlib.Path(__file__).resolve().parents[2]
DOC = "share/doc/seccompiler"
# Where what pages link to lies in a package, if not below DOC.
ELSEWHERE = {
    "include/": "include/", "docs/policy.schema.json": "share/seccompiler/policy.schema.json",
    "docs/answers.schema.json": "share/seccompiler/answers.schema.json",
    "rust/": "share/seccompiler/rust/", "examples/jail/jailed.service": f"{DOC}/examples/jailed.service",
}

LINK = re.compile(r"(?<!!)\[((?:[^\[\]`]|`[^`]*`)*)\]\(([^()\s]+)\)")
COMMAND = re.compile(r"(?<![\w/])\./(?=seccomp(?:tool|c)\b)")


def placed(path):
    """Returns where a file of the repository lies in a package."""
    for front, there in ELSEWHERE.items():
        if path.startswith(front):
            return there + path[len(front):]
    return f"{DOC}/{path}"


def linked(page, stage, found):
    """Returns a link of a page as it is in the package."""
    text, target = found[1], found[2]
    file, mark, anchor = target.partition("#")
    if "://" in target or not file:
        return found[0]
    there = placed(os.path.normpath(f"docs/{file}"))
    if not (stage / there).is_file():
        return text
    return f"[{text}]({os.path.relpath(stage / there, page.parent)}{mark}{anchor})"


def main():
    stage = pathlib.Path(sys.argv[1])
    for page in sorted((stage / DOC / "docs").glob("*.md")):
        text = COMMAND.sub("", page.read_text(encoding="utf-8"))
        page.write_text(LINK.sub(lambda found: linked(page, stage, found), text), encoding="utf-8")


main()
