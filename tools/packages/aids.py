"""What the jailer is hardened by, the headers' licence, the manual pages and the completions of the package; a part of
tools/check-package."""

import re

from commands import TOP, is_there, run, symbols_of, told

# Completes a program's first word in bash.
ASKED = """
source "share/bash-completion/completions/$1" && COMP_WORDS=("bin/$1" "") && COMP_CWORD=1 && "_$1"
echo "${COMPREPLY[@]}"
"""


def check_hardening(results, path, tools=""):
    """Looks at what a program is hardened by, as `readelf` and `nm` have it. A shadow stack is of x86_64 alone."""
    text = "\n".join(told([f"{tools}readelf", "-hldW", path]))
    symbols = symbols_of(path, "-D", "--undefined-only", tools=tools)
    flags = re.search(r"\(FLAGS_1\)(.*)$", text, re.M)
    marks = {
        "loaded at any address": re.search(r"^ *Type: +DYN ", text, re.M) and flags and "PIE" in flags[1],
        "bound before it starts": flags and "NOW" in flags[1], "relocations read-only": "GNU_RELRO" in text,
        "a guarded stack": "__stack_chk_fail" in symbols, "checked functions": any(it.endswith("_chk") for it in symbols),
        "a shadow stack": tools or "SHSTK" in "\n".join(told(["readelf", "-nW", path])),
    }
    results.compare(f"{path.name} isn't hardened by", [], [what for what, holds in marks.items() if not holds])


def check_pages(results, unpacked):
    """Lets man find each manual page, and format it without a warning."""
    if not is_there("no manual page is formatted", "man"):
        return
    top = unpacked / "share/man"
    for page in sorted(top.glob("*/*")):
        part = page.suffix[1:]
        out, err, status = run(["man", "--warnings", "-M", top, part, page.stem], unpacked, MANWIDTH="80")
        found = f"{page.stem.upper()}({part})" in out, err, status
        results.compare(f"man {part} {page.stem}", (True, "", 0), found)
        results.compare(f"man {part} {page.stem}: wide lines", [], [it for it in out.splitlines() if len(it) > 80])
        results.compare(f"man {part} {page.stem}: no word is hyphenated", True, "\n.nh\n" in page.read_text())


def check_aids(results, unpacked):
    """Looks at the headers' licence, and tries the manual pages and the completions."""
    licence = re.search(r"^SPDX-License-Identifier: .*$", (TOP / "NOTICE").read_text(), re.M)[0]
    for header in sorted((unpacked / "include").iterdir()):
        results.compare(f"{header.name}: the licence", f"/* {licence} */", header.read_text().splitlines()[0])
    check_pages(results, unpacked)
    for program, command in (("seccomptool", "compile"), ("seccompc", "probe"), ("jail", "share")):
        out, err, status = run(["bash", "--norc", "-c", ASKED, "bash", program], unpacked)
        results.compare(f"completions of {program}", (True, "", 0), (command in out.split(), err, status))
