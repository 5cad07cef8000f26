"""Checks of the pages that need no built program, a part of tools/check-documents.

- Each link leads to a file or folder of the repository, and each anchor to a heading of its page. Addresses of
  other sites are not looked at.
- Each path in backticks that looks like one of the repository's is there. In it a part in capitals, as MODULE,
  stands for any name. A path may be given from the top, from the page's folder or from a crate's.
- The files of definitions that docs/PROMISES.md lists to be read are there, and promised: they stand in the first block
  of a Lib.antt. docs/DEFINITIONS.md names all promised ones.
- Pages use the terms of the table 'Words' of CONTRIBUTING.md, and none of those that its last column has. So does the
  documentation in the sources of DOCUMENTED, that of Rust and Rattle in its lines `///` and `//!`, outside examples.
- README.md has at most README_WORDS outside its blocks of code; README.md, CONTRIBUTING.md and the pages of docs/ together
  have at most PAGES_WORDS, blocks included; CHANGELOG.md has at most CHANGES_WORDS.
- docs/CHECKS.md has the codes of warnings in the order of crates/seccomp_warnings, in its table and as sections, and the
  first line of each section, without its marks, is what stands there; its lists of siblings, signed arguments, flags and
  calls that do the same are the tables of that crate.
- A line of proofs or definitions has at most 140 characters, in each crate.
"""

import fnmatch
import functools
import itertools
import os
import pathlib
import re

from cases.warning_tables import ADDRESSES, CODES, DETOURS, FLAGS, SIBLINGS, SIGNED
from results import TOP

LINE = 140
README_WORDS = 800
PAGES_WORDS = 30000
CHANGES_WORDS = 1500

LINK = re.compile(r"\[[^\]]*\]\(<?([^()\s>]+)>?\)|(?:src|srcset)=\"([^\"]+)\"")
CODE = re.compile(r"``.+?``|`[^`]+`")
# What looks like a path: words with slashes between them, or a file's name that ends as a source's does.
PATH = re.compile(r"[\w.*{},-]+(?:/[\w.*{},-]+)+/?|[\w-]+\.(?:antt|edit|py|rt)")
SOURCE = re.compile(r"\.(?:antt|bpf|c|edit|h|html|json|md|py|rs|rt|svg|toml|txt)$")
BUILT = re.compile(r"(^|/)(out|target)(/|$)")
PASSED_OVER = ("out", "target", "__pycache__")
# Paths of other places: a reader's own repository, the kernel's headers, the Rust crate.
ELSEWHERE = ("crates/app", ".vscode/", "linux/", "src/syscall_table/x86_64.rs")
# The sources whose documentation uses the terms of pages, and a line of it in Rust or Rattle.
DOCUMENTED = ("crates/*/src/**/*.rt", "examples/*/src/**/*.rs", "include/*.h", "rust/*/src/**/*.rs", "rust/*/tests/*.rs")
DOCUMENTS = re.compile(r"^ *//[/!] ?(.*)$")
EXIT_STATUS = re.compile(r"\bexit\sstatus(?:es)?\b", re.I)
PLACEHOLDER = re.compile(r"\b[A-Z][A-Z_]+\b(?!\.md)")


def files_below(folder):
    """Returns the files of a folder of the repository and below it, but for what is built or hidden."""
    found = []
    for place, folders, names in os.walk(folder):
        folders[:] = [it for it in folders if it not in PASSED_OVER and not it.startswith(".")]
        found += [pathlib.Path(place, it) for it in names]
    return sorted(found)


@functools.cache
def file_names():
    """Returns the names of the files of the repository."""
    return {it.name for it in files_below(TOP)}


def pages():
    """Returns the pages: those of the top, of docs/, and each README below."""
    below = (it for it in files_below(TOP) if it.name == "README.md")
    return sorted({*TOP.glob("*.md"), *TOP.glob("docs/*.md"), *below}, key=name_of)


def name_of(page):
    """Returns a page's path from the top."""
    return str(page.relative_to(TOP))


def lines_of(page):
    """Returns the lines of a page outside its blocks of code, each with its number."""
    lines, fenced = [], False
    for number, line in enumerate(page.read_text(encoding="utf-8").splitlines(), 1):
        if line.lstrip().startswith("```"):
            fenced = not fenced
        elif not fenced and not line.startswith("    "):
            lines.append((number, line))
    return lines


def anchors_of(page):
    """Returns the anchors of a page's headings, as GitHub makes them."""
    anchors = set()
    for _, line in lines_of(page):
        heading = re.match(r"#+ +(.*?) *#*$", line)
        if heading:
            text = re.sub(r"\[([^\]]*)\]\([^)]*\)", r"\1", heading[1]).lower()
            anchor = re.sub(r"[^\w\- ]", "", text.replace("`", "")).replace(" ", "-")
            again = (f"{anchor}-{k}" for k in itertools.count(1))
            anchors.add(anchor if anchor not in anchors else next(it for it in again if it not in anchors))
    return anchors


def is_link_right(page, target):
    """Returns whether a link of a page leads somewhere."""
    if re.match(r"[a-z]+:", target):
        return True
    path, _, anchor = target.partition("#")
    to = (page.parent / path).resolve() if path else page
    if not to.exists() or (to != TOP and TOP not in to.parents):
        return False
    return not anchor or (to.suffix == ".md" and anchor in anchors_of(to))


def compare_links(results):
    """Follows each link of each page."""
    for page in pages():
        for number, line in lines_of(page):
            for target in (it[0] or it[1] for it in LINK.findall(CODE.sub("", line))):
                what = f"{name_of(page)}:{number}: the link {target}"
                right = is_link_right(page, target)
                results.compare(what, ("leads somewhere",), ("leads somewhere" if right else "leads nowhere",))


def spelled_out(path):
    """Returns the paths that one with braces stands for."""
    braces = re.search(r"\{([^{}]*)\}", path)
    if not braces:
        return [path]
    return [it for part in braces[1].split(",") for it in spelled_out(path.replace(braces[0], part, 1))]


def looks_like_path(word):
    """Returns whether a word in backticks is meant as a path of the repository."""
    first = word.split("/")[0]
    if not PATH.fullmatch(word) or BUILT.search(word) or word.startswith(ELSEWHERE):
        return False
    return "/" not in word or bool(SOURCE.search(word)) or (first not in ("", "..") and (TOP / first).is_dir())


def is_there(page, path):
    """Returns whether there is a file or folder of this path, from the top, the page's folder or a crate's."""
    pattern = PLACEHOLDER.sub("*", path).rstrip("/")
    if "/" not in pattern:
        return bool(fnmatch.filter(file_names(), pattern))
    around = [TOP, page.parent, *TOP.glob("crates/*"), *TOP.glob("crates/*/src"), *TOP.glob("crates")]
    return any(next(folder.glob(pattern), None) for folder in around if not pattern.startswith(".."))


def compare_paths(results):
    """Looks up each path that stands in backticks."""
    for page in pages():
        for number, line in lines_of(page):
            words = [word for span in CODE.findall(line) for word in span.strip("`").split()]
            for path in [it for word in words if looks_like_path(word) for it in spelled_out(word)]:
                what = f"{name_of(page)}:{number}: the path {path}"
                results.compare(what, ("is there",), ("is there" if is_there(page, path) else "isn't there",))


def promised_definitions():
    """Returns the files of definitions that are promised: those that a Lib.antt lists above its second block."""
    texts = (path.read_text(encoding="utf-8") for path in TOP.glob("crates/*/specs/Lib.antt"))
    promised = (text.split("\n-- Between layers")[0] for text in texts)
    return {name for text in promised for name in re.findall(r"^pub mod (\w+)", text, re.M)}


def compare_definitions(results):
    """Looks up the definitions that docs/PROMISES.md lists to be read, and all of them in docs/DEFINITIONS.md."""
    page, promised = TOP / "docs/PROMISES.md", promised_definitions()
    named = set(re.findall(r"`([A-Z]\w+)`", (TOP / "docs/DEFINITIONS.md").read_text(encoding="utf-8")))
    results.compare("docs/DEFINITIONS.md lacks definitions", ([],), (sorted(promised - named),))
    rows = [cells_of(line) for _, line in section_of(page, "What to read to believe it")]
    listed = {name for row in rows if len(row) > 1 for name in re.findall(r"`([A-Z]\w+)`", row[1])}
    results.compare("docs/PROMISES.md lists definitions", (True,), (bool(listed),))
    results.compare("docs/PROMISES.md: definitions that aren't promised", ([],), (sorted(listed - promised),))


def section_of(page, heading):
    """Returns the lines of a section of a page, each with its number."""
    lines, inside = [], False
    for number, line in lines_of(page):
        if line.startswith("#"):
            inside = line.lstrip("# ") == heading
        elif inside:
            lines.append((number, line))
    return lines


def cells_of(line):
    """Returns the cells of a table's row, with links as they are read; none of another line."""
    if not line.startswith("|"):
        return []
    text = re.sub(r"\[([^\]]*)\]\([^)]*\)", r"\1", line.strip().strip("|"))
    return [it.strip().replace(r"\|", "|") for it in re.split(r"(?<!\\)\|", text)]


def unwanted_terms():
    """Returns the terms that pages don't use, by the last column of the table 'Words'."""
    rows = [cells_of(line) for _, line in section_of(TOP / "CONTRIBUTING.md", "Words")]
    return [term.strip() for row in rows[2:] if len(row) > 2 for term in row[2].split(",") if term.strip()]


@functools.cache
def unwanted():
    """Returns the expression of the terms that pages don't use, in which a line may end for a space."""
    terms = (r"[ \n]".join(map(re.escape, it.split())) for it in unwanted_terms())
    return re.compile(rf"\b(?:{'|'.join(terms)})\b", re.I)


def unwanted_in(lines):
    """Returns the terms of numbered lines that pages don't use, outside code, each with the number of its line."""
    texts = {number: LINK.sub("", CODE.sub("", line)) for number, line in lines}
    text = "\n".join(texts.get(number, "") for number in range(1, max(texts, default=0) + 1))
    text = EXIT_STATUS.sub(lambda it: re.sub(r"[^\n]", "", it[0]), text)
    found = [(text.count("\n", 0, it.start()) + 1, it[0].replace("\n", " ")) for it in unwanted().finditer(text)]
    return [f"{number}: {term}" for number, term in found]


def documentation_of(source):
    """Returns the numbered lines of a source's documentation outside its examples: all lines of a header for C."""
    lines, fenced = [], False
    for number, line in enumerate(source.read_text(encoding="utf-8").splitlines(), 1):
        documents = [line, line.strip(" */")] if source.suffix == ".h" else DOCUMENTS.match(line)
        if not documents:
            fenced = False
        elif documents[1].startswith("```"):
            fenced = not fenced
        elif not fenced:
            lines.append((number, documents[1].strip()))
    return lines


def compare_terms(results):
    """Looks for terms that pages don't use, outside code and the table itself."""
    table = section_of(TOP / "CONTRIBUTING.md", "Words")
    texts = {page: [it for it in lines_of(page) if it not in table] for page in pages()}
    for pattern in DOCUMENTED:
        sources = [it for it in sorted(TOP.glob(pattern)) if not BUILT.search(name_of(it))]
        results.compare(f"{pattern}: sources with documentation", (True,), (bool(sources),))
        texts.update((source, documentation_of(source)) for source in sources)
    for source, lines in texts.items():
        results.compare(f"{name_of(source)}: terms that pages don't use", ([],), (unwanted_in(lines),))


def compare_lengths(results):
    """Compares the lengths of the README, of the changelog, and of all pages for readers together."""
    readme = LINK.sub(lambda it: it[0].partition("](")[0], "\n".join(line for _, line in lines_of(TOP / "README.md")))
    counted = [TOP / "README.md", TOP / "CONTRIBUTING.md", *TOP.glob("docs/*.md")]
    for what, words, most in (
        ("README.md", len(re.findall(r"\S*\w\S*", re.sub(r"<[^>]*>", "", readme))), README_WORDS),
        ("CHANGELOG.md", len((TOP / "CHANGELOG.md").read_text(encoding="utf-8").split()), CHANGES_WORDS),
        ("the pages", sum(len(page.read_text(encoding="utf-8").split()) for page in counted), PAGES_WORDS),
    ):
        results.compare(f"{what}: at most {most} words", (True,), (words <= most or words,))


def plain(text):
    """Returns a line of a page without the marks of code and of links."""
    return re.sub(r"\[([^\]]*)\]\([^)]*\)", r"\1", text).replace("`", "")


def calls_in(text):
    """Returns the names of calls that a text has in backticks, in their order."""
    return re.findall(r"`(\w+)`", text)


def line_that(heading, begins):
    """Returns the line of a section of docs/CHECKS.md that begins so."""
    return next((line for _, line in section_of(TOP / "docs/CHECKS.md", heading) if line.startswith(begins)), "")


def listed_siblings():
    """Returns the calls by which what a call does can be done too, by the table of docs/CHECKS.md."""
    found = {}
    for _, line in section_of(TOP / "docs/CHECKS.md", "`sibling-allowed`"):
        cells = [calls_in(it) for it in line.split("|")[1:3]]
        for name in cells[0] if len(cells) == 2 else ():
            found.setdefault(name, set()).update(it for it in cells[1] if it != name)
    return found


def listed_signed():
    """Returns the calls that have a signed argument, by its index."""
    told = line_that("`signed-compared`", "These arguments")
    return {int(index): set(calls_in(calls)) for index, calls in re.findall(r"(\d) of ((?:`\w+`(?:, | and )?)+)", told)}


def listed_detours():
    """Returns the other calls by which what a condition denies can be done, by the call: `each other` are the first ones of the line, and
    `the last two` the last two of them."""
    found = {}
    for _, line in section_of(TOP / "docs/CHECKS.md", "`condition-evaded`"):
        calls, _, others = line.partition(": ") if line.startswith("- ") else ("", "", "")
        names = calls_in(re.sub(r", (?:`[A-Z_]+`|[a-z ]+)$", "", calls))
        more = names if "each other" in others else names[-2:] if "the last two" in others else []
        found.update((name, {it for it in (*more, *calls_in(others)) if it != name}) for name in names)
    return found


def stated_addresses():
    """Returns the calls of tools/cases/address_arguments by the index of an argument that is an address, as the prototypes of Linux 6.12 have
    it (include/linux/syscalls.h)."""
    lines = (TOP / "tools/cases/address_arguments").read_text(encoding="utf-8").splitlines()
    return {int(index): set(names) for index, *names in map(str.split, lines)}


def compare_tables(results):
    """Compares the tables of crates/seccomp_warnings with what docs/CHECKS.md lists, and those of addresses with the kernel's."""
    results.compare("crates/seccomp_warnings: the arguments that are addresses", (stated_addresses(),), (
        {index: set(names) for index, names in ADDRESSES.items()},))
    closing = set(calls_in(line_that("`flag-evades`", "The calls that open something")))
    others = {name: {other for call, _, _, other, _, _ in DETOURS if call == name} for name, *_ in DETOURS}
    for what, stated, listed in (
        ("siblings", {name: set(calls) for name, calls in SIBLINGS.items()}, listed_siblings()),
        ("signed arguments", {index: set(calls) for index, calls in SIGNED.items()}, listed_signed()),
        ("calls that take a flag to close on exec", {call for call, _, _, is_closing in FLAGS if is_closing}, closing),
        ("calls that do what a condition denies", others, listed_detours()),
    ):
        results.compare(f"docs/CHECKS.md: the {what}", (stated,), (listed,))
    flags = [row for row in FLAGS if not row[3]]
    told = line_that("`flag-evades`", "The filter denies a call")
    results.compare("docs/CHECKS.md: the calls of other flags", ([],), ([call for call, *_ in flags if f"`{call}`" not in told],))


def compare_codes(results):
    """Compares the sections of docs/CHECKS.md with what the codes are called and what is said of them."""
    page, source = TOP / "docs/CHECKS.md", (TOP / "crates/seccomp_warnings/src/code.rt").read_text(encoding="utf-8")
    order = [row["name"] for row in CODES]
    variants = re.findall(r"^    (\w+),$", source.partition("pub enum Code {")[2].partition("\n}\n")[0], re.M)
    results.compare("crates/seccomp_warnings: the codes in the order of their enum", ([f"Code::{it}" for it in variants],), (
        [row["code"] for row in CODES],))
    sections = re.findall(r"^### `([a-z0-9-]+)`$", page.read_text(encoding="utf-8"), re.M)
    rows = re.findall(r"^\| [a-z ]+ \| (\[`.*) \|$", page.read_text(encoding="utf-8"), re.M)
    table = re.findall(r"\[`([a-z0-9-]+)`\]\(#\1\)", "\n".join(rows))
    results.compare("docs/CHECKS.md: the sections of codes", order, sections)
    results.compare("docs/CHECKS.md: the table of codes", order, table)
    for row in CODES:
        first = next((plain(line) for _, line in section_of(page, f"`{row['name']}`") if line), "")
        results.compare(f"docs/CHECKS.md: how the section of {row['name']} begins", (row["paragraph"],), (first,))


def compare_proofs(results):
    """Compares the lengths of the lines of each crate's proofs and definitions."""
    for crate in sorted(TOP.glob("crates/*")):
        texts = {it: it.read_text(encoding="utf-8") for it in files_below(crate) if it.suffix == ".antt"}
        lines = [(path, number, line) for path, text in texts.items() for number, line in enumerate(text.splitlines(), 1)]
        long = [f"{path.relative_to(crate)}:{number}: {len(line)}" for path, number, line in lines if len(line) > LINE]
        results.compare(f"{name_of(crate)}: lines of proofs of more than {LINE} characters", ([],), (long,))


def compare_pages(results):
    """Makes all comparisons of this file."""
    compare_links(results)
    compare_paths(results)
    compare_definitions(results)
    compare_terms(results)
    compare_lengths(results)
    compare_codes(results)
    compare_tables(results)
    compare_proofs(results)
