"""The pages of the package where they are installed, and Debian's packages of the same files; parts of tools/check-package."""

import gzip
import os
import re
import shutil

from commands import ENVIRONMENT, VERSION, run, shell_of, symbols_of
from pages.console_blocks import blocks_of, compare_block, is_jailed
from pages.page_checks import anchors_of

DOC = "share/doc/seccompiler"
LINK = re.compile(r"\]\(([^()\s]+)\)")

# What a page's block begins with that needs a checkout or other programs.
ELSEWHERE = re.compile(r"^\$ (tools/|bench/|rt |cargo|git |\.ci/|examples/jail/build)", re.M)

# Where what Debian's packages have lies in the other.
MOVED = re.compile(r"(?<=^share/zsh/)vendor-completions(?=/)|(?<=^lib/)[a-z0-9_]+-linux-gnu/")
PLACES = {"vendor-completions": "site-functions"}
# What they have in another form, or alone.
OWN = re.compile(r"share/doc/[^/]*/(copyright|changelog\.gz|changelog\.Debian\.gz)$|share/lintian/")
LEFT_OUT = re.compile(r"share/doc/seccompiler/(CHANGELOG\.md|LICENSE-[A-Z0-9a-z-]*|NOTICE|licences/.*)$|README$|share/seccompiler/rust/.*/LICENSE")
# What says where files lie.
PLACING = ["lib/cmake/seccompiler/seccompiler-config.cmake", "lib/pkgconfig/seccompiler.pc", "share/doc/seccompiler/README"]
TOOLS = {"x86_64-linux-gnu": "", "aarch64-linux-gnu": "aarch64-linux-gnu-"}
DEBIAN = {"x86_64": "amd64", "aarch64": "arm64"}


def check_links(results, unpacked):
    """Follows each link of the pages to its file and heading."""
    pages = sorted((unpacked / DOC / "docs").glob("*.md"))
    for page in pages:
        for target in LINK.findall(page.read_text(encoding="utf-8")):
            path, _, anchor = target.partition("#")
            if "://" not in target:
                there = page if not path else page.parent / path
                is_right = there.exists() and (not anchor or anchor in anchors_of(there))
                results.compare(f"{page.name}: {target}", True, is_right)
    results.compare("pages with links", True, len(pages) > 9)


def check_commands(results, unpacked, folder, why):
    """Runs the pages' commands beside their folder, with the programs on the path, and compares what they print."""
    beside = folder / "beside"
    shutil.copytree(unpacked / DOC, beside)
    path = f"{unpacked / 'bin'}:{ENVIRONMENT['PATH']}"
    tried = 0
    for page in sorted((beside / "docs").glob("*.md")):
        for number, lines in blocks_of(page):
            if ELSEWHERE.search("\n".join(lines)) or (is_jailed(lines) and why is not None):
                continue
            tried += compare_block(results, f"{DOC}/docs/{page.name}:{number}", lines, shell_of(beside, path))
    results.compare("commands of pages", True, tried > 50)


def check_unit(results, unpacked, folder):
    """Lets systemd look at the example of a unit, with the jailer of the package."""
    text = (unpacked / DOC / "examples/jailed.service").read_text(encoding="utf-8")
    program = re.search(r"^ExecStart=.* (/usr/bin/\S+) ", text, re.M)
    found = shutil.which("systemd-analyze", path=ENVIRONMENT["PATH"])
    if found is None or not os.path.exists(program[1]):
        print(f"systemd-analyze or {program[1]} isn't installed, so the unit isn't looked at")
        return
    unit = folder / "jailed.service"
    unit.write_text(text.replace("/usr/bin/jail ", f"{unpacked}/bin/jail "), encoding="utf-8")
    results.compare("systemd-analyze verify", ("", "", 0), run(["systemd-analyze", "verify", unit], folder))


def files_below(top):
    """Returns each file's path below the folder, with its mode and bytes, or where it links to; a compressed page as it was before."""
    files = {}
    for path in sorted(top.rglob("*")):
        name, is_page = str(path.relative_to(top)), "share/man/" in str(path) and path.suffix == ".gz"
        if path.is_symlink():
            files[name] = os.readlink(path)
        elif path.is_file():
            content = path.read_bytes()
            files[name.removesuffix(".gz" * is_page)] = path.stat().st_mode & 0o7777, gzip.decompress(content) if is_page else content
    return files


def check_debian(results, unpacked, packages, folder, machine="x86_64"):
    """Unpacks Debian's packages into one folder, and compares its files with the package's; lets lintian look for errors and
    warnings."""
    if not packages:
        print("dpkg-deb isn't installed, so no packages of Debian's kind are made")
        return
    root = folder / "root"
    for package in packages:
        results.compare(f"dpkg-deb -x {package.name}", ("", "", 0), run(["dpkg-deb", "-x", package, root], folder))
        if shutil.which("lintian", path=ENVIRONMENT["PATH"]):
            words = ["lintian", "--allow-root", "--fail-on", "error,warning", "--tag-display-limit", "0", "-L", ">=warning", package]
            results.compare(f"lintian {package.name}", ("", "", 0), run(words, folder))
    below = files_below(root / "usr").items()
    found = {MOVED.sub(lambda it: PLACES.get(it[0], ""), it): content for it, content in below if not OWN.match(it)}
    wanted = {it: content for it, content in files_below(unpacked).items() if not LEFT_OUT.match(it)}
    results.compare("the files of Debian's packages", sorted(wanted), sorted(found))
    differing = sorted(it for it in wanted if wanted[it] != found.get(it))
    results.compare("files that differ there", PLACING, differing)
    names = [f"{it}_{VERSION}-1_{DEBIAN[machine]}.deb" for it in ("libseccompiler-dev", "libseccompiler1", "seccompiler-tools")]
    results.compare("Debian's packages", names, sorted(it.name for it in packages))
    check_installed_texts(results, root, folder, packages)


def check_installed_texts(results, root, folder, packages):
    """Looks at the texts of Debian's packages: each path that they name is there, and each function has its line of symbols."""
    texts = [*(root / "usr/share/doc").glob("*/copyright"), root / "usr/share/doc/seccompiler/README"]
    for text in texts:
        name, content = text.relative_to(root), text.read_text(encoding="utf-8")
        paths = set(re.findall(r"/usr/share/(?:doc/)?seccomp[\w./-]*\w", content))
        results.compare(f"{name}: paths", [], [it for it in paths if not (root / it[1:]).exists()])
        results.compare(f"{name}: relative paths", [], re.findall(r"(?<![\w/])(?:bin|share|include|lib)/\S*", content))
    (shared,) = (it for it in packages if it.name.startswith("libseccompiler1_"))
    run(["dpkg-deb", "-e", shared, folder / "control"], folder)
    lines = (folder / "control/symbols").read_text().splitlines()
    (library,) = (root / "usr/lib").glob("*/libseccompiler.so.1")
    wanted = sorted(it for it in symbols_of(library, "-D", "--defined-only", tools=TOOLS[library.parent.name]))
    results.compare("the symbols of libseccompiler1", wanted, [it.split("@")[0].strip() for it in lines if it.startswith(" seccompiler_")])
