"""The prover of the kit, called over the libraries that `rt ci` or `rt lib` built: rt's own checks would build these
anew if `rt ci` did."""

import os
import pathlib
import subprocess
import sys

from results import TOP


def kit():
    """Returns the folder of the kit: the one that RATTLE_KIT names, or that of `rt`."""
    named = os.environ.get("RATTLE_KIT")
    return pathlib.Path(named or pathlib.Path(subprocess.check_output(["rt", "doc"], text=True).strip()).parent)


def crates_in(text):
    """Returns what a text of the form of crates.txt lists: of each crate whether it is a static library, and what it uses."""
    rows = [row.partition(":") for row in text.splitlines()]
    return {head.split()[0]: ("staticlib" in head.split(), uses.split()) for head, _, uses in rows}


def listed():
    """Returns what crates.txt lists."""
    return crates_in((TOP / "crates.txt").read_text(encoding="utf-8"))


def below(name, crates):
    """Returns the crates of this repository that a crate stands on."""
    found = {it for it in crates[name][1] if it in crates}
    return found.union(*(below(it, crates) for it in found))


def newer_source(file, name):
    """Returns a source of a crate, or of those that it stands on, that is newer than a file, if there is one; and the file if it
    isn't there."""
    if not file.exists():
        return file
    crates = (TOP / "crates" / it for it in (name, *below(name, listed())))
    sources = (it for crate in crates for part in ("src", "specs", "proofs") for it in (crate / part).rglob("*.*"))
    return next((it.relative_to(TOP) for it in sources if it.stat().st_mtime > file.stat().st_mtime), "")


def words(name):
    """Returns the words of a check or a build of a crate by one job: what it is, and where its libraries are."""
    crates, top = listed(), kit()
    (is_static, uses), others = crates[name], sorted(below(name, crates))
    built = {it: TOP / "crates" / it / "out/rlib" / f"{it}.rlib" for it in others}
    lacking = [it for it in others if not built[it].exists()]
    if lacking:
        sys.exit(f"crates/{lacking[0]} isn't built: `rt ci` builds all libraries, and `rt lib` there this one")
    root = "src/main.rt" if (TOP / "crates" / name / "src/main.rt").exists() else "src/lib.rt"
    found = ["--crate-name", name, root, "--links", f"{name}=", "--jobs", "1"]
    for it in ["std", *uses]:
        found += ["--extern", f"{it}={built.get(it, top / 'rlibs' / f'{it}.rlib')}"]
    for it in [top / "rlibs", *(built[it].parent for it in others)]:
        found += ["-L", f"dependency={it}"]
    found += ["--antt-project", str(top / "rattle/logic/antt-project.json"), "--logic-built", str(top / "logic_built")]
    return found + ["--crate-type", "staticlib"] * is_static


def run(command, name, more, folder):
    """Runs a command of the prover in a crate's folder, and returns how it ended and what it said."""
    ran = subprocess.run(
        [kit() / "bin/rattle", command, *words(name), *more], cwd=folder, check=False, stdin=subprocess.DEVNULL, stdout=subprocess.PIPE,
        stderr=subprocess.STDOUT, errors="replace",
    )
    return ran.returncode, ran.stdout
