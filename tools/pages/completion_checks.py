"""Checks of the completions, a part of tools/check-documents. It needs the built programs, and bash; zsh and fish are asked
if they are installed.

Each shell is asked itself, by the file of completions/ that it takes, for each row that tools/make-man makes of the programs' help. What is
wanted comes from these, from the files of the folder, from tools/call_names, and of filters from the policy on the line:

- the commands and options are exactly those of the rows, and so are values; nothing is completed for any other argument;
- what the names of filters hold isn't run by the shell;
- behind the jailer's own words the command is completed as any command is. zsh takes its completions, and not its own for the jail of
  FreeBSD;
- the scripts at the top of the repository, which would build the programs, aren't run.
"""

import concurrent.futures
import json
import os
import pathlib
import re
import shutil
import subprocess
import tempfile

from model import numbers_on
from pages.completions_of_help import commands_of, rows_of_tool, rows_of_usage
from results import TOP

NAMES = ("seccomptool", "seccompc")
SECONDS = 60

# How each shell is asked what it completes for the last of the words behind a file of completions and the program, and the file. In bash the
# mark of --option=value is a word of its own, zsh's function calls others, and fish is given a line.
SHELLS = {
    "bash": (["bash", "--norc", "-c", """source "$1"; name=${2#./}; shift; COMP_WORDS=("$@"); COMP_CWORD=$(($# - 1)); "_$name"
             [ ${#COMPREPLY[@]} = 0 ] || printf '%s\\n' "${COMPREPLY[@]}" """, "bash"], "{}.bash"),
    "zsh": (["zsh", "-f", "-c", """_describe() { print -l -- ${(P)2%%:*} }; compadd() { shift; print -l -- $@ }; _files() { print -l -- * }
            _normal() { print -l -- "$CURRENT of $words" }; compset() { true }
            file=$1; shift; words=("$@"); CURRENT=$#; source $file""", "zsh"], "_{}"),
    "fish": (["fish", "-N", "-c", """source $argv[1]; complete -C"$(string join ' ' -- $argv[2..])" | string replace -r '\\t.*' ''"""], "{}.fish"),
}
# What zsh would complete jail by, after it has looked for completions in these folders.
TAKEN_BY_ZSH = """fpath=($1 $fpath); autoload -Uz compinit; compinit -D -u; autoload +X $_comps[jail]
print -- $functions_source[$_comps[jail]]"""

# What stands on a line in front of the place of an argument.
GIVEN = {"seccomptool": ["given"] * 3, "seccompc": ["x86_64", "policy.json", "given"]}

# A filter's name that does something if a shell expands it, and one that is quoted.
FILTERS = ("$(touch made)", "a b", "main")
ENTRIES = {"mismatch_action": "log", "match_action": "allow", "filter": []}


def split(word):
    """Returns the words that bash makes of one."""
    front, mark, value = word.partition("=") if word.startswith("--") else (word, "", "")
    return [front, *[mark] * bool(mark), *[value] * bool(value)]


def completed(shell, folder, program, words):
    """Returns what a shell completes for the last of these words after the program, in order, and what it says besides."""
    command, file = SHELLS[shell]
    asked = [it for word in words for it in split(word)] if shell == "bash" else words
    command = [*command, TOP / "completions" / file.format(program), f"./{program}", *asked]
    ran = subprocess.run(command, cwd=folder, capture_output=True, text=True, timeout=SECONDS, env={**os.environ, "HOME": str(folder)})
    front, mark, begun = words[-1].rpartition("=") if words[-1].startswith("--") else ("", "", words[-1])
    # zsh and fish look themselves at how the word begins, and fish gives the front of --option=value again.
    lines = (it.removeprefix(front + mark) for it in ran.stdout.splitlines())
    return sorted(it for it in lines if shell == "bash" or it.startswith(begun)) + ran.stderr.splitlines()


def quoted(name):
    """Returns a name as bash quotes it by `printf %q`."""
    return subprocess.run(["bash", "-c", 'printf %q "$1"', "bash", name], capture_output=True, text=True).stdout


def printed(folder, command, stream="stdout"):
    """Returns what a command prints."""
    ran = subprocess.run(["sh", "-c", command], cwd=folder, capture_output=True, text=True, timeout=SECONDS)
    return getattr(ran, stream)


def rows_of(folder):
    """Returns the rows of both programs by their help, as their completions have them: tools/make-man compares those."""
    whole = printed(folder, "./seccomptool --help")
    helps = {it: printed(folder, f"./seccomptool help {it}") for it, _ in commands_of(whole) if it != "help"}
    return {"seccomptool": rows_of_tool({"": whole, **helps}), "seccompc": rows_of_usage(printed(folder, "./seccompc", "stderr"))}


def wanted_for(takes, files, arch="x86_64"):
    """Returns what is completed by what a row takes."""
    kinds = {"<files>": files, "<filters>": FILTERS, "<calls>": [*numbers_on(arch)], "<>": []}
    return [it for word in takes.split() for it in kinds.get(word, [word])]


def asked_of(program, command, own, files):
    """Returns words of a command of a program, or of none, and what is completed for the last of them; by the names of its rows and what
    they take."""
    front, options = [command] * bool(command), [it for it in own if it.startswith("-")]
    inputs = ["-"] * ("-" in own.get("#1", own.get("#+", "")).split())
    places = [int(it[1:]) for it in own if re.match(r"#\d", it)]
    asked = [([*front, "-"], [*options, *inputs]), ([*front, "--"], [it for it in options if it.startswith("--")])]
    asked += [([*front, ""], [it for it in own if own[it].startswith("=")])] * (not command)
    for name, takes in own.items():
        if name.startswith("#"):
            before = GIVEN[program][:(max(places, default=0) if name == "#+" else int(name[1:]) - 1)]
            asked += [([*front, *more, *before, ""], wanted_for(takes, files, arch)) for arch, more in
                      (("x86_64", []), ("aarch64", ["-a", "arm64"]), ("aarch64", ["--arch=arm64"])) if not more or "-a" in own]
        elif name in options and takes:
            asked.append(([*front, *["policy.json"] * (takes == "<filters>"), name, ""], wanted_for(takes, files)))
            asked += [([*front, f"{name}={it[:2]}"], [other for other in takes.split() if other.startswith(it[:2])])
                      for it in takes.split() if name.startswith("--") and "<" not in takes]
    return asked + [([*front, *GIVEN[program][:len(places)], ""], [])] * ("#+" not in own and bool(places))


def compare_architectures(results, folder):
    """Compares that seccompc takes the architectures that are completed."""
    names = completed("bash", folder, "seccompc", ["run", ""])
    statuses = {printed(folder, f"printf '{{}}' | ./seccompc list {it} 2>&1; echo $?") for it in names}
    results.compare("seccompc: architectures", (3, {"0\n"}), (len(names), statuses))


def asked_of_jailer(files):
    """Returns such words of the jailer, which is linked with nothing here: options are those of its help."""
    options = re.findall(r'^    "  (--[a-z-]+) +', (TOP / "examples/jail/jail.c").read_text(), re.M)
    named = [it for it in FILTERS if "$" not in it]
    return [
        ([""], files), (["--tree", "--log", ""], files), (["-"], [*options, "--program", "--oci"]), (["--program", ""], files), (["--oci", ""], files),
        (["--oci", "-"], ["--cap", "--kernel", "--runtime"]), (["--oci", "--cap", ""], []), (["--oci", "--kernel", "6.1", ""], files),
        (["--oci", "--runtime", "runc", ""], files), (["two.json", ""], named), (["two.json", "main,"], [f"main,{it}" for it in named]),
        (["--", "two.json", ""], named),
    ]


def compare_rows(results, folder, rows):
    """Asks each shell the words of each program, as many at a time as there are processors: none changes a file."""
    files = [it.name for it in folder.iterdir()]
    asked = [(shell, program, *row) for shell in SHELLS if shutil.which(shell) for program, those in rows.items() for row in those]
    with concurrent.futures.ThreadPoolExecutor(len(os.sched_getaffinity(0))) as pool:
        given = pool.map(lambda it: completed(it[0], folder, *it[1:3]), asked)
        for (shell, program, words, wanted), found in zip(asked, given):
            # Bash itself quotes the names of files.
            stated = sorted(quoted(it) if shell == "bash" and it not in files else it for it in wanted)
            results.compare(f"{shell}: {program} {words}", (stated,), (found,))


def compare_behind(results, folder):
    """Completes the command behind the jailer's own words."""
    for front in (["two.json", "main"], ["two.json", "main", "--"], ["two.json", "--"], ["--program", "given"], ["--log", "--oci", "given", "--"]):
        for shell in (it for it in SHELLS if shutil.which(it)):
            words, wanted = ([*front, "cat", ""], ["2 of cat "]) if shell == "zsh" else ([*front, "readl"], ["readlink"])
            given = completed(shell, folder, "jail", words)
            results.compare(f"{shell}: jail {front}: a command", ({*wanted},), ({*given} & {*wanted},))
    if shutil.which("zsh"):
        given = subprocess.run(["zsh", "-f", "-c", TAKEN_BY_ZSH, "zsh", TOP / "completions"], capture_output=True, text=True, check=False)
        results.compare("zsh: jail is completed by", (f"{TOP}/completions/_jail\n",), (given.stdout,))


def compare_scripts(results, folder):
    """Completes beside scripts in the programs' place: they aren't run."""
    for name in NAMES:
        (folder / name).unlink()
        (folder / name).write_text("#!/bin/sh\ntouch ran\n")
        (folder / name).chmod(0o755)
    for shell in (it for it in SHELLS if shutil.which(it)):
        given = [completed(shell, folder, *it) for it in (
            ("seccomptool", ["call", ""]), ("seccomptool", ["show", "policy.json", "-f", ""]), ("seccompc", ["run", "x86_64", "policy.json", ""]))]
        results.compare(f"{shell}: the scripts at the top", ([[]] * 3, False), ([[it for it in those if it] for those in given], (folder / "ran").exists()))


def compare_completions(results, programs):
    """Makes all comparisons of this file, of the programs with these paths."""
    for shell in (it for it in SHELLS if shutil.which(it) is None):
        print(f"{shell} isn't installed, so it completes nothing")
    with tempfile.TemporaryDirectory(prefix="completions-") as room:
        folder = pathlib.Path(room)
        for name in (*NAMES, "jail"):
            (folder / name).symlink_to(programs.get(name, "/bin/true"))
        for name, filters in (("given", None), ("a file", None), ("policy.json", FILTERS), ("two.json", FILTERS[1:])):
            (folder / name).write_text(json.dumps({it: ENTRIES for it in filters}) if filters else "")
        files = [it.name for it in folder.iterdir()]
        asked = {"jail": asked_of_jailer(files)}
        for program, rows in rows_of(folder).items():
            commands = {of: {name: takes for command, name, takes, _ in rows if command == of} for of, *_ in rows}
            asked[program] = [it for command, own in commands.items() for it in asked_of(program, command, own, files)]
        compare_rows(results, folder, asked)
        compare_architectures(results, folder)
        compare_behind(results, folder)
        results.compare("a filter's name is run by the shell", (False,), ((folder / "made").exists(),))
        compare_scripts(results, folder)
