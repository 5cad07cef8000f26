"""What the script `seccompc` does beside stand-ins for the program and for `rt`, and what a terminal gets of it."""

import tempfile

from pages import progress_checks
from running import TOP, run, text_of

# The script with a program that writes `ran` and its words and ends with status 7, and an `rt` that
# is told how to end: what is done before, the words, the status, standard output, and standard error.
# The crates are seccompiler and seccompc.
BUILDS = "seccompc: proving and building seccompiler seccompc\n"
UNBUILT = "seccompc: the program can't be built; the whole log is .."
# What rt prints as it proves a library in parts, and then the program; it prints lines at once only if Python is asked to.
PROVES = "rt: chose --jobs 2 for seccompiler\nso far: 0 of 2 functions checked; the verdict comes last\nchecked it, 1 of 2\n" \
    "so far: 2 of 2 functions checked\nlogic=proved\nrt: chose --jobs 1 for seccompc\n"
PROVING = f"printf '{PROVES}' > said; echo '[ -z \"$PYTHONUNBUFFERED\" ] || cat ../../said' > bin/rt;"
OF_LIBRARY, OF_PROGRAM = "seccompc: crate 1 of 2: proving seccompiler", "seccompc: crate 2 of 2: proving seccompc"
ONCE = "(PATH=$PWD/bin:$PATH ./seccompc list; rm bin/rt) > /dev/null 2>&1; "
TOLD = "tools/run-program --built seccompc; rm bin/rt; "
FAILS = "mkdir -p crates/seccompc/out/seccompc.checksums.new; "
SOURCE = "crates/seccompc/src/main.rt"
LIST, RAN, THERE_IS_NO_RT = "list x86_64", "ran list x86_64\n", BUILDS + ".."
SCRIPT_CASES = [
    ("not built before, and rt builds it", "", LIST, 7, RAN, BUILDS),
    ("built, and nothing has changed", ONCE, LIST, 7, RAN, ""),
    ("built, and each source looks newer", ONCE + f"touch -d 2101-01-01 crates.txt {SOURCE};", LIST, 7, RAN, ""),
    ("built, and another source that looks older",
     ONCE + f"echo more >> {SOURCE}; touch -d 2001-01-01 {SOURCE};", LIST, 3, "", THERE_IS_NO_RT),
    ("built, and a source of another name", ONCE + f"mv {SOURCE} crates/seccompc/src/other.rt;", LIST, 3, "", THERE_IS_NO_RT),
    ("built, and another source of a library", ONCE + "mkdir -p crates/seccompiler/proofs;"
     " echo more > crates/seccompiler/proofs/More.antt;", LIST, 3, "", THERE_IS_NO_RT),
    ("built, and another program", ONCE + "echo '# more' >> crates/seccompc/out/seccompc;", LIST, 3, "", THERE_IS_NO_RT),
    ("built by rt ci", TOLD, LIST, 7, RAN, ""),
    ("built by rt ci, and a source written since", f"touch -d 2101-01-01 {SOURCE}; " + TOLD, LIST, 3, "", THERE_IS_NO_RT),
    ("of other sources, asked for help", "rm bin/rt;", "--help", 7, "ran --help\n", ""),
    ("of other sources, asked for its version", "rm bin/rt;", "--version", 7, "ran --version\n", ""),
    ("of other sources, asked for its usage", "rm bin/rt;", "", 7, "ran\n", ""),
    ("of other sources, with a command's words", "rm bin/rt;", "list --help", 3, "", THERE_IS_NO_RT),
    ("not built before, and no checksums can be kept", FAILS, LIST, 7, RAN, BUILDS),
    ("not built before, and rt fails", "echo 'echo why; exit 1' > bin/rt;", LIST, 3, "", BUILDS + "why\n" + UNBUILT),
    ("not built before, and rt fails behind many lines", "echo 'seq 100; exit 1' > bin/rt;", LIST, 3, "",
     BUILDS + "".join(f"{it}\n" for it in range(81, 101)) + UNBUILT),
    ("not built before, and rt says how far it is", PROVING, LIST, 7, RAN,
     BUILDS + f"{OF_LIBRARY}\n{OF_PROGRAM}\n"),
    ("missing, asked for help", "rm crates/seccompc/out/seccompc bin/rt;", "--help", 3, "", THERE_IS_NO_RT),
    ("missing, and rt builds none", "rm crates/seccompc/out/seccompc;", LIST, 3, "", BUILDS + UNBUILT),
    ("without what it runs", "rm tools/run-program;", LIST, 3, "", ".."),
    ("without sources that can be listed", ONCE + "rm crates.txt;", LIST, 3, "", "seccompc: proving and building\n.."),
]

# What a terminal gets of the script if rt proves a library in parts: a line, and one that is written anew.
ON_TERMINAL = BUILDS.replace("\n", "\r\n") + "".join(
    f"\r{it:72}" for it in (OF_LIBRARY, OF_LIBRARY + ", 0 of 2 functions", OF_LIBRARY + ", 2 of 2 functions", OF_PROGRAM, "")) + "\r"


def fill_for_script(room, before):
    """Gives a folder the script, with stand-ins for the program and for `rt`; returns how that and what is to come before
    ended."""
    return run(
        "mkdir -p bin tools crates/seccompc/src crates/seccompc/out &&"
        f" cp {TOP}/seccompc . && cp {TOP}/tools/run-program tools &&"
        " printf 'seccompiler: serde_json\nseccompc: seccompiler itoa\n' > crates.txt &&"
        " touch crates/seccompc/src/main.rt && echo '#!/bin/sh\nexit 0' > bin/rt &&"
        " echo '#!/bin/sh\necho ran $*; exit 7' > crates/seccompc/out/seccompc &&"
        f" chmod +x bin/rt crates/seccompc/out/seccompc; {before}",
        room,
    )


def compare_script(results, folder):
    """Runs the script beside stand-ins for the program and for `rt`."""
    for name, before, words, status, output, errors in SCRIPT_CASES:
        with tempfile.TemporaryDirectory(dir=folder) as room:
            made = fill_for_script(room, before)
            given = run(f"PATH=$PWD/bin:/usr/bin:/bin ./seccompc {words}", room)
            results.compare(f"the script, {name}", (0, "", "", status), (*made, given[0]))
            results.compare(f"the script, {name}", (status, output, errors), given)
    with tempfile.TemporaryDirectory(dir=folder) as room:
        made = fill_for_script(room, PROVING)
        words = [f"PATH={room}/bin:/usr/bin:/bin", "./seccompc", *LIST.split()]
        status, output, shown = progress_checks.on_terminal("env", room, words)
        results.compare("the script, on a terminal", (0, "", ""), made)
        results.compare("the script, on a terminal", (7, RAN, ON_TERMINAL), (status, output, text_of(shown)))
