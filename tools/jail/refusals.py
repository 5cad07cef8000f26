"""What the jailers refuse before they install anything; a part of tools/try-jail and tools/check-package."""

import platform

from commands import run
from jail.cases import REFUSED

FORMS = [
    "[OPTION].. POLICY FILTER[,FILTER].. [--] COMMAND [ARGUMENT]..", "[OPTION].. POLICY -- COMMAND [ARGUMENT]..",
    "[OPTION].. --program PROGRAM [--] COMMAND [ARGUMENT]..",
    "[OPTION].. --oci [--cap CAP].. [--kernel KERNEL] [--runtime RUNTIME] PROFILE [--] COMMAND [ARGUMENT]..",
]
# Arguments that ask for nothing.
WRONG_WORDS = [
    [], ["actions.json"], ["actions.json", "log"], ["actions.json", "log", "--"], ["actions.json", "--"], ["--strict", "a", "true"],
    ["--program"], ["--program", "zero"], ["--oci"], ["--oci", "zero"], ["--oci", "zero", "--"], ["--oci", "--cap"],
    ["--oci", "--cap", "CAP_KILL", "zero"], ["--oci", "--kernel", "6.1", "zero", "--"], ["--oci", "--runtime", "runc", "zero"],
]


def try_refusals(results, jailer, folder, machine=platform.machine()):
    """Runs what installs nothing: the command would write a file."""
    usage = "".join(f"{front} {jailer.name} {form}\n" for front, form in zip(["usage:", *["      "] * 3], FORMS))
    if "--tree" not in jailer.words:
        out, err, status = run([*jailer.words, "--help"], folder)
        results.compare(f"{jailer} --help", (True, "", 0), (out.startswith(usage + "\n"), err, status))
    for words in WRONG_WORDS:
        results.compare(f"{jailer} {words}", ("", usage, 125), run([*jailer.words, *words], folder))
    for policy, name, why in REFUSED:
        if isinstance(why, str):
            is_tree = "--tree" in jailer.words
            why = why.format(4097 if is_tree else 10130, arch=machine)
            # A tree that is too large has no length. The error of the package for cargo has a number all the same.
            if is_tree and jailer.name == "jail":
                why = why.replace("instructions: 4097.", "instructions as a tree.")
        out, err, status = run([*jailer.words, policy, name, "touch", "run"], folder)
        wanted = jailer.told(policy, why)
        if wanted.endswith("..\n") and err.startswith(wanted[:-3]) and err.count("\n") == 1:
            err = wanted
        results.compare(f"{jailer} {policy} {name}", ("", wanted, 125), (out, err, status))
    results.compare(f"{jailer}: a refused policy ran its command", False, (folder / "run").exists())
