"""What tools/try-jail runs under the programs that `seccomptool compile` makes of profiles.

The profiles are the example's and, if Debian's package golang-github-containers-common is installed, Podman's. A
jailer reads a profile's program from a file or, by --oci, asks seccomptool for it. Calls have arguments that the kernel rejects,
so none of them changes anything if the program lets it through.
"""

import pathlib
import re
import subprocess

from commands import ENVIRONMENT, SECONDS, run
from jail.cases import KILLED, answer_of, outcome_of
from jail.running import EXAMPLES, TOOL

EXAMPLE = EXAMPLES / "oci-profile.json"
PODMAN = pathlib.Path("/usr/share/containers/seccomp.json")
PACKAGE = "golang-github-containers-common"
PODMAN_LENGTH = 84

# Where the pages of a container's program expect it.
PROGRAM = "container.bpf"

SYS_ADMIN = ["--cap", "CAP_SYS_ADMIN"]

# Commands that go well under both profiles, whatever the container has, with what they print.
PASSING = [
    (["true"], ""), (["echo", "a line"], "a line\n"), (["cat", "numbers"], None), (["ls", "numbers"], "numbers\n"),
    (["sh", "-c", "for it in 1 2; do echo $it | cat; done; exit 0"], "1\n2\n"), (["sh", "-c", "mkdir made && rmdir made"], ""),
    (["sort", "-r", "numbers"], None),
]

# Calls under the example's filters: the arguments of `compile`, the call, and the errno that it gets, by the profile or,
# if that lets it through, by the kernel. KILLED is a call that kills; None one that is made, whatever it returns.
OF_EXAMPLE = [
    ([], "clone3", 38), ([], "bpf", 38), ([], "sched_rr_get_interval", 38), ([], str(0x40000000), KILLED), ([], "4000", 38),
    ([], "mount", 1), ([], "umount2", 1), ([], "setns -1", 1), ([], "unshare -1", 1), ([], "pivot_root", 1),
    (SYS_ADMIN, "unshare -1", 22), (SYS_ADMIN, "setns -1", 9), (SYS_ADMIN, "clone3", 38),
    ([], "clone 0x10000000", 38), ([], "clone 0x4000000", 38), ([], "clone 0x800", 22), (SYS_ADMIN, "clone 0x800", 22),
    ([], "personality 0xffffffff", None), ([], "personality 1", 38), ([], "personality 0x1ffffffff", 38),
    ([], "socket 40 1", 38), ([], "socket -1 1", 97), ([], "ptrace 0x4200 -1", 3), (["--kernel", "4.7"], "ptrace 0x4200 -1", 38),
    (["--kernel", "4.8"], "ptrace 0x4200 -1", 3), ([], "memfd_create", 14), ([], "close -1", 9),
    ([], "kexec_load", KILLED), ([], "kexec_file_load", KILLED), (SYS_ADMIN, "kexec_load", KILLED),
]

# What seccomptool notes of profiles: names that the architecture doesn't have, 32-bit programs, and flags.
NOTES = re.compile(
    r"\A(seccomptool: .*: \d+ names? that x86_64 has no call for (?:is|are) left out\n)?"
    r"(seccomptool: .*: calls of 32-bit programs \(.*\) are killed\n)?"
    r"(seccomptool: .*: flags to set when the program is installed \(\d+\): .*\n)?"
)

# Calls of Podman's profile that are for a capability, with arguments that the kernel rejects by another errno than EPERM,
# or for which it has other reasons too.
FOR_CAPABILITIES = ["sethostname 0 -1", "chroot 0", "open_by_handle_at -1", "fanotify_init -1"]


def compiled(results, folder, profile, words, name):
    """Compiles a profile into a file of the folder; returns the jailer's arguments of the program."""
    command = [TOOL, "compile", "--oci", *words, profile]
    made = subprocess.run(command, capture_output=True, timeout=SECONDS, env=ENVIRONMENT)
    told = NOTES.sub("", made.stderr.decode(), count=1)
    results.compare(f"compile --oci {' '.join(words)} {profile.name}", (0, ""), (made.returncode, told))
    (folder / name).write_bytes(made.stdout)
    return ["--program", name]


def asked(results, folder, profile, words, name):
    """Returns the arguments by which the jailer itself asks seccomptool for the program of a profile."""
    return ["--oci", *words, profile, "--"]


def ran(words, folder):
    """Runs a command, and returns what `run` does, without the notes of seccomptool."""
    out, err, status = run(words, folder)
    return out, NOTES.sub("", err, count=1) if "--oci" in words else err, status


def try_commands(results, what, jailed, folder):
    """Runs commands that go well."""
    for command, output in PASSING:
        wanted = (run(command, folder)[0] if output is None else output), "", 0
        results.compare(f"{what}: {' '.join(command)}", wanted, ran([*jailed, *command], folder))


def try_call(results, what, jailed, folder, call, wanted):
    """Makes a call, and compares its errno, or looks whether it kills or is made."""
    out, err, status = ran([*jailed, folder / "bin/call", *call.split()], folder)
    if wanted is None:
        results.compare(f"{what}: {call}", (False, "", 0), (out.startswith("errno"), err, status))
    else:
        results.compare(f"{what}: {call}", outcome_of(wanted), (out, err, status))


def try_example(results, jailer, folder, way, end):
    """Runs commands and calls under the example."""
    for words in ([], SYS_ADMIN):
        jailed = [*jailer.words, *way(results, folder, EXAMPLE, words, f"example{end}")]
        try_commands(results, f"{jailer} the example{end} {words}", jailed, folder)
    jailed = [*jailer.words, *way(results, folder, EXAMPLE, [], f"example{end}")]
    out, err, status = ran([*jailed, "unshare", "--user", "true"], folder)
    results.compare(f"{jailer} the example: unshare", ("", True, 1), (out, err.endswith("Operation not permitted\n"), status))
    for words, call, wanted in OF_EXAMPLE:
        jailed = [*jailer.words, *way(results, folder, EXAMPLE, words, f"example{end}")]
        try_call(results, f"{jailer} the example{end} {words}", jailed, folder, call, wanted)


def try_podman(results, jailer, folder, way, end):
    """Runs the same under Podman's profile, without capabilities and with all that it names."""
    text = PODMAN.read_text(encoding="utf-8")
    caps = sorted(set(re.findall(r'"(CAP_[A-Z_]+)"', text)))
    results.compare(f"{PODMAN} names capabilities", True, "CAP_SYS_ADMIN" in caps)
    for words in ([], [it for cap in caps for it in ("--cap", cap)]):
        jailed = [*jailer.words, *way(results, folder, PODMAN, words, f"podman{end}")]
        what = f"{jailer} {PODMAN.name} as {end} with {len(words) // 2} capabilities"
        try_commands(results, what, jailed, folder)
        try_call(results, what, jailed, folder, "kexec_load", 1)
        try_call(results, what, jailed, folder, "4000", 38)
        # An entry without conditions allows it before another denies it to a container without capabilities.
        try_call(results, what, jailed, folder, "setns -1", 9)
        try_call(results, what, jailed, folder, "personality 1", 38)
        for call in FOR_CAPABILITIES:
            # With the capabilities the kernel answers, as it does without a filter.
            wanted = run([folder / "bin/call", *call.split()], folder) if words else (answer_of(1), "", 0)
            results.compare(f"{what}: {call}", wanted, ran([*jailed, folder / "bin/call", *call.split()], folder))


def try_profiles(results, jailers, folder):
    """Runs commands and calls under the programs of profiles, which each jailer gets in both ways."""
    (folder / "bin/seccomptool").symlink_to(TOOL)
    compiled(results, folder, EXAMPLE, [], PROGRAM)
    if not PODMAN.exists():
        print(f"{PODMAN} of Debian's {PACKAGE} isn't there, so no command is run under it")
    else:
        compiled(results, folder, PODMAN, [], "podman.bpf")
        length = (folder / "podman.bpf").stat().st_size // 8
        results.tell(f"{PODMAN}: at most {PODMAN_LENGTH} instructions without capabilities", length <= PODMAN_LENGTH, (length,))
    for jailer in jailers:
        try_no_profiles(results, jailer, folder)
    for jailer, way, end in [(it, way, end) for it in jailers for way, end in ((compiled, ".bpf"), (asked, " by --oci"))]:
        try_example(results, jailer, folder, way, end)
        if PODMAN.exists():
            try_podman(results, jailer, folder, way, end)


# What is no profile, as seccomptool reports it: the options and the file, and what is reported after its name.
NO_PROFILES = [
    (["missing.json"], "missing.json: No such file or directory (os error 2)\n"), (["."], ".: Is a directory (os error 21)\n"),
    (["empty"], "empty: Error parsing Json: .."), (["--cap", "CAP_KILL", "empty"], "empty: Error parsing Json: .."),
]


def try_no_profiles(results, jailer, folder):
    """Gives a jailer files that are no profiles: nothing is run, and seccomptool says why."""
    for words, told in NO_PROFILES:
        out, err, status = run([*jailer.words, "--oci", *words, "--", "touch", "run"], folder)
        wanted = "seccomptool: " + told
        err = wanted if told.endswith("..") and err.startswith(wanted[:-2]) and err.count("\n") == 1 else err
        results.compare(f"{jailer} --oci {words}", ("", wanted, 125), (out, err, status))
    results.compare(f"{jailer}: what is no profile ran a command", False, (folder / "run").exists())
