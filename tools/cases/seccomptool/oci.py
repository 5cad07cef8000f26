"""What `explain`, `diff` and `compile` have to do of profiles as they are: decisions, and the entries that they are of.

What a profile decides is worked out here from its text, by the rules that profiles.py names, and compared with
the rows of profiles.py and with what the built program answers. Records are made by their layout (linux/seccomp.h).
"""

import json
import re

from cases.forms import CLOSED, EMPTY, FOLDER, FULL, INPUT, LOGS, MISSING, NO_OBJECT, OUTPUT, RESET, TOOL, Case, Command, Failing, named, rejects, writes
from cases.seccompc.commands import FRONTEND
from model import ARCHITECTURES, OPERATORS, called, record_of

from .compiled_profiles import FITTING, PARSING, TOO_LONG, entry, profile, when
from .profiles import PROFILES, STRICTEST_FIRST, numbers_of

# The actions of profiles by their names in a policy; those of the first two have a number.
ACTIONS = {"ERRNO": "errno", "TRACE": "trace", "KILL": "kill_thread", "KILL_THREAD": "kill_thread", "KILL_PROCESS": "kill_process",
           "LOG": "log", "ALLOW": "allow", "TRAP": "trap", "NOTIFY": "user_notif"}
GO_NAMES = {"x86_64": "amd64", "aarch64": "arm64", "riscv64": "riscv64"}
X32 = 0x40000000  # the first number of x32


def action_of(name, number):
    """Returns an action of a profile by its name in a policy, with its number if it has one."""
    text = ACTIONS[name[len("SCMP_ACT_"):]]
    return f"{text} {1 if number is None else number}" if text in ("errno", "trace") else text


def is_met(condition, arguments):
    """Returns whether a condition of a profile is met by the six arguments of a call."""
    operator, value = condition["op"].removeprefix("SCMP_CMP_").lower(), condition["value"]
    compared = condition.get("valueTwo") or 0 if operator == "masked_eq" else value
    return OPERATORS[operator](arguments[condition["index"]], compared, value)


def are_alternatives(conditions):
    """Returns whether one of the conditions of an entry is enough: if two of them are on one argument."""
    places = [it["index"] for it in conditions]
    return len(set(places)) < len(places)


def are_met(conditions, arguments):
    """Returns whether the conditions of an entry are."""
    how = any if are_alternatives(conditions) else all
    return how(is_met(it, arguments) for it in conditions)


def version_of(text):
    """Returns the two numbers of a kernel's version; a container without one has a newer kernel than each."""
    return tuple(map(int, text.split("."))) if text else (2**32, 0)


def applies(one, arch, caps, kernel):
    """Returns whether an entry applies to a container."""
    within, without = one.get("includes") or {}, one.get("excludes") or {}
    wanted, unwanted = within.get("minKernel"), without.get("minKernel")
    return (set(within.get("caps") or []) <= caps and not caps & set(without.get("caps") or [])
            and arch in (within.get("arches") or [arch]) and arch not in (without.get("arches") or [])
            and not (wanted and kernel < version_of(wanted)) and not (unwanted and kernel >= version_of(unwanted)))


def container_of(words):
    """Returns the container that the words of a command describe: its architecture, capabilities and kernel."""
    kernel = re.search(r"--kernel ([\d.]+)", words)
    return GO_NAMES[arch_of(words)], set(re.findall(r"--cap (\w+)", words)), version_of(kernel and kernel[1])


def concerning(given, words, name):
    """Returns the entries of a profile that concern a call: the action, the place and the conditions of each."""
    default = action_of(given["defaultAction"], given.get("defaultErrnoRet"))
    return [
        (action, place, tested(one.get("args") or []))
        for place, one in enumerate(given.get("syscalls") or []) for action in [action_of(one["action"], one.get("errnoRet"))]
        if action != default and applies(one, *container_of(words)) and name in (one.get("names") or [one.get("name")])
    ]


def tested(conditions):
    """Returns the conditions of an entry: none if each has a mask of 0, or one that is enough."""
    idle = [it["op"] == "SCMP_CMP_MASKED_EQ" and not it["value"] for it in conditions]
    return [] if any(idle) and are_alternatives(conditions) or all(idle) else conditions


def strictness(action):
    """Returns how much an action permits."""
    return STRICTEST_FIRST.index(action.split()[0])


def nearest_of(given, words, name, arguments):
    """Returns of a call that meets no entry of a profile the place of the entry that it comes nearest to, and of the condition
    that doesn't hold: of the first such conditions, one of each entry or alternative, the first that stands furthest on."""
    misses = []
    for action, place, conditions in concerning(given, words, name):
        failing = [at for at, it in enumerate(conditions) if not is_met(it, arguments)]
        shown = failing if are_alternatives(conditions) else failing[:1]
        misses += [(0 if are_alternatives(conditions) else at, -strictness(action), -place, -at, at, place) for at in shown]
    return max(misses)[-1:-3:-1] if misses else None


def decision(given, words, name, arguments):
    """Returns what a profile decides of a call: the action, and the place of the entry that it is of, or none."""
    arch, caps, kernel = container_of(words)
    default = action_of(given["defaultAction"], given.get("defaultErrnoRet"))
    own = concerning(given, words, name)
    settling = [it for it in own if not it[2]][:1]
    counting = [it[:2] for it in settling or own if not it[2] or are_met(it[2], arguments)]
    if not counting and arch == "amd64" and isinstance(name, int) and X32 <= name:
        return ("kill_thread" if name < 2**32 - 1 else default), None
    if is_new_for_runc(given, words, name, default, caps, kernel):
        default = "errno 38"
    return min(counting, key=lambda it: strictness(it[0]), default=(default, None))


def is_new_for_runc(given, words, name, default, caps, kernel):
    """Returns whether the runtime is runc, and answers a call with ENOSYS if no entry decides it: one with a greater number than
    each that an entry names, if the default action lets no call through."""
    if "--runtime runc" not in words or default.split()[0] in ("allow", "log", "trace"):
        return False
    numbers, arch = numbers_of(words), GO_NAMES[arch_of(words)]
    greatest = max((numbers.get(it, 0) for one in given.get("syscalls") or [] if applies(one, arch, caps, kernel)
                    for it in one.get("names") or [one.get("name")]), default=0)
    return 0 < greatest < (name if isinstance(name, int) else numbers[name])


def arch_of(words):
    """Returns the architecture that the words of a command name."""
    named = re.search(r"-a (\w+)", words)
    return named[1] if named else "x86_64"


def line_of(given, words, call, arguments):
    """Returns the line of `explain` on a call of a profile."""
    action, place = decision(given, words, call, arguments)
    nearest, count = nearest_of(given, words, call, arguments), len(concerning(given, words, call))
    begin, end = "defaultAction" if place is None else f"syscalls[{place}]", ""
    if place is None and nearest:
        begin = "no match: syscalls[{}].args[{}]".format(*nearest)
        end = " does not hold" + f", the nearest of {count} entries" * (count > 1)
    elif place is None and action != action_of(given["defaultAction"], given.get("defaultErrnoRet")):
        who = "libseccomp, for x32" if action == "kill_thread" else "runc, above all calls that are named"
        return f"{named(action)}: {who}: {called(call, arch_of(words))}\n"
    return f"{named(action)}: {begin} of {called(call, arch_of(words))}{end}\n"


def file_of(place):
    """Returns the file of the profile at a place of the rows."""
    return f"profile-{place}.json"


def ways(command, words):
    """Returns what a command on profiles is asked by: with `--oci`, and without it."""
    return [f"{command} --oci {words}", f"{command} {words}"]


def whole(arguments):
    """Returns six arguments, 0 if none is given."""
    return (*arguments, *[0] * (6 - len(arguments)))


def compare_profiles(results, run):
    """Asks the program, by a function that runs it with a text, what each profile decides, in three ways."""
    for place, (what, words, given, rows) in enumerate(PROFILES):
        numbers, arch = numbers_of(words), arch_of(words)
        records = b"".join(record_of(it if isinstance(it, int) else numbers[it], ARCHITECTURES[arch], *arguments) for it, arguments, _ in rows)
        for call, arguments, wanted in rows:
            # Whatever name it has, a number's line is that of its call.
            results.compare(f"{what}: {call}{arguments}, by its text", (wanted,), (decision(given, words, call, whole(arguments))[0],))
            asked = f"explain --oci {words} {file_of(place)} {call} {' '.join(map(str, arguments))}"
            results.compare(f"{what}: {asked}", (0, line_of(given, words, call, whole(arguments)), ""), run(asked, ""))
        lines = "".join(line_of(given, words, call, whole(arguments)) for call, arguments, _ in rows)
        for asked in ways("explain", f"{words} {file_of(place)}"):
            results.compare(f"{what}: {asked} of records", (0, lines, ""), run(asked, records))
        status, program, _ = run(f"compile --oci -q {words} {file_of(place)}", "")
        results.compare(f"{what}: compile", (0, 0), (status, len(program) % 8))
        program = program.encode("utf-8", "surrogateescape")
        for call, arguments, wanted in rows:
            asked = f"explain -a {arch} - {call} {' '.join(map(str, arguments))}"
            results.compare(f"{what}: {asked}", (0, f"{named(wanted)}: {called(call, arch)}\n", ""), run(asked, program))


# A line of `diff`: a call or a range, both actions, which one permits more, and an example.
LINE = re.compile(r"  (?:(?:other|x32) calls? \d+(?: to \d+)?|\w+)(?:, some calls)?: ([\w ()]+) -> ([\w ()]+), (more|less|otherwise): (\w+)\((.+)\)")


def is_example(line, words, old, new, numbers):
    """Returns whether a line of `diff` says of its example what the two profiles decide."""
    found = LINE.fullmatch(line)
    if not found:
        return False
    call, arguments = int(found[4]) if found[4].isdigit() else found[4], tuple(int(it, 16) for it in found[5].split(", "))
    both = [decision(it, words, call, arguments)[0] for it in (old, new)]
    ranks = [STRICTEST_FIRST.index(it.split()[0]) for it in both]
    kind = "more" if ranks[1] > ranks[0] else "less" if ranks[1] < ranks[0] else "otherwise"
    return (*map(named, both), kind) == (found[1], found[2], found[3]) and both[0] != both[1] and (isinstance(call, int) or call in numbers)


def compare_pairs(results, run):
    """Compares each profile with the next one for the same container, and with itself."""
    for place, (what, words, given, rows) in enumerate(PROFILES):
        for asked in ways("diff --each", f"{words} {file_of(place)} {file_of(place)}"):
            results.compare(f"{what}: {asked}", (0, "profile: same\n", ""), run(asked, ""))
        other = next((it for it in range(place + 1, len(PROFILES)) if PROFILES[it][1] == words), None)
        if other is None:
            continue
        new, numbers = PROFILES[other][2], numbers_of(words)
        asked = f"diff --each --oci {words} {file_of(place)} {file_of(other)}"
        status, output, errors = run(asked, "")
        heading, *lines = output.splitlines()
        # Two of the profiles decide alike: whatever is listed has to be so, and what differs has to be listed.
        verdict = (1, "profile: different") if lines else (0, "profile: same")
        results.compare(asked, (*verdict, "", []), (
            status, heading, errors, [it for it in lines if not is_example(it, words, given, new, numbers)]))
        listed = {it.split(":")[0].strip() for it in lines}
        calls = {(call, whole(arguments)) for call, arguments, _ in (*rows, *PROFILES[other][3]) if not isinstance(call, int)}
        wanted = {call for call, it in calls if decision(given, words, call, it)[0] != decision(new, words, call, it)[0]}
        results.compare(f"{asked} lists calls of both", (set(),), (wanted - listed,))
        for other_way in ways("diff --each", f"{words} {file_of(place)} {file_of(other)}")[1:]:
            results.compare(f"{what}: {other_way}", (status, output, errors), run(other_way, ""))
        # The other way round the same calls differ, and what permits more is named as it is.
        back = run(f"diff --each --oci {words} {file_of(other)} {file_of(place)}", "")
        results.compare(f"{asked}, back", (verdict[0], listed), (back[0], {it.split(":")[0].strip() for it in back[1].splitlines()[1:]}))


FILES = {
    **{file_of(place): json.dumps(given) for place, (_, _, given, _) in enumerate(PROFILES)},
    "fitting-profile.json": json.dumps(profile(entry("read", args=FITTING))),
    "default-action.json": LOGS.replace('"a"', '"defaultAction"'),
}


DIFF = Command("diff --oci ")
differ, fails = DIFF.differ, DIFF.fails

def misused(words, told):
    """Returns the case of words that are no command."""
    return Case(words, 2, "", f"error: {told}\n..")


# What is explained of the examples' records.
EXAMPLE_LINES = ("errno 1 (EPERM): defaultAction of fcntl (72)\n" * 3 + "errno 1 (EPERM): defaultAction of fstat (5)\n"
                 "kill_process: another architecture\n")

READS = "profile: different\n  read: errno 1 (EPERM) -> allow, more: read(0x0, 0x0, 0x0, 0x0, 0x0, 0x0)\n"

# Two conditions that have to hold, and two of which one is enough.
TWO = [when(0, "EQ", 1), when(1, "EQ", 2)]
EITHER = [when(0, "EQ", 2), when(0, "EQ", 3)]

# Cases of files that are known as profiles, and of no container.
KNOWN = [
    # Options, files and standard input.
    writes("explain --oci reads-profile.json read", "", "allow: syscalls[0] of read (0)\n"),
    writes("explain reads-profile.json --oci -a amd64 0", "", "allow: syscalls[0] of read (0)\n"),
    writes("explain --oci - write", json.dumps(profile(entry("read"))), "errno 1 (EPERM): defaultAction of write (1)\n"),
    writes("explain --oci reads-profile.json write", "", "errno 1 (EPERM): defaultAction of write (1)\n"),
    writes("explain --oci reads-profile.json < examples/records.bin", "", EXAMPLE_LINES),
    writes("explain --oci reads-profile.json", "", ""),
    # The nearest miss: the condition that stands furthest on, of equal ones the strictest entry's; alternatives stand first.
    *[writes(f"explain --oci - read {words}", json.dumps(profile(*entries)), f"errno 1 (EPERM): no match: {end}\n") for words, entries, end in (
        ("5", [entry("read", args=TWO)], "syscalls[0].args[0] of read (0) does not hold"),
        ("1 5", [entry("read", args=TWO)], "syscalls[0].args[1] of read (0) does not hold"),
        ("5", [entry("read", args=EITHER)], "syscalls[0].args[0] of read (0) does not hold"),
        ("1 5", [entry("read", args=EITHER[1:]), entry("read", "SCMP_ACT_LOG", args=TWO)],
         "syscalls[1].args[1] of read (0) does not hold, the nearest of 2 entries"),
        ("5", [entry("read", args=EITHER), entry("read", "SCMP_ACT_LOG", args=TWO), entry("write", args=TWO)],
         "syscalls[1].args[0] of read (0) does not hold, the nearest of 2 entries"))],
    # Masks of 0 make no test, so that the first of these settles the call.
    *[writes(f"explain --oci - openat {it}", json.dumps(profile(entry("openat", "SCMP_ACT_TRAP", args=[when(0, "MASKED_EQ", 0, 5)]),
                                                                entry("openat"))), "trap: syscalls[0] of openat (257)\n") for it in range(2)],
    # Names that the architecture doesn't have are no reason, and aren't listed.
    writes("explain --oci unknown-profile.json read", "", "allow: syscalls[0] of read (0)\n"),
    writes("explain --oci - open", json.dumps(profile(entry("read"), entry("no_such_call open"))), "allow: syscalls[1] of open (2)\n"),
    writes("diff --oci unknown-profile.json reads-profile.json", "", "profile: same\n"),
    differ("reads-profile.json -", "profile: different\n  read: allow -> log, less: read(0x0, 0x0, 0x0, 0x0, 0x0, 0x0)\n",
           json.dumps(profile(entry("read", "SCMP_ACT_LOG")))),
    differ("- reads-profile.json", READS, json.dumps(profile())),
    writes("diff --oci --only-more reads-profile.json -", json.dumps(profile()), "profile: nowhere more permissive\n"),
    Case("diff --oci --only-more - reads-profile.json", 1, READS.replace("different", "more permissive"), "", json.dumps(profile())),
    Case("diff --oci --most 0 - reads-profile.json", 3, "profile: undecided\n..", "", json.dumps(profile())),
    # A second entry, stricter on some arguments.
    differ("reads-profile.json -", "profile: different\n  read: allow -> trap, less: read(0x5, 0x0, 0x0, 0x0, 0x0, 0x0)\n",
           json.dumps(profile(entry("read", args=[when(0, "GE", 0)]), entry("read", "SCMP_ACT_TRAP", args=[when(0, "EQ", 5)])))),
    # One without conditions settles the call.
    writes("diff --oci reads-profile.json -", json.dumps(profile(entry("read"), entry("read", "SCMP_ACT_TRAP", args=[when(0, "EQ", 5)]))),
           "profile: same\n"),
    # What is wrong, and whose it is.
    rejects("explain --oci missing.json read", "", MISSING, TOOL + "missing.json: "),
    rejects("explain --oci examples read", "", FOLDER, TOOL + "examples: "),
    rejects("explain --oci - read", Failing(json.dumps(profile())), RESET),
    rejects("explain --oci reads-profile.json no_call", "", "No call of x86_64 has this name or number: no_call.\n", TOOL),
    rejects("explain --oci reads-profile.json read > /dev/full", "", FULL, OUTPUT),
    rejects("explain --oci reads-profile.json read >&-", "", CLOSED, OUTPUT),
    rejects("explain --oci reads-profile.json --records missing", "", MISSING, TOOL + "missing: "),
    Case("explain --oci reads-profile.json --records 65-bytes", 2, "kill_process: another architecture\n",
         TOOL + "65-bytes: The input ends inside a record, after 1 bytes of it.\n"),
    fails("logs.json missing.json", MISSING, TOOL + "missing.json: "),
    fails("missing.json reads-profile.json", MISSING, TOOL + "missing.json: "),
    fails("reads-profile.json examples", FOLDER, TOOL + "examples: "),
    fails("- reads-profile.json", RESET, INPUT, Failing(json.dumps(profile()))),
    fails("reads-profile.json -", RESET, INPUT, Failing(json.dumps(profile()))),
    fails("reads-profile.json reads-profile.json > /dev/full", FULL, OUTPUT),
    # A program that just fits, and one that is too large.
    writes("diff --oci fitting-profile.json fitting-profile.json", "", "profile: same\n"),
    fails("large-profile.json missing-too", MISSING, TOOL + "missing-too: "),
    fails("large-profile.json reads-profile.json", TOO_LONG, TOOL + "large-profile.json: "),
    fails("reads-profile.json large-profile.json", TOO_LONG, TOOL + "large-profile.json: "),
]


def unnamed(case):
    """Returns the case of files that are known as profiles without `--oci`."""
    return case._replace(words=case.words.replace(" --oci", "", 1))


# The capabilities that Docker and Podman give a container by default, by the documentation of `docker run` and containers.conf(5); and all
# of Linux that are none of them, by capabilities(7).
PODMAN_CAPS = "CHOWN DAC_OVERRIDE FOWNER FSETID KILL NET_BIND_SERVICE SETFCAP SETGID SETPCAP SETUID SYS_CHROOT".split()
DOCKER_CAPS = [*PODMAN_CAPS, "AUDIT_WRITE", "MKNOD", "NET_RAW"]
OTHER_CAPS = """AUDIT_CONTROL AUDIT_READ BLOCK_SUSPEND BPF CHECKPOINT_RESTORE DAC_READ_SEARCH IPC_LOCK IPC_OWNER LEASE LINUX_IMMUTABLE MAC_ADMIN
MAC_OVERRIDE NET_ADMIN NET_BROADCAST PERFMON SYSLOG SYS_ADMIN SYS_BOOT SYS_MODULE SYS_NICE SYS_PACCT SYS_PTRACE SYS_RAWIO SYS_RESOURCE SYS_TIME
SYS_TTY_CONFIG WAKE_ALARM""".split()
OF_CAPS = [(["all", "ALL", "docker-default,all"], [*DOCKER_CAPS, *OTHER_CAPS]), (["docker-default", "podman-default,docker-default"], DOCKER_CAPS),
           (["podman-default"], PODMAN_CAPS), (["podman-default,net_raw"], [*PODMAN_CAPS, "NET_RAW"]), (["podman-default --cap bpf"], [*PODMAN_CAPS, "BPF"])]


def sets_of_capabilities():
    """Returns the cases of names that stand for several capabilities: of each capability whether `read` is let through that needs it."""
    return [
        writes(f"explain --oci --cap {words} - read", json.dumps(profile(entry("read", includes={"caps": [f"CAP_{cap}"]}))),
               "allow: syscalls[0] of read (0)\n" if cap in given else "errno 1 (EPERM): defaultAction of read (0)\n")
        for names, given in OF_CAPS for words in names for cap in [*DOCKER_CAPS, *OTHER_CAPS]
    ]


# A policy of which the text has the key's bytes.
COMMENTED = LOGS.replace("[]", '[{"syscall":"read","comment":"defaultAction"}]')
NO_NAME = "No filter has this name: a.\n"
WRONG_DEFAULT = "defaultAction: expected an object with the actions and the entries of a filter, found {}\n"
REPEATED = '{"defaultAction":%s,"defaultAction":%s}'
OBJECT = LOGS[len('{"a":'):-1]

CASES = [
    *KNOWN,
    *map(unnamed, KNOWN),
    writes("explain reads-profile.json --oci --kernel=6.1 --cap CAP_KILL 0", "", "allow: syscalls[0] of read (0)\n"),
    # A runtime is of a profile, as a container is: a policy and a program are what they are.
    writes("explain --runtime runc explained.json 0", "", "errno 1 (EPERM): no entry of read (0)\n"),
    writes("explain --runtime=runc reads-profile.json read --cap=kill", "", "allow: syscalls[0] of read (0)\n"),
    *sets_of_capabilities(),
    # With `--oci` nothing else is a profile.
    rejects("explain --oci - read", "{", PARSING),
    fails("reads-profile.json -", PARSING, INPUT, "{"),
    fails("- reads-profile.json", PARSING, INPUT, "{"),
    # Without it, a policy is one whatever its filters are named.
    writes("explain default-action.json read", "", "log: no entry of read (0)\n"),
    writes("diff -q default-action.json default-action.json", "", "filter defaultAction: same\n"),
    writes("explain - read", COMMENTED, "allow: a.filter[0] of read (0)\n"),
    # It has no filter with a name. Each text that has none of the key's bytes, or another value, is a policy.
    rejects("explain --filter a reads-profile.json read", "", NO_NAME, TOOL + "reads-profile.json: "),
    Case("diff reads-profile.json:a reads-profile.json", 2, "", TOOL + "reads-profile.json: " + NO_NAME),
    rejects("explain - read", r'{"default\u0041ction": "SCMP_ACT_ALLOW"}', WRONG_DEFAULT.format('"SCMP_ACT_ALLOW"')),
    writes("explain --oci - read", r'{"default\u0041ction": "SCMP_ACT_ALLOW"}', "allow: defaultAction of read (0)\n"),
    rejects("explain - read", '{"defaultAction": null}', WRONG_DEFAULT.format("null")),
    rejects("explain - read", json.dumps({"linux": profile()}), EMPTY.format("linux").replace("2 more", "4 more")),
    rejects("explain - read", json.dumps([profile()]), NO_OBJECT.replace("empty array", "array of 1 value")),
    rejects("explain - read", '{"defaultAction": "SCMP_ACT_ALLOW"', FRONTEND + "Error parsing Json: .."),
    # Of a key that stands twice the last one counts.
    writes("explain - read", REPEATED % (OBJECT, '"SCMP_ACT_LOG"'), "log: defaultAction of read (0)\n"),
    rejects("explain - read", REPEATED % ('"SCMP_ACT_LOG"', OBJECT), FRONTEND + "Repeated key in Json.\n"),
    # What is no command.
    rejects("explain --oci --filter=a reads-profile.json read", "", NO_NAME, TOOL + "reads-profile.json: "),
    misused("diff --oci - -", "OLD and NEW can't both be read from standard input"),
    misused("explain --oci - --records -", "SUBJECT and records can't both be read from standard input: give CALL, --records or --log"),
    misused("explain --oci --kernel 6 reads-profile.json read", "the value of --kernel isn't a version of two numbers, such as 6.1"),
    misused("diff --oci --kernel 6 reads-profile.json reads-profile.json", "the value of --kernel isn't a version of two numbers, such as 6.1"),
    *[misused(f"{it} reads-profile.json", f"no capability is called '{name}'") for it, name in (
        ("compile --cap SYS_ADMN", "SYS_ADMN"), ("check --cap cap_sys_ptracee", "cap_sys_ptracee"),
        ("show --cap CAP_KILL,chwon", "chwon"), ("compile --cap CAP_KILL --cap every", "every"), ("compile --cap ''", ""),
        ("compile --cap CAP_KILL,", ""), ("compile --cap 'CAP_KILL CAP_BPF'", "CAP_KILL CAP_BPF"),
        ("compile --cap KILLCAP_", "KILLCAP_"), ("compile --cap all,none", "none"), ("compile --cap All", "All"), ("check --cap docker", "docker"))],
    misused("diff --cap CAP_NOTHING reads-profile.json reads-profile.json", "no capability is called 'CAP_NOTHING'"),
    Case("compile --runtime podman reads-profile.json", 2, "",
         "error: invalid value 'podman' for '--runtime <RUNTIME>'\n  [possible values: crun, runc]\n.."),
    Case("compile --runtime crun --runtime runc reads-profile.json", 2, "", "error: .."),
    Case("show --verbose reads-profile.json", 2, "", "error: unexpected argument '--verbose' found\n.."),
    Case("compile --format json reads-profile.json", 2, "", "error: invalid value 'json' for '--format <FORMAT>'\n.."),
]
