"""Where `compile` writes: standard output, or a file that is replaced whole or not at all."""

from cases.forms import FULL, LOGS, MISSING, OUTPUT, TOOL, Case, rejects, writes
from cases.seccompc.commands import FRONTEND

from .compile import TREE

FILES = {"read.json": LOGS}

ONTO = "the output would overwrite the input\n"


def beside(name, before, words, then, status=0, output="", told=""):
    """Returns the case of words in a folder of this name that has a file `older`, and of what is looked at after them."""
    return Case(f"--version > /dev/null && mkdir {name} && cd {name} && echo older > older && cp ../read.json . && {before}"
                f" ../seccomptool compile -q {words}; status=$?; {then}; cd .. && rm -r {name} && (exit $status)",
                status, output, told)


CASES = [
    # `-` is standard output, and so is its device, whatever it leads to.
    *[writes(f"compile -q logs.json -o {output}", "", TREE) for output in ("-", "/dev/stdout", "/dev/fd/1")],
    beside("appended", "", "read.json -o /dev/stdout >> older", "wc -c < older", 0, f"{len('older') + 1 + len(TREE)}\n"),
    rejects("compile -q logs.json --output=- > /dev/full", "", FULL, OUTPUT),
    # A file is replaced whole and keeps its permissions, also if a link leads to it, and nothing is left beside it.
    beside("replaced", "chmod 640 older &&", "read.json -o older", "stat -c %a older; ls", 0, "640\nolder\nread.json\n"),
    beside("linked", "ln -s older link &&", "read.json -o link", "readlink link; wc -c < older", 0, f"older\n{len(TREE)}\n"),
    beside("dangling", "ln -s newer link &&", "read.json -o link", "readlink link; wc -c < newer; ls -A", 0,
           f"newer\n{len(TREE)}\nlink\nnewer\nolder\nread.json\n"),
    beside("astray", "ln -s missing/newer link &&", "read.json -o link", "readlink link; ls -A", 2, "missing/newer\nlink\nolder\nread.json\n",
           TOOL + "link: " + MISSING),
    # A pipe is written to, by its name or a descriptor, and so is a file that has no name any more, or that somebody holds open.
    beside("piped", "mkfifo pipe && { wc -c < pipe & } &&", "read.json -o pipe", "wait; ls", 0, f"{len(TREE)}\nolder\npipe\nread.json\n"),
    *[writes(f"compile -q logs.json -o {output} 3>&1 > /dev/null", "", TREE) for output in ("/dev/fd/3", "/proc/self/fd/3")],
    beside("nameless", "exec 3> gone && rm gone &&", "read.json -o /dev/fd/3", "wc -c < /dev/fd/3; ls", 0, f"{len(TREE)}\nolder\nread.json\n"),
    beside("nameless-linked", "exec 3> gone && rm gone && ln -s /proc/self/fd/3 link &&", "read.json -o link", "wc -c < /dev/fd/3; ls", 0,
           f"{len(TREE)}\nlink\nolder\nread.json\n"),
    beside("held", "exec 3< older &&", "read.json -o /dev/fd/3", "wc -c <&3; wc -c < older; ls -A", 0,
           f"{len(TREE)}\n{len(TREE)}\nolder\nread.json\n"),
    # What runs that were killed have left doesn't keep others from writing, and a name may be as long as any.
    beside("taken", "touch $(seq -f .seccomptool-%g.new 0 149) &&", "read.json -o older", "ls; ls -A | wc -l; wc -c < older", 0,
           f"older\nread.json\n152\n{len(TREE)}\n"),
    *[beside(f"long-{length}", "", f"read.json -o $(printf %0{length}d 0)", f"wc -c < $(printf %0{length}d 0); ls -A | wc -l", 0,
             f"{len(TREE)}\n3\n") for length in (250, 255)],
    beside("made", "", "read.json -o made.bpf", "ls; wc -c < made.bpf", 0, f"made.bpf\nolder\nread.json\n{len(TREE)}\n"),
    # An older file stays if anything fails, and nothing is left beside it.
    beside("faulty", "", "../no-json.json -o older", "ls; cat older", 2, "older\nread.json\nolder\n",
           TOOL + "../no-json.json: " + FRONTEND + "Error parsing Json: .."),
    beside("unnamed", "", "-f b read.json -o older", "ls; cat older", 2, "older\nread.json\nolder\n",
           TOOL + "read.json: No filter has this name: b.\n"),
    beside("nowhere", "", "read.json -o missing/older", "ls; cat older", 2, "older\nread.json\nolder\n",
           TOOL + "missing/older: " + MISSING),
    # A program isn't written onto its policy, by whichever path.
    *[beside(f"onto-{number}", "ln -s read.json link &&", f"{policy} -o {output}", "cmp read.json ../read.json; ls", 2,
             "link\nolder\nread.json\n", TOOL + f"{output}: " + ONTO)
      for number, (policy, output) in enumerate([
          ("read.json", "read.json"), ("read.json", "./read.json"), ("read.json", "../onto-2/read.json"), ("link", "read.json"),
          ("read.json", "link")])],
    *[beside(f"own-input-{number}", "ln read.json other && ln -s read.json link &&", f"- -o {output} < {given}", "cmp read.json ../read.json; ls", 2,
             "link\nolder\nother\nread.json\n", TOOL + f"{output}: " + ONTO)
      for number, (given, output) in enumerate([("read.json", "read.json"), ("read.json", "other"), ("other", "link")])],
    beside("held-input", "exec 3< read.json &&", "read.json -o /dev/fd/3", "cmp read.json ../read.json", 2, "", TOOL + "/dev/fd/3: " + ONTO),
    beside("hard-link", "ln read.json other &&", "read.json -o other", "cmp read.json ../read.json", 2, "", TOOL + "other: " + ONTO),
    # So is a record.
    Case("call --record -o made.bin read && ./seccomptool call --record read | cmp -s - made.bin; status=$?; rm made.bin; (exit $status)", 0, "", ""),
    *[Case(f"call -o {it} read", 2, "", "error: the following required arguments were not provided:\n  --record\n..")
      for it in ("made.bin", "-")],
    Case("call -o made.bin --json read", 2, "", "error: the argument '--output <FILE>' cannot be used with '--json'\n.."),
    beside("input", "", "- -o read.json < ../read.json", "wc -c < read.json", 0, f"{len(TREE)}\n"),
]
