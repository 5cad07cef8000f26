"""The blocks of a page in Markdown: commands and what is shown of them, and code."""


def blocks_in(lines, kinds):
    """Returns the blocks of some kinds of lines, each with the number of its first line, and its lines."""
    blocks, block = [], None
    for number, line in enumerate(lines, 1):
        if block is not None and line.strip() == "```":
            blocks += [block] if block[1] is not None else []
            block = None
        elif block is None and line.strip().startswith("```"):
            block = (number + 1, [] if line.strip()[3:] in kinds else None)
        elif block is not None and block[1] is not None:
            block[1].append(line)
    return blocks


def blocks_of(page, kind="console"):
    """Returns the blocks of a kind of a page."""
    return blocks_in(page.read_text(encoding="utf-8").splitlines(), [kind])


def commands_of(lines):
    """Returns the commands of a block, each with what is shown below it."""
    commands = []
    for line in lines:
        if line.startswith("$ "):
            commands.append([line[2:], ""])
        elif not commands:
            commands.append(["false", line + "\n"])
        elif commands[-1][0].endswith("\\"):
            commands[-1][0] += "\n" + line
        else:
            commands[-1][1] += line + "\n"
    return commands


def compare_block(results, what, lines, run, passed_over=()):
    """Runs the commands of a block by `run`, which returns their exit status and what they print, and compares this with what is
    shown; returns how many. A command ends well, unless the next one prints its exit status."""
    status, commands = 0, commands_of(lines)
    for (command, shown), then in zip(commands, [*commands[1:], ["", ""]]):
        if not command.startswith(passed_over):
            status, given = run(f"(exit {status})\n{command}")
            results.compare(f"{what}: {command}", (status if then[0] == "echo $?" else 0, shown), (status, given))
    return len(commands)


def is_jailed(lines):
    """Returns whether a block runs a jailer: tools/try-jail runs it, if the kernel takes filters."""
    return any(it.startswith("$ jail ") for it in lines)
