"""What the pages show of the jailer in C, and their lines of C: tools/try-jail runs all of them."""

from commands import ENVIRONMENT, TOP, run, shell_of
from jail.profiles import PROGRAM
from jail.running import ARCHIVE, EXAMPLES, step
from pages.console_blocks import blocks_of, compare_block, is_jailed
from prover import kit

# What stands around the lines of C that the pages show: they are handed a policy as text.
AROUND = """
#define _GNU_SOURCE
#include <stdio.h>
#include <unistd.h>

LINES

int main(int argc, char **argv)
{
    static char text[65536];
    FILE *file = argc > 2 ? fopen(argv[1], "rb") : NULL;
    size_t length = file != NULL ? fread(text, 1, sizeof text, file) : 0;

    if (confine(text, length) != 0)
        return 125;
    execvp(argv[2], argv + 2);
    return 126;
}
"""

def is_of_profile(lines):
    """Returns whether a block names the program that try_profiles makes if seccomptool is built."""
    return any(PROGRAM in it for it in lines)


def try_documents(results, folder):
    """Runs what the pages show of the jailer in C, and compares output and status."""
    (folder / "examples").symlink_to(EXAMPLES)
    path = f"{folder / 'bin'}:{ENVIRONMENT['PATH']}"
    for page in [TOP / "README.md", *sorted((TOP / "docs").glob("*.md"))]:
        for number, lines in blocks_of(page):
            if is_jailed(lines) and (not is_of_profile(lines) or (folder / PROGRAM).exists()):
                compare_block(results, f"{page.relative_to(TOP)}:{number}", lines, shell_of(folder, path))


def try_lines_of_c(results, folder):
    """Builds the lines of C that the pages show, and runs commands after them."""
    flags = ["-std=c11", "-Wall", "-Wextra", "-Werror", "-I", TOP / "include"]
    source, program = folder / "lines.c", folder / "bin/lines"
    for page in (TOP / "README.md", TOP / "docs/JAILER.md"):
        for number, lines in blocks_of(page, "c"):
            what = f"{page.relative_to(TOP)}:{number}: the lines of C"
            source.write_text(AROUND.replace("LINES", "\n".join(lines)))
            if step(results, what, ["cc", *flags, "-o", program, source, ARCHIVE, kit() / "c/liblibc_c.a"]):
                jailed = [program, EXAMPLES / "cat-policy.json"]
                results.compare(what, ("a\n", "", 0), run([*jailed, "cat"], folder, "a\n"))
                denied = "touch: cannot touch 'a': Operation not permitted\n"
                results.compare(what, ("", denied, 1), run([*jailed, "touch", "a"], folder))
