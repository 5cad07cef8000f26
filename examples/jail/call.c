/*
 * call: makes one system call, to try what a filter does with it. `call --help` says how.
 */

#define _GNU_SOURCE

#include <errno.h>
#include <linux/filter.h>
#include <stdint.h>
#include <stdio.h>
#include <stdlib.h>
#include <string.h>
#include <unistd.h>

#include "architecture.h"
#include "seccompiler.h"

#ifndef VERSION
#define VERSION "unversioned"
#endif

enum { FAILED = 125, ARGUMENTS = 6 };

static const char usage[] = "usage: call CALL [ARGUMENT]..\n";

static const char help[] =
    "\n"
    "Makes one system call, to try what a filter does with it. CALL is its name or\n"
    "number. It has six arguments; those that are left out are 0. Numbers are as in\n"
    "C: decimal, hexadecimal after 0x, octal after 0. Prints what the call returned,\n"
    "or the errno and its text.\n"
    "\n"
    "Options:\n"
    "  --help     print this\n"
    "  --version  print the version\n"
    "\n"
    "Exit status: 0 if the call was made; 125 if there is no such call, or the\n"
    "arguments are wrong\n";

/* Says what is wrong with a word, and ends. */
static _Noreturn void fail(const char *word, const char *reason)
{
    fputs("call: ", stderr);
    for (; *word != '\0'; word++)
        /* Other bytes may steer a terminal. */
        fprintf(stderr, *word >= ' ' && *word <= '~' ? "%c" : "\\x%02x", (unsigned char)*word);
    fprintf(stderr, ": %s\n", reason);
    exit(FAILED);
}

/* Writes what was printed. If it can't be written, ends with the reason. */
static int finish(int is_printed)
{
    if (!is_printed || fflush(stdout) != 0)
        fail("standard output", strerror(errno));
    return 0;
}

/* Reads a number of 64 bits; a sign negates it, as in -1. If the word isn't a number, ends with the reason. */
static unsigned long number_of(const char *word, const char *reason)
{
    char *end;
    unsigned long number;

    errno = 0;
    number = strtoul(word, &end, 0);
    if (end == word || *end != '\0' || errno != 0)
        fail(word, reason);
    return number;
}

/* Returns the number of the call of this name, or with this number. */
static long call_of(const char *word)
{
    int64_t number = seccompiler_call_number(ARCHITECTURE, word, strlen(word));

    return number >= 0 ? (long)number : (long)number_of(word, "no such call");
}

int main(int count, char **words)
{
    unsigned long arguments[ARGUMENTS] = {0};
    long number;
    long result;

    if (count == 2 && strcmp(words[1], "--help") == 0)
        return finish(printf("%s%s", usage, help) >= 0);
    if (count == 2 && strcmp(words[1], "--version") == 0)
        return finish(puts("call " VERSION) >= 0);
    if (count < 2 || count > 2 + ARGUMENTS) {
        fputs(usage, stderr);
        return FAILED;
    }
    number = call_of(words[1]);
    for (int k = 2; k < count; k++)
        arguments[k - 2] = number_of(words[k], "not a number");

    errno = 0;
    result = syscall(number, arguments[0], arguments[1], arguments[2], arguments[3], arguments[4], arguments[5]);
    if (result == -1 && errno != 0)
        return finish(printf("errno %d: %s\n", errno, strerror(errno)) >= 0);
    return finish(printf("%ld\n", result) >= 0);
}
