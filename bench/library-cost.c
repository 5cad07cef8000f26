/*
 * Times the library for C inside one process, on a policy of one filter, `a`: library-cost FILE
 *
 * Writes the lengths of the filter's two programs on x86_64, in how many sets of calls a comparison of them ends, or
 * the most that are tried, and the least times of a comparison and of a compilation from the text in nanoseconds.
 */
#include "../include/seccompiler.h"

#include <linux/audit.h>
#include <stdio.h>
#include <stdlib.h>
#include <time.h>

enum { LONGEST = 4096, HALVINGS = 20, RUNS = 300, COMPARISONS = 20, SETS = 1 << HALVINGS };

static char text[1 << 20];
static size_t length;

static int64_t compile(uint32_t layout, struct sock_filter *program)
{
    char message[200];
    return seccompiler_compile(text, length, AUDIT_ARCH_X86_64, "a", 1, layout, program, LONGEST, message,
                               sizeof message);
}

static int64_t compare(const struct sock_filter *program, int64_t count, const struct sock_filter *tree,
                       int64_t tree_count, size_t most)
{
    struct seccomp_data record;
    return seccompiler_compare(program, (size_t)count, tree, (size_t)tree_count, SECCOMPILER_ALIKE,
                               SECCOMPILER_ALL_CALLS, 0, 0, most, &record);
}

static uint64_t now(void)
{
    struct timespec at;
    clock_gettime(CLOCK_MONOTONIC, &at);
    return (uint64_t)at.tv_sec * 1000000000u + (uint64_t)at.tv_nsec;
}

static uint64_t lesser(uint64_t least, uint64_t start)
{
    uint64_t took = now() - start;
    return took < least ? took : least;
}

int main(int count, char **words)
{
    static struct sock_filter program[LONGEST], tree[LONGEST];
    FILE *file = count == 2 ? fopen(words[1], "rb") : NULL;
    if (file == NULL)
        return 2;
    length = fread(text, 1, sizeof text, file);
    if (length == sizeof text || fclose(file))
        return 2;
    int64_t linear_count = compile(SECCOMPILER_LAYOUT_LINEAR, program);
    int64_t tree_count = compile(SECCOMPILER_LAYOUT_TREE, tree);
    if (linear_count < 0 || tree_count < 0)
        return 1;
    size_t too_few = 0;
    for (size_t step = SETS; step > 0; step /= 2)
        if (compare(program, linear_count, tree, tree_count, too_few + step) == SECCOMPILER_UNDECIDED)
            too_few += step;
    uint64_t compared = UINT64_MAX, compiled = UINT64_MAX;
    for (int run = 0; run < COMPARISONS; run++) {
        uint64_t start = now();
        compare(program, linear_count, tree, tree_count, SETS);
        compared = lesser(compared, start);
    }
    for (int run = 0; run < RUNS; run++) {
        uint64_t start = now();
        compile(SECCOMPILER_LAYOUT_LINEAR, program);
        compiled = lesser(compiled, start);
    }
    printf("%lld %lld %zu %llu %llu\n", (long long)linear_count, (long long)tree_count, too_few + 1,
           (unsigned long long)compared, (unsigned long long)compiled);
    return 0;
}
