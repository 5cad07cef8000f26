/*
 * Calls the functions of include/seccompiler_rules.h and include/seccompiler_file.h, as C and as C++. Filters whose rules are
 * added in any order have to decide as the rules do one by one, and errors have their places. tools/check-library builds it
 * with each compiler. Prints each difference, and as its last line 'N passed, M failed'.
 */
#include <limits.h>
#include <linux/audit.h>

#include "seccompiler_file.h"
#include "seccompiler_rules.h"

static int passed, failed;
static char message[256];
static struct sock_filter program[4096];
static struct seccompiler_rules filter;

static void is(int64_t answer, int64_t wanted, const char *said, const char *what)
{
    int well = answer == wanted && strcmp(message, said) == 0;

    passed += well;
    failed += !well;
    if (!well)
        printf("%s: %lld, %s\n  and not %lld, %s\n", what, (long long)answer, message, (long long)wanted, said);
}

/* A random number below `below`, the same in each run. */
static uint32_t chance(uint32_t below)
{
    static uint32_t state = 1;

    state = state * 1664525u + 1013904223u;
    return (state >> 8) % below;
}

/* ---- random rules: some calls, and up to three conditions on small arguments */

enum { RULES = 12, CALLS = 4, CONDITIONS = 3 };

static struct {
    int call, count;
    struct seccompiler_condition conditions[CONDITIONS];
} rules[RULES];

static int holds(const struct seccompiler_condition *it, const struct seccomp_data *record)
{
    uint64_t bits = it->length == 4 ? 0xffffffff : ~(uint64_t)0;
    uint64_t given = record->args[it->argument] & bits, value = it->value & bits;

    switch (it->op) {
    case SECCOMPILER_EQ: return given == value;
    case SECCOMPILER_NE: return given != value;
    case SECCOMPILER_GT: return given > value;
    case SECCOMPILER_GE: return given >= value;
    case SECCOMPILER_LT: return given < value;
    case SECCOMPILER_LE: return given <= value;
    default: return (given & it->mask) == (value & it->mask);
    }
}

static uint32_t decided(const struct seccomp_data *record, int count)
{
    for (int k = 0; k < count; k++) {
        int all = rules[k].call == record->nr;

        for (int at = 0; at < rules[k].count; at++)
            all = all && holds(&rules[k].conditions[at], record);
        if (all)
            return SECCOMP_RET_ALLOW;
    }
    return SECCOMP_RET_ERRNO | 13;
}

static void make_rules(int count)
{
    seccompiler_rules_start(&filter, AUDIT_ARCH_X86_64, SECCOMP_RET_ERRNO, 13, SECCOMP_RET_ALLOW, 0);
    for (int k = 0; k < count; k++) {
        rules[k].call = (int)chance(CALLS);
        rules[k].count = chance(8) == 0 ? 0 : 1 + (int)chance(CONDITIONS);
        for (int at = 0; at < CONDITIONS; at++) {
            struct seccompiler_condition *it = &rules[k].conditions[at];

            if (chance(4) == 0)
                *it = seccompiler_masked_argument(chance(2), chance(2) ? 4 : 8, chance(4), chance(4));
            else
                *it = seccompiler_argument(chance(2), chance(2) ? 4 : 8, chance(6), chance(3));
        }
        seccompiler_rules_add_number(&filter, rules[k].call, rules[k].count, rules[k].conditions[0], rules[k].conditions[1],
                                     rules[k].conditions[2]);
    }
}

static void check_by_chance(void)
{
    for (int round = 0; round < 300; round++) {
        int count = 1 + (int)chance(RULES), differing = 0;
        int64_t length;

        make_rules(count);
        length = seccompiler_rules_compile(&filter, round % 2, program, 4096, message, sizeof message);
        for (int k = 0; length > 0 && k < CALLS * 16; k++) {
            struct seccomp_data record;

            memset(&record, 0, sizeof record);
            record.arch = AUDIT_ARCH_X86_64;
            record.nr = k % CALLS;
            record.args[0] = (uint64_t)(k / CALLS % 4);
            record.args[1] = (uint64_t)(k / CALLS / 4);
            differing += seccompiler_run(program, (size_t)length, &record) != decided(&record, count);
        }
        is(length > 0 ? differing : length, 0, "", "rules by chance");
    }
}

/* ---- errors and their places */

static void check_errors(void)
{
    struct seccompiler_condition good = seccompiler_argument(0, SECCOMPILER_DWORD, SECCOMPILER_EQ, 1);

    make_rules(2);
    seccompiler_rules_add(&filter, "fnctl\33", 0);
    seccompiler_rules_add_number(&filter, -1, 0);
    is(seccompiler_rules_compile(&filter, 0, program, 4096, message, sizeof message), SECCOMPILER_UNKNOWN_CALL,
       "rule 2, fnctl?: Unknown system call.", "the first error counts");
    make_rules(1);
    seccompiler_rules_add_number(&filter, 4294967296, 0);
    is(seccompiler_rules_compile(&filter, 0, program, 4096, message, sizeof message), SECCOMPILER_BAD_NUMBER,
       "rule 1, 4294967296: The number of a chain is below 0 or above 4294967295.", "a number above all");
    make_rules(0);
    seccompiler_rules_add(&filter, "read", 2, good, seccompiler_argument(262, SECCOMPILER_DWORD, SECCOMPILER_EQ, 1));
    is(seccompiler_rules_compile(&filter, 0, program, 4096, message, sizeof message), SECCOMPILER_BAD_ARGUMENT,
       "rule 0, read, condition 1: The argument of a condition is above 5.", "an argument that isn't");
    make_rules(0);
    is(seccompiler_rules_add(&filter, "read", 65, good), SECCOMPILER_NO_ROOM, message, "more conditions than it takes");
    for (int is_number = 0; is_number < 2; is_number++) {
        make_rules(0);
        if (is_number)
            seccompiler_rules_add_number(&filter, 0, INT_MIN);
        else
            seccompiler_rules_add(&filter, "read", -1, good);
        is(seccompiler_rules_compile(&filter, 0, program, 4096, message, sizeof message), SECCOMPILER_BAD_COUNTS,
           is_number ? "rule 0, 0: The count of conditions is below 0." : "rule 0, read: The count of conditions is below 0.",
           "fewer conditions than none");
    }
    make_rules(0);
    for (int k = 0; k <= SECCOMPILER_RULES_MOST_CALLS; k++)
        seccompiler_rules_add_number(&filter, k, 0);
    is(seccompiler_rules_compile(&filter, 1, program, 4096, message, sizeof message), SECCOMPILER_NO_ROOM,
       "rule 1024, 1024: There is no room for more in the filter.", "more calls than it holds");
    seccompiler_rules_start(&filter, AUDIT_ARCH_X86_64, SECCOMP_RET_TRAP, 0, SECCOMP_RET_TRAP, 0);
    is(seccompiler_rules_install(&filter, 0, 0, message, sizeof message), SECCOMPILER_EQUAL_ACTIONS,
       "The two actions are the same.", "equal actions");
}

/* ---- files */

static void check_file(const char *path, const char *text, const char *name, int64_t wanted, const char *said)
{
    FILE *file = text == NULL ? NULL : fopen(path, "wb");

    if (file != NULL) {
        fputs(text, file);
        fclose(file);
    }
    is(seccompiler_compile_file(path, AUDIT_ARCH_X86_64, name, 0, program, 4096, message, sizeof message), wanted, said, path);
}

#define ONE "{\"match_action\":\"allow\",\"mismatch_action\":\"trap\",\"filter\":[]}"

static void unordered(void)
{
    static const struct seccompiler_chain ascend[] = {{-1, 0}, {0, 1}, {7, 0}}, twice[] = {{0, 1}, {7, 0}, {7, 2}, {1, 0}};

    message[0] = 0;
    is((int64_t)seccompiler_unordered_chain(ascend, 3), 3, "", "numbers that ascend");
    is((int64_t)seccompiler_unordered_chain(ascend, 0), 0, "", "no numbers");
    is((int64_t)seccompiler_unordered_chain(twice, 4), 2, "", "a number twice");
    is((int64_t)seccompiler_unordered_chain(twice + 2, 2), 1, "", "a number below the one before");
}

int main(int count, char **words)
{
    const char *path = count > 1 ? words[1] : "policy.json";

    check_by_chance();
    check_errors();
    unordered();
    /* A filter without entries has the three instructions of the architecture, the number's load and two returns. */
    check_file(path, "{\"a\":" ONE "}", NULL, 4, "");
    check_file(path, "{\"a\":" ONE "}", "a", 4, "");
    check_file(path, "{\"a\":" ONE "}", "b", SECCOMPILER_NO_FILTER, "No filter has this name.");
    check_file(path, "{}", NULL, SECCOMPILER_NO_FILTER, "It has no filter.");
    check_file(path, "{\"a\":" ONE ",\"b\":" ONE "}", NULL, SECCOMPILER_NO_FILTER,
               "It has several filters, so one has to be named.");
    check_file(path, "[]", NULL, SECCOMPILER_REJECTED, "the policy: expected an object of filters, found an empty array");
    check_file("/", NULL, NULL, SECCOMPILER_NO_FILE, strerror(EISDIR));
    check_file("/dev/null/none", NULL, NULL, SECCOMPILER_NO_FILE, strerror(ENOTDIR));
    remove(path);
    printf("%d passed, %d failed\n", passed, failed);
    return failed != 0;
}
