/* SPDX-License-Identifier: Apache-2.0 OR BSD-3-Clause */
/*
 * A filter that is built up rule by rule, in any order, for seccompiler_compile_rules.
 *
 * These functions are NOT PROVED. They keep a filter's arrays in the order that the library takes, and call the library
 * for all else. Nothing of this file is in the library. They allocate nothing; the library does, as seccompiler.h says.
 *
 * EXAMPLE
 *
 *     static struct seccompiler_rules filter;
 *     char message[256];
 *
 *     seccompiler_rules_start(&filter, AUDIT_ARCH_X86_64, SECCOMP_RET_ERRNO, EPERM, SECCOMP_RET_ALLOW, 0);
 *     seccompiler_rules_add(&filter, "write", 1, seccompiler_argument(0, SECCOMPILER_DWORD, SECCOMPILER_EQ, 1));
 *     seccompiler_rules_add(&filter, "write", 1, seccompiler_argument(0, SECCOMPILER_DWORD, SECCOMPILER_EQ, 2));
 *     seccompiler_rules_add(&filter, "exit_group", 0);
 *     if (seccompiler_rules_install(&filter, SECCOMPILER_LAYOUT_TREE, 0, message, sizeof message) != 0)
 *         fprintf(stderr, "%s\n", message);
 *
 * A call gets the match action, here SECCOMP_RET_ALLOW, if one of its rules holds, and else the mismatch action, here
 * SECCOMP_RET_ERRNO with EPERM. A rule holds if all its conditions do. One without conditions always holds.
 *
 * Rules are numbered from 0 in the order in which they are added, and so are the conditions of a rule. The first error
 * is kept, and nothing is added after it, so check only the last call. Its message has the place:
 *
 *     rule 1, fnctl: Unknown system call.
 *     rule 2, 72, condition 0: The argument of a condition is above 5.
 *
 * It is C99, C11 and C++17, with the extensions of GNU and without. It needs no feature test macro.
 */
#ifndef SECCOMPILER_RULES_H
#define SECCOMPILER_RULES_H

#include <errno.h>
#include <stdarg.h>
#include <stdio.h>
#include <string.h>

#include "seccompiler.h"
#include "seccompiler_install.h"

/* Finds the chain for which seccompiler_compile_rules returns SECCOMPILER_BAD_ORDER. Returns the index of the first chain
 * whose number isn't above the one before, or `count` if the numbers ascend. If you move a chain, move its rules and
 * their conditions with it. */
static inline size_t seccompiler_unordered_chain(const struct seccompiler_chain *chains, size_t count)
{
    for (size_t k = 1; k < count; k++)
        if (chains[k].number <= chains[k - 1].number)
            return k;
    return count;
}

/* How much a filter holds. No program in the linear layout tests more. */
#define SECCOMPILER_RULES_MOST_CALLS 1024
#define SECCOMPILER_RULES_MOST 2048

/* A filter, of some 80 KB. Its members are for the functions below. */
struct seccompiler_rules {
    uint32_t architecture, mismatch_kind, mismatch_data, match_kind, match_data;
    size_t chain_count, rule_count, condition_count;
    struct seccompiler_chain chains[SECCOMPILER_RULES_MOST_CALLS];
    struct seccompiler_rule rules[SECCOMPILER_RULES_MOST];
    struct seccompiler_condition conditions[SECCOMPILER_RULES_MOST];
    size_t added;
    int64_t error;
    char place[96];
};

/* Empties a filter for an architecture, and sets its actions. Arguments are those of seccompiler_compile_rules. */
static inline void seccompiler_rules_start(struct seccompiler_rules *filter, uint32_t architecture,
                                           uint32_t mismatch_kind, uint32_t mismatch_data, uint32_t match_kind,
                                           uint32_t match_data)
{
    memset(filter, 0, sizeof *filter);
    filter->architecture = architecture;
    filter->mismatch_kind = mismatch_kind;
    filter->mismatch_data = mismatch_data;
    filter->match_kind = match_kind;
    filter->match_data = match_data;
}

/* A condition: this argument, 0 to 5, of so many bytes is compared by an operator with a value. */
static inline struct seccompiler_condition seccompiler_argument(unsigned int argument, unsigned int length,
                                                                unsigned int op, uint64_t value)
{
    struct seccompiler_condition condition;

    memset(&condition, 0, sizeof condition);
    condition.value = value;
    condition.argument = (uint8_t)(argument < 255 ? argument : 255);
    condition.length = (uint8_t)(length < 255 ? length : 255);
    condition.op = (uint8_t)(op < 255 ? op : 255);
    return condition;
}

/* A condition: the argument is equal to the value in the bits of the mask. */
static inline struct seccompiler_condition seccompiler_masked_argument(unsigned int argument, unsigned int length,
                                                                       uint64_t mask, uint64_t value)
{
    struct seccompiler_condition condition = seccompiler_argument(argument, length, SECCOMPILER_MASKED_EQ, value);

    condition.mask = mask;
    return condition;
}

/* Keeps the first error, and the rule that is being added. Returns the error. */
static inline int64_t seccompiler_rules_fail(struct seccompiler_rules *filter, int64_t code, const char *call,
                                             long long condition)
{
    int length = snprintf(filter->place, sizeof filter->place, "rule %zu, %.32s", filter->added, call);

    if (condition >= 0)
        snprintf(filter->place + length, sizeof filter->place - (size_t)length, ", condition %lld", condition);
    for (char *at = filter->place; *at != '\0'; at++)
        if (*at < ' ' || *at > '~')
            *at = '?'; /* It may steer a terminal. */
    filter->error = code;
    return code;
}

/* Removes the rules of a chain, from this place on, since the chain always matches. */
static inline void seccompiler_rules_drop(struct seccompiler_rules *filter, struct seccompiler_chain *chain, size_t rule,
                                          size_t condition)
{
    size_t conditions = 0;

    for (size_t k = 0; k < chain->rules; k++)
        conditions += filter->rules[rule + k].conditions;
    memmove(filter->rules + rule, filter->rules + rule + chain->rules,
            (filter->rule_count - rule - chain->rules) * sizeof *filter->rules);
    memmove(filter->conditions + condition, filter->conditions + condition + conditions,
            (filter->condition_count - condition - conditions) * sizeof *filter->conditions);
    filter->rule_count -= chain->rules;
    filter->condition_count -= conditions;
    chain->rules = 0;
}

/* Puts a rule after those of its call, so that the arrays stay in order. Returns 0, or SECCOMPILER_NO_ROOM. */
static inline int64_t seccompiler_rules_put(struct seccompiler_rules *filter, int64_t number,
                                            const struct seccompiler_condition *conditions, size_t count)
{
    size_t at = 0, rule = 0, condition = 0, first = 0;
    struct seccompiler_chain *chain;
    int is_new;

    while (at < filter->chain_count && filter->chains[at].number < number)
        rule += filter->chains[at++].rules;
    for (; first < rule; first++)
        condition += filter->rules[first].conditions;
    chain = &filter->chains[at];
    is_new = at == filter->chain_count || chain->number != number;
    if ((is_new && filter->chain_count == SECCOMPILER_RULES_MOST_CALLS) || filter->rule_count == SECCOMPILER_RULES_MOST
        || count > SECCOMPILER_RULES_MOST - filter->condition_count)
        return SECCOMPILER_NO_ROOM;
    if (is_new) {
        memmove(chain + 1, chain, (filter->chain_count++ - at) * sizeof *chain);
        chain->number = number;
        chain->rules = 0;
    } else if (chain->rules == 0) {
        return 0;
    }
    if (count == 0) {
        seccompiler_rules_drop(filter, chain, rule, condition);
        return 0;
    }
    for (; first < rule + chain->rules; first++)
        condition += filter->rules[first].conditions;
    memmove(filter->rules + first + 1, filter->rules + first, (filter->rule_count++ - first) * sizeof *filter->rules);
    memmove(filter->conditions + condition + count, filter->conditions + condition,
            (filter->condition_count - condition) * sizeof *conditions);
    memcpy(filter->conditions + condition, conditions, count * sizeof *conditions);
    filter->rules[first].conditions = count;
    filter->condition_count += count;
    chain->rules++;
    return 0;
}

/* Adds a rule of the conditions of an array, for the call of this number. `call` is what the message names. */
static inline int64_t seccompiler_rules_add_array(struct seccompiler_rules *filter, int64_t number, const char *call,
                                                  const struct seccompiler_condition *conditions, size_t count)
{
    struct sock_filter none;
    int64_t answer;

    if (filter->error != 0)
        return filter->error;
    if (number < 0 || number > 4294967295)
        return seccompiler_rules_fail(filter, SECCOMPILER_BAD_NUMBER, call, -1);
    for (size_t k = 0; k < count; k++) {
        answer = seccompiler_compile_rule(&conditions[k], 1, &none, 0);
        if (answer != SECCOMPILER_NO_ROOM)
            return seccompiler_rules_fail(filter, answer, call, (long long)k);
    }
    answer = seccompiler_rules_put(filter, number, conditions, count);
    if (answer != 0)
        return seccompiler_rules_fail(filter, answer, call, -1);
    filter->added++;
    return 0;
}

/* The same of conditions that are passed one by one. */
static inline int64_t seccompiler_rules_add_list(struct seccompiler_rules *filter, int64_t number, const char *call,
                                                 int count, va_list list)
{
    struct seccompiler_condition conditions[64];

    if (filter->error != 0)
        return filter->error;
    if (count < 0 || count > 64)
        return seccompiler_rules_fail(filter, count < 0 ? SECCOMPILER_BAD_COUNTS : SECCOMPILER_NO_ROOM, call, -1);
    for (int k = 0; k < count; k++)
        conditions[k] = va_arg(list, struct seccompiler_condition);
    return seccompiler_rules_add_array(filter, number, call, conditions, (size_t)count);
}

/*
 * Adds a rule for the call of this name. `count` says how many conditions follow, 0 to 64. They are made by
 * seccompiler_argument or seccompiler_masked_argument.
 *
 * Returns 0, or the filter's first error: BAD_COUNTS if `count` is below 0, NO_ROOM if it is above 64 or the filter is full.
 */
static inline int64_t seccompiler_rules_add(struct seccompiler_rules *filter, const char *call, int count, ...)
{
    int64_t number = seccompiler_call_number(filter->architecture, call, strlen(call)), answer;
    va_list list;

    if (number < 0)
        return filter->error != 0 ? filter->error : seccompiler_rules_fail(filter, number, call, -1);
    va_start(list, count);
    answer = seccompiler_rules_add_list(filter, number, call, count, list);
    va_end(list);
    return answer;
}

/* The same for the call of a number, such as SYS_write, or one that has no name. */
static inline int64_t seccompiler_rules_add_number(struct seccompiler_rules *filter, int64_t number, int count, ...)
{
    char call[24];
    int64_t answer;
    va_list list;

    snprintf(call, sizeof call, "%lld", (long long)number);
    va_start(list, count);
    answer = seccompiler_rules_add_list(filter, number, call, count, list);
    va_end(list);
    return answer;
}

/* Writes a message of three parts. */
static inline void seccompiler_rules_say(char *message, size_t capacity, const char *first, const char *second,
                                         const char *third)
{
    if (snprintf(message, capacity, "%s%s%s", first, second, third) < 0 && capacity > 0)
        message[0] = '\0';
}

/*
 * Compiles the filter as seccompiler_compile_rules does. Returns what that returns, or the first error of a rule, and
 * writes a message, which is empty if there is no error.
 */
static inline int64_t seccompiler_rules_compile(const struct seccompiler_rules *filter, uint32_t layout,
                                                struct sock_filter *program, size_t capacity, char *message,
                                                size_t message_capacity)
{
    char sentence[104] = "";
    int64_t answer = filter->error;

    if (answer == 0)
        answer = seccompiler_compile_rules(filter->chains, filter->chain_count, filter->rules, filter->rule_count,
                                           filter->conditions, filter->condition_count, filter->mismatch_kind,
                                           filter->mismatch_data, filter->match_kind, filter->match_data,
                                           filter->architecture, layout, program, capacity);
    if (filter->error == SECCOMPILER_NO_ROOM)
        strcpy(sentence, "There is no room for more in the filter.");
    else if (filter->error == SECCOMPILER_BAD_COUNTS)
        strcpy(sentence, "The count of conditions is below 0.");
    else if (answer < 0)
        seccompiler_strerror(answer, sentence, sizeof sentence);
    seccompiler_rules_say(message, message_capacity, filter->place, filter->error != 0 ? ": " : "", sentence);
    return answer;
}

/*
 * Compiles the filter, and installs its program by seccompiler_install with these flags of seccomp(2), but
 * SECCOMP_FILTER_FLAG_NEW_LISTENER.
 *
 * Returns 0 if it is installed. Else it writes a message, and returns a negative code of seccompiler_rules_compile, or a
 * positive errno of the kernel's; ESRCH if a thread has another filter. It takes 32 KB of stack.
 */
static inline long seccompiler_rules_install(const struct seccompiler_rules *filter, uint32_t layout, unsigned int flags,
                                             char *message, size_t message_capacity)
{
    struct sock_filter program[BPF_MAXINSNS];
    int64_t count = seccompiler_rules_compile(filter, layout, program, BPF_MAXINSNS, message, message_capacity);
    char thread[24];
    long answer;

    if (count < 0)
        return (long)count;
    answer = seccompiler_install(program, (size_t)count, flags);
    snprintf(thread, sizeof thread, "%ld", answer);
    if (answer > 0)
        seccompiler_rules_say(message, message_capacity, "not installed: thread ", thread, " has another filter");
    else if (answer < 0)
        seccompiler_rules_say(message, message_capacity, "not installed: ", strerror((int)-answer), "");
    return answer > 0 ? ESRCH : -answer;
}

#endif
