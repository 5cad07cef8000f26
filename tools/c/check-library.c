/*
 * Calls the library for C as a program in C does: each function, each code, each text, with the figures of the README
 * and of docs/LAYOUTS.md. Each call that takes memory is made with all of its requests refused, and with each in turn.
 * tools/c/check-library-rows.h has the questions and the answers, and tools/check-library builds and runs this. Prints
 * each wrong answer, and as its last line 'N passed, M failed'.
 */
#include "check-library-rows.h"

#include <inttypes.h>
#include <limits.h>
#include <stddef.h>
#include <stdio.h>
#include <stdlib.h>
#include <string.h>

static const char ENTRY[] =
    "{\"syscall\":\"read\",\"args\":[{\"index\":0,\"type\":\"dword\",\"op\":\"eq\",\"val\":5}]}";

static int passed, failed;

static void check(int well, const char *what)
{
    passed += well;
    failed += !well;
    if (!well)
        printf("%s\n", what);
}

static void equal(int64_t answer, int64_t wanted, const char *what)
{
    passed += answer == wanted;
    failed += answer != wanted;
    if (answer != wanted)
        printf("%s: %" PRId64 " and not %" PRId64 "\n", what, answer, wanted);
}

/* ---- memory: the linker hands requests to these (--wrap) */

void *__real_malloc(size_t size);
void *__real_realloc(void *block, size_t size);
void __real_free(void *block);

static long requests, refused_from = 1, refused_to, held;

static int is_refused(void)
{
    requests++;
    return requests >= refused_from && requests <= refused_to;
}

void *__wrap_malloc(size_t size)
{
    void *block = is_refused() ? NULL : __real_malloc(size);
    held += block != NULL;
    return block;
}

void *__wrap_realloc(void *block, size_t size)
{
    void *moved = is_refused() ? NULL : __real_realloc(block, size);
    held += block == NULL && moved != NULL;
    return moved;
}

void __wrap_free(void *block)
{
    held -= block != NULL;
    __real_free(block);
}

/* From here on these requests are refused, counted from 1: none if the last is before the first. */
static void refuse(long first, long last)
{
    requests = 0;
    refused_from = first;
    refused_to = last;
}

/* ---- arrays that are as they were */

static struct sock_filter program[4100];

static void mark(void)
{
    memset(program, 0xa5, sizeof program);
}

static int is_marked(size_t from)
{
    const unsigned char *bytes = (const unsigned char *)program;
    for (size_t place = from * sizeof *program; place < sizeof program; place++)
        if (bytes[place] != 0xa5)
            return 0;
    return 1;
}

/* ---- records */

static struct seccomp_data call_of(uint32_t arch, int number, uint64_t first, uint64_t second, uint64_t third)
{
    struct seccomp_data call;
    memset(&call, 0, sizeof call);
    call.nr = number;
    call.arch = arch;
    call.args[0] = first;
    call.args[1] = second;
    call.args[2] = third;
    return call;
}

/* ---- programs */

/* What each call that takes a message is lent. */
static char message[256];

static void mark_message(void)
{
    memset(message, '#', sizeof message);
}

/* The message is this sentence, and what is after its byte 0 is as it was. */
static int is_told(const char *said)
{
    size_t bytes = strlen(said) + 1;
    if (bytes > sizeof message || memcmp(message, said, bytes) != 0)
        return 0;
    while (bytes < sizeof message)
        if (message[bytes++] != '#')
            return 0;
    return 1;
}

static int64_t compile(const char *text, size_t length, uint32_t arch, const char *name, size_t name_length,
                       uint32_t layout, size_t capacity)
{
    mark();
    mark_message();
    int64_t answer = seccompiler_compile(text, length, arch, name, name_length, layout, program, capacity,
                                         message, sizeof message);
    check(answer < 0 || is_told(""), "the message of a program");
    check(answer >= 0 || (message[0] != 0 && memchr(message, 0, sizeof message) != NULL), "the message of a code");
    return answer;
}

static int64_t compile_readme(uint32_t layout, size_t capacity)
{
    return compile(README, strlen(README), AUDIT_ARCH_X86_64, NAME, strlen(NAME), layout, capacity);
}

static int64_t decide(const char *text, const char *name, uint32_t arch, const struct seccomp_data *call)
{
    mark_message();
    return seccompiler_decide(text, strlen(text), arch, name, strlen(name), call, message, sizeof message);
}

static void check_calls(int64_t count)
{
    for (size_t i = 0; i < sizeof CALLS / sizeof *CALLS; i++) {
        struct seccomp_data call =
            call_of(CALLS[i].arch, CALLS[i].number, CALLS[i].first, CALLS[i].second, CALLS[i].third);
        equal(seccompiler_run(program, count, &call), CALLS[i].word, "a run");
        equal(decide(README, NAME, AUDIT_ARCH_X86_64, &call), CALLS[i].word, "a decision");
        check(is_told(""), "the message of a decision");
    }
}

static void check_programs(void)
{
    equal(compile_readme(SECCOMPILER_LAYOUT_LINEAR, 4100), 24, "the README's policy");
    check(memcmp(program, LISTING, sizeof LISTING) == 0, "the listing of the README's policy");
    check(is_marked(24), "after the program");
    equal(seccompiler_check(program, 24), 1, "a check of the program");
    equal(seccompiler_check(program, 23), 0, "a check without the last return, to which a jump leads");
    equal(seccompiler_check(program, 25), 0, "a check of one instruction more");
    check_calls(24);
    equal(compile_readme(SECCOMPILER_LAYOUT_TREE, 13), 13, "the README's policy as a tree");
    check(is_marked(13), "after the tree");
    equal(seccompiler_check(program, 13), 1, "a check of the tree");
    check_calls(13);
}

/* ---- rules */

/* A filter as arrays, and what is asked of it. Each case changes what it is about. */
struct asked {
    struct seccompiler_chain chains[3];
    struct seccompiler_rule rules[3];
    struct seccompiler_condition conditions[16];
    size_t chain_count, rule_count, condition_count, capacity;
    uint32_t mismatch_kind, mismatch_data, match_kind, match_data, arch, layout;
};

static struct asked fine(uint32_t layout)
{
    struct asked asked;
    memcpy(asked.chains, CHAINS, sizeof CHAINS);
    memcpy(asked.rules, RULES, sizeof RULES);
    memcpy(asked.conditions, CONDITIONS, sizeof CONDITIONS);
    asked.chain_count = 3, asked.rule_count = 3, asked.condition_count = 16, asked.capacity = 4100;
    asked.mismatch_kind = SECCOMP_RET_TRAP, asked.mismatch_data = 3;
    asked.match_kind = SECCOMP_RET_ERRNO, asked.match_data = 13;
    asked.arch = AUDIT_ARCH_X86_64, asked.layout = layout;
    return asked;
}

static int64_t length_of_rules(const struct asked *asked)
{
    return seccompiler_rules_length(asked->chains, asked->chain_count, asked->rules, asked->rule_count,
                                    asked->conditions, asked->condition_count, asked->mismatch_kind,
                                    asked->mismatch_data, asked->match_kind, asked->match_data, asked->arch,
                                    asked->layout);
}

static int64_t decide_rules(const struct asked *asked, const struct seccomp_data *call)
{
    return seccompiler_decide_rules(asked->chains, asked->chain_count, asked->rules, asked->rule_count,
                                    asked->conditions, asked->condition_count, asked->mismatch_kind,
                                    asked->mismatch_data, asked->match_kind, asked->match_data, asked->arch, call);
}

static int64_t compile_rules(const struct asked *asked)
{
    mark();
    int64_t answer = seccompiler_compile_rules(
        asked->chains, asked->chain_count, asked->rules, asked->rule_count, asked->conditions,
        asked->condition_count, asked->mismatch_kind, asked->mismatch_data, asked->match_kind, asked->match_data,
        asked->arch, asked->layout, program, asked->capacity);
    check(is_marked(answer < 0 ? 0 : answer), "after a program of rules");
    if (refused_from <= refused_to)
        return answer;
    int64_t length = length_of_rules(asked);
    if (answer == SECCOMPILER_NO_ROOM)
        check(length > (int64_t)asked->capacity, "the length of rules for which there is no room");
    else
        equal(length, answer, "the length of rules");
    return answer;
}

static int64_t ran(int64_t count, int number, uint64_t first)
{
    struct seccomp_data call = call_of(AUDIT_ARCH_X86_64, number, first, 1, 0);
    return seccompiler_run(program, count, &call);
}

static int64_t decided_by(const struct asked *asked, int number, uint64_t first)
{
    struct seccomp_data call = call_of(AUDIT_ARCH_X86_64, number, first, 1, 0);
    return decide_rules(asked, &call);
}

/* The arrays have the program of the same policy as a text, in both layouts. */
static void check_rules(void)
{
    static struct sock_filter of_rules[4096];
    for (uint32_t layout = 0; layout < 2; layout++) {
        struct asked asked = fine(layout);
        int64_t count = compile_rules(&asked);
        check(count > 0, "a program of rules");
        equal(seccompiler_check(program, count), 1, "a check of a program of rules");
        equal(ran(count, 39, 0), SECCOMP_RET_ERRNO | 13, "a chain without rules");
        equal(decided_by(&asked, 39, 0), SECCOMP_RET_ERRNO | 13, "a chain without rules, decided");
        equal(ran(count, 1, 5), SECCOMP_RET_ERRNO | 13, "a rule that holds");
        equal(decided_by(&asked, 1, 5), SECCOMP_RET_ERRNO | 13, "a rule that holds, decided");
        equal(ran(count, 1, 6), SECCOMP_RET_TRAP, "rules that don't hold");
        equal(decided_by(&asked, 1, 6), SECCOMP_RET_TRAP, "rules that don't hold, decided");
        equal(ran(count, 0, 5), SECCOMP_RET_TRAP, "a call without a chain");
        equal(decided_by(&asked, 0, 5), SECCOMP_RET_TRAP, "a call without a chain, decided");
        memcpy(of_rules, program, sizeof of_rules);
        equal(compile(SAME, strlen(SAME), AUDIT_ARCH_X86_64, "f", 1, layout, 4096), count, "the same as a text");
        check(memcmp(program, of_rules, count * sizeof *program) == 0, "the instructions of the same as a text");
    }
}

/* What is refused of a program is refused of a decision with the same code, unless it is about the program. */
static int64_t refused_rules(const struct asked *asked)
{
    int64_t answer = compile_rules(asked);
    if (answer != SECCOMPILER_UNKNOWN_LAYOUT)
        equal(decided_by(asked, 0, 0), answer, "what is refused of a decision");
    return answer;
}

/* The first cause is told: each fault is mended once it was, and those of the next ones stay. */
static void check_rules_refused(void)
{
    struct asked a = fine(2);
    a.arch = 1, a.mismatch_kind = 1, a.match_kind = 2, a.rules[0].conditions = 2;
    a.conditions[1].argument = 6, a.conditions[9].length = 5, a.conditions[3].op = 7;
    a.chains[1].number = -1, a.chains[2].number = 1;
    equal(refused_rules(&a), SECCOMPILER_UNKNOWN_ARCHITECTURE, "an architecture"), a.arch = AUDIT_ARCH_X86_64;
    equal(refused_rules(&a), SECCOMPILER_UNKNOWN_LAYOUT, "a layout"), a.layout = 1;
    equal(refused_rules(&a), SECCOMPILER_UNKNOWN_ACTION, "a mismatch action"), a.mismatch_kind = SECCOMP_RET_TRAP;
    equal(refused_rules(&a), SECCOMPILER_UNKNOWN_ACTION, "a match action"), a.match_kind = SECCOMP_RET_TRAP;
    equal(refused_rules(&a), SECCOMPILER_BAD_COUNTS, "one condition less"), a.rules[0].conditions = 0;
    equal(refused_rules(&a), SECCOMPILER_BAD_COUNTS, "one condition more");
    a.rules[0].conditions = SIZE_MAX, a.rules[2].conditions = 15;
    equal(refused_rules(&a), SECCOMPILER_BAD_COUNTS, "counts whose sum wraps");
    a.rules[0].conditions = 0, a.rules[1].conditions = 3, a.rules[2].conditions = 13, a.chains[2].rules = 1;
    equal(refused_rules(&a), SECCOMPILER_BAD_COUNTS, "one rule less"), a.chains[2].rules = 0, a.chains[1].rules = 0;
    equal(refused_rules(&a), SECCOMPILER_BAD_COUNTS, "one rule more"), a.chains[1].rules = 1;
    equal(refused_rules(&a), SECCOMPILER_BAD_ARGUMENT, "an argument"), a.conditions[1].argument = 5;
    equal(refused_rules(&a), SECCOMPILER_UNKNOWN_LENGTH, "a length"), a.conditions[9].length = SECCOMPILER_QWORD;
    equal(refused_rules(&a), SECCOMPILER_UNKNOWN_OPERATOR, "an operator"), a.conditions[3].op = SECCOMPILER_EQ;
    equal(refused_rules(&a), SECCOMPILER_EMPTY_RULE, "no conditions"), a.rules[0].conditions = 1;
    a.rules[1].conditions = 2;
    equal(refused_rules(&a), SECCOMPILER_EQUAL_ACTIONS, "actions"), a.match_kind = SECCOMP_RET_ALLOW;
    equal(refused_rules(&a), SECCOMPILER_BAD_ORDER, "a number below the one before"), a.chains[0].number = -2;
    equal(refused_rules(&a), SECCOMPILER_BAD_NUMBER, "a number below 0"), a.chains[0].number = 1;
    a.chains[1].number = 1, a.chains[2].number = 4294967296;
    equal(refused_rules(&a), SECCOMPILER_BAD_ORDER, "a number twice"), a.chains[0].number = 0;
    equal(refused_rules(&a), SECCOMPILER_BAD_NUMBER, "a number above 32 bits"), a.chains[2].number = 4294967295;
    int64_t count = compile_rules(&a);
    check(count > 0, "no fault");
    a.capacity = count - 1, equal(compile_rules(&a), SECCOMPILER_NO_ROOM, "no room");
    a.capacity = count, equal(compile_rules(&a), count, "room");
}

static void check_actions(void)
{
    for (size_t i = 0; i < sizeof ACTIONS / sizeof *ACTIONS; i++) {
        struct asked matched = fine(0), missed = fine(0);
        matched.match_kind = ACTIONS[i].kind, matched.match_data = ACTIONS[i].data, matched.mismatch_kind =
            ACTIONS[i].kind == SECCOMP_RET_TRAP ? SECCOMP_RET_LOG : SECCOMP_RET_TRAP;
        missed.mismatch_kind = ACTIONS[i].kind, missed.mismatch_data = ACTIONS[i].data, missed.match_data = 5;
        int64_t count = compile_rules(&matched);
        equal(count < 0 ? count : ran(count, 39, 0), ACTIONS[i].word, "a match action");
        count = compile_rules(&missed);
        equal(count < 0 ? count : ran(count, 40, 0), ACTIONS[i].word, "a mismatch action");
    }
    struct asked asked = fine(0);
    asked.mismatch_kind = asked.match_kind = SECCOMP_RET_ERRNO;
    asked.mismatch_data = 1, asked.match_data = 65537;
    check(compile_rules(&asked) > 0, "error numbers that differ in their high halves");
    asked.match_data = 1, equal(compile_rules(&asked), SECCOMPILER_EQUAL_ACTIONS, "one error number");
    asked.mismatch_kind = asked.match_kind = SECCOMP_RET_TRAP, asked.match_data = 2;
    equal(compile_rules(&asked), SECCOMPILER_EQUAL_ACTIONS, "data that don't count");
}

static int64_t compile_many(size_t count, size_t capacity)
{
    static struct seccompiler_rule rules[818];
    static struct seccompiler_condition conditions[818];
    struct seccompiler_chain chain = {0, count};
    for (size_t i = 0; i < count; i++) {
        rules[i].conditions = 1;
        conditions[i] = CONDITIONS[0];
    }
    mark();
    return seccompiler_compile_rules(&chain, 1, rules, count, conditions, count, SECCOMP_RET_TRAP, 0,
                                     SECCOMP_RET_ALLOW, 0, AUDIT_ARCH_X86_64, 0, program, capacity);
}

/* Nothing; a chain without rules; and n rules of 5 instructions each, which have 5 n + 7 in all. */
static void check_rules_lengths(void)
{
    struct asked asked = fine(0);
    asked.chain_count = asked.rule_count = asked.condition_count = 0;
    equal(compile_rules(&asked), 4, "no chains");
    asked.chain_count = 1, asked.chains[0].rules = 0;
    equal(compile_rules(&asked), 10, "a chain without rules");
    equal(compile_many(817, 4092), 4092, "the longest program of rules");
    equal(compile_many(817, 4091), SECCOMPILER_NO_ROOM, "no room for a program of rules");
    check(is_marked(0), "an array with no room for a program of rules");
    equal(compile_many(818, 4100), SECCOMPILER_TOO_LARGE, "rules that are too many");
    check(is_marked(0), "an array after rules that are too many");
}

/* ---- lengths, and the code of a rule */

static int64_t length_of_chains(const struct seccompiler_chain *chains, size_t count, uint32_t layout)
{
    return seccompiler_rules_length(chains, count, RULES, 0, CONDITIONS, 0, SECCOMP_RET_TRAP, 0, SECCOMP_RET_ALLOW, 0,
                                    AUDIT_ARCH_X86_64, layout);
}

/* n rules of 5 instructions each have 5 n + 7 in all; 1000 chains without rules 5 each and 5 in all, or fewer in the tree. */
static void check_rules_length(void)
{
    static struct seccompiler_chain chains[4096];
    for (size_t i = 0; i < 4096; i++)
        chains[i].number = (int64_t)(2 * i);
    for (uint32_t layout = 0; layout < 2; layout++) {
        int64_t length = length_of_chains(chains, 1000, layout);
        check(layout == 0 ? length == 5005 : length > 4 && length < 4096, "the length of 1000 chains");
        equal(length_of_chains(chains, 4096, layout), layout == 0 ? 20485 : SECCOMPILER_TOO_LARGE,
              "the length of 4096 chains, each of a test in a tree");
    }
}

static int64_t compile_rule(const struct seccompiler_condition *conditions, size_t count, size_t room)
{
    mark();
    int64_t answer = seccompiler_compile_rule(conditions, count, program, room);
    check(is_marked(answer < 0 ? 0 : answer), "after the code of a rule");
    return answer;
}

/* The first rule of CONDITIONS is `JA 1; JA 4; LD 16; JEQ 5,0,1`. */
static void check_rule(void)
{
    static const struct sock_filter CODE[] = {{0x05, 0, 0, 1}, {0x05, 0, 0, 4}, {0x20, 0, 0, 16}, {0x15, 0, 1, 5}};
    equal(compile_rule(CONDITIONS, 1, 4096), 4, "the code of a rule");
    check(memcmp(program, CODE, sizeof CODE) == 0, "the instructions of a rule");
    equal(compile_rule(CONDITIONS, 1, 4), 4, "the code of a rule with room for it alone");
    equal(compile_rule(CONDITIONS, 1, 3), SECCOMPILER_NO_ROOM, "no room for the code of a rule");
    static struct seccompiler_condition many[1900];
    for (size_t i = 0; i < 1900; i++)
        many[i] = CONDITIONS[0];
    /* 124 conditions close a group of 248 instructions, and 15 relays of 3 stand between 16 groups. */
    equal(compile_rule(many, 1900, 4096), 2 + 2 * 1900 + 3 * 15, "the code of a long rule");
    struct seccompiler_condition bad[] = {CONDITIONS[0], CONDITIONS[1], CONDITIONS[2]};
    bad[2].argument = 6, bad[1].length = 5, bad[0].op = 7;
    equal(compile_rule(bad, 3, 0), SECCOMPILER_BAD_ARGUMENT, "an argument of a rule"), bad[2].argument = 5;
    equal(compile_rule(bad, 3, 0), SECCOMPILER_UNKNOWN_LENGTH, "a length of a rule"), bad[1].length = 4;
    equal(compile_rule(bad, 3, 0), SECCOMPILER_UNKNOWN_OPERATOR, "an operator of a rule"), bad[0].op = 6;
    equal(compile_rule(bad, 3, 0), SECCOMPILER_NO_ROOM, "no fault of a rule");
    equal(compile_rule(bad, 0, 0), SECCOMPILER_EMPTY_RULE, "a rule without conditions");
}

/* ---- codes and texts */

static void check_refusals(void)
{
    for (size_t i = 0; i < sizeof REFUSED / sizeof *REFUSED; i++) {
        const char *text = REFUSED[i].text, *name = REFUSED[i].name, *said = REFUSED[i].said;
        equal(compile(text, strlen(text), REFUSED[i].arch, name, strlen(name), REFUSED[i].layout,
                      REFUSED[i].capacity),
              REFUSED[i].code, said);
        check(is_marked(0), "an array after a refusal");
        check(is_told(said), said);
        /* What isn't about the program is refused of a decision alike. */
        if (REFUSED[i].code != SECCOMPILER_UNKNOWN_LAYOUT && REFUSED[i].code != SECCOMPILER_NO_ROOM) {
            struct seccomp_data call = call_of(REFUSED[i].arch, 0, 0, 0, 0);
            equal(decide(text, name, REFUSED[i].arch, &call), REFUSED[i].code, "a decision that is refused");
            check(is_told(said), "the message of a decision that is refused");
        }
    }
    equal(compile("", 0, AUDIT_ARCH_X86_64, "b", 1, 0, 0), SECCOMPILER_REJECTED, "no text");
    check(is_marked(0), "an array after no text");
    for (size_t i = 0; i < sizeof NO_JSON / sizeof *NO_JSON; i++) {
        equal(compile(NO_JSON[i], strlen(NO_JSON[i]), AUDIT_ARCH_X86_64, "b", 1, 0, 0), SECCOMPILER_REJECTED,
              "a text of no JSON");
        check(strlen(message) > strlen(NO_JSON_SAID), "words after the beginning of a text of no JSON");
        check(memcmp(message, NO_JSON_SAID, strlen(NO_JSON_SAID)) == 0, "the text of no JSON");
        check(strstr(message, "byte 0") == NULL, "no byte 0 behind a text of no JSON");
    }
    /* The size of an array counts the byte 0 behind its text. */
    equal(compile("{}", sizeof "{}", AUDIT_ARCH_X86_64, "b", 1, 0, 0), SECCOMPILER_REJECTED, "a byte 0 behind a text");
    check(strstr(message, "; the text ends with a byte 0, which its length must not count") != NULL,
          "the text of a byte 0 behind a text");
}

static void check_cuts(void)
{
    for (size_t i = 0; i < sizeof CUTS / sizeof *CUTS; i++) {
        size_t capacity = CUTS[i].capacity, bytes = CUTS[i].bytes;
        mark_message();
        equal(seccompiler_compile(SHAPELESS, strlen(SHAPELESS), AUDIT_ARCH_X86_64, "b", 1, 0, program, 0, message,
                                  capacity),
              SECCOMPILER_REJECTED, "a code whose text is cut");
        check(memcmp(message, SHAPELESS_SAID, bytes) == 0, "a text that is cut");
        check(capacity == 0 || message[bytes++] == 0, "the end of a text that is cut");
        check(message[bytes] == '#', "after a text that is cut");
    }
}

/* ---- names of filters */

static int64_t name_at(const char *text, size_t index, char *name, size_t capacity)
{
    mark_message();
    return seccompiler_filter_names(text, strlen(text), index, name, capacity, message, sizeof message);
}

static void check_names(void)
{
    for (size_t i = 0; i < sizeof FILTERS / sizeof *FILTERS; i++) {
        char name[16];
        memset(name, '#', sizeof name);
        equal(name_at(NAMED, i, name, sizeof name), FILTERS[i].bytes, "the length of a name");
        check(is_told(""), "the message of a name");
        check(memcmp(name, FILTERS[i].name, FILTERS[i].bytes + 1) == 0, "a name");
        check(name[FILTERS[i].bytes + 1] == '#', "after a name");
    }
    for (size_t i = 0; i < sizeof NO_NAMES / sizeof *NO_NAMES; i++) {
        char name[16];
        memset(name, '#', sizeof name);
        equal(name_at(NO_NAMES[i].text, NO_NAMES[i].index, name, sizeof name), NO_NAMES[i].code, NO_NAMES[i].said);
        check(is_told(NO_NAMES[i].said), NO_NAMES[i].said);
        check(name[0] == '#', "a name that isn't told");
    }
    char name[4] = "###";
    equal(name_at(SHORT_NAME, 0, name, 3), 3, "the length of a name that is cut");
    check(memcmp(name, "a\0#", 3) == 0, "a name that is cut");
    equal(name_at(NAMED, 0, name, 0), FILTERS[0].bytes, "the length of a name without room");
    check(memcmp(name, "a\0#", 3) == 0, "a name without room");
}

static void check_codes(void)
{
    for (size_t i = 0; i < sizeof NAMES / sizeof *NAMES; i++)
        equal(NAMES[i][0], NAMES[i][1], "a name of the header");
    for (size_t i = 0; i < sizeof CODES / sizeof *CODES; i++) {
        const char *text = CODES[i].text;
        equal(CODES[i].code, CODES[i].number, "a code of the header");
        mark_message();
        equal(seccompiler_strerror(CODES[i].code, message, sizeof message), (int64_t)strlen(text), text);
        check(is_told(text), text);
    }
    for (size_t i = 0; i < sizeof NO_CODES / sizeof *NO_CODES; i++) {
        mark_message();
        equal(seccompiler_strerror(NO_CODES[i], message, sizeof message), 13, "the length of what is no code");
        check(is_told("Unknown code."), "what is no code");
    }
    mark_message();
    equal(seccompiler_strerror(-1, message, 4), 14, "the length of a sentence that is cut");
    check(memcmp(message, "Out\0#", 5) == 0, "a sentence that is cut");
    equal(seccompiler_strerror(-1, message, 0), 14, "the length of a sentence without room");
    check(memcmp(message, "Out\0#", 5) == 0, "a sentence without room");
    equal(seccompiler_version(), SECCOMPILER_VERSION, "the version");
    equal(SECCOMPILER_VERSION, 65536, "the version of the header");
}

static void check_runs(void)
{
    static const struct seccomp_data record;
    static const struct sock_filter returns = {6, 0, 0, 7};
    static const struct sock_filter jumps = {5, 0, 0, 0};
    static const struct sock_filter unknown = {0xffff, 0xff, 0xff, 0xffffffff};
    equal(seccompiler_run(&returns, 1, &record), 7, "a run of one return");
    equal(seccompiler_run(&jumps, 1, &record), SECCOMPILER_NOT_CHECKED, "a run of a jump past the end");
    equal(seccompiler_run(&unknown, 1, &record), SECCOMPILER_NOT_CHECKED, "a run of an unknown instruction");
    equal(seccompiler_run(&returns, 0, &record), SECCOMPILER_NOT_CHECKED, "a run of nothing");
}

/* The first place that isn't taken, of programs of returns with one instruction changed. */
static void check_places(void)
{
    static struct sock_filter returns[4097];
    for (size_t i = 0; i < 4097; i++)
        returns[i].code = 6;
    for (size_t i = 0; i < sizeof PLACES / sizeof *PLACES; i++) {
        size_t place = SIZE_MAX, last = PLACES[i].at;
        struct sock_filter before = returns[last];
        returns[last] = PLACES[i].instruction;
        equal(seccompiler_check_at(returns, PLACES[i].count, &place), PLACES[i].answer, PLACES[i].what);
        equal(place, PLACES[i].place, PLACES[i].what);
        equal(seccompiler_check(returns, PLACES[i].count), PLACES[i].answer, PLACES[i].what);
        returns[last] = before;
    }
}

/* ---- comparisons */

static void check_comparisons(void)
{
    static const struct seccomp_data zero;
    for (size_t i = 0; i < sizeof COMPARED / sizeof *COMPARED; i++) {
        struct seccomp_data record = zero;
        equal(seccompiler_compare(COMPARED[i].program, COMPARED[i].count, COMPARED[i].other, COMPARED[i].other_count,
                                  COMPARED[i].relation, COMPARED[i].arch, COMPARED[i].least, COMPARED[i].greatest,
                                  COMPARED[i].most, &record),
              COMPARED[i].answer, COMPARED[i].what);
        if (COMPARED[i].answer == 0)
            check(seccompiler_run(COMPARED[i].program, COMPARED[i].count, &record)
                      != seccompiler_run(COMPARED[i].other, COMPARED[i].other_count, &record),
                  COMPARED[i].what);
        else
            check(memcmp(&record, &zero, sizeof zero) == 0, COMPARED[i].what);
    }
    static struct sock_filter linear[24];
    struct seccomp_data record = zero;
    equal(compile_readme(SECCOMPILER_LAYOUT_LINEAR, 24), 24, "a program to compare");
    memcpy(linear, program, sizeof linear);
    equal(compile_readme(SECCOMPILER_LAYOUT_TREE, 24), 13, "the tree to compare");
    equal(seccompiler_compare(linear, 24, program, 13, SECCOMPILER_ALIKE, SECCOMPILER_ALL_CALLS, 0, 0, 1000000,
                              &record),
          1, "both layouts");
}

static void check_numbers(void)
{
    for (size_t i = 0; i < sizeof NUMBERS / sizeof *NUMBERS; i++)
        equal(seccompiler_call_number(NUMBERS[i].arch, NUMBERS[i].name, NUMBERS[i].bytes), NUMBERS[i].answer,
              "the number of a call");
}

/* The filter `a` of so many entries, and a filter `b` of none. Its program has 5 n + 7 instructions. */
static char *long_text(size_t count)
{
    char *text = malloc(300 + count * sizeof ENTRY), *end = text;
    if (text == NULL)
        exit(2);
    end += sprintf(end, "{\"a\":{\"mismatch_action\":\"trap\",\"match_action\":\"allow\",\"filter\":[");
    for (size_t i = 0; i < count; i++)
        end += sprintf(end, "%s%s", i == 0 ? "" : ",", ENTRY);
    sprintf(end, "]},\"b\":{\"mismatch_action\":\"trap\",\"match_action\":\"allow\",\"filter\":[]}}");
    return text;
}

static void check_lengths(void)
{
    char *fits = long_text(817), *large = long_text(818);
    equal(compile(fits, strlen(fits), AUDIT_ARCH_X86_64, "a", 1, 0, 4096), 4092, "with room for any program");
    check(is_marked(4092), "after a program with room for any");
    equal(compile(fits, strlen(fits), AUDIT_ARCH_X86_64, "a", 1, 0, 4092), 4092, "the longest program");
    check(is_marked(4092), "after the longest program");
    equal(seccompiler_check(program, 4092), 1, "a check of the longest program");
    equal(compile(fits, strlen(fits), AUDIT_ARCH_X86_64, "a", 1, 0, 4091), SECCOMPILER_NO_ROOM, "no room");
    equal(compile(large, strlen(large), AUDIT_ARCH_X86_64, "a", 1, 0, 0), SECCOMPILER_TOO_LARGE, "too large");
    check(is_marked(0), "an array after a filter that is too large");
    check(is_told(TOO_LARGE), TOO_LARGE);
    equal(compile(large, strlen(large), AUDIT_ARCH_X86_64, "b", 1, 0, 4), 4, "beside a filter that is too large");
    free(fits);
    free(large);
}

/* ---- requests for memory refused: all, and each in turn */

/* Makes a call with all requests refused, which answers want of memory; then once for each of its
 * requests, that one refused. Each answer is want of memory or the ample one, which comes if the call
 * goes on without what was refused, and at the end. */
static void sweep(int64_t (*call)(void), int64_t ample)
{
    long number = 0, scarce = 0;
    held = 0;
    refuse(1, LONG_MAX);
    equal(call(), SECCOMPILER_OUT_OF_MEMORY, "an answer with all requests refused");
    equal(held, 0, "memory that is kept");
    do {
        number++;
        refuse(number, number);
        int64_t answer = call();
        scarce += answer != ample;
        check(answer == ample || answer == SECCOMPILER_OUT_OF_MEMORY, "an answer with a refused request");
        if (answer != ample)
            check(requests >= number, "want of memory with none refused");
        equal(held, 0, "memory that is kept");
    } while (requests >= number && number < 10000);
    check(scarce > 0 && requests < number, "answers once no request is refused");
    refuse(1, 0);
}

/* The layout of the calls below. */
static uint32_t swept;

static int64_t compiled(void)
{
    int64_t answer = compile_readme(swept, 30);
    check(is_marked(answer < 0 ? 0 : answer), "an array with a refused request");
    return answer;
}

static int64_t decided(void)
{
    struct seccomp_data call = call_of(AUDIT_ARCH_X86_64, 288, 0, 0, 0);
    return decide(README, NAME, AUDIT_ARCH_X86_64, &call);
}

static int64_t rules_compiled(void)
{
    struct asked asked = fine(swept);
    return compile_rules(&asked);
}

static int64_t rule_code(void)
{
    return compile_rule(CONDITIONS, 16, 4096);
}

static int64_t rules_decided(void)
{
    struct asked asked = fine(SECCOMPILER_LAYOUT_LINEAR);
    return decided_by(&asked, 1, 5);
}

static int64_t rules_long(void)
{
    struct asked asked = fine(swept);
    return length_of_rules(&asked);
}

static int64_t named(void)
{
    char name[16] = "#";
    int64_t answer = name_at(NAMED, 0, name, sizeof name);
    check(answer < 0 ? name[0] == '#' : strcmp(name, FILTERS[0].name) == 0, "a name with a refused request");
    return answer;
}

static int64_t compared_alike(void)
{
    static const struct sock_filter SAME[4] = {{0x20, 0, 0, 0}, {0x15, 0, 1, 39}, {0x06, 0, 0, 1}, {0x06, 0, 0, 2}};
    struct seccomp_data record;
    return seccompiler_compare(SAME, 4, SAME, 4, SECCOMPILER_ALIKE, SECCOMPILER_ALL_CALLS, 0, 0, 1000, &record);
}

static int64_t compared(void)
{
    static const struct seccomp_data zero;
    struct seccomp_data record = zero;
    int64_t answer = seccompiler_compare(STRICT, 4, LAX, 4, SECCOMPILER_ALIKE, SECCOMPILER_ALL_CALLS, 0, 0, 1000, &record);
    check(answer == 0 || memcmp(&record, &zero, sizeof zero) == 0, "a record with a refused request");
    return answer;
}

/* A refusal of a shape: if memory is refused for its text, the message is what the code means. */
static int64_t refused_shape(const char *text, const char *said)
{
    int64_t answer = compile(text, strlen(text), AUDIT_ARCH_X86_64, "b", 1, 0, 0);
    check(answer == SECCOMPILER_REJECTED ? is_told(said) || is_told("The policy is rejected.") : is_told("Out of memory."),
          "a text with a refused request");
    return answer;
}

static int64_t shape(void)
{
    return refused_shape(SHAPELESS, SHAPELESS_SAID);
}

static int64_t steering(void)
{
    return refused_shape(STEERING, STEERING_SAID);
}

/* Nothing is requested for a message for which there is no room: if all that is then requested is granted, and
 * nothing more, a refusal has its code, and what the code means for its message. */
static void without_room(void)
{
    refuse(1, 0);
    equal(seccompiler_compile(SHAPELESS, strlen(SHAPELESS), AUDIT_ARCH_X86_64, "b", 1, 0, program, 0, message, 0),
          SECCOMPILER_REJECTED, "a refusal without room for a message");
    refuse(requests + 1, LONG_MAX);
    equal(compile(SHAPELESS, strlen(SHAPELESS), AUDIT_ARCH_X86_64, "b", 1, 0, 0), SECCOMPILER_REJECTED,
          "a refusal without memory for a message");
    check(is_told("The policy is rejected."), "a message without memory");
    refuse(1, 0);
}

/* The functions that take no memory make no request for any, and answer if none is granted. */
static void without_memory(void)
{
    struct seccomp_data call = call_of(AUDIT_ARCH_X86_64, 288, 0, 0, 0);
    equal(compile_readme(SECCOMPILER_LAYOUT_LINEAR, 24), 24, "the README's policy");
    refuse(1, LONG_MAX);
    equal(seccompiler_check(program, 24), 1, "a check");
    equal(seccompiler_run(program, 24, &call), SECCOMP_RET_ALLOW, "a run");
    size_t place;
    equal(seccompiler_check_at(program, 24, &place), 1, "a check for a place");
    equal(seccompiler_strerror(SECCOMPILER_NO_ROOM, message, sizeof message), 49, "a sentence");
    equal(seccompiler_version(), SECCOMPILER_VERSION, "the version");
    equal(seccompiler_call_number(AUDIT_ARCH_X86_64, "accept4", 7), 288, "a call's number");
    equal(requests, 0, "requests of the functions that take no memory");
    refuse(1, 0);
}

int main(void)
{
    check(sizeof(struct sock_filter) == 8 && offsetof(struct sock_filter, jt) == 2
              && offsetof(struct sock_filter, jf) == 3 && offsetof(struct sock_filter, k) == 4,
          "the layout of an instruction");
    check_programs();
    check(sizeof(struct seccompiler_chain) == 16 && offsetof(struct seccompiler_chain, rules) == 8
              && sizeof(struct seccompiler_rule) == 8 && sizeof(struct seccompiler_condition) == 24
              && offsetof(struct seccompiler_condition, mask) == 8
              && offsetof(struct seccompiler_condition, argument) == 16
              && offsetof(struct seccompiler_condition, length) == 17
              && offsetof(struct seccompiler_condition, op) == 18,
          "the layout of the entries of rules");
    check_rules();
    check_rules_refused();
    check_actions();
    check_rules_lengths();
    check_rules_length();
    check_rule();
    check_refusals();
    check_cuts();
    check_names();
    check_codes();
    check_runs();
    check_places();
    check_comparisons();
    check_numbers();
    check_lengths();
    for (swept = 0; swept < 2; swept++) {
        int64_t count = rules_compiled();
        sweep(compiled, swept == SECCOMPILER_LAYOUT_TREE ? 13 : 24);
        sweep(rules_compiled, count);
        if (swept == SECCOMPILER_LAYOUT_TREE)
            sweep(rules_long, count);
    }
    sweep(rule_code, rule_code());
    sweep(decided, SECCOMP_RET_ALLOW);
    sweep(rules_decided, SECCOMP_RET_ERRNO | 13);
    sweep(named, FILTERS[0].bytes);
    sweep(compared, 0);
    sweep(compared_alike, 1);
    sweep(steering, SECCOMPILER_REJECTED);
    sweep(shape, SECCOMPILER_REJECTED);
    without_room();
    without_memory();
    printf("%d passed, %d failed\n", passed, failed);
    return failed != 0;
}
