/* SPDX-License-Identifier: Apache-2.0 OR BSD-3-Clause */
/*
 * seccompiler: seccomp filters, compiled from JSON policies, or from arrays of rules, to classic BPF programs.
 *
 * The functions of the library for C, version 1.0 of its interface. What each returns, and what it then leaves
 * in the caller's memory, is proved: docs/PROMISES.md says what, and docs/C.md how the library is built and linked.
 * What is said here of memory, threads, stack and system calls, and of how long messages are, is not proved.
 * The library runs on Linux on x86_64 and aarch64, and compiles for three architectures.
 *
 * EXAMPLE
 *
 *     #include <linux/audit.h>
 *     #include <seccompiler.h>
 *     #include <stdio.h>
 *
 *     // Writes the program of a policy's filter "main_thread" into the array.
 *     // Returns its length, or prints why there is none, and returns -1.
 *     int program_of(const char *policy, size_t length,
 *                    struct sock_filter program[4096])
 *     {
 *         char message[256];
 *         int64_t count = seccompiler_compile(
 *             policy, length, AUDIT_ARCH_X86_64, "main_thread", 11,
 *             SECCOMPILER_LAYOUT_LINEAR, program, 4096,
 *             message, sizeof message);
 *         if (count < 0) {
 *             fprintf(stderr, "%s\n", message);
 *             return -1;
 *         }
 *         return (int)count;
 *     }
 *
 * ARGUMENTS
 *
 * policy, policy_length
 *     A JSON text that names filters, as docs/JSON.md describes it, and its length in bytes. It needs
 *     no NUL byte at its end. It may be any bytes: what isn't JSON in UTF-8 is rejected.
 *
 * architecture
 *     One of three AUDIT_ARCH_* values of <linux/audit.h>: AUDIT_ARCH_X86_64 (0xc000003e),
 *     AUDIT_ARCH_AARCH64 (0xc00000b7) or AUDIT_ARCH_RISCV64 (0xc00000f3).
 *
 * name, name_length
 *     The name of a filter of the policy, or of a system call, and its length in bytes. It needs no
 *     NUL byte at its end. No filter and no system call has a name that isn't UTF-8.
 *
 * layout
 *     SECCOMPILER_LAYOUT_LINEAR or SECCOMPILER_LAYOUT_TREE. The programs of both return the same for each
 *     call; docs/LAYOUTS.md says when to take which.
 *
 * chains, rules, conditions, and how many of each
 *     A filter without JSON. A chain stands for the rules of one system call, and counts them. The array
 *     `rules` has the rules of all chains, those of the first chain first, then those of the second.
 *     Likewise each rule counts its conditions, and `conditions` has those of all rules. If you sort chains,
 *     sort rules and conditions with them. seccompiler_rules.h takes rules in any order.
 *
 * mismatch_kind, mismatch_data, match_kind, match_data
 *     The action for calls that no chain matches, and the one for calls that a chain matches. A kind is
 *     an action of <linux/seccomp.h>: SECCOMP_RET_ALLOW, SECCOMP_RET_ERRNO, SECCOMP_RET_KILL_THREAD,
 *     SECCOMP_RET_KILL_PROCESS, SECCOMP_RET_LOG, SECCOMP_RET_TRACE or SECCOMP_RET_TRAP. The data are the
 *     errno of SECCOMP_RET_ERRNO, or the message of SECCOMP_RET_TRACE. Programs return their low 16 bits.
 *     With another kind the data are ignored.
 *
 * program, count or capacity
 *     An array of instructions, and how many it has. A program has at most 4096.
 *
 * record
 *     A call record: the 64 bytes of a `struct seccomp_data` of <linux/seccomp.h>, little-endian.
 *
 * message, message_capacity
 *     The caller's buffer for an error message, and its size in bytes. The message says why a code is
 *     returned. It is UTF-8 and ends in a NUL byte; if no code is returned it is empty. If the buffer
 *     is too short, the message is cut after the last whole character that fits with the NUL byte. Bytes
 *     after the NUL byte are left as they were, and a buffer of 0 bytes is left alone. 256 bytes are enough
 *     for each message that has no name and no value of the policy. Control characters, and those that change
 *     the direction of text or are invisible, are written as \x and two digits for each of their bytes. So a
 *     message is one line and steers no terminal. If memory runs out for the message, it is that of
 *     seccompiler_strerror.
 *
 * If a function takes a pointer and a length, the pointer isn't null, even for a length of 0. The functions
 * are proved over references of Rust, which are never null, so the proofs say nothing of a null pointer. A
 * pointer is aligned for its type, and what it points to has that length, and is initialized. An array, buffer
 * or object that a function writes overlaps no other argument, and no other thread reads or writes it during
 * the call. Nothing else is required of any argument.
 *
 * RETURN VALUES
 *
 * A negative return value is one of the codes below. Each function lists its codes: if several apply, it
 * returns the first of them in the order of its list. A function that returns a code writes nothing but the
 * message, if it takes one.
 *
 * MEMORY, THREADS
 *
 * The functions that take a policy or rules, and seccompiler_compare, allocate by malloc and free all of it
 * before they return. If malloc fails they return SECCOMPILER_OUT_OF_MEMORY. The others allocate nothing.
 * Nothing is kept between calls, no system call is made but those of malloc, and no file is opened. So the
 * functions may be called from several threads at once. They mustn't be called from a signal handler, nor in
 * the forked child of a process with several threads. A policy may nest 127 levels deep, which takes up to
 * 180 KB of stack.
 */
#ifndef SECCOMPILER_H
#define SECCOMPILER_H

#include <linux/filter.h>
#include <linux/seccomp.h>
#include <stddef.h>
#include <stdint.h>

#ifdef __cplusplus
extern "C" {
#endif

/* The version of this interface, 1.0: its first number times 65536, plus its second. A larger second number means
 * that something was added, a larger first one that callers have to change. */
#define SECCOMPILER_VERSION 0x10000

/* Out of memory. Each function says in place of which return values it may come. */
#define SECCOMPILER_OUT_OF_MEMORY (-1)
/* The architecture is none of the three AUDIT_ARCH_* values. */
#define SECCOMPILER_UNKNOWN_ARCHITECTURE (-2)
/* There is no layout of this number. */
#define SECCOMPILER_UNKNOWN_LAYOUT (-3)
/* The policy is rejected: it is no JSON text of filters, or one of its filters has an error on the architecture. */
#define SECCOMPILER_REJECTED (-4)
/* No filter of the policy has this name, or this index. */
#define SECCOMPILER_NO_FILTER (-5)
/* The filter's program would have more than 4096 instructions. */
#define SECCOMPILER_TOO_LARGE (-6)
/* The program has more instructions than the array. */
#define SECCOMPILER_NO_ROOM (-7)
/* The program doesn't pass seccompiler_check. */
#define SECCOMPILER_NOT_CHECKED (-8)
/* There is no relation of this number. */
#define SECCOMPILER_UNKNOWN_RELATION (-9)
/* No system call of the architecture has this name. */
#define SECCOMPILER_UNKNOWN_CALL (-10)
/* There is no action of this kind. */
#define SECCOMPILER_UNKNOWN_ACTION (-11)
/* The chains count more or fewer rules than there are, or the rules count more or fewer conditions. */
#define SECCOMPILER_BAD_COUNTS (-12)
/* The index of a condition's argument is above 5. */
#define SECCOMPILER_BAD_ARGUMENT (-13)
/* The length of a condition is neither 4 nor 8. */
#define SECCOMPILER_UNKNOWN_LENGTH (-14)
/* The operator of a condition is above 6. */
#define SECCOMPILER_UNKNOWN_OPERATOR (-15)
/* A rule has no conditions. */
#define SECCOMPILER_EMPTY_RULE (-16)
/* The two actions are the same, with the same data if these aren't ignored. */
#define SECCOMPILER_EQUAL_ACTIONS (-17)
/* The chains aren't in ascending order of their call numbers, or two have the same. */
#define SECCOMPILER_BAD_ORDER (-18)
/* The call number of a chain is below 0 or above 4294967295. */
#define SECCOMPILER_BAD_NUMBER (-19)
/* The comparison looked at as many sets of calls as it may, and found neither answer. */
#define SECCOMPILER_UNDECIDED (-20)

/* The linear layout: it tests one call number after the other, as the Rust crate seccompiler does. */
#define SECCOMPILER_LAYOUT_LINEAR 0
/* The tree layout: a tree of tests for ranges of call numbers. */
#define SECCOMPILER_LAYOUT_TREE 1

/* How many bytes of an argument, a value and a mask are compared: the low 4, or all 8. */
#define SECCOMPILER_DWORD 4
#define SECCOMPILER_QWORD 8

/* The argument is equal to the value, not equal, greater, greater or equal, less, less or equal. */
#define SECCOMPILER_EQ 0
#define SECCOMPILER_NE 1
#define SECCOMPILER_GT 2
#define SECCOMPILER_GE 3
#define SECCOMPILER_LT 4
#define SECCOMPILER_LE 5
/* In the bits of the mask the argument is equal to the value. */
#define SECCOMPILER_MASKED_EQ 6

/* Both programs return the same value. */
#define SECCOMPILER_ALIKE 0
/* The first program's action permits as much as that of the second, or less; their data are ignored. From the
 * least: killing the process, killing the thread, trap, errno, user notification, trace, log, allow. */
#define SECCOMPILER_AT_MOST_AS_PERMISSIVE 1

/* In place of an architecture of seccompiler_compare: all calls, of all architectures. */
#define SECCOMPILER_ALL_CALLS 0

/* The rules for one system call. It is matched if one of them holds, or if there are none. */
struct seccompiler_chain {
    int64_t number; /* of the system call */
    size_t rules;   /* how many; after those of the chains before */
};

/* A rule, which holds if all its conditions do. */
struct seccompiler_rule {
    size_t conditions; /* how many; after those of the rules before */
};

/* A condition on an argument of the system call. Arguments are compared as unsigned numbers. */
struct seccompiler_condition {
    uint64_t value;   /* what the argument is compared with */
    uint64_t mask;    /* of SECCOMPILER_MASKED_EQ; else it is ignored */
    uint8_t argument; /* its index, 0 to 5 */
    uint8_t length;   /* SECCOMPILER_DWORD or SECCOMPILER_QWORD */
    uint8_t op;       /* SECCOMPILER_EQ to SECCOMPILER_MASKED_EQ */
};

/*
 * Compiles the filter of this name, and writes its program into the front of the array `program`, which
 * has `capacity` instructions.
 *
 * Returns the number of instructions, 1 to 4096. The program passes seccompiler_check. For every call record it
 * returns the action that the filter specifies, within as many steps as it has instructions. The rest of the
 * array is as it was.
 *
 * Returns a code, writes the message, and leaves the whole array as it was, in these cases:
 * UNKNOWN_ARCHITECTURE, UNKNOWN_LAYOUT, REJECTED, NO_FILTER, TOO_LARGE, NO_ROOM; or OUT_OF_MEMORY in place of
 * any but the first two. All filters of the policy are read, so an error in another filter is REJECTED too.
 * Whether another filter's program is too large doesn't matter.
 *
 * The message of REJECTED says what is wrong with the policy, after the path of the place:
 *
 *     main_thread.filter[1].syscall: unknown system call "fnctl" on x86_64; did you mean "fcntl"?
 *
 * If the policy isn't JSON in UTF-8, or nests too deep, it begins with "Error parsing Json: ". What follows
 * names the error and its place, and isn't proved. A repeated key has no place. The message of NO_ROOM has the
 * program's length.
 */
int64_t seccompiler_compile(const char *policy, size_t policy_length, uint32_t architecture,
                            const char *name, size_t name_length, uint32_t layout,
                            struct sock_filter *program, size_t capacity,
                            char *message, size_t message_capacity);

/*
 * Decides a call record as the filter of this name specifies, without making a program.
 *
 * Returns an action, 0 to 4294967295, such as SECCOMP_RET_ALLOW: the filter's match action if the filter
 * matches the call, its mismatch action if it doesn't, and SECCOMP_RET_KILL_PROCESS for a record of another
 * architecture. Or returns a code, and writes the message, as seccompiler_compile does: UNKNOWN_ARCHITECTURE,
 * REJECTED, NO_FILTER; or OUT_OF_MEMORY in place of any but the first.
 */
int64_t seccompiler_decide(const char *policy, size_t policy_length, uint32_t architecture,
                           const char *name, size_t name_length, const struct seccomp_data *record,
                           char *message, size_t message_capacity);

/*
 * Gives the name of a filter of a policy: the one of this index, from 0, in ascending order of the names' bytes.
 * So a caller who begins with 0 and goes on until NO_FILTER gets all names.
 *
 * Returns the length of the name in bytes, and writes the name with a NUL byte at its end into the front of
 * `name`. If the buffer is too short, the name is cut as a message is. The rest of the buffer is as it was.
 *
 * Returns a code, writes the message, and leaves `name` as it was, in these cases: REJECTED, if the policy is
 * no JSON text of filters; NO_FILTER, if it has no filter of this index; or OUT_OF_MEMORY in place of any
 * return value. Whether its filters have errors on an architecture doesn't matter.
 */
int64_t seccompiler_filter_names(const char *policy, size_t policy_length, size_t index,
                                 char *name, size_t name_capacity,
                                 char *message, size_t message_capacity);

/*
 * Compiles the filter that the arrays describe, and writes its program into the front of the array `program`,
 * which has `capacity` instructions. The chains are in ascending order of their call numbers.
 *
 * Returns the number of instructions, and writes a program, as seccompiler_compile does for a policy's filter.
 * The action for a call is the match action if a chain of its number matches it, and else the mismatch action.
 *
 * Returns a code, and leaves the whole array as it was, in these cases: UNKNOWN_ARCHITECTURE,
 * UNKNOWN_LAYOUT, UNKNOWN_ACTION, BAD_COUNTS, BAD_ARGUMENT, UNKNOWN_LENGTH, UNKNOWN_OPERATOR, EMPTY_RULE,
 * EQUAL_ACTIONS, BAD_ORDER, BAD_NUMBER, TOO_LARGE, NO_ROOM; or OUT_OF_MEMORY in place of one of the last
 * two or of a program. All entries are searched for the cause of one code before that of the next.
 * seccompiler_strerror has a message for each.
 */
int64_t seccompiler_compile_rules(const struct seccompiler_chain *chains, size_t chain_count,
                                  const struct seccompiler_rule *rules, size_t rule_count,
                                  const struct seccompiler_condition *conditions,
                                  size_t condition_count, uint32_t mismatch_kind,
                                  uint32_t mismatch_data, uint32_t match_kind, uint32_t match_data,
                                  uint32_t architecture, uint32_t layout,
                                  struct sock_filter *program, size_t capacity);

/*
 * Counts the instructions of the program that seccompiler_compile_rules makes of these arguments; or, in the linear
 * layout, would make if programs could have more than 4096.
 *
 * Returns the number of instructions, or 9223372036854775807, if that is less. Or returns one of the codes of
 * seccompiler_compile_rules but NO_ROOM, in the same cases; TOO_LARGE comes in the tree layout alone. OUT_OF_MEMORY
 * comes only in place of a number or of TOO_LARGE.
 */
int64_t seccompiler_rules_length(const struct seccompiler_chain *chains, size_t chain_count,
                                 const struct seccompiler_rule *rules, size_t rule_count,
                                 const struct seccompiler_condition *conditions,
                                 size_t condition_count, uint32_t mismatch_kind,
                                 uint32_t mismatch_data, uint32_t match_kind, uint32_t match_data,
                                 uint32_t architecture, uint32_t layout);

/*
 * Writes the code of the rule of these conditions into the front of the array `code`, which has `capacity`
 * instructions. This is no whole program, but the part of one that tests the rule. Entered at its first
 * instruction, it leaves at its end if the rule holds for the call record, and one instruction further if
 * it doesn't.
 *
 * Returns the number of instructions, which may be more than 4096. The rest of the array is as it was.
 *
 * Returns a code, and leaves the whole array as it was, in these cases: BAD_ARGUMENT, UNKNOWN_LENGTH,
 * UNKNOWN_OPERATOR, EMPTY_RULE, NO_ROOM; or OUT_OF_MEMORY in place of the last one or of the code. All conditions are
 * searched for the cause of one code before that of the next.
 */
int64_t seccompiler_compile_rule(const struct seccompiler_condition *conditions,
                                 size_t condition_count, struct sock_filter *code, size_t capacity);

/*
 * Decides a call record as the filter that the arrays describe specifies, without making a program.
 *
 * Returns an action, as seccompiler_decide does. Or returns one of the codes of seccompiler_compile_rules but
 * UNKNOWN_LAYOUT, TOO_LARGE and NO_ROOM, in the same cases. OUT_OF_MEMORY comes only in place of an action.
 */
int64_t seccompiler_decide_rules(const struct seccompiler_chain *chains, size_t chain_count,
                                 const struct seccompiler_rule *rules, size_t rule_count,
                                 const struct seccompiler_condition *conditions,
                                 size_t condition_count, uint32_t mismatch_kind,
                                 uint32_t mismatch_data, uint32_t match_kind, uint32_t match_data,
                                 uint32_t architecture, const struct seccomp_data *record);

/*
 * Checks whether a program may be run. One that passes has 1 to 4096 instructions, of the seven kinds that compiled
 * programs consist of, and the last one returns. Each load takes 4 aligned bytes of a record, and each jump leads to
 * a place of the program. Returns 1 if the program passes, 0 if it doesn't.
 */
int32_t seccompiler_check(const struct sock_filter *program, size_t count);

/*
 * Checks as seccompiler_check does whether a program may be run, and finds the first place at which it fails.
 *
 * Returns 1 if the program passes, and leaves `place` as it was. Returns 0 if it doesn't, and writes the first
 * of these places, from 0 on: that of an instruction that no program may have there; 4096, if there are more
 * instructions; the last one, if it doesn't return; and 0, if there are no instructions.
 */
int32_t seccompiler_check_at(const struct sock_filter *program, size_t count, size_t *place);

/*
 * Runs a program on a call record.
 *
 * Returns what the program returns, 0 to 4294967295, such as SECCOMP_RET_ALLOW; or the code NOT_CHECKED.
 */
int64_t seccompiler_run(const struct sock_filter *program, size_t count,
                        const struct seccomp_data *record);

/*
 * Compares what two programs, of whichever compilers, return for each call of a set. These are the calls of the
 * architecture with numbers from `least` to `greatest`, both included. If `architecture` is
 * SECCOMPILER_ALL_CALLS they are all calls, and the two numbers are ignored. The relation is SECCOMPILER_ALIKE or
 * SECCOMPILER_AT_MOST_AS_PERMISSIVE.
 *
 * Returns 1 if the relation holds for each of these calls. Returns 0 if it doesn't, and writes the record of
 * a call for which it doesn't into `difference`, in little-endian bytes. Else `difference` is as it was.
 *
 * Returns a code in these cases: UNKNOWN_ARCHITECTURE; UNKNOWN_RELATION; NOT_CHECKED, if one of the programs
 * doesn't pass seccompiler_check, which here takes the operation BPF_JMP | BPF_JSET | BPF_K as well; or
 * OUT_OF_MEMORY or UNDECIDED in place of 1 or 0. The comparison splits the calls into sets of which it knows what
 * the programs return, and looks at `most` sets at most. Most pairs of programs take some sets for each test, and a
 * million sets take some tenths of a second. That UNDECIDED comes only after `most` sets is not proved.
 */
int64_t seccompiler_compare(const struct sock_filter *program, size_t count,
                            const struct sock_filter *other, size_t other_count,
                            uint32_t relation, uint32_t architecture, uint32_t least, uint32_t greatest,
                            size_t most, struct seccomp_data *difference);

/*
 * Looks up a system call by its name. Upper and lower case differ.
 *
 * Returns its number, 0 to 462, or a code: UNKNOWN_ARCHITECTURE, UNKNOWN_CALL.
 */
int64_t seccompiler_call_number(uint32_t architecture, const char *name, size_t name_length);

/*
 * Writes the message of a code, also of SECCOMPILER_NO_FILE of seccompiler_file.h, into the front of `message`: a
 * sentence in ASCII with a NUL byte at its end, cut if the buffer is too short. For a number that is no code it is
 * "Unknown code.".
 *
 * Returns the length of the whole message in bytes, 1 to 100, cut or not.
 */
int64_t seccompiler_strerror(int64_t code, char *message, size_t message_capacity);

/* Returns the version of the library's interface: its SECCOMPILER_VERSION. */
uint32_t seccompiler_version(void);

#ifdef __cplusplus
}
#endif

#endif
