/*
 * What tools/c/check-library.c asks the library for C, and what has to be answered: figures of the README
 * and of docs/LAYOUTS.md, the kernel's words, and the codes and texts of the definitions.
 */
#ifndef CHECK_LIBRARY_ROWS_H
#define CHECK_LIBRARY_ROWS_H

#include <seccompiler.h>
#include <seccompiler_file.h>

#include <linux/audit.h>
#include <linux/seccomp.h>

static const char README[] =
    "{\"main_thread\":{\"mismatch_action\":\"kill_process\",\"match_action\":\"allow\",\"filter\":[\n"
    "    {\"syscall\":\"accept4\"},\n"
    "    {\"syscall\":\"fcntl\",\"args\":[\n"
    "        {\"index\":1,\"type\":\"dword\",\"op\":\"eq\",\"val\":2,\"comment\":\"F_SETFD\"},\n"
    "        {\"index\":2,\"type\":\"dword\",\"op\":\"eq\",\"val\":1,\"comment\":\"FD_CLOEXEC\"}]},\n"
    "    {\"syscall\":\"fcntl\",\"args\":["
    "{\"index\":1,\"type\":\"dword\",\"op\":\"eq\",\"val\":1,\"comment\":\"F_GETFD\"}]}]}}";
static const char NAME[] = "main_thread";

/* A filter without actions, whose name has two bytes, and what is said of it. */
static const char SHAPELESS[] = "{\"\xc2\xb5\":{}}";
static const char SHAPELESS_SAID[] = "\xc2\xb5: missing \"mismatch_action\" or \"default_action\"";

/* The same of a name of characters that steer a terminal or aren't seen there, which messages have by their bytes'
 * numbers: U+0000, U+001B, U+007F, U+0080, U+009F, U+061C, U+200B, U+200F, U+2028, U+202E, U+2060, U+2066, U+2069, U+FEFF. */
static const char STEERING[] =
    "{\"\\u0000\\u001b\x7f\xc2\x80\xc2\x9f\xd8\x9c\xe2\x80\x8b\xe2\x80\x8f\xe2\x80\xa8\xe2\x80\xae"
    "\xe2\x81\xa0\xe2\x81\xa6\xe2\x81\xa9\xef\xbb\xbf\":{}}";
static const char STEERING_SAID[] =
    "\\x00\\x1b\\x7f\\xc2\\x80\\xc2\\x9f\\xd8\\x9c\\xe2\\x80\\x8b\\xe2\\x80\\x8f\\xe2\\x80\\xa8\\xe2\\x80\\xae"
    "\\xe2\\x81\\xa0\\xe2\\x81\\xa6\\xe2\\x81\\xa9\\xef\\xbb\\xbf: missing \"mismatch_action\" or \"default_action\"";

/* Their neighbours, which stand in a message as they are: U+0020, U+007E, U+00A0, U+061B, U+061D, U+200A, U+2010, U+2027,
 * U+202F, U+205F, U+2070, U+FEFE, U+FF00, U+1F600. */
#define SEEN \
    " ~\xc2\xa0\xd8\x9b\xd8\x9d\xe2\x80\x8a\xe2\x80\x90\xe2\x80\xa7\xe2\x80\xaf\xe2\x81\x9f\xe2\x81\xb0" \
    "\xef\xbb\xbe\xef\xbc\x80\xf0\x9f\x98\x80"

/* The filter `a` of one entry. */
#define OF_ENTRY(entry) \
    "{\"a\":{\"mismatch_action\":\"trap\",\"match_action\":\"allow\",\"filter\":[" entry "]}}"

/* The filter `a` names a call that no architecture has, and the filter `b` is fine. */
static const char UNKNOWN[] =
    "{\"a\":{\"mismatch_action\":\"trap\",\"match_action\":\"allow\",\"filter\":[{\"syscall\":\"nosyscall\"}]},\n"
    "\"b\":{\"mismatch_action\":\"trap\",\"match_action\":\"allow\",\"filter\":[]}}";

/* The listing of the README's policy. */
static const struct sock_filter LISTING[24] = {
    {0x20, 0, 0, 4},    {0x15, 1, 0, 0xc000003e}, {0x06, 0, 0, 0x80000000}, {0x20, 0, 0, 0},
    {0x15, 0, 1, 0x48}, {0x05, 0, 0, 1},          {0x05, 0, 0, 6},          {0x20, 0, 0, 0x20},
    {0x15, 0, 3, 1},    {0x20, 0, 0, 0x18},       {0x15, 0, 1, 2},          {0x06, 0, 0, 0x7fff0000},
    {0x05, 0, 0, 1},    {0x05, 0, 0, 4},          {0x20, 0, 0, 0x18},       {0x15, 0, 1, 1},
    {0x06, 0, 0, 0x7fff0000}, {0x06, 0, 0, 0x80000000}, {0x15, 0, 1, 0x120}, {0x05, 0, 0, 1},
    {0x05, 0, 0, 2},    {0x06, 0, 0, 0x7fff0000}, {0x06, 0, 0, 0x80000000}, {0x06, 0, 0, 0x80000000},
};

/* The other names of the headers, and their numbers. */
static const int64_t NAMES[][2] = {
    {SECCOMPILER_LAYOUT_LINEAR, 0}, {SECCOMPILER_LAYOUT_TREE, 1}, {SECCOMPILER_ALIKE, 0},
    {SECCOMPILER_AT_MOST_AS_PERMISSIVE, 1}, {SECCOMPILER_ALL_CALLS, 0}, {SECCOMPILER_DWORD, 4},
    {SECCOMPILER_QWORD, 8}, {SECCOMPILER_EQ, 0}, {SECCOMPILER_NE, 1}, {SECCOMPILER_GT, 2}, {SECCOMPILER_GE, 3},
    {SECCOMPILER_LT, 4}, {SECCOMPILER_LE, 5}, {SECCOMPILER_MASKED_EQ, 6},
};

/* The codes of the headers, their numbers, and what each means; and numbers that are no codes. tools/check-library compares the names
 * with the headers. */
static const struct {
    int64_t code, number;
    const char *text;
} CODES[] = {
    {SECCOMPILER_OUT_OF_MEMORY, -1, "Out of memory."},
    {SECCOMPILER_UNKNOWN_ARCHITECTURE, -2, "Unknown architecture."},
    {SECCOMPILER_UNKNOWN_LAYOUT, -3, "Unknown layout."},
    {SECCOMPILER_REJECTED, -4, "The policy is rejected."},
    {SECCOMPILER_NO_FILTER, -5, "The policy has no such filter."},
    {SECCOMPILER_TOO_LARGE, -6, "The program would have more than 4096 instructions."},
    {SECCOMPILER_NO_ROOM, -7, "The program has more instructions than the array."},
    {SECCOMPILER_NOT_CHECKED, -8, "The instructions are no program that may be run."},
    {SECCOMPILER_UNKNOWN_RELATION, -9, "Unknown relation."},
    {SECCOMPILER_UNKNOWN_CALL, -10, "Unknown system call."},
    {SECCOMPILER_UNKNOWN_ACTION, -11, "Unknown action."},
    {SECCOMPILER_BAD_COUNTS, -12, "The counts don't add up to the rules or the conditions."},
    {SECCOMPILER_BAD_ARGUMENT, -13, "The argument of a condition is above 5."},
    {SECCOMPILER_UNKNOWN_LENGTH, -14, "The length of a condition is neither 4 nor 8."},
    {SECCOMPILER_UNKNOWN_OPERATOR, -15, "The operator of a condition is above 6."},
    {SECCOMPILER_EMPTY_RULE, -16, "A rule has no conditions."},
    {SECCOMPILER_EQUAL_ACTIONS, -17, "The two actions are the same."},
    {SECCOMPILER_BAD_ORDER, -18, "The numbers of the chains don't ascend; sort their rules with them."},
    {SECCOMPILER_BAD_NUMBER, -19, "The number of a chain is below 0 or above 4294967295."},
    {SECCOMPILER_UNDECIDED, -20, "The comparison is undecided."},
    {SECCOMPILER_NO_FILE, -100, "The file can't be read."},
};
static const int64_t NO_CODES[] = {0, 1, 24, -21, -99, -101, INT64_MAX, INT64_MIN};

/* Calls, and what the README's policy decides for them on x86_64. */
static const struct {
    uint32_t arch;
    int number;
    uint64_t first, second, third;
    int64_t word;
} CALLS[] = {
    {AUDIT_ARCH_X86_64, 288, 0, 0, 0, SECCOMP_RET_ALLOW},
    {AUDIT_ARCH_X86_64, 72, 9, 2, 1, SECCOMP_RET_ALLOW},
    {AUDIT_ARCH_X86_64, 72, 9, 2, 2, SECCOMP_RET_KILL_PROCESS},
    {AUDIT_ARCH_X86_64, 72, 9, 0x100000001, 7, SECCOMP_RET_ALLOW},
    {AUDIT_ARCH_X86_64, 72, 9, 3, 1, SECCOMP_RET_KILL_PROCESS},
    {AUDIT_ARCH_X86_64, 0, 0, 0, 0, SECCOMP_RET_KILL_PROCESS},
    {AUDIT_ARCH_AARCH64, 288, 0, 0, 0, SECCOMP_RET_KILL_PROCESS},
};

/* A filter as arrays, with each operator in each length: two rules for write, one for mmap, none for getpid; and the
 * same as a text, with the actions that the arrays are compiled with. */
static const struct seccompiler_chain CHAINS[] = {{1, 2}, {9, 1}, {39, 0}};
static const struct seccompiler_rule RULES[] = {{1}, {2}, {13}};
static const struct seccompiler_condition CONDITIONS[] = {
    {5, 9, 0, SECCOMPILER_DWORD, SECCOMPILER_EQ},
    {1, 0, 1, SECCOMPILER_QWORD, SECCOMPILER_NE},
    {7, 0, 2, SECCOMPILER_DWORD, SECCOMPILER_GT},
    {1, 0, 0, SECCOMPILER_QWORD, SECCOMPILER_EQ},
    {2, 0, 1, SECCOMPILER_DWORD, SECCOMPILER_NE},
    {3, 0, 2, SECCOMPILER_QWORD, SECCOMPILER_GT},
    {0x100000004, 0, 3, SECCOMPILER_QWORD, SECCOMPILER_GE},
    {4, 0, 3, SECCOMPILER_DWORD, SECCOMPILER_GE},
    {5, 0, 4, SECCOMPILER_QWORD, SECCOMPILER_LT},
    {5, 0, 4, SECCOMPILER_DWORD, SECCOMPILER_LT},
    {6, 0, 5, SECCOMPILER_DWORD, SECCOMPILER_LE},
    {6, 0, 5, SECCOMPILER_QWORD, SECCOMPILER_LE},
    {8, 0xf00000008, 5, SECCOMPILER_QWORD, SECCOMPILER_MASKED_EQ},
    {8, 0xc, 5, SECCOMPILER_DWORD, SECCOMPILER_MASKED_EQ},
    {9, 0, 0, SECCOMPILER_QWORD, SECCOMPILER_LE},
    {0, 0, 0, SECCOMPILER_QWORD, SECCOMPILER_NE},
};
static const char SAME[] =
    "{\"f\":{\"mismatch_action\":\"trap\",\"match_action\":{\"errno\":13},\"filter\":[\n"
    "{\"syscall\":\"write\",\"args\":[{\"index\":0,\"type\":\"dword\",\"op\":\"eq\",\"val\":5}]},\n"
    "{\"syscall\":\"write\",\"args\":[{\"index\":1,\"type\":\"qword\",\"op\":\"ne\",\"val\":1},\n"
    "  {\"index\":2,\"type\":\"dword\",\"op\":\"gt\",\"val\":7}]},\n"
    "{\"syscall\":\"getpid\"},\n"
    "{\"syscall\":\"mmap\",\"args\":[{\"index\":0,\"type\":\"qword\",\"op\":\"eq\",\"val\":1},\n"
    "  {\"index\":1,\"type\":\"dword\",\"op\":\"ne\",\"val\":2},{\"index\":2,\"type\":\"qword\",\"op\":\"gt\",\"val\":3},\n"
    "  {\"index\":3,\"type\":\"qword\",\"op\":\"ge\",\"val\":4294967300},{\"index\":3,\"type\":\"dword\",\"op\":\"ge\",\"val\":4},\n"
    "  {\"index\":4,\"type\":\"qword\",\"op\":\"lt\",\"val\":5},{\"index\":4,\"type\":\"dword\",\"op\":\"lt\",\"val\":5},\n"
    "  {\"index\":5,\"type\":\"dword\",\"op\":\"le\",\"val\":6},{\"index\":5,\"type\":\"qword\",\"op\":\"le\",\"val\":6},\n"
    "  {\"index\":5,\"type\":\"qword\",\"op\":{\"masked_eq\":64424509448},\"val\":8},\n"
    "  {\"index\":5,\"type\":\"dword\",\"op\":{\"masked_eq\":12},\"val\":8},\n"
    "  {\"index\":0,\"type\":\"qword\",\"op\":\"le\",\"val\":9},{\"index\":0,\"type\":\"qword\",\"op\":\"ne\",\"val\":0}]}]}}";

/* Kinds and data of actions on which the programs of those arrays end: the word is the kind with the low 16 bits of
 * the data, if data count. */
static const struct {
    uint32_t kind, data;
    int64_t word;
} ACTIONS[] = {
    {SECCOMP_RET_KILL_PROCESS, 7, SECCOMP_RET_KILL_PROCESS}, {SECCOMP_RET_KILL_THREAD, 7, SECCOMP_RET_KILL_THREAD},
    {SECCOMP_RET_TRAP, 7, SECCOMP_RET_TRAP},                 {SECCOMP_RET_ERRNO, 13, SECCOMP_RET_ERRNO | 13},
    {SECCOMP_RET_ERRNO, 0x2000d, SECCOMP_RET_ERRNO | 13},    {SECCOMP_RET_TRACE, 65535, SECCOMP_RET_TRACE | 65535},
    {SECCOMP_RET_LOG, 7, SECCOMP_RET_LOG},                   {SECCOMP_RET_ALLOW, 7, SECCOMP_RET_ALLOW},
    {1, 0, SECCOMPILER_UNKNOWN_ACTION},                      {SECCOMP_RET_ERRNO | 13, 13, SECCOMPILER_UNKNOWN_ACTION},
    {0x7fc00000, 0, SECCOMPILER_UNKNOWN_ACTION},
};

/* What is neither compiled nor decided. Each row has the faults of all later ones that it can have. */
static const struct {
    const char *text, *name;
    uint32_t arch, layout;
    size_t capacity;
    int64_t code;
    const char *said;
} REFUSED[] = {
    {"", "b", 0, 2, 0, SECCOMPILER_UNKNOWN_ARCHITECTURE, "Unknown architecture."},
    {"", "b", AUDIT_ARCH_I386, 0, 0, SECCOMPILER_UNKNOWN_ARCHITECTURE, "Unknown architecture."},
    {"", "b", 0xc000003f, 0, 0, SECCOMPILER_UNKNOWN_ARCHITECTURE, "Unknown architecture."},
    {"[]", "b", 0, 0, 0, SECCOMPILER_UNKNOWN_ARCHITECTURE, "Unknown architecture."},
    {"", "b", AUDIT_ARCH_X86_64, 2, 0, SECCOMPILER_UNKNOWN_LAYOUT, "Unknown layout."},
    {"[]", "b", AUDIT_ARCH_X86_64, 0, 0, SECCOMPILER_REJECTED,
     "the policy: expected an object of filters, found an empty array"},
    {"{\"a\":{\"x\":1,\"x\":1}}", "b", AUDIT_ARCH_X86_64, 0, 0, SECCOMPILER_REJECTED, "Repeated key in Json."},
    {SHAPELESS, "b", AUDIT_ARCH_X86_64, 1, 0, SECCOMPILER_REJECTED, SHAPELESS_SAID},
    {STEERING, "b", AUDIT_ARCH_X86_64, 1, 0, SECCOMPILER_REJECTED, STEERING_SAID},
    {"{\"" SEEN "\":{}}", "b", AUDIT_ARCH_X86_64, 1, 0, SECCOMPILER_REJECTED,
     SEEN ": missing \"mismatch_action\" or \"default_action\""},
    {OF_ENTRY("{\"syscall\":\"nosyscall\xc2\x9b\xe2\x80\xae\"}"), "b", AUDIT_ARCH_X86_64, 0, 0, SECCOMPILER_REJECTED,
     "a.filter[0].syscall: unknown system call \"nosyscall\\xc2\\x9b\\xe2\\x80\\xae\" on x86_64"},
    {OF_ENTRY("{\"syscall\":\"nosyscall\"}"), "b", AUDIT_ARCH_AARCH64, 0, 0, SECCOMPILER_REJECTED,
     "a.filter[0].syscall: unknown system call \"nosyscall\" on aarch64"},
    {UNKNOWN, "b", AUDIT_ARCH_X86_64, 0, 0, SECCOMPILER_REJECTED,
     "a.filter[0].syscall: unknown system call \"nosyscall\" on x86_64"},
    {OF_ENTRY("{\"syscall\":\"read\"},{\"syscall\":\"fnctl\"}"), "b", AUDIT_ARCH_X86_64, 0, 0, SECCOMPILER_REJECTED,
     "a.filter[1].syscall: unknown system call \"fnctl\" on x86_64; did you mean \"fcntl\"?"},
    {OF_ENTRY("{\"syscall\":\"open\"}"), "b", AUDIT_ARCH_RISCV64, 0, 0, SECCOMPILER_REJECTED,
     "a.filter[0].syscall: unknown system call \"open\" on riscv64; did you mean \"openat\"?"},
    {OF_ENTRY("{\"syscall\":\"read\",\"args\":[{\"index\":6,\"type\":\"dword\",\"op\":\"eq\",\"val\":0}]}"), "b",
     AUDIT_ARCH_X86_64, 0, 0, SECCOMPILER_REJECTED, "a.filter[0].args[0].index: expected 0 to 5, found 6"},
    {OF_ENTRY("{\"syscall\":\"read\",\"args\":[]}"), "b", AUDIT_ARCH_X86_64, 0, 0, SECCOMPILER_REJECTED,
     "a.filter[0].args: expected null or at least one condition, found an empty array"},
    {OF_ENTRY("{\"syscall\":\"read\",\"note\":1}"), "b", AUDIT_ARCH_X86_64, 0, 0, SECCOMPILER_REJECTED,
     "a.filter[0]: \"note\": unknown key; expected syscall, args or comment"},
    {"{\"a\":{\"mismatch_action\":\"trap\",\"match_action\":\"trap\",\"filter\":[]}}", "b", AUDIT_ARCH_X86_64, 0, 0,
     SECCOMPILER_REJECTED, "a: expected two actions that differ, found the same one twice"},
    {UNKNOWN, "c", AUDIT_ARCH_X86_64, 0, 0, SECCOMPILER_REJECTED,
     "a.filter[0].syscall: unknown system call \"nosyscall\" on x86_64"},
    {"{}", "b", AUDIT_ARCH_X86_64, 0, 0, SECCOMPILER_NO_FILTER, "No filter has this name."},
    {README, "b", AUDIT_ARCH_X86_64, 0, 0, SECCOMPILER_NO_FILTER, "No filter has this name."},
    {README, "main", AUDIT_ARCH_X86_64, 0, 0, SECCOMPILER_NO_FILTER, "No filter has this name."},
    {README, "\xff", AUDIT_ARCH_X86_64, 0, 0, SECCOMPILER_NO_FILTER, "No filter has this name."},
    {README, "\xc2", AUDIT_ARCH_X86_64, 0, 0, SECCOMPILER_NO_FILTER, "No filter has this name."},
    {README, NAME, AUDIT_ARCH_X86_64, 0, 23, SECCOMPILER_NO_ROOM,
     "The array has too little room for the program: it has 24 instructions."},
    {README, NAME, AUDIT_ARCH_X86_64, 1, 12, SECCOMPILER_NO_ROOM,
     "The array has too little room for the program: it has 13 instructions."},
};

/* Texts that are no JSON in UTF-8, and how what is said of them begins. */
static const char *const NO_JSON[] = {"", "{", "{\"\xff\":{}}"};
static const char NO_JSON_SAID[] = "Error parsing Json: ";

static const char TOO_LARGE[] =
    "The seccomp filter contains too many BPF instructions: 4097. Max length is 4096.";

/* How many bytes a message has, and how many are written of SHAPELESS_SAID, besides the byte 0. */
static const struct {
    size_t capacity, bytes;
} CUTS[] = {{0, 0}, {1, 0}, {2, 0}, {3, 2}, {4, 3}, {49, 48}, {50, 49}, {51, 49}};

/* Two filters, which stand in the other order in the text; their names, one with a byte 0, and the lengths. Both
 * have faults that only a compilation finds, which play no part. */
static const char NAMED[] =
    "{\"b\\u0000c\":{\"mismatch_action\":\"trap\",\"match_action\":\"allow\",\"filter\":[{\"syscall\":\"nosyscall\"}]},\n"
    "\"b\":{\"mismatch_action\":\"trap\",\"match_action\":\"trap\",\"filter\":[]}}";
static const struct {
    const char *name;
    int64_t bytes;
} FILTERS[] = {{"b", 1}, {"b\0c", 3}};
static const char SHORT_NAME[] =
    "{\"a\xc2\xb5\":{\"mismatch_action\":\"trap\",\"match_action\":\"allow\",\"filter\":[]}}";

/* What has no name at this index. */
static const struct {
    const char *text;
    size_t index;
    int64_t code;
    const char *said;
} NO_NAMES[] = {
    {NAMED, 2, SECCOMPILER_NO_FILTER, "No filter has this index."},
    {NAMED, SIZE_MAX, SECCOMPILER_NO_FILTER, "No filter has this index."},
    {"{}", 0, SECCOMPILER_NO_FILTER, "No filter has this index."},
    {"[]", 0, SECCOMPILER_REJECTED, "the policy: expected an object of filters, found an empty array"},
    {SHAPELESS, 7, SECCOMPILER_REJECTED, SHAPELESS_SAID},
};

/* Programs of so many returns with this instruction at a place: whether they may be run, and the first place that
 * isn't taken; SIZE_MAX if the place is as it was. */
static const struct {
    const char *what;
    size_t count, at;
    struct sock_filter instruction;
    int32_t answer;
    size_t place;
} PLACES[] = {
    {"one return", 1, 0, {6, 0, 0, 0}, 1, SIZE_MAX},
    {"as many returns as may be", 4096, 0, {6, 0, 0, 0}, 1, SIZE_MAX},
    {"one return too many", 4097, 0, {6, 0, 0, 0}, 0, 4096},
    {"an unknown instruction before one return too many", 4097, 4095, {7, 0, 0, 0}, 0, 4095},
    {"nothing", 0, 0, {6, 0, 0, 0}, 0, 0},
    {"an unknown instruction", 3, 1, {0xffff, 0, 0, 0}, 0, 1},
    {"a load past the record", 3, 1, {0x20, 0, 0, 64}, 0, 1},
    {"a load of the last word", 3, 1, {0x20, 0, 0, 60}, 1, SIZE_MAX},
    {"a load of no word", 3, 0, {0x20, 0, 0, 2}, 0, 0},
    {"a jump to the last instruction", 3, 0, {5, 0, 0, 1}, 1, SIZE_MAX},
    {"a jump past the end", 3, 0, {5, 0, 0, 2}, 0, 0},
    {"a test that leads past the end", 3, 1, {0x15, 0, 1, 0}, 0, 1},
    {"no return at the end", 3, 2, {0x20, 0, 0, 0}, 0, 2},
};

/* Programs that allow call 39, and kill the process or log at another one; and one that jumps past its end. */
static const struct sock_filter STRICT[] = {
    {0x20, 0, 0, 0}, {0x15, 0, 1, 39}, {0x06, 0, 0, 0x7fff0000}, {0x06, 0, 0, 0x80000000}};
static const struct sock_filter LAX[] = {
    {0x20, 0, 0, 0}, {0x15, 0, 1, 39}, {0x06, 0, 0, 0x7fff0000}, {0x06, 0, 0, 0x7ffc0000}};
static const struct sock_filter JUMPS[] = {{0x05, 0, 0, 0}};

/* Comparisons, and what they answer. Each refused one has the faults of the later ones that it can have. */
static const struct {
    const char *what;
    const struct sock_filter *program;
    size_t count;
    const struct sock_filter *other;
    size_t other_count;
    uint32_t relation, arch, least, greatest;
    size_t most;
    int64_t answer;
} COMPARED[] = {
    {"an unknown architecture", JUMPS, 1, JUMPS, 1, 2, 1, 0, 0, 0, SECCOMPILER_UNKNOWN_ARCHITECTURE},
    {"an unknown relation", JUMPS, 1, JUMPS, 1, 2, AUDIT_ARCH_X86_64, 0, 0, 0, SECCOMPILER_UNKNOWN_RELATION},
    {"an unknown relation of all calls", JUMPS, 1, JUMPS, 1, 2, 0, 0, 0, 0, SECCOMPILER_UNKNOWN_RELATION},
    {"a first program that isn't checked", JUMPS, 1, LAX, 4, 0, 0, 0, 0, 0, SECCOMPILER_NOT_CHECKED},
    {"a second program that isn't checked", LAX, 4, JUMPS, 1, 1, 0, 0, 0, 0, SECCOMPILER_NOT_CHECKED},
    {"no set of calls", STRICT, 4, LAX, 4, 0, 0, 0, 0, 0, SECCOMPILER_UNDECIDED},
    {"the strict one is at most as permissive", STRICT, 4, LAX, 4, 1, 0, 0, 0, 1000, 1},
    {"the lax one isn't", LAX, 4, STRICT, 4, 1, 0, 0, 0, 1000, 0},
    {"they aren't alike", STRICT, 4, LAX, 4, 0, 0, 0, 0, 1000, 0},
    {"they are for call 39", LAX, 4, STRICT, 4, 0, AUDIT_ARCH_X86_64, 39, 39, 1000, 1},
    {"they aren't for calls 39 and 40", LAX, 4, STRICT, 4, 0, AUDIT_ARCH_AARCH64, 39, 40, 1000, 0},
    {"they are for no calls", LAX, 4, STRICT, 4, 0, AUDIT_ARCH_RISCV64, 40, 39, 1000, 1},
    {"the same program", LAX, 4, LAX, 4, 0, 0, 0, 0, 1000, 1},
    /* All calls are five sets, by the test for 39: all of them, which are split below 39; those below; those from 39 on,
     * which are split after it; 39 alone; and those above. Those below show that the lax one permits more. */
    {"as many sets as it takes", STRICT, 4, LAX, 4, 1, 0, 0, 0, 5, 1},
    {"one set less", STRICT, 4, LAX, 4, 1, 0, 0, 0, 4, SECCOMPILER_UNDECIDED},
    {"as many sets as a difference takes", LAX, 4, STRICT, 4, 1, 0, 0, 0, 2, 0},
    {"one set less than that", LAX, 4, STRICT, 4, 1, 0, 0, 0, 1, SECCOMPILER_UNDECIDED},
};

/* Names of calls, and their numbers. */
static const struct {
    uint32_t arch;
    const char *name;
    size_t bytes;
    int64_t answer;
} NUMBERS[] = {
    {AUDIT_ARCH_X86_64, "read", 4, 0},
    {AUDIT_ARCH_X86_64, "accept4", 7, 288},
    {AUDIT_ARCH_X86_64, "accept4", 6, 43},
    {AUDIT_ARCH_AARCH64, "close", 5, 57},
    {AUDIT_ARCH_RISCV64, "riscv_flush_icache", 18, 259},
    {AUDIT_ARCH_X86_64, "Read", 4, SECCOMPILER_UNKNOWN_CALL},
    {AUDIT_ARCH_X86_64, "read\xff", 5, SECCOMPILER_UNKNOWN_CALL},
    {AUDIT_ARCH_AARCH64, "open", 4, SECCOMPILER_UNKNOWN_CALL},
    {AUDIT_ARCH_AARCH64, "open\xff", 5, SECCOMPILER_UNKNOWN_CALL},
    {0, "read", 4, SECCOMPILER_UNKNOWN_ARCHITECTURE},
};

#endif
