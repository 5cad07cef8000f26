/*
 * jail: runs a command under seccomp filters. `jail --help` prints its forms, its options and its exit statuses.
 *
 * It compiles a policy's filters by the library for C, or reads a program, or has `seccomptool compile` compile a
 * profile. It installs the programs for all its threads, and replaces itself with the command. So the filters hold for
 * the command, for all that the command starts, and for the last steps of this program: execve, and if that fails, write
 * and exit_group. Nothing can remove them.
 *
 * All filters are compiled before the first is installed. They are installed in the order of their names, so each but
 * the last has to allow prctl and seccomp. If one answers seccomp with errno 0, the next one isn't installed, and
 * nothing reports it.
 */

#define _GNU_SOURCE

#include <errno.h>
#include <fcntl.h>
#include <limits.h>
#include <linux/filter.h>
#include <signal.h>
#include <stdint.h>
#include <stdio.h>
#include <stdlib.h>
#include <string.h>
#include <sys/syscall.h>
#include <sys/wait.h>
#include <unistd.h>

#include "architecture.h"
#include "seccompiler_file.h"
#include "seccompiler_install.h"

#ifndef VERSION
#define VERSION "unversioned"
#endif
#ifndef SECCOMP_FILTER_FLAG_LOG
#define SECCOMP_FILTER_FLAG_LOG 2
#endif
#ifndef SYS_close_range
#define SYS_close_range 436
#endif

enum { FAILED = 125, CANNOT_RUN = 126, NOT_FOUND = 127 };

static const char usage[] =
    "usage: jail [OPTION].. POLICY FILTER[,FILTER].. [--] COMMAND [ARGUMENT]..\n"
    "       jail [OPTION].. POLICY -- COMMAND [ARGUMENT]..\n"
    "       jail [OPTION].. --program PROGRAM [--] COMMAND [ARGUMENT]..\n"
    "       jail [OPTION].. --oci [--cap CAP].. [--kernel KERNEL] [--runtime RUNTIME] PROFILE [--] COMMAND [ARGUMENT]..\n";

static const char help[] =
    "\n"
    "Runs a command under seccomp filters: those of a policy with these names, or\n"
    "the only one that the policy has; or the program in a file, 8 bytes for each\n"
    "instruction; or the program that `seccomptool compile --oci` makes of a profile.\n"
    "If a standard stream is closed, /dev/null is opened in its place.\n"
    "The kernel's no_new_privs is set: setuid and setgid programs and file\n"
    "capabilities give the command nothing.\n"
    "\n"
    "Options:\n"
    "  --tree       compile the policy's filters in the tree layout\n"
    "  --log        log calls that aren't allowed, including those with an errno\n"
    "  --close-fds  close the descriptors above 2; else the command inherits them\n"
    "  --help       print this\n"
    "  --version    print the version\n"
    "\n"
    "Exit status: the command's; 125 if nothing was run, 126 if the command can't be\n"
    "run, 127 if it doesn't exist\n";

/* What the options ask for: a layout, flags of seccomp(2), and whether descriptors are closed. */
struct options {
    uint32_t layout;
    unsigned int flags;
    int closes;
};

/* A file, its text if it is a policy, and what is asked for. */
struct policy {
    const char *path;
    char *text;
    size_t length;
    struct options options;
};

/* A program to install: the first `length` instructions of the array, and the name of its filter. */
struct program {
    struct sock_filter instructions[BPF_MAXINSNS];
    unsigned short length;
    const char *name;
};

/* Prints a text on standard error: bytes that aren't printable ASCII by their numbers, since they may steer a terminal. */
static void show(const char *text)
{
    for (; *text != '\0'; text++)
        fprintf(stderr, *text >= ' ' && *text <= '~' ? "%c" : "\\x%02x", (unsigned char)*text);
}

/* Prints the beginning of an error's line: what it is about. */
static void begin(const char *what)
{
    fputs("jail: ", stderr);
    show(what);
    fputs(": ", stderr);
}

/* Reports why something can't be done, and ends with this exit status. */
static _Noreturn void fail_for(int status, const char *what, const char *why)
{
    begin(what);
    show(why);
    fputc('\n', stderr);
    exit(status);
}

/* The same of the error in errno. */
static _Noreturn void fail(int status, const char *what)
{
    fail_for(status, what, strerror(errno));
}

/* Prints two texts on standard output; if they can't be written, reports why, and ends. */
static int print(const char *first, const char *second)
{
    if (fputs(first, stdout) < 0 || fputs(second, stdout) < 0 || fflush(stdout) != 0)
        fail(FAILED, "standard output");
    return 0;
}

/* Opens the standard streams that are closed, so that no other file becomes one of them. */
static void open_streams(void)
{
    for (int stream = STDIN_FILENO; stream <= STDERR_FILENO; stream++)
        if (fcntl(stream, F_GETFD) < 0 && open("/dev/null", O_RDWR) != stream)
            _exit(FAILED);
}

/* Reads up to so many bytes, and returns how many there were. */
static size_t read_up_to(int file, char *bytes, size_t room, const char *path)
{
    size_t length = 0;
    ssize_t count = 1;

    while (length < room && count != 0) {
        count = read(file, bytes + length, room - length);
        if (count > 0)
            length += (size_t)count;
        else if (count < 0 && errno != EINTR)
            fail(FAILED, path);
    }
    return length;
}

/* Compiles the filter that the program is named after, or the only one; if it is rejected, reports why, and ends. */
static void compile(const struct policy *policy, struct program *program)
{
    char reason[4097];
    int64_t length = seccompiler_compile_only(policy->text, policy->length, ARCHITECTURE, program->name,
                                              policy->options.layout, program->instructions, BPF_MAXINSNS, reason,
                                              sizeof reason);

    if (length == SECCOMPILER_NO_FILTER && program->name != NULL) {
        begin(policy->path);
        fputs("No filter has this name: ", stderr);
        show(program->name);
        fputs(".\n", stderr);
        exit(FAILED);
    }
    if (length < 0)
        fail_for(FAILED, policy->path, reason);
    program->length = (unsigned short)length;
    if (program->name == NULL)
        program->name = "the only filter";
}

/* Compiles each filter whose name stands between commas, or the only one if there are no names, and counts them. */
static struct program *compile_each(struct policy *policy, char *names, size_t *count)
{
    struct program *programs;

    policy->text = seccompiler_read_file(policy->path, &policy->length);
    if (policy->text == NULL)
        fail(FAILED, policy->path);
    *count = 1;
    for (const char *at = names; at != NULL && *at != '\0'; at++)
        *count += *at == ',';
    programs = calloc(*count, sizeof *programs);
    if (programs == NULL)
        fail(FAILED, policy->path);
    for (size_t k = 0; k < *count; k++) {
        programs[k].name = strsep(&names, ",");
        compile(policy, &programs[k]);
    }
    free(policy->text);
    return programs;
}

/* The bytes of a program, and one more: so much of a file is read, however long it is. */
static char bytes_of_program[BPF_MAXINSNS * sizeof(struct sock_filter) + 1];

/* Takes the instructions of so many bytes. If these aren't whole instructions, or are more than the kernel takes, ends. */
static void take_program(size_t length, const char *path, struct program *program)
{
    const size_t most = sizeof bytes_of_program - 1;
    char why[100];

    if (length == 0 || length % sizeof(struct sock_filter) != 0) {
        snprintf(why, sizeof why, "expected 1 to 4096 instructions of 8 bytes, found %s%zu bytes",
                 length > most ? "more than " : "", length > most ? most : length);
        fail_for(FAILED, path, why);
    }
    memcpy(program->instructions, bytes_of_program, length);
    program->length = (unsigned short)(length / sizeof(struct sock_filter));
    program->name = "the program";
}

/* Installs the program for all threads of this process, and sets no_new_privs. */
static void install(const struct policy *policy, const struct program *program, const char *hint)
{
    long answer = seccompiler_install(program->instructions, program->length,
                                      SECCOMP_FILTER_FLAG_TSYNC | policy->options.flags);

    if (answer == 0)
        return;
    begin(policy->path);
    fputs("installing ", stderr);
    show(program->name);
    if (answer < 0)
        fprintf(stderr, ": %s%s\n", strerror((int)-answer), hint);
    else
        fprintf(stderr, ": thread %ld has another filter\n", answer);
    exit(FAILED);
}

/* Installs one program after the other, and runs the command in the place of this process. */
static _Noreturn void run_under(const struct policy *policy, const struct program *programs, size_t count, char **command)
{
    if (policy->options.closes && syscall(SYS_close_range, 3U, ~0U, 0U) != 0)
        fail(FAILED, "--close-fds");
    for (size_t k = 0; k < count; k++)
        install(policy, &programs[k], k == 0 ? "" : "; each filter before it has to allow prctl and seccomp");
    execvp(command[0], command);
    fail(errno == ENOENT ? NOT_FOUND : CANNOT_RUN, command[0]);
}

/* Makes this process the seccomptool beside this program, or else that of PATH, with these arguments. */
static _Noreturn void become_seccomptool(char **words)
{
    char path[PATH_MAX + sizeof "seccomptool"];
    ssize_t length = readlink("/proc/self/exe", path, PATH_MAX);

    while (length > 0 && path[length - 1] != '/')
        length--;
    if (length > 0) {
        strcpy(path + length, "seccomptool");
        execv(path, words);
    }
    execvp("seccomptool", words);
    fail(FAILED, "seccomptool");
}

/* Starts seccomptool with these arguments, and returns how many bytes of a program it wrote; if it failed, ends. */
static size_t read_output(char **words, const char *path)
{
    struct sigaction usual = {.sa_handler = SIG_DFL}, before;
    int ends[2], status;
    char why[40];
    size_t length;
    pid_t child;

    /* While SIGCHLD is ignored, as it may have been before, there is no exit status to wait for. */
    sigaction(SIGCHLD, &usual, &before);
    if (pipe2(ends, O_CLOEXEC) != 0)
        fail(FAILED, path);
    child = fork();
    if (child == 0 && dup2(ends[1], STDOUT_FILENO) >= 0)
        become_seccomptool(words);
    if (child <= 0)
        fail(FAILED, path);
    close(ends[1]);
    length = read_up_to(ends[0], bytes_of_program, sizeof bytes_of_program, path);
    close(ends[0]);
    if (waitpid(child, &status, 0) != child)
        fail(FAILED, path);
    sigaction(SIGCHLD, &before, NULL);
    snprintf(why, sizeof why, "killed by signal %d", WTERMSIG(status));
    if (length < sizeof bytes_of_program && WIFSIGNALED(status))
        fail_for(FAILED, words[0], why);
    if (length < sizeof bytes_of_program && status != 0)
        exit(FAILED);
    return length;
}

/* Compiles a profile by seccomptool, with so many of the words as options. */
static void compile_profile(char **words, size_t count, const char *path, struct program *program)
{
    static char *const front[] = {"seccomptool", "compile", "--oci", "-a", ARCHITECTURE_NAME};
    const size_t fronts = sizeof front / sizeof *front;
    char **all = calloc(fronts + count + 3, sizeof *all);

    if (all == NULL)
        fail(FAILED, path);
    memcpy(all, front, sizeof front);
    memcpy(all + fronts, words, count * sizeof *words);
    /* The path may begin as an option does. */
    all[fronts + count] = "--";
    all[fronts + count + 1] = words[count];
    take_program(read_output(all, path), path, program);
    free(all);
}

/* Ends with the usage. */
static _Noreturn void misuse(void)
{
    fputs(usage, stderr);
    exit(FAILED);
}

/* Returns whether this is an option of a profile, which has a value. */
static int is_of_profile(const char *word)
{
    return strcmp(word, "--cap") == 0 || strcmp(word, "--kernel") == 0 || strcmp(word, "--runtime") == 0;
}

/* Returns the words of the command: without `--` in front, and at least one. */
static char **command_of(char **words)
{
    if (*words != NULL && strcmp(*words, "--") == 0)
        words++;
    if (*words == NULL)
        misuse();
    return words;
}

/* Runs a command under the program of a file, or of a profile. */
static _Noreturn void run_under_program(struct policy *policy, char **words, int is_profile)
{
    static struct program program;
    size_t count = 0;
    char **command;

    while (is_profile && words[count] != NULL && is_of_profile(words[count]))
        count += words[count + 1] != NULL ? 2 : 1;
    if (words[count] == NULL || policy->options.layout != SECCOMPILER_LAYOUT_LINEAR)
        misuse();
    policy->path = words[count];
    command = command_of(words + count + 1);
    if (is_profile) {
        compile_profile(words, count, policy->path, &program);
    } else {
        int file = open(policy->path, O_RDONLY | O_CLOEXEC);

        if (file < 0)
            fail(FAILED, policy->path);
        take_program(read_up_to(file, bytes_of_program, sizeof bytes_of_program, policy->path), policy->path, &program);
        close(file);
    }
    run_under(policy, &program, 1, command);
}

/* Takes an option; returns whether it is one. */
static int take_option(const char *word, struct options *options)
{
    if (strcmp(word, "--tree") == 0)
        options->layout = SECCOMPILER_LAYOUT_TREE;
    else if (strcmp(word, "--log") == 0)
        options->flags = SECCOMP_FILTER_FLAG_LOG;
    else if (strcmp(word, "--close-fds") == 0)
        options->closes = 1;
    else
        return 0;
    return 1;
}

int main(int count, char **words)
{
    struct policy policy = {.options = {.layout = SECCOMPILER_LAYOUT_LINEAR}};
    struct program *programs;
    char **command;
    size_t program_count;

    open_streams();
    if (count == 2 && strcmp(words[1], "--help") == 0)
        return print(usage, help);
    if (count == 2 && strcmp(words[1], "--version") == 0)
        return print("jail ", VERSION "\n");
    words += count > 0;
    while (*words != NULL && take_option(*words, &policy.options))
        words++;
    if (*words != NULL && strcmp(*words, "--program") == 0)
        run_under_program(&policy, words + 1, 0);
    if (*words != NULL && strcmp(*words, "--oci") == 0)
        run_under_program(&policy, words + 1, 1);
    if (*words != NULL && strcmp(*words, "--") == 0)
        words++;
    else if (*words != NULL && strncmp(*words, "--", 2) == 0)
        misuse();
    if (*words == NULL || words[1] == NULL)
        misuse();
    policy.path = words[0];
    command = command_of(words + 2);
    programs = compile_each(&policy, strcmp(words[1], "--") == 0 ? NULL : words[1], &program_count);
    run_under(&policy, programs, program_count, command);
}
