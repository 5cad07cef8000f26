/*
 * Writes the seccomp programs that a command installs, or that a running process has, to files.
 *
 * A command is traced with its children, both threads and processes. Each call of seccomp(2) or prctl(2) that installs
 * a program gives a file, in the order in which the kernel took them; calls that it rejects give none. For a running
 * process the kernel returns the programs of one thread (PTRACE_SECCOMP_GET_FILTER), the oldest first.
 *
 * SPDX-License-Identifier: Apache-2.0 OR BSD-3-Clause
 */
#define _GNU_SOURCE
#include <errno.h>
#include <fcntl.h>
#include <getopt.h>
#include <limits.h>
#include <linux/audit.h>
#include <linux/filter.h>
#include <linux/ptrace.h>
#include <linux/seccomp.h>
#include <signal.h>
#include <stdint.h>
#include <stdio.h>
#include <stdlib.h>
#include <string.h>
#include <sys/prctl.h>
#include <sys/stat.h>
#include <sys/wait.h>
#include <unistd.h>

#ifndef VERSION
#define VERSION "unversioned"
#endif

/* Not of <sys/ptrace.h>: it and <linux/ptrace.h> define the same names. */
extern long ptrace(int request, ...);

enum { CAUGHT = 0, NONE = 1, TROUBLE = 2 };

static const char help[] =
    "Writes the seccomp programs that a command or a process installed\n"
    "\n"
    "Usage: catch-filter [OPTIONS] COMMAND [ARG]...\n"
    "       catch-filter [OPTIONS] -p PID\n"
    "\n"
    "Runs COMMAND, and writes each program that it or a child of it installs: 8 bytes\n"
    "for each instruction, as the kernel takes them. With -p it writes the programs\n"
    "of the running thread PID, the oldest first; this needs CAP_SYS_ADMIN.\n"
    "\n"
    "Options:\n"
    "  -o, --output PREFIX  Write PREFIX.1.bpf, PREFIX.2.bpf and so on [default: caught]\n"
    "  -p, --pid PID        Read the programs of a running process\n"
    "  -h, --help           Print help\n"
    "  -V, --version        Print the version\n"
    "\n"
    "Exit status: 0 if programs were written, 1 if there was none, 2 for trouble.\n";

static const char *prefix = "caught";
static unsigned written;

/* What is known of a thread: the program that its current call installs, and the call's flags. */
struct thread {
    pid_t id;
    int installs;
    uint64_t flags;
    unsigned length;
    struct sock_filter *program;
    struct thread *next;
};

static struct thread *threads;

/* Prints a name. Bytes that may steer a terminal are written as numbers. */
static void print_name(const char *name)
{
    for (; *name; name++) {
        if (*name >= ' ' && *name <= '~' && *name != '\\')
            fputc(*name, stderr);
        else
            fprintf(stderr, "\\x%02x", (unsigned char)*name);
    }
}

/* Ends with a message: about a file or a command, if one is named, and with the error of errno, if there is one. */
static void fail(const char *about, const char *what, int error)
{
    fputs("catch-filter: ", stderr);
    if (about) {
        print_name(about);
        fputs(": ", stderr);
    }
    fputs(what, stderr);
    if (error)
        fprintf(stderr, ": %s", strerror(error));
    fputc('\n', stderr);
    exit(TROUBLE);
}

/* Writes a file beside the one of this name, and renames it: nothing is left half written. */
static void write_file(const char *name, const void *bytes, size_t size)
{
    char beside[PATH_MAX];
    mode_t mask = umask(0);
    int file, error = 0;

    umask(mask);
    if (snprintf(beside, sizeof beside, "%s.XXXXXX", name) >= (int)sizeof beside)
        fail(name, "can't be written", ENAMETOOLONG);
    file = mkstemp(beside);
    if (file < 0)
        fail(name, "can't be written", errno);
    for (size_t done = 0; done < size && !error;) {
        ssize_t step = write(file, (const char *)bytes + done, size - done);

        if (step >= 0)
            done += (size_t)step;
        else if (errno != EINTR)
            error = errno;
    }
    if (!error && fchmod(file, 0666 & ~mask) != 0)
        error = errno;
    if (close(file) != 0 && !error)
        error = errno;
    if (!error && rename(beside, name) != 0)
        error = errno;
    if (error) {
        unlink(beside);
        fail(name, "can't be written", error);
    }
}

/* Writes the next file of a program. */
static void write_program(pid_t id, const struct sock_filter *program, unsigned length)
{
    char name[PATH_MAX];

    if (snprintf(name, sizeof name, "%s.%u.bpf", prefix, written + 1) >= (int)sizeof name)
        fail(prefix, "can't be written", ENAMETOOLONG);
    write_file(name, program, length * sizeof *program);
    written++;
    fputs("catch-filter: ", stderr);
    print_name(name);
    fprintf(stderr, ": %u instruction%s, of process %d\n", length, length == 1 ? "" : "s", (int)id);
}

static struct thread *thread_of(pid_t id)
{
    struct thread *found = threads;

    while (found && found->id != id)
        found = found->next;
    if (!found) {
        found = calloc(1, sizeof *found);
        if (!found)
            fail(NULL, "out of memory", 0);
        found->id = id;
        found->next = threads;
        threads = found;
    }
    return found;
}

static void forget_thread(pid_t id)
{
    for (struct thread **at = &threads; *at; at = &(*at)->next) {
        if ((*at)->id == id) {
            struct thread *gone = *at;

            *at = gone->next;
            free(gone->program);
            free(gone);
            return;
        }
    }
}

/* Reads memory of a stopped thread, in words. */
static int read_memory(pid_t id, uint64_t from, void *to, size_t size)
{
    while (size > 0) {
        uint64_t start = from & ~(uint64_t)(sizeof(long) - 1);
        size_t skip = from - start, part = sizeof(long) - skip;
        long word;

        errno = 0;
        word = ptrace(PTRACE_PEEKDATA, id, (void *)start, NULL);
        if (errno)
            return -1;
        part = part < size ? part : size;
        memcpy(to, (char *)&word + skip, part);
        from += part;
        to = (char *)to + part;
        size -= part;
    }
    return 0;
}

/* The numbers of the two calls on an architecture, and whether its addresses have 32 bits. */
static const struct {
    uint32_t arch, prctl, seccomp, is_32_bits;
} numbers[] = {
    {AUDIT_ARCH_X86_64, 157, 317, 0},
    {AUDIT_ARCH_X86_64, 0x40000000 + 157, 0x40000000 + 317, 1},
    {AUDIT_ARCH_I386, 172, 354, 1},
    {AUDIT_ARCH_AARCH64, 167, 277, 0},
    {AUDIT_ARCH_ARM, 172, 383, 1},
    {AUDIT_ARCH_RISCV64, 167, 277, 0},
};

/* The address of the program's header, if the call installs a program; else 0. Gives the call's flags. */
static uint64_t installed_by(const struct ptrace_syscall_info *call, uint64_t *flags, int *is_32_bits)
{
    const uint64_t *args = (const uint64_t *)call->entry.args;

    for (size_t k = 0; k < sizeof numbers / sizeof *numbers; k++) {
        if (call->arch != numbers[k].arch)
            continue;
        *is_32_bits = (int)numbers[k].is_32_bits;
        *flags = 0;
        if (call->entry.nr == numbers[k].seccomp && (uint32_t)args[0] == SECCOMP_SET_MODE_FILTER) {
            *flags = args[1];
            return args[2];
        }
        if (call->entry.nr == numbers[k].prctl && (uint32_t)args[0] == PR_SET_SECCOMP && args[1] == SECCOMP_MODE_FILTER)
            return args[2];
    }
    return 0;
}

/* Keeps the program that the call installs, if it does and there is one. */
static void enter_call(struct thread *thread, const struct ptrace_syscall_info *call)
{
    unsigned char header[16] = {0};
    uint64_t at, from = 0;
    uint32_t from_32;
    uint16_t length;
    int is_32_bits;

    thread->installs = 0;
    at = installed_by(call, &thread->flags, &is_32_bits);
    if (at == 0 || read_memory(thread->id, at, header, is_32_bits ? 8 : 16) != 0)
        return;
    memcpy(&length, header, sizeof length);
    memcpy(&from_32, header + 4, sizeof from_32);
    memcpy(&from, header + 8, sizeof from);
    if (is_32_bits)
        from = from_32;
    free(thread->program);
    thread->program = calloc(length ? length : 1, sizeof *thread->program);
    if (!thread->program)
        fail(NULL, "out of memory", 0);
    thread->length = length;
    thread->installs = read_memory(thread->id, from, thread->program, length * sizeof *thread->program) == 0;
}

/* Writes the program that the call installed, if the kernel took it: an answer above 0 may be the id of a thread for which
   it can't be installed. */
static void leave_call(struct thread *thread, const struct ptrace_syscall_info *call)
{
    int names_thread = (thread->flags & SECCOMP_FILTER_FLAG_TSYNC) && !(thread->flags & SECCOMP_FILTER_FLAG_TSYNC_ESRCH);

    if (thread->installs && !call->exit.is_error && !(names_thread && call->exit.rval > 0))
        write_program(thread->id, thread->program, thread->length);
    thread->installs = 0;
}

static void at_call(pid_t id)
{
    struct ptrace_syscall_info call;

    if (ptrace(PTRACE_GET_SYSCALL_INFO, id, sizeof call, &call) <= 0)
        return;
    if (call.op == PTRACE_SYSCALL_INFO_ENTRY)
        enter_call(thread_of(id), &call);
    else if (call.op == PTRACE_SYSCALL_INFO_EXIT)
        leave_call(thread_of(id), &call);
}

/* Lets a stopped thread go on to its next call, with the signal that stopped it. */
static void go_on(pid_t id, int status)
{
    int signal = WSTOPSIG(status), event = status >> 16, request = PTRACE_SYSCALL;

    if (signal == (SIGTRAP | 0x80)) {
        at_call(id);
        signal = 0;
    } else if (event == PTRACE_EVENT_STOP) {
        if (signal == SIGSTOP || signal == SIGTSTP || signal == SIGTTIN || signal == SIGTTOU)
            request = PTRACE_LISTEN;
        signal = 0;
    } else if (event) {
        signal = 0;
    }
    ptrace(request, id, NULL, (void *)(long)signal);
}

/* Waits for the command and all of its children, whatever they do. */
static int follow(void)
{
    int status;
    pid_t id;

    while ((id = waitpid(-1, &status, __WALL)) > 0 || errno == EINTR) {
        if (id <= 0)
            continue;
        if (WIFSTOPPED(status))
            go_on(id, status);
        else
            forget_thread(id);
    }
    return written ? CAUGHT : NONE;
}

/* Waits for the tracer, and runs the command. If it can't be run, writes the errno to the pipe. */
static void run_command(char **command, int ready, int why)
{
    char byte;
    int error;

    if (read(ready, &byte, 1) != 1)
        _exit(127);
    execvp(command[0], command);
    error = errno;
    if (write(why, &error, sizeof error) != (ssize_t)sizeof error)
        _exit(126);
    _exit(127);
}

static int catch_command(char **command)
{
    const long options = PTRACE_O_TRACESYSGOOD | PTRACE_O_TRACECLONE | PTRACE_O_TRACEFORK | PTRACE_O_TRACEVFORK |
                         PTRACE_O_TRACEEXEC | PTRACE_O_EXITKILL;
    int ready[2], why[2], error = 0, status;
    pid_t child;

    if (pipe(ready) != 0 || pipe(why) != 0)
        fail(NULL, "pipe", errno);
    for (int k = 0; k < 2; k++) {
        fcntl(ready[k], F_SETFD, FD_CLOEXEC);
        fcntl(why[k], F_SETFD, FD_CLOEXEC);
    }
    child = fork();
    if (child < 0)
        fail(NULL, "fork", errno);
    if (child == 0) {
        close(ready[1]);
        run_command(command, ready[0], why[1]);
    }
    close(why[1]);
    if (ptrace(PTRACE_SEIZE, child, NULL, (void *)options) != 0 || ptrace(PTRACE_INTERRUPT, child, NULL, NULL) != 0) {
        error = errno;
        kill(child, SIGKILL);
        fail(NULL, "the kernel allows no process to be traced", error);
    }
    if (waitpid(child, &status, __WALL) != child || !WIFSTOPPED(status))
        fail(NULL, "the command ended before it was traced", 0);
    go_on(child, status);
    if (write(ready[1], "", 1) != 1)
        fail(NULL, "pipe", errno);
    status = follow();
    if (read(why[0], &error, sizeof error) == (ssize_t)sizeof error)
        fail(command[0], "can't be run", error);
    if (status == NONE)
        fputs("catch-filter: no program was installed\n", stderr);
    return status;
}

/* Reads one program of a stopped thread, of which 0 is the oldest; returns its length, or 0 if there is no such program. */
static unsigned read_program(pid_t id, unsigned long index, struct sock_filter *program)
{
    long length = ptrace(PTRACE_SECCOMP_GET_FILTER, id, (void *)index, program);

    if (length > 0)
        return (unsigned)length;
    if (errno == ENOENT || (errno == EINVAL && index == 0))
        return 0;
    if (errno == EACCES)
        fail(NULL, "only a process that has CAP_SYS_ADMIN and no seccomp programs itself may read programs", 0);
    fail(NULL, "PTRACE_SECCOMP_GET_FILTER", errno);
    return 0;
}

static int catch_process(const char *text)
{
    static struct sock_filter program[BPF_MAXINSNS];
    unsigned length;
    char *end;
    long id = strtol(text, &end, 10);
    int status;

    if (*end || end == text || id <= 0 || id > INT_MAX)
        fail(text, "expected the number of a process", 0);
    if (ptrace(PTRACE_SEIZE, (pid_t)id, NULL, NULL) != 0 || ptrace(PTRACE_INTERRUPT, (pid_t)id, NULL, NULL) != 0)
        fail(text, "can't be traced", errno);
    if (waitpid((pid_t)id, &status, __WALL) != (pid_t)id || !WIFSTOPPED(status))
        fail(text, "ended before it was traced", 0);
    while ((length = read_program((pid_t)id, written, program)) != 0)
        write_program((pid_t)id, program, length);
    if (!written)
        fputs("catch-filter: the process has no program\n", stderr);
    return written ? CAUGHT : NONE;
}

/* Opens the standard streams that are closed, so that no file becomes one of them. */
static void open_streams(void)
{
    for (int stream = STDIN_FILENO; stream <= STDERR_FILENO; stream++)
        if (fcntl(stream, F_GETFD) < 0 && open("/dev/null", O_RDWR) != stream)
            _exit(TROUBLE);
}

/* Ends with what is wrong with an option, if one is named. */
static void fail_usage(const char *option, const char *what)
{
    fputs("catch-filter: ", stderr);
    if (option) {
        print_name(option);
        fputs(": ", stderr);
    }
    fprintf(stderr, "%s\nTry 'catch-filter --help'.\n", what);
    exit(TROUBLE);
}

/* Ends with what is wrong with the option of this letter, or of no letter that is known: with this word. */
static void fail_option(const char *word, int letter, const char *what)
{
    const char option[] = {'-', (char)letter, '\0'};

    fail_usage(strchr("hV", letter) ? word : option, what);
}

static int print(const char *text)
{
    if (fputs(text, stdout) < 0 || fflush(stdout) != 0)
        fail("standard output", "can't be written", errno);
    return CAUGHT;
}

int main(int argc, char **argv)
{
    static const struct option options[] = {
        {"output", required_argument, NULL, 'o'}, {"pid", required_argument, NULL, 'p'}, {"help", no_argument, NULL, 'h'},
        {"version", no_argument, NULL, 'V'},      {NULL, 0, NULL, 0},
    };
    const char *pid = NULL;
    int option;

    open_streams();
    while ((option = getopt_long(argc, argv, "+:o:p:hV", options, NULL)) != -1) {
        if (option == 'o')
            prefix = optarg;
        else if (option == 'p')
            pid = optarg;
        else if (option == 'h')
            return print(help);
        else if (option == 'V')
            return print("catch-filter " VERSION "\n");
        else if (option == ':')
            fail_option(NULL, optopt, "expected an argument");
        else
            fail_option(argv[optind - 1], optopt, "unexpected");
    }
    if (!pid == (optind >= argc))
        fail_usage(NULL, "expected a command, or -p PID");
    return pid ? catch_process(pid) : catch_command(argv + optind);
}
