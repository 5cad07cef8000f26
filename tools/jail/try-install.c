/*
 * Tries seccompiler_install on the running kernel, and prints a line for each case that fails. tools/try-jail
 * builds it as C and as C++. Each case runs in a process of its own, since filters stay. The last line is
 * 'N passed, M failed'; the exit status is 1 if a case fails.
 */

#include <seccompiler_install.h>

#include <pthread.h>
#include <stdio.h>
#include <string.h>
#include <sys/wait.h>

/* The errno with which an earlier filter answers a call in place of the kernel. No kernel returns it. */
#define OWN_ERROR 1000

enum { PROGRAM = 4 };

/* Makes the program that answers the call of this number with an errno, and allows the rest. */
static void make(struct sock_filter program[PROGRAM], unsigned int number, unsigned int error)
{
    static const struct sock_filter parts[PROGRAM] = {
        {0x20, 0, 0, 0}, {0x15, 0, 1, 0}, {0x06, 0, 0, 0x00050000}, {0x06, 0, 0, 0x7fff0000}
    };

    memcpy(program, parts, sizeof parts);
    program[1].k = number;
    program[2].k |= error;
}

/* Installs such a program for the calling thread, or for more by `flags`; returns what the function does. */
static long refuse(unsigned int number, unsigned int error, unsigned int flags)
{
    struct sock_filter program[PROGRAM];

    make(program, number, error);
    return seccompiler_install(program, PROGRAM, flags);
}

static int has_no_new_privileges(void)
{
    return prctl(PR_GET_NO_NEW_PRIVS, 0UL, 0UL, 0UL, 0UL) == 1;
}

/* Whether the call is refused by a filter, and not by the kernel. */
static int is_refused(long number)
{
    errno = 0;
    return syscall(number, 0L, 0L, 0L) == -1 && errno == OWN_ERROR;
}

static int installs(void)
{
    return !has_no_new_privileges() && refuse(SYS_getppid, OWN_ERROR, 0) == 0 && has_no_new_privileges() &&
           is_refused(SYS_getppid) && !is_refused(SYS_getuid);
}

static int installs_for_all_threads(void)
{
    return refuse(SYS_getppid, OWN_ERROR, SECCOMP_FILTER_FLAG_TSYNC) == 0 && is_refused(SYS_getppid);
}

static int refuses_counts_before_any_call(void)
{
    static struct sock_filter program[BPF_MAXINSNS + 1];
    static const size_t counts[] = {0, BPF_MAXINSNS + 1, 65536 + PROGRAM, (size_t)-1};
    size_t k;

    make(program, SYS_getppid, OWN_ERROR);
    for (k = 0; k < sizeof counts / sizeof *counts; k++)
        if (seccompiler_install(program, counts[k], 0) != -EINVAL)
            return 0;
    return !has_no_new_privileges() && !is_refused(SYS_getppid);
}

static int takes_the_largest_program(void)
{
    static struct sock_filter program[BPF_MAXINSNS];
    size_t k;

    make(program, SYS_getppid, OWN_ERROR);
    for (k = PROGRAM; k < BPF_MAXINSNS; k++)
        program[k] = program[PROGRAM - 1];
    return seccompiler_install(program, BPF_MAXINSNS, 0) == 0 && is_refused(SYS_getppid);
}

static int tells_what_the_kernel_refuses(void)
{
    struct sock_filter load = {0x20, 0, 0, 0};

    return seccompiler_install(&load, 1, 0) == -EINVAL && refuse(SYS_getppid, OWN_ERROR, 1U << 30) == -EINVAL &&
           has_no_new_privileges() && !is_refused(SYS_getppid);
}

static int tells_an_error_of_prctl(void)
{
    return refuse(SYS_prctl, OWN_ERROR, 0) == 0 && refuse(SYS_getppid, OWN_ERROR, 0) == -OWN_ERROR &&
           !is_refused(SYS_getppid);
}

static int tells_an_interruption(void)
{
    return refuse(SYS_seccomp, EINTR, 0) == 0 && refuse(SYS_getppid, OWN_ERROR, 0) == -EINTR &&
           !is_refused(SYS_getppid);
}

/* A thread with a filter of its own: it writes its number into one pipe, and ends once the other one ends. */
static int told[2], held[2];

static void *have_another_filter(void *unused)
{
    long number = refuse(SYS_getuid, OWN_ERROR, 0) == 0 ? syscall(SYS_gettid) : -1;
    char end;

    (void)unused;
    if (write(told[1], &number, sizeof number) != sizeof number || read(held[0], &end, 1) != 0)
        _exit(1);
    return NULL;
}

static int tells_the_thread_with_another_filter(void)
{
    pthread_t thread;
    long other = -1;
    int fine;

    if (pipe(told) != 0 || pipe(held) != 0 || pthread_create(&thread, NULL, have_another_filter, NULL) != 0)
        return 0;
    fine = read(told[0], &other, sizeof other) == sizeof other && other > 0 &&
           refuse(SYS_getppid, OWN_ERROR, SECCOMP_FILTER_FLAG_TSYNC) == other && !is_refused(SYS_getppid);
    return close(held[1]) == 0 && pthread_join(thread, NULL) == 0 && fine;
}

static const struct {
    const char *name;
    int (*holds)(void);
} cases[] = {
    {"installs", installs},
    {"installs for all threads", installs_for_all_threads},
    {"refuses counts before any call", refuses_counts_before_any_call},
    {"takes the largest program", takes_the_largest_program},
    {"tells what the kernel refuses", tells_what_the_kernel_refuses},
    {"tells an error of prctl", tells_an_error_of_prctl},
    {"tells an interruption", tells_an_interruption},
    {"tells the thread with another filter", tells_the_thread_with_another_filter},
};

int main(void)
{
    int passed = 0, failed = 0;
    size_t k;

    for (k = 0; k < sizeof cases / sizeof *cases; k++) {
        int status = 1;
        pid_t child = fork();

        if (child == 0)
            _exit(cases[k].holds() ? 0 : 1);
        if (child > 0 && waitpid(child, &status, 0) == child && status == 0) {
            passed++;
        } else {
            failed++;
            printf("seccompiler_install: %s: DIFFERS, status %d\n", cases[k].name, status);
        }
    }
    printf("%d passed, %d failed\n", passed, failed);
    return failed != 0;
}
