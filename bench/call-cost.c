/*
 * Times a system call under filters: call-cost ROUNDS CALL THIRD FILE..
 *
 * Each FILE has a filter's program as bytes, as `seccomptool compile` writes it; an empty file stands for no filter.
 * CALL is the number of the call that is made, with the arguments 1, 0 and THIRD. In each round each FILE has its turn,
 * in a process of its own, which installs the program and makes the call in batches. Writes for each FILE the least
 * time of a call over all batches and rounds, in picoseconds, a line each.
 */
#include <errno.h>
#include <linux/filter.h>
#include <linux/seccomp.h>
#include <stdint.h>
#include <stdio.h>
#include <stdlib.h>
#include <string.h>
#include <sys/mman.h>
#include <sys/prctl.h>
#include <sys/syscall.h>
#include <sys/wait.h>
#include <time.h>
#include <unistd.h>

enum { BATCHES = 20, CALLS = 2000, MOST = 4096 };

/* What a process tells the one that made it: the least time of a batch in nanoseconds, or an error number. */
struct told {
    uint64_t least;
    int error;
};

static uint64_t now(void)
{
    struct timespec at;
    clock_gettime(CLOCK_MONOTONIC, &at);
    return (uint64_t)at.tv_sec * 1000000000u + (uint64_t)at.tv_nsec;
}

static int install(struct sock_fprog *program)
{
    if (program->len == 0)
        return 0;
    if (prctl(PR_SET_NO_NEW_PRIVS, 1, 0, 0, 0))
        return errno;
    return syscall(SYS_seccomp, SECCOMP_SET_MODE_FILTER, 0, program) ? errno : 0;
}

static void time_calls(struct sock_fprog *program, long call, long third, struct told *told)
{
    told->least = UINT64_MAX;
    told->error = install(program);
    for (int batch = 0; told->error == 0 && batch < BATCHES; batch++) {
        uint64_t start = now();
        for (int k = 0; k < CALLS; k++)
            syscall(call, 1, 0, third);
        uint64_t took = now() - start;
        if (took < told->least)
            told->least = took;
    }
    _exit(0);
}

static void read_program(const char *path, struct sock_fprog *program)
{
    FILE *file = fopen(path, "rb");
    program->filter = calloc(MOST, sizeof *program->filter);
    if (file == NULL || program->filter == NULL) {
        perror(path);
        exit(1);
    }
    program->len = (unsigned short)fread(program->filter, sizeof *program->filter, MOST, file);
    fclose(file);
}

int main(int count, char **words)
{
    if (count < 5)
        return 2;
    int files = count - 4;
    struct sock_fprog *programs = calloc((size_t)files, sizeof *programs);
    uint64_t *least = calloc((size_t)files, sizeof *least);
    struct told *told = mmap(NULL, sizeof *told, PROT_READ | PROT_WRITE, MAP_SHARED | MAP_ANONYMOUS, -1, 0);
    if (programs == NULL || least == NULL || told == MAP_FAILED)
        return 1;
    for (int k = 0; k < files; k++)
        read_program(words[4 + k], &programs[k]);
    for (long round = atol(words[1]); round > 0; round--) {
        for (int k = 0; k < files; k++) {
            int status = 0;
            pid_t child = fork();
            if (child == 0)
                time_calls(&programs[k], atol(words[2]), atol(words[3]), told);
            if (child < 0 || waitpid(child, &status, 0) != child || status != 0 || told->error != 0) {
                fprintf(stderr, "%s: %s\n", words[4 + k], status ? "killed" : strerror(told->error ? told->error : errno));
                return 1;
            }
            if (least[k] == 0 || told->least < least[k])
                least[k] = told->least;
        }
    }
    for (int k = 0; k < files; k++)
        printf("%llu\n", (unsigned long long)(least[k] * 1000 / CALLS));
    return 0;
}
