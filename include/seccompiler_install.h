/* SPDX-License-Identifier: Apache-2.0 OR BSD-3-Clause */
/*
 * Installs a program in the kernel, as a filter of the calling thread or of all threads of the process.
 *
 * This function is NOT PROVED. The functions of seccompiler.h are proved, but make no system call. The two
 * calls that install a program are made here: some lines of C over the kernel's headers, meant to be read.
 * Nothing of this file is in the library.
 *
 * EXAMPLE
 *
 *     long result = seccompiler_install(program, (size_t)count, SECCOMP_FILTER_FLAG_TSYNC);
 *     if (result > 0)
 *         fprintf(stderr, "thread %ld has another filter\n", result);
 *     else if (result < 0)
 *         fprintf(stderr, "%s\n", strerror((int)-result));
 *
 * It is C99, C11 and C++17, with the extensions of GNU and without. It needs no feature test macro.
 */
#ifndef SECCOMPILER_INSTALL_H
#define SECCOMPILER_INSTALL_H

#include <errno.h>
#include <linux/filter.h>
#include <linux/seccomp.h>
#include <stddef.h>
#include <stdint.h>
#include <sys/prctl.h>
#include <sys/syscall.h>
#include <unistd.h>

#if defined __STRICT_ANSI__ && !defined __cplusplus
/* <unistd.h> doesn't declare it if a program is compiled as standard C, as by -std=c11. */
long syscall(long number, ...);
#endif

/*
 * Sets no_new_privs of the calling thread, by prctl(PR_SET_NO_NEW_PRIVS, 1, 0, 0, 0). Then it installs the program
 * of `count` instructions, by seccomp(SECCOMP_SET_MODE_FILTER, flags, ..).
 *
 * `flags` are those of seccomp(2): 0 for the calling thread, SECCOMP_FILTER_FLAG_TSYNC for all threads.
 *
 * Returns 0 if seccomp succeeds: then the program is installed. An earlier filter can fake that, by an action
 * for seccomp with the errno 0.
 *
 * Returns a negative errno if a call fails:
 *     -EINVAL      `count` isn't 1 to 4096: for example, it is a code of seccompiler_compile. Then neither call was
 *                  made. Or the kernel doesn't know the flags, or rejects the program.
 *     -EINTR       A call was interrupted before the kernel began with it. That can happen if another process
 *                  supervises this one's calls. The function may be called again. It doesn't retry by itself,
 *                  since an earlier filter may return this errno each time.
 *     any other    The errno of prctl or seccomp, as -EACCES, -ENOSYS, -ENOMEM or -ESRCH, or one that an earlier
 *                  filter returns for them.
 * no_new_privs may be set then, and can't be unset.
 *
 * Returns a positive number if SECCOMP_FILTER_FLAG_TSYNC is set and some thread has a filter that the calling
 * thread doesn't have: the number of that thread. Then no thread got the program. With
 * SECCOMP_FILTER_FLAG_NEW_LISTENER a positive number is the listener's file descriptor, and the program is
 * installed.
 *
 * `errno` may be changed. The program is only read, and may be freed after the call.
 */
static inline long seccompiler_install(const struct sock_filter *program, size_t count, unsigned int flags)
{
    struct sock_fprog filter;
    long result;

    if (count == 0 || count > BPF_MAXINSNS)
        return -EINVAL;
    /* The kernel's structure has no `const`. The kernel only copies what it points to. */
    filter.len = (unsigned short)count;
    filter.filter = (struct sock_filter *)(uintptr_t)program;
    if (prctl(PR_SET_NO_NEW_PRIVS, 1UL, 0UL, 0UL, 0UL) != 0)
        return -(long)errno;
    result = syscall(SYS_seccomp, SECCOMP_SET_MODE_FILTER, flags, &filter);
    return result < 0 ? -(long)errno : result;
}

#endif
