/*
 * The AUDIT_ARCH_* value of the architecture that a program is built for, and the architecture's name.
 *
 * Filters are compiled for three architectures. The archive that programs link is built for the first two.
 */

#ifndef ARCHITECTURE_H
#define ARCHITECTURE_H

#include <linux/audit.h>

#if defined(__x86_64__) && !defined(__ILP32__)
#define ARCHITECTURE AUDIT_ARCH_X86_64
#define ARCHITECTURE_NAME "x86_64"
#elif defined(__aarch64__)
#define ARCHITECTURE AUDIT_ARCH_AARCH64
#define ARCHITECTURE_NAME "aarch64"
#elif defined(__riscv) && __riscv_xlen == 64
#define ARCHITECTURE AUDIT_ARCH_RISCV64
#define ARCHITECTURE_NAME "riscv64"
#else
#error "filters are compiled for x86_64, aarch64 and riscv64"
#endif

#endif
