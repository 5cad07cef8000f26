/*
 * Makes the call `getpid` as a 32-bit program does, by the interrupt 0x80 of x86, and prints what it returned: the number
 * of this process. If the kernel has no 32-bit calls, a signal ends the process. tools/try-jail builds it.
 */

#include <stdio.h>

int main(void)
{
    long number = 20; /* getpid, in asm/unistd_32.h */

    __asm__ volatile("int $0x80" : "+a"(number) : : "memory", "r8", "r9", "r10", "r11");
    printf("%ld\n", number);
    return 0;
}
