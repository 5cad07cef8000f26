/*
 * Calls that a built program makes in place of the C library's, and that fall short as the environment says.
 * tools/running.py builds and preloads them.
 *
 * GRANTED: so many requests for memory are granted, and each after them is refused.
 * REFUSED: only the request for memory of this number, counted from 1, is refused.
 * TOLD: a byte is written to this descriptor when the first request is refused.
 * DESCRIPTOR, AT_ONCE, BYTES and ERROR: a call that reads from this descriptor, or writes to it, passes at
 * most AT_ONCE bytes; after BYTES bytes in all each fails with this error number. Without ERROR none fails.
 */
#define _GNU_SOURCE
#include <dlfcn.h>
#include <errno.h>
#include <stdlib.h>
#include <sys/types.h>
#include <unistd.h>

static long number(const char *name, long otherwise) {
    const char *text = getenv(name);
    return text ? atol(text) : otherwise;
}

static int is_refused(void) {
    static long granted = -1, alone, asked, is_told;
    if (granted < 0) {
        granted = number("GRANTED", 1L << 60);
        alone = number("REFUSED", 0);
    }
    asked++;
    if (asked <= granted && asked != alone) return 0;
    if (!is_told) is_told = write((int)number("TOLD", -1), "x", 1) != 0;
    errno = ENOMEM;
    return 1;
}

void *malloc(size_t size) {
    static void *(*given)(size_t);
    if (!given) given = (void *(*)(size_t))dlsym(RTLD_NEXT, "malloc");
    return is_refused() ? NULL : given(size);
}

void *realloc(void *block, size_t size) {
    static void *(*given)(void *, size_t);
    if (!given) given = (void *(*)(void *, size_t))dlsym(RTLD_NEXT, "realloc");
    return is_refused() ? NULL : given(block, size);
}

/* How many bytes a call of this size may pass, or -1 if it fails. */
static ssize_t passes(int descriptor, size_t size) {
    static ssize_t passed;
    ssize_t most = (ssize_t)size, at_once = number("AT_ONCE", 0), left = number("BYTES", 0) - passed;
    int error = (int)number("ERROR", 0);
    if (descriptor != number("DESCRIPTOR", -1)) return most;
    if (error && left == 0) {
        errno = error;
        return -1;
    }
    if (most > at_once) most = at_once;
    if (error && most > left) most = left;
    passed += most;
    return most;
}

ssize_t read(int descriptor, void *buffer, size_t size) {
    static ssize_t (*given)(int, void *, size_t);
    if (!given) given = (ssize_t (*)(int, void *, size_t))dlsym(RTLD_NEXT, "read");
    ssize_t most = passes(descriptor, size);
    return most < 0 ? -1 : given(descriptor, buffer, (size_t)most);
}

ssize_t write(int descriptor, const void *buffer, size_t size) {
    static ssize_t (*given)(int, const void *, size_t);
    if (!given) given = (ssize_t (*)(int, const void *, size_t))dlsym(RTLD_NEXT, "write");
    ssize_t most = passes(descriptor, size);
    return most < 0 ? -1 : given(descriptor, buffer, (size_t)most);
}

/* The program calls this name too. */
ssize_t __write(int descriptor, const void *buffer, size_t size) {
    return write(descriptor, buffer, size);
}
