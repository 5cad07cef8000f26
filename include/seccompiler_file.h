/* SPDX-License-Identifier: Apache-2.0 OR BSD-3-Clause */
/*
 * Compiles a filter of a policy's file.
 *
 * This function is NOT PROVED. It reads the file, and compiles its text by seccompiler_compile. Nothing of this file is in
 * the library.
 *
 * It is C99, C11 and C++17, with the extensions of GNU and without. It needs no feature test macro.
 */
#ifndef SECCOMPILER_FILE_H
#define SECCOMPILER_FILE_H

#include <errno.h>
#include <stdio.h>
#include <stdlib.h>
#include <string.h>

#include "seccompiler.h"

/* The file can't be read. */
#define SECCOMPILER_NO_FILE (-100)

/* Reads a file to its end, into memory that the caller frees. Returns null if it can't; errno says why. */
static inline char *seccompiler_read_file(const char *path, size_t *length)
{
    FILE *file = fopen(path, "rbe");
    char *text = NULL, *more;
    size_t room = 0, count;
    int error = file == NULL ? errno : 0;

    *length = 0;
    while (error == 0 && *length == room) {
        room = room == 0 ? 65536 : 2 * room;
        more = (char *)realloc(text, room);
        if (more != NULL) {
            text = more;
            errno = 0;
            count = fread(text + *length, 1, room - *length, file);
            *length += count;
        }
        error = more == NULL ? ENOMEM : ferror(file) ? errno : 0;
    }
    if (file != NULL)
        fclose(file);
    if (error == 0)
        return text;
    free(text);
    errno = error;
    return NULL;
}

/* Writes a message. */
static inline void seccompiler_file_say(char *message, size_t capacity, const char *text)
{
    if (snprintf(message, capacity, "%s", text) < 0 && capacity > 0)
        message[0] = '\0';
}

/* Compiles the filter of this name, or the only filter if `name` is null, of a policy's text. */
static inline int64_t seccompiler_compile_only(const char *text, size_t length, uint32_t architecture, const char *name,
                                               uint32_t layout, struct sock_filter *program, size_t capacity,
                                               char *message, size_t message_capacity)
{
    char other[1], *first;
    int64_t answer;

    if (name != NULL)
        return seccompiler_compile(text, length, architecture, name, strlen(name), layout, program, capacity, message,
                                   message_capacity);
    first = (char *)malloc(length + 1);
    if (first == NULL) {
        seccompiler_file_say(message, message_capacity, strerror(ENOMEM));
        return SECCOMPILER_OUT_OF_MEMORY;
    }
    answer = seccompiler_filter_names(text, length, 0, first, length + 1, message, message_capacity);
    if (answer >= 0 && seccompiler_filter_names(text, length, 1, other, 1, message, message_capacity) >= 0) {
        answer = SECCOMPILER_NO_FILTER;
        seccompiler_file_say(message, message_capacity, "It has several filters, so one has to be named.");
    } else if (answer >= 0) {
        answer = seccompiler_compile(text, length, architecture, first, (size_t)answer, layout, program, capacity,
                                     message, message_capacity);
    } else if (answer == SECCOMPILER_NO_FILTER) {
        seccompiler_file_say(message, message_capacity, "It has no filter.");
    }
    free(first);
    return answer;
}

/*
 * Compiles the filter of this name of the policy in the file `path`, as seccompiler_compile does. Both end in a NUL byte.
 * If `name` is null it is the policy's only filter; if that has none or several, the code is NO_FILTER.
 *
 * Returns what seccompiler_compile returns, or the code NO_FILE. The message of a code doesn't name the file.
 */
static inline int64_t seccompiler_compile_file(const char *path, uint32_t architecture, const char *name,
                                               uint32_t layout, struct sock_filter *program, size_t capacity,
                                               char *message, size_t message_capacity)
{
    size_t length;
    char *text = seccompiler_read_file(path, &length);
    int64_t answer;

    if (text == NULL) {
        seccompiler_file_say(message, message_capacity, strerror(errno));
        return SECCOMPILER_NO_FILE;
    }
    answer = seccompiler_compile_only(text, length, architecture, name, layout, program, capacity, message,
                                      message_capacity);
    free(text);
    return answer;
}

#endif
