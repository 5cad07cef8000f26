/*
 * The three functions by which the library for C asks the C library for memory, for architectures for which the Rattle kit has
 * none: tools/package and tools/check-library link them with the archive for aarch64. What they have to do is stated in the
 * kit's page rattle/libc/src/heap.rt. They are not proved.
 */
#include <stdbool.h>
#include <stdlib.h>

/* Whether there is memory, and where; if there is none, the address of a byte that nothing owns. */
struct tried {
    bool is_there;
    void *block;
};

struct tried rattle_alloc(size_t size, size_t alignment);
struct tried rattle_realloc(void *block, size_t kept, size_t size, size_t alignment);
void rattle_dealloc(void *block);

static char nothing;

/* malloc aligns to 16 bytes, and no caller asks for more. A block of no bytes is one of `alignment` bytes. */
struct tried rattle_alloc(size_t size, size_t alignment)
{
    void *block = malloc(size != 0 ? size : alignment);

    return (struct tried){block != NULL, block != NULL ? block : &nothing};
}

struct tried rattle_realloc(void *block, size_t kept, size_t size, size_t alignment)
{
    void *moved = realloc(block, size != 0 ? size : alignment);

    (void)kept;
    return (struct tried){moved != NULL, moved != NULL ? moved : &nothing};
}

void rattle_dealloc(void *block)
{
    free(block);
}
