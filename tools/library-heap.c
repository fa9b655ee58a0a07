/* The three functions by which calls of hdminet.h take memory, over malloc, realloc and free. tools/library puts them into
   libhdminet.a where the toolchain has none for the target. A program with a memory of its own has its own three in their
   place: blocks of the same alignment, and a block that could not be made larger is as it was. */
#include <stdbool.h>
#include <stddef.h>
#include <stdlib.h>

/* Whether there is a block, and where. Where there is none, the pointer is not null all the same. */
typedef struct block {
    bool ok;
    void *at;
} block;

static char nothing;

static block tried(void *at) {
    return (block){at != NULL, at != NULL ? at : &nothing};
}

/* A block of `size` bytes, aligned to 1, 2, 4, 8 or 16. */
block rattle_alloc(size_t size, size_t alignment) {
    return tried(malloc(size != 0 ? size : alignment));
}

/* Makes a block one of `size` bytes, of which the first `kept` are as they were. */
block rattle_realloc(void *at, size_t kept, size_t size, size_t alignment) {
    (void)kept;
    return tried(realloc(at, size != 0 ? size : alignment));
}

void rattle_dealloc(void *at) {
    free(at);
}
