/* The memory that a test brings in place of heap.c, so that it can count or refuse: what the library asks for, and how it
 * is answered. */
#ifndef STM_TESTS_MEMORY_H
#define STM_TESTS_MEMORY_H

#include <stdbool.h>
#include <stddef.h>

struct block {
    bool got;
    void *at;
};

struct block rattle_alloc(size_t size, size_t align);
struct block rattle_realloc(void *old, size_t old_size, size_t size, size_t align);
void rattle_dealloc(void *old);

/* The answer to a request: the block, or that there is none. */
static struct block told(void *at) {
    static char nothing;
    return (struct block){at != NULL, at ? at : &nothing};
}

#endif
