/* Memory of a test by one thread, which counts blocks and requests, and refuses the request of one number. */
#ifndef STM_TESTS_REFUSING_H
#define STM_TESTS_REFUSING_H

#include "memory.h"

#include <stdlib.h>

static long requests, refused, blocks;

static int refuses(void) { return ++requests == refused; }

struct block rattle_alloc(size_t size, size_t align) {
    void *at = refuses() ? NULL : malloc(size ? size : align);
    if (at) blocks++;
    return told(at);
}

struct block rattle_realloc(void *old, size_t old_size, size_t size, size_t align) {
    (void)old_size;
    return told(refuses() ? NULL : realloc(old, size ? size : align));
}

void rattle_dealloc(void *old) {
    blocks--;
    free(old);
}

#endif
