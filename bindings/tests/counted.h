/* The memory of a test that counts its requests, blocks and bytes, and refuses the one of a number. */
#ifndef STM_TESTS_COUNTED_H
#define STM_TESTS_COUNTED_H

#include "memory.h"

#include <stdint.h>
#include <stdlib.h>
#include <string.h>

/* Each block has its size in front of it. */
enum { FRONT = 16 };
static long requests, refused, blocks, bytes, most_bytes;

static void adds(long count, long size) {
    __atomic_add_fetch(&blocks, count, __ATOMIC_RELAXED);
    long now = __atomic_add_fetch(&bytes, size, __ATOMIC_RELAXED);
    if (now > __atomic_load_n(&most_bytes, __ATOMIC_RELAXED)) __atomic_store_n(&most_bytes, now, __ATOMIC_RELAXED);
}

static int refuses(void) { return __atomic_add_fetch(&requests, 1, __ATOMIC_RELAXED) == refused; }

static struct block block_at(char *at, size_t size) {
    if (!at) return told(NULL);
    memcpy(at, &size, sizeof size);
    return told(at + FRONT);
}

static size_t size_of(void *block) {
    size_t size;
    memcpy(&size, (char *)block - FRONT, sizeof size);
    return size;
}

struct block rattle_alloc(size_t size, size_t align) {
    (void)align;
    char *at = refuses() ? NULL : malloc(size + FRONT);
    if (at) adds(1, (long)size);
    return block_at(at, size);
}

struct block rattle_realloc(void *old, size_t old_size, size_t size, size_t align) {
    (void)old_size, (void)align;
    size_t before = size_of(old);
    char *at = refuses() ? NULL : realloc((char *)old - FRONT, size + FRONT);
    if (at) adds(0, (long)size - (long)before);
    return block_at(at, size);
}

void rattle_dealloc(void *old) {
    adds(-1, -(long)size_of(old));
    free((char *)old - FRONT);
}

#endif
