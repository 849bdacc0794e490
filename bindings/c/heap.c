/* The memory of the library, from the host's malloc; it is inside libstm.a and libstm.so. A call answers whether there is
   a block, and the block. A host that has memory of its own brings these three itself, and links libstm.a. */
#ifndef _DEFAULT_SOURCE
#define _DEFAULT_SOURCE
#endif
#include <stdbool.h>
#include <stddef.h>
#include <stdint.h>
#include <stdlib.h>
#include <sys/mman.h>

struct block {
    bool got;
    void *at;
};

struct block rattle_alloc(size_t size, size_t align);
struct block rattle_realloc(void *old, size_t old_size, size_t size, size_t align);
void rattle_dealloc(void *old);

static char nothing;

/* The library asks for no more than malloc promises: a power of two up to 16, which divides the size. A block that is not
   aligned so would be used all the same, and nothing would be known of what follows. */
static struct block told(void *at, size_t align) {
    struct block block = {at != NULL, at ? at : &nothing};
    if (at && ((uintptr_t)at & (align - 1))) abort();
    return block;
}

/* From which size on a block begins at a large page, of which the system may give it several then: so calls on a table of
   a million cells miss fewer addresses. */
enum { LARGE = 1 << 22, LARGE_PAGE = 1 << 21 };

struct block rattle_alloc(size_t size, size_t align) {
    void *at;
    if (size < LARGE) return told(malloc(size ? size : align), align);
    if (posix_memalign(&at, LARGE_PAGE, size)) return told(NULL, align);
    madvise(at, size, MADV_HUGEPAGE);
    return told(at, align);
}

struct block rattle_realloc(void *old, size_t old_size, size_t size, size_t align) {
    (void)old_size;
    return told(realloc(old, size ? size : align), align);
}

void rattle_dealloc(void *old) { free(old); }
