/* An allocator in front of the C library's, which refuses one request for memory: number REFUSE, counted from 1
 * (malloc, calloc, realloc and the aligned ones alike), and with REFUSE_ON each later one too. To the file number
 * REFUSE_FD it tells each refusal by an 'r', and at the end how many blocks were given and not taken back, or with
 * REFUSE_COUNT how many requests there were, or with REFUSE_THREADS how many threads were begun.
 *
 * It is made by the kit's own compiler, with no header and nothing to link with. */

typedef unsigned long size_t;

extern void *__libc_malloc(size_t);
extern void *__libc_calloc(size_t, size_t);
extern void *__libc_realloc(void *, size_t);
extern void *__libc_memalign(size_t, size_t);
extern void __libc_free(void *);
extern char *getenv(const char *);
extern long write(int, const void *, size_t);
extern long syscall(long, ...);
extern int *__errno_location(void);
extern void *dlsym(void *, const char *);

enum { OUT_OF_MEMORY = 12, EXIT_GROUP = 231 };

static size_t requests, threads;
static long blocks;

static size_t number(const char *name) {
    const char *text = getenv(name);
    size_t value = 0;
    while (text && *text >= '0' && *text <= '9') value = 10 * value + (size_t)(*text++ - '0');
    return value;
}

static void tell(const char *text, size_t length) {
    size_t file = number("REFUSE_FD");
    if (file) write((int)file, text, length);
}

static int is_refused(void) {
    size_t request = __atomic_add_fetch(&requests, 1, __ATOMIC_SEQ_CST), first = number("REFUSE");
    if (!first || request < first || (request > first && !number("REFUSE_ON"))) return 0;
    tell("r", 1);
    *__errno_location() = OUT_OF_MEMORY;
    return 1;
}

static void *given(void *block) {
    if (block) __atomic_add_fetch(&blocks, 1, __ATOMIC_SEQ_CST);
    return block;
}

void *malloc(size_t size) { return is_refused() ? 0 : given(__libc_malloc(size)); }

void *calloc(size_t count, size_t size) { return is_refused() ? 0 : given(__libc_calloc(count, size)); }

void *aligned_alloc(size_t align, size_t size) { return is_refused() ? 0 : given(__libc_memalign(align, size)); }

void *memalign(size_t align, size_t size) { return aligned_alloc(align, size); }

int posix_memalign(void **block, size_t align, size_t size) {
    void *made = aligned_alloc(align, size);
    if (!made) return OUT_OF_MEMORY;
    *block = made;
    return 0;
}

void *realloc(void *block, size_t size) {
    if (is_refused()) return 0;
    void *moved = __libc_realloc(block, size);
    return block ? moved : given(moved);
}

void free(void *block) {
    if (block) __atomic_sub_fetch(&blocks, 1, __ATOMIC_SEQ_CST);
    __libc_free(block);
}

/* The C library's own comes after this one (-1 is what it calls RTLD_NEXT). */
int pthread_create(size_t *thread, const void *how, void *(*body)(void *), void *with) {
    int (*begin)(size_t *, const void *, void *(*)(void *), void *) = dlsym((void *)-1, "pthread_create");
    __atomic_add_fetch(&threads, 1, __ATOMIC_SEQ_CST);
    return begin(thread, how, body, with);
}

static long told(void) {
    if (number("REFUSE_COUNT")) return (long)requests;
    if (number("REFUSE_THREADS")) return (long)threads;
    return blocks < 0 ? -blocks : blocks;
}

/* A program ends by _exit, and a test by returning, after all that it drops. */
static __attribute__((destructor)) void end(void) {
    char text[24];
    size_t at = sizeof text;
    long left = told();
    do text[--at] = (char)('0' + left % 10);
    while (left /= 10);
    tell(text + at, sizeof text - at);
}

void _exit(int status) {
    end();
    for (;;) syscall(EXIT_GROUP, (long)status);
}
