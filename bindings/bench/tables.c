/* What tables cost a host: prints one line of names and numbers.
 *
 *     tables      a store of 1,000,000 cells: milliseconds to read its file and to open it, and how many bytes a cell its
 *                 blocks have, and had at most while it was opened, more than those of a store of 1,000 cells, both for
 *                 no worker and for one; nanoseconds of a turn that transfers between 1,000 accounts, between 1,000,000, and of one that does
 *                 nothing; and how many more a turn takes for each cell of 1,000 that it sums, or whose least or
 *                 greatest it finds
 *     tables TURN TIMES      only has this turn so often, for who counts instructions: idle, sum, min, max, pay or large
 *
 * The memory of the library is its own here, and is counted. */
#include "stm.h"

#include <malloc.h>
#include <stdbool.h>
#include <stdio.h>
#include <stdlib.h>
#include <string.h>
#include <time.h>

enum { CELLS = 1000000, FEW = 1000, TIMES = 1000000, SUMS = 10000, ROOM = 65536 };

static const char PAY[] =
    "(tx pay (from to n) (seq (if (lt (at acct from) n) (throw n) (skip))"
    " (put acct from (sub (at acct from) n)) (put acct to (add (at acct to) n))) (at acct from))";
static const char FOLDS[] =
    "(tx idle () (skip) 0)(tx sum () (skip) (sum acct))(tx min () (skip) (min acct))(tx max () (skip) (max acct))";

struct block {
    bool got;
    void *at;
};

struct block rattle_alloc(size_t size, size_t align);
struct block rattle_realloc(void *old, size_t old_size, size_t size, size_t align);
void rattle_dealloc(void *old);

static size_t held, most;
static char nothing;

static struct block counted(void *at) {
    if (at) held += malloc_usable_size(at);
    if (held > most) most = held;
    return (struct block){at != NULL, at ? at : &nothing};
}

struct block rattle_alloc(size_t size, size_t align) { return counted(malloc(size ? size : align)); }

struct block rattle_realloc(void *old, size_t old_size, size_t size, size_t align) {
    (void)old_size;
    held -= malloc_usable_size(old);
    return counted(realloc(old, size ? size : align));
}

void rattle_dealloc(void *old) {
    held -= malloc_usable_size(old);
    free(old);
}

static double now(void) {
    struct timespec at;
    clock_gettime(CLOCK_MONOTONIC, &at);
    return (double)at.tv_sec * 1e9 + (double)at.tv_nsec;
}

static void fails(const char *why) {
    fprintf(stderr, "tables: %s\n", why);
    exit(2);
}

static stm_program program;
static stm_store store;
static stm_lender lender;
static size_t opened_with;
static double read_ns, open_ns;

/* A bank of so many accounts, of which few enough can be summed too, for so many workers. */
static void opens(int accounts, size_t workers) {
    static char text[2048];
    snprintf(text, sizeof text, "(stm 3)(table acct %d 100)%s%s", accounts, PAY, accounts <= FEW ? FOLDS : "");
    opened_with = most = held;
    double begin = now();
    if (stm_read(text, strlen(text), &program) != STM_DONE) fails("no program");
    double read = now();
    if (stm_open_with_room(&program, workers, 0, ROOM, &store) != STM_DONE) fails("no store");
    open_ns = now() - read;
    read_ns = read - begin;
    if (stm_open_lender(&store, &lender) != STM_DONE) fails("no lender");
}

static void lets_go(void) {
    stm_lender_free(&lender);
    stm_store_free(&store);
    stm_program_free(&program);
}

static void calls(uint32_t transaction, const int64_t *given, size_t count) {
    stm_answer turn = stm_call(&store, &lender, transaction, given, count, STM_WAITS);
    if (turn.code == STM_NO_ROOM) {
        stm_begin_chapter(&store);
        turn = stm_call(&store, &lender, transaction, given, count, STM_WAITS);
    }
    if (turn.code != STM_DONE && turn.code != STM_THROWN) fails("a call does not end");
}

static uint32_t named(const char *name) {
    return (uint32_t)stm_program_transaction(&program, name, strlen(name));
}

/* So many calls: how many nanoseconds each takes. */
static double each(const char *name, int times) {
    uint32_t transaction = named(name);
    double begin = now();
    for (int i = 0; i < times; i++) calls(transaction, NULL, 0);
    return (now() - begin) / times;
}

static double transfers(uint64_t accounts, int times) {
    uint64_t x = 0x9E3779B97F4A7C15u;
    uint32_t transaction = named("pay");
    double begin = now();
    for (int i = 0; i < times; i++) {
        x ^= x << 13, x ^= x >> 7, x ^= x << 17;
        int64_t from = (int64_t)((x & 0xFFFFF) * accounts >> 20), to = (int64_t)((x >> 20 & 0xFFFFF) * accounts >> 20);
        const int64_t given[] = {from, to, (int64_t)(1 + ((x >> 40 & 0xFFFF) * 100 >> 16))};
        calls(transaction, given, 3);
    }
    return (now() - begin) / times;
}

/* How many bytes the blocks of a store have, and had at most. */
static void weighs(int accounts, size_t workers, double *bytes, double *most_bytes) {
    opens(accounts, workers);
    *bytes = (double)(held - opened_with);
    *most_bytes = (double)(most - opened_with);
    lets_go();
}

/* The same for each cell of many; and how long the store takes. The name of each number begins so. */
static void prints_opening(const char *name, size_t workers) {
    double few, most_few, many, most_many, more = CELLS - FEW;
    weighs(FEW, workers, &few, &most_few);
    weighs(CELLS, workers, &many, &most_many);
    printf("%scell_bytes %.1f %smost_cell_bytes %.1f ", name, (many - few) / more, name, (most_many - most_few) / more);
    opens(CELLS, workers);
    printf("%sread_ms %.3f %sopen_ms %.3f ", name, read_ns / 1e6, name, open_ns / 1e6);
    lets_go();
}

static void prints_large(void) {
    prints_opening("", 0);
    prints_opening("worker_", 1);
    opens(CELLS, 0);
    transfers(CELLS, TIMES / 4);
    printf("large_ns %.1f", transfers(CELLS, TIMES));
    lets_go();
}

static void prints_small(void) {
    opens(FEW, 0);
    double idle = each("idle", TIMES);
    printf(" transfer_ns %.1f idle_ns %.1f", transfers(FEW, TIMES), idle);
    printf(" sum_ns %.3f", (each("sum", SUMS) - idle) / FEW);
    printf(" min_ns %.3f", (each("min", SUMS) - idle) / FEW);
    printf(" max_ns %.3f\n", (each("max", SUMS) - idle) / FEW);
    lets_go();
}

int main(int count, char **words) {
    if (count == 1) {
        prints_large();
        prints_small();
        return 0;
    }
    int is_large = count == 3 && strcmp(words[1], "large") == 0, is_pay = count == 3 && strcmp(words[1], "pay") == 0;
    int times = count == 3 ? atoi(words[2]) : 0;
    if (times < 1) fails("tables [TURN TIMES]");
    opens(is_large ? CELLS : FEW, 0);
    if (is_large || is_pay) transfers(is_large ? CELLS : FEW, times);
    else each(words[1], times);
    lets_go();
    return 0;
}
