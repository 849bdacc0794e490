/* A call without a thread, the table in which it is found by its ticket while it waits, and what a thread owes to such
 * calls. It is a part of service.c. */
#ifndef STM_STARTED_H
#define STM_STARTED_H

#include "calls.h"

/* The memory of the library: heap.c, or the host's own. */
struct block {
    bool got;
    void *at;
};
struct block rattle_alloc(size_t size, size_t align);
void rattle_dealloc(void *old);

/* It waits, and the desk knows it; or its answer is there; or its host has given it up. */
enum standing { STILL_WAITS, HAS_ANSWER, IS_LEFT };

struct started {
    /* The job that is to be evaluated, if it is; then the answer. */
    union {
        stm_job job;
        stm_answer answer;
    } is;
    stm_service *service;
    /* Who is called with the answer; NULL: who asks is told. */
    stm_done *done;
    void *own;
    int64_t ticket;
    /* The next one in its bucket; and the next one that its thread has to do with, or that is to be told. */
    struct started *beside, *next;
    bool is_long, is_due;
    /* Whether what it ends with at once is the answer of who has asked for it, and not told. */
    bool is_answered;
    /* Whether a thread has it, to evaluate its job: then only that lets it go. */
    bool is_at_thread;
    uint8_t standing;
};

/* ---- By its ticket ---- */

enum { DRAWER = 256, DRAWERS = 256 };

/* Buckets, of which there is one more whenever there are more calls: one bucket is split in two then, so that no call
 * waits for more. With no memory for it there are as many as before. `half` is the last power of two. */
struct table {
    size_t calls, buckets, half;
    struct started *first[DRAWER];
    struct started **drawers[DRAWERS];
};

static void open_table(struct table *t) {
    t->buckets = t->half = DRAWER;
    t->drawers[0] = t->first;
}

static void close_table(struct table *t) {
    for (size_t i = 1; i < DRAWERS && t->drawers[i]; i++) rattle_dealloc(t->drawers[i]);
}

static struct started **bucket_at(struct table *t, size_t at) { return &t->drawers[at / DRAWER][at % DRAWER]; }

/* Tickets of those that wait may be evenly apart: so their bits are mixed. */
static struct started **bucket_of(struct table *t, int64_t ticket) {
    size_t at = (size_t)((uint64_t)ticket * 0x9E3779B97F4A7C15u >> 40) & (2 * t->half - 1);
    return bucket_at(t, at < t->buckets ? at : at - t->half);
}

static void put_into(struct table *t, struct started *one) {
    struct started **bucket = bucket_of(t, one->ticket);
    one->beside = *bucket;
    *bucket = one;
}

static void add_bucket(struct table *t) {
    size_t drawer = t->buckets / DRAWER;
    if (drawer == DRAWERS) return;
    if (!t->drawers[drawer]) {
        struct block block = rattle_alloc(DRAWER * sizeof(struct started *), 16);
        if (!block.got) return;
        t->drawers[drawer] = memset(block.at, 0, DRAWER * sizeof(struct started *));
    }
    struct started **split = bucket_at(t, t->buckets - t->half), *all = *split;
    *split = NULL;
    t->buckets++;
    if (t->buckets == 2 * t->half) t->half = t->buckets;
    for (struct started *next; all; all = next) {
        next = all->beside;
        put_into(t, all);
    }
}

static void add_to(struct table *t, struct started *one) {
    if (++t->calls > t->buckets) add_bucket(t);
    put_into(t, one);
}

/* The call that waits with the ticket; NULL: none. */
static struct started *found_in(struct table *t, int64_t ticket) {
    struct started *one = *bucket_of(t, ticket);
    while (one && one->ticket != ticket) one = one->beside;
    return one;
}

static void take_from(struct table *t, struct started *one) {
    struct started **at = bucket_of(t, one->ticket);
    while (*at != one) at = &(*at)->beside;
    *at = one->beside;
    t->calls--;
}

/* ---- What a thread owes ---- */

/* To whose hosts this thread is to tell the answer, and whose jobs it is to evaluate, once it has no lock: in the order
 * in which it has found them. While it does so what it finds is added. */
static __thread struct {
    struct started *first, *last;
    bool is_doing;
} owed __attribute__((tls_model("initial-exec")));

static void owe_started(struct started *one) {
    one->next = NULL;
    if (owed.first) owed.last->next = one;
    else owed.first = one;
    owed.last = one;
}

/* Of which service this thread is in a call that tells its host itself what is to be told, so that nobody is woken for
 * it; and whether there is something. */
static __thread struct {
    const stm_service *of;
    bool is_any;
} held_back __attribute__((tls_model("initial-exec")));

static void do_all_owed(void);

/* By a thread that has no lock, before it sleeps and before it returns to its host. */
static inline void do_what_is_owed(void) {
    if (owed.first && !owed.is_doing) do_all_owed();
}

#endif
