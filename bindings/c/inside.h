/* What a service is made of. It is a part of service.c. */
#ifndef STM_INSIDE_H
#define STM_INSIDE_H

#include "desk.h"
#include "started.h"
#include "workers.h"

#include <sys/types.h>

/* A text, in a room that grows with it. */
struct text {
    char *at;
    size_t room, length;
};

/* The chapters that end, one at a time. */
struct chapters {
    /* Whose thread tells the host, by an address of the thread's own; NULL: none does. */
    const void *teller;
    /* Whether the host did not keep what it was told last; and whether it was told once more since it was closed. */
    bool is_refused, are_over;
    /* How often it has said how it went. */
    int64_t said;
    /* The calls that wait until the host has said how it went. */
    struct call *waiting;
    /* What the host is told: only the teller has them. */
    struct text file, report;
    /* Where the host takes them: the one that it can take; whether it can take the one that it did not keep, or that it
     * has and may not keep, once more; where the one lies that it has, until it has said how it went; and who waits for
     * one. */
    stm_ended offered;
    bool is_due;
    const void *out;
    struct call *takers;
};

/* The calls without a thread whose host asks what became of them. */
struct told {
    /* Those that ended, in their order. */
    struct started *first, *last;
    /* How many were begun and not taken yet; and who waits for one. */
    size_t count;
    struct call *takers;
};

struct stm_service {
    /* What is left to do when it is let go is to ring bells. */
    struct lock lock;
    /* How many threads are in a call for which they neither have the lock nor ask: it is changed without the lock. */
    size_t inside;
    stm_desk desk;
    /* How many calls the desk has to tell something, and how many of them are long. */
    size_t waiting, long_ones;
    /* How often one of them was entered, and how often what a long one had read was changed meanwhile. */
    uint64_t woken, stale;
    /* Those of them that wait without a thread, by their tickets. */
    struct table started;
    struct told told;
    bool is_closed;
    struct chapters chapters;
    struct workers workers;
    stm_program program;
    stm_service_options options;
    /* The process that has opened it. */
    pid_t process;
    /* The memory in which it lies. */
    void *block;
};

static inline void enter(stm_service *s) { __atomic_add_fetch(&s->inside, 1, __ATOMIC_RELAXED); }

/* The last that a thread has to do with the service, but for what it owes. */
static inline void leave(stm_service *s) { __atomic_sub_fetch(&s->inside, 1, __ATOMIC_RELEASE); }

static void lock(stm_service *s) {
    enter(s);
    take_lock(&s->lock);
}

static void unlock_and_leave(stm_service *s) {
    release(&s->lock);
    leave(s);
    do_what_is_owed();
}

#endif
