/* A bell, by which a thread sleeps until another one rings it, and for how long. It is a part of service.c. */
#ifndef STM_BELL_H
#define STM_BELL_H

#include "service.h"
#include "sleep.h"

#include <pthread.h>
#include <stdbool.h>
#include <stddef.h>
#include <time.h>

enum {
    /* After how many nanoseconds of waiting a waiter is asked. */
    SLICE = 50000000,
    /* For how many a thread looks whether its bell was rung before it sleeps, which takes twice as long with its end;
     * and how many it rests between two looks. */
    LISTENS = 5000,
    PAUSES = 300
};

/* A bell is quiet, or rung; or a thread sleeps by it. */
enum bell_state { QUIET, RUNG, SLEPT_BY };
struct bell {
    uint32_t state;
};

/* Who is asked while a thread waits, by the thread, once one has somebody. */
static pthread_key_t waiters;
static pthread_once_t before_waiters = PTHREAD_ONCE_INIT;
static bool has_waiters;

static void make_waiters(void) {
    if (pthread_key_create(&waiters, NULL) == 0) __atomic_store_n(&has_waiters, true, __ATOMIC_RELEASE);
}

/* Who is asked while this thread waits; NULL: nobody, as while it is asked. */
static stm_waiter *waiter_here(void) {
    return __atomic_load_n(&has_waiters, __ATOMIC_ACQUIRE) ? pthread_getspecific(waiters) : NULL;
}

static bool is_at_or_before(const struct timespec *time, const struct timespec *other) {
    return time->tv_sec != other->tv_sec ? time->tv_sec < other->tv_sec : time->tv_nsec <= other->tv_nsec;
}

static bool is_past(const struct timespec *until) {
    if (!until) return false;
    struct timespec now = time_in(0);
    return is_at_or_before(until, &now);
}

/* Its thread may go on, and the bell be gone, before the last line. */
static void ring(struct bell *bell) {
    uint32_t *state = &bell->state;
    if (__atomic_exchange_n(state, RUNG, __ATOMIC_ACQ_REL) == SLEPT_BY) wake_at(state);
}

/* Whether the bell goes from one state to the other. */
static bool turns(struct bell *bell, uint32_t from, uint32_t to) {
    return __atomic_load_n(&bell->state, __ATOMIC_RELAXED) == from &&
           __atomic_compare_exchange_n(&bell->state, &from, to, false, __ATOMIC_ACQ_REL, __ATOMIC_RELAXED);
}

/* Sleeps until the bell was rung, or the time is up: whether it was rung. NULL: without end. Then it is quiet. */
static bool is_rung_by(struct bell *bell, const struct timespec *until) {
    for (int64_t end = clock_now() + LISTENS; clock_now() < end && !is_past(until); rest(PAUSES))
        if (turns(bell, RUNG, QUIET)) return true;
    while (!turns(bell, RUNG, QUIET)) {
        turns(bell, QUIET, SLEPT_BY);
        if (is_past(until)) {
            if (turns(bell, SLEPT_BY, QUIET)) return false;
        } else {
            sleep_at(&bell->state, SLEPT_BY, until);
        }
    }
    return true;
}

/* Whether the waiter lets the thread go on. No lock is held, so it may do what it likes. */
static bool goes_on(stm_waiter *waiter) {
    pthread_setspecific(waiters, NULL);
    waiter->stopped = 0;
    waiter->asked(waiter->own);
    if (!waiter_here()) pthread_setspecific(waiters, waiter);
    return !waiter->stopped;
}

/* Sleeps until the bell was rung, or the thread waits no longer: whether it was rung. NULL: without end. */
static bool is_rung(struct bell *bell, const struct timespec *until) {
    for (stm_waiter *waiter; (waiter = waiter_here());) {
        struct timespec slice = time_in(SLICE);
        if (until && is_at_or_before(until, &slice)) break;
        if (is_rung_by(bell, &slice)) return true;
        if (!goes_on(waiter)) return false;
    }
    return is_rung_by(bell, until);
}

#endif
