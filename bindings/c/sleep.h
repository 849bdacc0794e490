/* How a thread sleeps at a word of memory until another one changes it, and what time it is. It is a part of service.c.
 *
 * Linux has that as a futex. Elsewhere, and with -DSTM_NO_FUTEX, all sleep by one condition of the process, and each
 * that was woken looks at its own word: so they may wake for nothing, as they may by a futex. */
#ifndef STM_SLEEP_H
#define STM_SLEEP_H

#include <pthread.h>
#include <stdbool.h>
#include <stddef.h>
#include <stdint.h>
#include <time.h>

#if defined(__linux__) && defined(__LP64__) && !defined(STM_NO_FUTEX)
#define STM_FUTEX
#include <linux/futex.h>
#include <sys/syscall.h>
#endif

enum { SECOND = 1000000000 };

/* The time in so many nanoseconds. */
static struct timespec time_in(uint64_t nanoseconds) {
    struct timespec time;
    clock_gettime(CLOCK_MONOTONIC, &time);
    uint64_t rest = (uint64_t)time.tv_nsec + nanoseconds % SECOND;
    time.tv_sec += (time_t)(nanoseconds / SECOND + rest / SECOND);
    time.tv_nsec = (long)(rest % SECOND);
    return time;
}

/* The time in nanoseconds, by which short rests are measured. */
static int64_t clock_now(void) {
    struct timespec now = time_in(0);
    return (int64_t)now.tv_sec * SECOND + now.tv_nsec;
}

/* Does nothing for so many nanoseconds, and leaves memory alone. */
static void rest(int64_t nanoseconds) {
    int64_t end = clock_now() + nanoseconds;
    do {
#if defined(__x86_64__)
        __builtin_ia32_pause();
#endif
    } while (clock_now() < end);
}

#ifdef STM_FUTEX

/* The C library declares it only for other standards than the one that service.c is compiled by. */
long syscall(long number, ...);

/* Sleeps while the word has this value, at most until then. NULL: without end. May wake for nothing. */
static void sleep_at(uint32_t *word, uint32_t value, const struct timespec *until) {
    syscall(SYS_futex, word, FUTEX_WAIT_BITSET | FUTEX_PRIVATE_FLAG, value, until, NULL, FUTEX_BITSET_MATCH_ANY);
}

/* Wakes the thread that sleeps at the word, which has another value by now. The word may be gone: only its address is
 * used. */
static void wake_at(uint32_t *word) { syscall(SYS_futex, word, FUTEX_WAKE | FUTEX_PRIVATE_FLAG, 1, NULL, NULL, 0); }

#else

static pthread_once_t before_sleep = PTHREAD_ONCE_INIT;
static pthread_mutex_t sleeping = PTHREAD_MUTEX_INITIALIZER;
static pthread_cond_t woken;

static void make_sleep(void) {
    pthread_condattr_t monotonic;
    pthread_condattr_init(&monotonic);
    pthread_condattr_setclock(&monotonic, CLOCK_MONOTONIC);
    pthread_cond_init(&woken, &monotonic);
    pthread_condattr_destroy(&monotonic);
}

static void sleep_at(uint32_t *word, uint32_t value, const struct timespec *until) {
    int before;
    pthread_setcancelstate(PTHREAD_CANCEL_DISABLE, &before);
    pthread_once(&before_sleep, make_sleep);
    pthread_mutex_lock(&sleeping);
    if (__atomic_load_n(word, __ATOMIC_ACQUIRE) == value) {
        if (until) pthread_cond_timedwait(&woken, &sleeping, until);
        else pthread_cond_wait(&woken, &sleeping);
    }
    pthread_mutex_unlock(&sleeping);
    pthread_setcancelstate(before, &before);
}

static void wake_at(uint32_t *word) {
    (void)word;
    pthread_once(&before_sleep, make_sleep);
    pthread_mutex_lock(&sleeping);
    pthread_cond_broadcast(&woken);
    pthread_mutex_unlock(&sleeping);
}

#endif
#endif
