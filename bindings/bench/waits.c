/* What calls cost that wait without a thread: prints one line of names and numbers, which are of the processor, of all
 * threads.
 *
 *     cc -O2 -pthread -I LIBRARY waits.c LIBRARY/libstm.a -o waits
 *     waits [CALLS] [THREADS]     60,000 calls, and 1,000 threads at a condition variable
 *
 * `start_ns`: to start a call that waits; `wake_ns`: one commit makes all ready, until each was told, a call;
 * `told_ns`: the same where `stm_told` tells them; `bytes`: what a call takes while it waits, and `all_bytes`: with
 * what the store takes for it then; `thread_us`: so many threads wait at a condition variable, and one wakes all,
 * until each goes on, a thread; `handed_us`: the same where one thread wakes the next. */
#define _GNU_SOURCE
#include "service.h"

#include <malloc.h>
#include <pthread.h>
#include <stdbool.h>
#include <stdio.h>
#include <stdlib.h>
#include <string.h>
#include <time.h>

enum { WAIT, OPEN, CLOSE, BATCH = 1000 };
static const char TEXT[] = "(stm 3)(var open 0)(tx wait (k) (if (eq open 0) (retry) (skip)) k)"
                           "(tx open () (set open 1) 0)(tx close () (set open 0) 0)";
static stm_service *service;
static int64_t told;

static double now(void) {
    struct timespec time;
    clock_gettime(CLOCK_PROCESS_CPUTIME_ID, &time);
    return (double)time.tv_sec * 1e9 + (double)time.tv_nsec;
}

static void fails(const char *why) {
    fprintf(stderr, "waits: %s\n", why);
    exit(1);
}

/* The library's memory. What it takes for a call is small; the rooms of its store grow by large blocks. */
struct block {
    bool got;
    void *at;
};
enum { CALL = 192, DRAWER = 2048, SMALL = 4096, HEADER = 8 };
static size_t small, own;

/* What is of the call alone is a block of its own, and a part of a drawer of the table in which it is found. */
static void counts(void *at, int times) {
    size_t size = malloc_usable_size(at);
    size_t taken = (size + HEADER) * (size_t)times;
    if (size <= SMALL) small += taken;
    if (size <= CALL || (size >= DRAWER && size < DRAWER + 16)) own += taken;
}

struct block rattle_alloc(size_t size, size_t align) {
    struct block made = {true, align > 16 ? aligned_alloc(align, (size + align - 1) / align * align) : malloc(size)};
    if (!made.at) fails("there is no memory");
    counts(made.at, 1);
    return made;
}

void rattle_dealloc(void *old);

struct block rattle_realloc(void *old, size_t old_size, size_t size, size_t align) {
    struct block made = rattle_alloc(size, align);
    memcpy(made.at, old, old_size < size ? old_size : size);
    rattle_dealloc(old);
    return made;
}

void rattle_dealloc(void *old) {
    counts(old, -1);
    free(old);
}

/* ---- Calls ---- */

static void is_told(void *own, stm_answer answer) {
    (void)own;
    told += answer.code == STM_DONE;
}

/* So many calls begin to wait: what each takes, by itself and with its place in the store. */
static double begins(int64_t calls, stm_done *done, double bytes[2]) {
    size_t before[2] = {own, small};
    double begun = now();
    for (int64_t i = 0; i < calls; i++)
        if (stm_start(service, WAIT, &i, 1, done, &told) < 0) fails("a call was not started");
    double took = (now() - begun) / (double)calls;
    bytes[0] = (double)(own - before[0]) / (double)calls;
    bytes[1] = (double)(small - before[1]) / (double)calls;
    return took;
}

static void asks(int64_t calls) {
    static stm_call_told room[BATCH];
    for (int64_t count; told < calls; told += count)
        if ((count = stm_told(service, room, BATCH, (uint64_t)60 * 1000000000)) <= 0) fails("a call was not told");
}

/* One commit makes all ready. */
static double wakes(int64_t calls, stm_done *done) {
    told = 0;
    double begun = now();
    if (stm_atomically(service, OPEN, NULL, 0).code != STM_DONE) fails("it does not open");
    if (!done) asks(calls);
    double took = (now() - begun) / (double)calls;
    if (told != calls) fails("not all were told");
    stm_atomically(service, CLOSE, NULL, 0);
    return took;
}

/* ---- Threads at a condition variable ---- */

static pthread_mutex_t lock = PTHREAD_MUTEX_INITIALIZER;
static pthread_cond_t opened = PTHREAD_COND_INITIALIZER, passed = PTHREAD_COND_INITIALIZER;
static int is_open, hands_on;
static long inside, gone;

static void *waits(void *unused) {
    pthread_mutex_lock(&lock);
    inside++;
    pthread_cond_signal(&passed);
    while (!is_open) pthread_cond_wait(&opened, &lock);
    gone++;
    if (hands_on) pthread_cond_signal(&opened);
    pthread_cond_signal(&passed);
    pthread_mutex_unlock(&lock);
    return unused;
}

static double threads_wake(long threads, int one_by_one) {
    pthread_attr_t small;
    pthread_t *all = calloc((size_t)threads, sizeof *all);
    pthread_attr_init(&small);
    pthread_attr_setstacksize(&small, 65536);
    is_open = 0, inside = gone = 0, hands_on = one_by_one;
    for (long i = 0; i < threads; i++)
        if (pthread_create(&all[i], &small, waits, NULL) != 0) fails("a thread was not begun");
    pthread_mutex_lock(&lock);
    while (inside < threads) pthread_cond_wait(&passed, &lock);
    double begun = now();
    is_open = 1;
    if (one_by_one) pthread_cond_signal(&opened);
    else pthread_cond_broadcast(&opened);
    while (gone < threads) pthread_cond_wait(&passed, &lock);
    double took = (now() - begun) / (double)threads;
    pthread_mutex_unlock(&lock);
    for (long i = 0; i < threads; i++) pthread_join(all[i], NULL);
    free(all);
    return took;
}

int main(int count, char **words) {
    int64_t calls = count > 1 ? atoll(words[1]) : 60000;
    long threads = count > 2 ? atol(words[2]) : 1000;
    double bytes[2], more[2];
    if (stm_service_open(TEXT, strlen(TEXT), NULL, &service) != STM_DONE) fails("it is not opened");
    double start = begins(calls, is_told, bytes);
    double wake = wakes(calls, is_told);
    stm_service_free(service);
    if (stm_service_open(TEXT, strlen(TEXT), NULL, &service) != STM_DONE) fails("it is not opened");
    begins(calls, NULL, more);
    double by_told = wakes(calls, NULL);
    stm_service_free(service);
    double together = threads_wake(threads, 0), one_by_one = threads_wake(threads, 1);
    printf("start_ns %.0f wake_ns %.0f told_ns %.0f bytes %.0f all_bytes %.0f thread_us %.2f handed_us %.2f\n", start,
           wake, by_told, bytes[0], bytes[1], together / 1e3, one_by_one / 1e3);
    return 0;
}
