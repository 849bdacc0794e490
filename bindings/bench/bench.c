/* 65,536 increments of one variable, by so many threads; prints one line of names and numbers.
 *
 *     bench stm THREADS      a store: milliseconds to read, open, run and report; with one thread nanoseconds of each call,
 *                            of a task by turns and by calls, and microseconds of a chapter's begin after all of them
 *     bench turns THREADS    a store whose tasks have their turns under the lock, up to 1,000 at a time
 *     bench service THREADS  a service that the threads call
 *     bench mutex THREADS    the same sum under a mutex
 *     bench itm THREADS      the same sum by the compiler's transactions, where it was built with them
 */
#include "service.h"

#include <pthread.h>
#include <stdio.h>
#include <stdlib.h>
#include <string.h>
#include <time.h>

enum { TASKS = 65536, STALE_TRIES = 8, MOST = 31, TURNS = 1000 };

static const char FILE_TEXT[] = "(var x 0)\n(tx inc (set x (add x 1)) x)\n(run inc 65536)\n";
static const char NO_RUNS[] = "(var x 0)\n(tx inc (set x (add x 1)) x)\n";
static pthread_mutex_t lock = PTHREAD_MUTEX_INITIALIZER;
static pthread_barrier_t begun;
static stm_store store;
static stm_lender lender;

static double now(void) {
    struct timespec at;
    clock_gettime(CLOCK_MONOTONIC, &at);
    return (double)at.tv_sec * 1e9 + (double)at.tv_nsec;
}

static void fails(const char *why) {
    fprintf(stderr, "bench: %s\n", why);
    exit(2);
}

/* One job: tries without the lock, then a turn under it. The next job is taken under the same lock as the end; its ticket
 * is below 0 where none is ready. */
static stm_job run(stm_worker *worker, stm_job job) {
    for (int tries = 0; tries < STALE_TRIES; tries++) {
        if (stm_try_job(worker, job) != STM_DONE) continue;
        pthread_mutex_lock(&lock);
        int is_done = stm_bring(&store, worker).code == STM_DONE;
        stm_job after = is_done ? stm_take(&store) : job;
        pthread_mutex_unlock(&lock);
        if (is_done) return after;
    }
    pthread_mutex_lock(&lock);
    stm_turn(&store, &lender, job);
    stm_job after = stm_take(&store);
    pthread_mutex_unlock(&lock);
    return after;
}

static void *work(void *worker) {
    pthread_mutex_lock(&lock);
    stm_job job = stm_take(&store);
    pthread_mutex_unlock(&lock);
    while (job.ticket >= 0) job = run(worker, job);
    return NULL;
}

/* The same by turns under the lock: whoever has it gives so many. */
static void *turn(void *unused) {
    (void)unused;
    int64_t given = 1;
    while (given > 0) {
        pthread_mutex_lock(&lock);
        given = stm_turns(&store, &lender, TURNS);
        pthread_mutex_unlock(&lock);
    }
    return NULL;
}

/* What a thread does, with what, and when it began and ended. */
struct seat {
    void *(*life)(void *);
    void *given;
    double begin, end;
};

static void *lives(void *argument) {
    struct seat *seat = argument;
    pthread_barrier_wait(&begun);
    seat->begin = now();
    seat->life(seat->given);
    seat->end = now();
    return NULL;
}

/* How long the threads take, all of which begin once the last stands ready: from the first that begins to the last that
 * ends, in nanoseconds. */
static double by_threads(int threads, void *(*life)(void *), stm_worker *workers) {
    pthread_t pool[MOST];
    struct seat seats[MOST];
    pthread_barrier_init(&begun, NULL, (unsigned)threads);
    for (int i = 0; i < threads; i++) {
        seats[i] = (struct seat){life, &workers[i], 0, 0};
        if (pthread_create(&pool[i], NULL, lives, &seats[i])) fails("no thread");
    }
    for (int i = 0; i < threads; i++) pthread_join(pool[i], NULL);
    double begin = seats[0].begin, end = seats[0].end;
    for (int i = 1; i < threads; i++) {
        if (seats[i].begin < begin) begin = seats[i].begin;
        if (seats[i].end > end) end = seats[i].end;
    }
    return end - begin;
}

/* With one thread each call by itself; what the clock costs is taken off. */
static void each_call(stm_worker *worker) {
    double clock = now(), taken = 0, tried = 0, brought = 0, observed = now();
    for (int i = 0; i < TASKS; i++) now();
    clock = (now() - clock) / (TASKS + 1);
    for (int i = 0; i < TASKS; i++) {
        double a = now();
        stm_job job = stm_take(&store);
        double b = now();
        if (stm_try_job(worker, job) != STM_DONE) fails("a try did not end");
        double c = now();
        if (stm_bring(&store, worker).code != STM_DONE) fails("no commit");
        double d = now();
        taken += b - a - clock;
        tried += c - b - clock;
        brought += d - c - clock;
    }
    observed = now();
    for (int i = 0; i < TASKS; i++) {
        if (stm_observe(worker, 0, NULL, 0).code != STM_DONE) fails("no answer");
    }
    observed = (now() - observed) / TASKS;
    printf(" take_ns %.0f try_ns %.0f bring_ns %.0f observe_ns %.0f", taken / TASKS, tried / TASKS, brought / TASKS, observed);
}

/* A task by calls, and by turns, both of stores that were opened for one worker. */
static void calls_and_turns(const stm_program *program) {
    stm_program bare = {0};
    if (stm_open(program, 1, 0, &store) != STM_DONE || stm_open_lender(&store, &lender) != STM_DONE) fails("no store");
    double turns = now();
    if (stm_turns(&store, &lender, TASKS) != TASKS) fails("not all turns were given");
    turns = (now() - turns) / TASKS;
    stm_lender_free(&lender);
    stm_store_free(&store);
    if (stm_read(NO_RUNS, strlen(NO_RUNS), &bare) != STM_DONE) fails("no program");
    if (stm_open_with_room(&bare, 1, 0, TASKS, &store) != STM_DONE || stm_open_lender(&store, &lender) != STM_DONE) fails("no store");
    double calls = now();
    for (int64_t i = 0; i < TASKS; i++) {
        if (stm_call(&store, &lender, 0, NULL, 0, STM_WAITS).value != i + 1) fails("a call answers another number");
    }
    calls = (now() - calls) / TASKS;
    double chapter = now();
    if (stm_begin_chapter(&store) != STM_DONE) fails("no chapter");
    chapter = now() - chapter;
    stm_lender_free(&lender);
    stm_store_free(&store);
    printf(" turn_ns %.0f call_ns %.0f chapter_us %.1f", turns, calls, chapter / 1e3);
}

static char *report(double *cost, size_t *wanted) {
    static char room[8388608];
    double begin = now();
    if (stm_report_now(&store, room, sizeof room, wanted) != STM_DONE) fails("no report");
    *cost = now() - begin;
    return room;
}

static void by_store(int threads, void *(*life)(void *)) {
    static stm_worker workers[MOST];
    stm_program program = {0};
    size_t length = strlen(FILE_TEXT), wanted = 0;
    double at = now(), told = 0;
    if (stm_read(FILE_TEXT, length, &program) != STM_DONE) fails("no program");
    double read = now() - at;
    at = now();
    if (stm_open(&program, (size_t)threads, 0, &store) != STM_DONE) fails("no store");
    for (int i = 0; i < threads; i++) {
        if (stm_open_worker(&store, &workers[i]) != STM_DONE) fails("no worker");
    }
    if (stm_open_lender(&store, &lender) != STM_DONE) fails("no lender");
    double open = now() - at, ran = by_threads(threads, life, workers);
    char *text = report(&told, &wanted);
    if (stm_check(FILE_TEXT, length, text, wanted) != STM_DONE) fails("the report is bad");
    printf("read_ms %.3f open_ms %.3f run_ms %.3f report_ms %.3f", read / 1e6, open / 1e6, ran / 1e6, told / 1e6);
    for (int i = 0; i < threads; i++) stm_worker_free(&workers[i]);
    stm_lender_free(&lender);
    stm_store_free(&store);
    if (threads == 1 && life == work) {
        if (stm_open(&program, 1, 0, &store) != STM_DONE || stm_open_worker(&store, workers) != STM_DONE) fails("no store");
        each_call(workers);
        stm_worker_free(workers);
        stm_store_free(&store);
        calls_and_turns(&program);
    }
    printf("\n");
}

static int64_t sum, returned[TASKS];
static int next;

/* The number of the next increment. */
static int number(void) { return __atomic_fetch_add(&next, 1, __ATOMIC_RELAXED); }

static void *by_mutex(void *unused) {
    (void)unused;
    for (int i; (i = number()) < TASKS;) {
        pthread_mutex_lock(&lock);
        returned[i] = ++sum;
        pthread_mutex_unlock(&lock);
    }
    return NULL;
}

static stm_service *service;

static void *by_service(void *unused) {
    (void)unused;
    for (int i; (i = number()) < TASKS;) returned[i] = stm_atomically(service, 0, NULL, 0).value;
    return NULL;
}

#ifdef ITM
static void *by_itm(void *unused) {
    (void)unused;
    for (int i; (i = number()) < TASKS;) {
        int64_t value;
        __transaction_atomic { value = ++sum; }
        returned[i] = value;
    }
    return NULL;
}
#endif

static void by_peer(int threads, void *(*life)(void *)) {
    static stm_worker none[MOST];
    double ran = by_threads(threads, life, none);
    for (int i = 0; i < TASKS; i++) {
        if (returned[i] > sum) sum = returned[i];
    }
    if (sum != TASKS) fails("the sum is wrong");
    printf("run_ms %.3f\n", ran / 1e6);
}

int main(int count, char **words) {
    int threads = count > 2 ? atoi(words[2]) : 0;
    if (threads < 1 || threads > MOST) fails("bench stm|turns|service|mutex|itm THREADS");
    if (strcmp(words[1], "stm") == 0) {
        by_store(threads, work);
    } else if (strcmp(words[1], "turns") == 0) {
        by_store(threads, turn);
    } else if (strcmp(words[1], "service") == 0) {
        if (stm_service_open(NO_RUNS, strlen(NO_RUNS), NULL, &service) != STM_DONE) fails("no service");
        by_peer(threads, by_service);
    } else if (strcmp(words[1], "mutex") == 0) {
        by_peer(threads, by_mutex);
#ifdef ITM
    } else if (strcmp(words[1], "itm") == 0) {
        by_peer(threads, by_itm);
#endif
    } else {
        fails("bench stm|turns|service|mutex|itm THREADS");
    }
    return 0;
}
