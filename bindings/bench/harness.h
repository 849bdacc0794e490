/* The workloads of the bench of calls: threads, clock, checksum and `main` for one way to make calls atomic.
 *
 *     PROGRAM WORKLOAD THREADS CALLS     prints nanoseconds a call, a checksum, violations, peak memory in kilobytes
 *
 * A program includes this file and defines the eight functions declared below. Each thread makes so many calls:
 *
 *     transfer   1,000 accounts of 100: a random payer, receiver and amount from 1 to 100; one call in three is refused
 *     skewed     the same, but 9 of 10 calls pick both accounts among 10
 *     audit      the same as transfer, but each 100th call sums all accounts
 *     large      the same as transfer, with 1,000,000 accounts
 *     queue      16 buffers of 8 places: even threads put and odd ones get, each waiting; one alone does both in turn
 *     ping       two threads and a buffer of one place: put waits until the value before was got
 *     many       transfer by one thread: for its memory, which is not to grow with the calls
 *
 * Opening, the threads' start and the checks are not timed. Violations are sums that are wrong and values that are lost
 * or got twice; the checksum is of the final state and all answers, and is the same for all programs with one thread,
 * and in queue and ping. Status 3: the program does not offer the workload. */
#ifndef HARNESS_H
#define HARNESS_H

#include <pthread.h>
#include <sched.h>
#include <stdint.h>
#include <stdio.h>
#include <stdlib.h>
#include <string.h>
#include <time.h>

static int offers(const char *workload);
/* A table of so many cells with this value. */
static void set_up(int64_t cells, int64_t first, int threads);
/* The payer's new balance; ~amount where he has less, and then nothing changed. */
static int64_t transfer(int64_t from, int64_t to, int64_t amount);
/* The sum of all cells. */
static int64_t audit(void);
/* A buffer's cells in the table are from `base` on: how many values were got, how many were put, and `places` places, a
 * power of two, of which value number n has number n % places. `put` waits while it is full, `get` while it is empty. */
static void put(int64_t buffer, int64_t value);
static int64_t get(int64_t buffer);
/* A cell's value when all threads have ended. */
static int64_t cell(int64_t index);
static void tear_down(void);

static int64_t places;

static inline int64_t base(int64_t buffer) { return buffer * (2 + places); }

/* What a thread did, and when it ended. */
struct seat {
    int number;
    uint64_t given, got;
    int64_t violations;
    double end;
    char apart[64];
};

enum { MOST_THREADS = 64, BUFFERS = 16 };

static struct seat seats[MOST_THREADS];
static int threads, begun, may_go, is_skewed, has_audits, is_ping;
static int64_t calls, accounts;

static double now(void) {
    struct timespec at;
    clock_gettime(CLOCK_MONOTONIC, &at);
    return (double)at.tv_sec * 1e9 + (double)at.tv_nsec;
}

static uint64_t seed(int thread) { return 0x9E3779B97F4A7C15u * (uint64_t)(thread + 1); }

static uint64_t drawn(uint64_t *state) {
    uint64_t x = *state;
    x ^= x << 13;
    x ^= x >> 7;
    x ^= x << 17;
    return *state = x;
}

static uint64_t mixed(uint64_t x) {
    x = (x ^ x >> 30) * 0xBF58476D1CE4E5B9u;
    x = (x ^ x >> 27) * 0x94D049BB133111EBu;
    return x ^ x >> 31;
}

/* One transfer of accounts and an amount that are drawn. */
static int64_t draw_transfer(uint64_t *state) {
    uint64_t x = drawn(state), among = is_skewed && (x >> 56) * 10 >> 8 < 9 ? 10 : (uint64_t)accounts;
    int64_t from = (int64_t)((x & 0xFFFFF) * among >> 20), to = (int64_t)((x >> 20 & 0xFFFFF) * among >> 20);
    return transfer(from, to, (int64_t)(1 + ((x >> 40 & 0xFFFF) * 100 >> 16)));
}

static void run_transfers(struct seat *seat) {
    uint64_t state = seed(seat->number), got = 0;
    int64_t violations = 0, most = calls, all = accounts * 100;
    int audits = has_audits;
    for (int64_t i = 0; i < most; i++) {
        int64_t told;
        if (audits && i % 100 == 99) {
            told = audit();
            violations += told != all;
        } else {
            told = draw_transfer(&state);
        }
        got = got * 31 + (uint64_t)told;
    }
    seat->got = got;
    seat->violations = violations;
}

/* The buffers are visited in laps, each from a drawn one on: so none is ever 8 values ahead of another, and up to 4
 * threads never wait for each other in a circle. */
static void run_queue(struct seat *seat) {
    uint64_t state = seed(seat->number), first = 0;
    int is_alone = threads == 1;
    for (int64_t i = 0; i < calls; i++) {
        int64_t visit = is_alone ? i / 2 : i;
        int puts = is_alone ? i % 2 == 0 : seat->number % 2 == 0;
        if (visit % BUFFERS == 0 && (puts || !is_alone)) first = drawn(&state) >> 60;
        int64_t buffer = (int64_t)((first + (uint64_t)visit) % BUFFERS);
        if (puts) {
            int64_t value = ((int64_t)seat->number << 32) + visit + 1;
            put(buffer, value);
            seat->given += mixed((uint64_t)value);
        } else {
            seat->got += mixed((uint64_t)get(buffer));
        }
    }
}

static void run_ping(struct seat *seat) {
    for (int64_t i = 1; i <= calls; i++) {
        if (seat->number == 0) {
            put(0, i);
            continue;
        }
        int64_t value = get(0);
        seat->violations += value != i;
        seat->got = seat->got * 31 + (uint64_t)value;
    }
}

static void *lives(void *given) {
    struct seat *seat = (struct seat *)given;
    __atomic_add_fetch(&begun, 1, __ATOMIC_SEQ_CST);
    while (!__atomic_load_n(&may_go, __ATOMIC_ACQUIRE)) sched_yield();
    if (accounts) run_transfers(seat);
    else if (is_ping) run_ping(seat);
    else run_queue(seat);
    seat->end = now();
    return NULL;
}

/* How long all of them take, from the start of all to the end of the last. */
static double by_threads(void) {
    pthread_t pool[MOST_THREADS];
    for (int i = 0; i < threads; i++) {
        seats[i].number = i;
        if (pthread_create(&pool[i], NULL, lives, &seats[i])) {
            perror("pthread_create");
            exit(4);
        }
    }
    while (__atomic_load_n(&begun, __ATOMIC_SEQ_CST) < threads) sched_yield();
    double begin = now(), end = begin;
    __atomic_store_n(&may_go, 1, __ATOMIC_RELEASE);
    for (int i = 0; i < threads; i++) {
        pthread_join(pool[i], NULL);
        if (seats[i].end > end) end = seats[i].end;
    }
    return end - begin;
}

static long peak_kb(void) {
    char line[256];
    long kb = 0;
    FILE *status = fopen("/proc/self/status", "r");
    while (status && fgets(line, sizeof line, status)) {
        if (strncmp(line, "VmHWM:", 6) == 0) kb = atol(line + 6);
    }
    if (status) fclose(status);
    return kb;
}

/* Counts what is wrong in the final state, and answers its checksum with that of all answers. */
static uint64_t judged(int64_t cells, int64_t *violations) {
    uint64_t given = 0, got = 0, state = 0xCBF29CE484222325u;
    int64_t sum = 0;
    for (int i = 0; i < threads; i++) {
        given += seats[i].given;
        got += seats[i].got;
        *violations += seats[i].violations;
    }
    for (int64_t i = 0; i < cells; i++) {
        int64_t value = cell(i);
        state = (state ^ (uint64_t)value) * 0x100000001B3u;
        sum += value;
        if (accounts) *violations += value < 0;
        else if (i % (2 + places) == 0) *violations += value != cell(i + 1);
    }
    if (accounts) *violations += sum != accounts * 100;
    else if (!is_ping) *violations += given != got;
    return accounts ? state + got : got;
}

/* Whether there is such a workload, and so many threads and calls fit it. */
static int reads_words(int count, char **words) {
    if (count != 4) return 0;
    const char *name = words[1];
    int is_queue = strcmp(name, "queue") == 0, is_many = strcmp(name, "many") == 0;
    int is_large = strcmp(name, "large") == 0;
    threads = atoi(words[2]);
    calls = atoll(words[3]);
    is_skewed = strcmp(name, "skewed") == 0;
    has_audits = strcmp(name, "audit") == 0;
    is_ping = strcmp(name, "ping") == 0;
    int is_small = strcmp(name, "transfer") == 0 || is_skewed || has_audits || is_many;
    accounts = is_large ? 1000000 : is_small ? 1000 : 0;
    places = is_queue ? 8 : is_ping ? 1 : 0;
    if ((!accounts && !places) || threads < 1 || threads > MOST_THREADS || calls < 1) return 0;
    if (is_queue) return calls % 32 == 0 && (threads == 1 || threads % 2 == 0);
    return is_ping ? threads == 2 : !is_many || threads == 1;
}

int main(int count, char **words) {
    int64_t violations = 0;
    if (!reads_words(count, words)) {
        fprintf(stderr, "WORKLOAD THREADS CALLS: transfer, skewed, audit, large, queue, ping or many\n");
        return 2;
    }
    if (!offers(words[1])) return 3;
    int64_t cells = accounts ? accounts : is_ping ? base(1) : base(BUFFERS);
    set_up(cells, accounts ? 100 : 0, threads);
    double took = by_threads();
    long kb = peak_kb();
    uint64_t checksum = judged(cells, &violations);
    tear_down();
    double each = took / (double)calls / (is_ping ? 1 : threads);
    printf("%.2f %016llx %lld %ld\n", each, (unsigned long long)checksum, (long long)violations, kb);
    return 0;
}

#endif
