/* Threads that start calls of all kinds, give some up, and ask what became of others, while chapters end: of each call
 * it is told once what became of it, or it was given up, and the chapters have as many as were told. Prints `good`.
 *
 *     started_threads CALLS    so many calls by each thread */
#include "judging.h"

#include <pthread.h>
#include <stdbool.h>
#include <time.h>

enum { PUT, GET, LONG_PUT, LONG_GET, KINDS, THREADS = 6, ASKING = 2, MOST_CALLS = 100000 };
#define WORK "(repeat 10 (repeat 100 (set d (add d 1)))) (set d 0)"
static const char TEXT[] =
    "(stm 2)(var box 0)(var d 0)"
    "(tx put (set box (add box 1)) box)"
    "(tx get (if (eq box 0) (retry) (set box (sub box 1))) box)"
    "(tx long_put (seq " WORK " (set box (add box 1))) box)"
    "(tx long_get (seq " WORK " (if (eq box 0) (retry) (set box (sub box 1)))) box)";

/* A call, and what was told of it. */
struct one {
    uint32_t kind;
    int64_t ticket;
    int told, given_up;
    int32_t code;
};

struct starter {
    struct one *ones;
    unsigned seed;
};

static stm_service *service;
static long calls = 2000;
static long entered[KINDS], closed;

static unsigned next_of(unsigned *seed) {
    *seed = *seed * 1103515245u + 12345u;
    return *seed >> 16;
}

static void is_told(void *own, stm_answer answer) {
    struct one *one = own;
    wants(__atomic_add_fetch(&one->told, 1, __ATOMIC_RELAXED) == 1);
    one->code = answer.code;
    if (answer.code == STM_DONE) {
        wants(answer.entry > 0);
        __atomic_add_fetch(&entered[one->kind], 1, __ATOMIC_RELAXED);
    } else {
        wants(answer.code == STM_CLOSED && answer.entry == 0);
        __atomic_add_fetch(&closed, 1, __ATOMIC_RELAXED);
    }
}

/* Half of them are told by those who ask. Some are given up, at once or when others came between. */
static void *starts(void *its) {
    struct starter *starter = its;
    for (long i = 0; i < calls; i++) {
        struct one *one = &starter->ones[i];
        one->kind = next_of(&starter->seed) % KINDS;
        one->ticket = stm_start(service, one->kind, NULL, 0, i % 2 ? is_told : NULL, one);
        /* Then nothing follows. */
        one->given_up = one->ticket == STM_NO_ROOM;
        wants(one->ticket >= 0 || one->given_up);
        long back = next_of(&starter->seed) % 64;
        struct one *other = &starter->ones[i - back];
        if (back > i || back % 3 || other->given_up) continue;
        int32_t code = stm_cancel(service, other->ticket);
        wants(code == STM_DONE || code == STM_TOO_LATE);
        other->given_up = code == STM_DONE;
    }
    return NULL;
}

static void *asks(void *none) {
    stm_call_told room[7];
    int64_t got;
    while ((got = stm_told(service, room, 7, 10000000)) != STM_CLOSED)
        for (int64_t i = 0; i < got; i++) is_told(room[i].own, room[i].answer);
    return none;
}

static stm_answer answer_of(uint32_t kind) { return stm_atomically_within(service, kind, NULL, 0, 1000000); }

static void *calls_too(void *none) {
    for (long i = 0; i < calls; i++) {
        stm_answer answer = answer_of((uint32_t)(i % KINDS));
        wants(answer.code == STM_DONE || answer.code == STM_TIMED_OUT || answer.code == STM_NO_ROOM);
        if (answer.code == STM_DONE) __atomic_add_fetch(&entered[i % KINDS], 1, __ATOMIC_RELAXED);
    }
    return none;
}

static void is_right(struct one *ones) {
    long told = 0, given_up = 0;
    for (long i = 0; i < THREADS * calls; i++) {
        wants(ones[i].told + ones[i].given_up == 1);
        told += ones[i].told;
        given_up += ones[i].given_up;
    }
    wants(told + given_up == THREADS * calls);
    wants(value_of(service, "box") == entered[PUT] + entered[LONG_PUT] - entered[GET] - entered[LONG_GET]);
}

static void all_kinds(size_t room, uint32_t observers) {
    static struct one ones[THREADS * MOST_CALLS];
    struct judged judged = {{"\nentry "}, {0}, 0};
    stm_service_options options = {room, 0, observers, judges, &judged};
    struct starter starters[THREADS];
    pthread_t starting[THREADS], asking[ASKING], calling;
    memset(ones, 0, sizeof ones);
    memset(entered, 0, sizeof entered);
    closed = 0;
    service = opens(TEXT, &options);
    for (int i = 0; i < ASKING; i++) wants(pthread_create(&asking[i], NULL, asks, NULL) == 0);
    for (int i = 0; i < THREADS; i++) {
        starters[i] = (struct starter){&ones[i * calls], (unsigned)i + 1};
        wants(pthread_create(&starting[i], NULL, starts, &starters[i]) == 0);
    }
    wants(pthread_create(&calling, NULL, calls_too, NULL) == 0);
    pthread_join(calling, NULL);
    for (int i = 0; i < THREADS; i++) pthread_join(starting[i], NULL);
    stm_service_close(service);
    for (int i = 0; i < ASKING; i++) pthread_join(asking[i], NULL);
    is_right(ones);
    judges_the_last(service, &judged);
    wants(judged.lines[0] == entered[PUT] + entered[GET] + entered[LONG_PUT] + entered[LONG_GET]);
    stm_service_free(service);
}

/* ---- Closed while some are evaluated ---- */

static void *starts_until_closed(void *its) {
    struct starter *starter = its;
    for (long i = 0; i < calls; i++) {
        struct one *one = &starter->ones[i];
        one->kind = LONG_PUT + (uint32_t)(i % 2);
        one->ticket = stm_start(service, one->kind, NULL, 0, is_told, one);
        one->given_up = one->ticket == STM_CLOSED;
        wants(one->ticket >= 0 || one->given_up);
    }
    return NULL;
}

static void closed_meanwhile(long microseconds) {
    static struct one ones[THREADS * MOST_CALLS];
    struct starter starters[THREADS];
    pthread_t starting[THREADS];
    memset(ones, 0, sizeof ones);
    memset(entered, 0, sizeof entered);
    service = opens(TEXT, NULL);
    for (int i = 0; i < THREADS; i++) {
        starters[i] = (struct starter){&ones[i * calls], 1};
        wants(pthread_create(&starting[i], NULL, starts_until_closed, &starters[i]) == 0);
    }
    nanosleep(&(struct timespec){0, microseconds * 1000}, NULL);
    stm_service_close(service);
    for (int i = 0; i < THREADS; i++) pthread_join(starting[i], NULL);
    is_right(ones);
    stm_service_free(service);
}

int main(int count, char **words) {
    if (count > 1) calls = atol(words[1]);
    wants(calls <= MOST_CALLS);
    all_kinds(0, 0);
    all_kinds((size_t)calls * (THREADS + 1), 1);
    all_kinds(100, 2);
    for (int i = 0; i < 10; i++) closed_meanwhile(100 << i);
    puts("good");
    return 0;
}
