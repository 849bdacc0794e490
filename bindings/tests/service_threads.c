/* A service and many threads: none waits for ever, none is told what did not happen. Prints `good`.
 *
 *     service_threads CALLS RUNS     so many calls by each thread, and so many short runs
 */
#include "judging.h"

#include <pthread.h>
#include <stdio.h>
#include <time.h>
#include <unistd.h>

enum { PUT, GET, MOST_THREADS = 100 };

/* A queue of at most three: each put and each get returns a number of its own. */
static const char QUEUE[] =
    "(stm 2)(var made 0)(var taken 0)(always bounded (and (le taken made) (le made (add taken 3))))"
    "(tx put (if (le 3 (sub made taken)) (retry) (set made (add made 1))) made)"
    "(tx get (if (eq made taken) (retry) (set taken (add taken 1))) taken)";

static stm_service *service;
static long calls;

/* What one thread does, and what it was told: how many outcomes, their sum, and how many times the time was up. */
struct worker {
    uint32_t transaction;
    unsigned seed;
    long outcomes, sum, late;
};

static void with_threads(struct worker *workers, int count, void *(*work)(void *)) {
    pthread_t threads[MOST_THREADS];
    for (int i = 0; i < count; i++) wants(pthread_create(&threads[i], NULL, work, &workers[i]) == 0);
    for (int i = 0; i < count; i++) wants(pthread_join(threads[i], NULL) == 0);
}

static void *works(void *own) {
    struct worker *w = own;
    for (long i = 0; i < calls; i++) {
        stm_answer answer = stm_atomically(service, w->transaction, NULL, 0);
        wants(answer.code == STM_DONE && answer.entry > 0);
        w->outcomes++;
        w->sum += answer.value;
    }
    return NULL;
}

/* As many puts as gets, by so many threads of each: the numbers from 1 on were returned once each. */
static void producers_and_consumers(int pairs, size_t room) {
    struct judged judged = {{" put returned ", " get returned "}, {0}, 0};
    stm_service_options options = {room, 0, 0, judges, &judged};
    struct worker workers[MOST_THREADS] = {{0}};
    service = opens(QUEUE, &options);
    for (int i = 0; i < 2 * pairs; i++) workers[i].transaction = i % 2 ? GET : PUT;
    with_threads(workers, 2 * pairs, works);
    long sums[2] = {0}, all = pairs * calls;
    for (int i = 0; i < 2 * pairs; i++) sums[workers[i].transaction] += workers[i].sum;
    wants(sums[PUT] == all * (all + 1) / 2 && sums[GET] == sums[PUT]);
    judges_the_last(service, &judged);
    wants(judged.lines[0] == all && judged.lines[1] == all && stm_service_entered(service) == 2 * (uint64_t)all);
    wants(judged.chapters == (long)stm_service_chapter(service) + 1 && value_of(service, "taken") == all);
    stm_service_free(service);
}

/* Waits for some microseconds only, which are about as many as it takes to be woken. */
static void *hurries(void *own) {
    struct worker *w = own;
    for (long i = 0; i < calls; i++) {
        w->seed = w->seed * 1103515245 + 12345;
        stm_answer answer = stm_atomically_within(service, w->transaction, NULL, 0, 1 + w->seed % 60000);
        wants(answer.code == STM_DONE || (answer.code == STM_TIMED_OUT && answer.value == 0 && answer.entry == 0));
        if (answer.code == STM_DONE) w->outcomes++;
        else w->late++;
    }
    return NULL;
}

/* Each call whose time was up was given up, and each other one was entered: the journals have as many of both. Who
 * waits for the host has no task yet. */
static void late_while_woken(int threads, size_t room) {
    struct judged judged = {{" put returned ", " get returned ", "\nmemory "}, {0}, 0};
    stm_service_options options = {room, 0, 0, judges, &judged};
    struct worker workers[MOST_THREADS] = {{0}};
    long outcomes[2] = {0}, late = 0;
    service = opens(QUEUE, &options);
    for (int i = 0; i < threads; i++) workers[i] = (struct worker){i % 2 ? GET : PUT, (unsigned)i, 0, 0, 0};
    with_threads(workers, threads, hurries);
    for (int i = 0; i < threads; i++) outcomes[workers[i].transaction] += workers[i].outcomes, late += workers[i].late;
    judges_the_last(service, &judged);
    wants(judged.lines[0] == outcomes[PUT] && judged.lines[1] == outcomes[GET]);
    wants(judged.lines[2] == late || (room > 0 && judged.lines[2] < late));
    wants(value_of(service, "made") == outcomes[PUT] && value_of(service, "taken") == outcomes[GET]);
    stm_service_free(service);
}

static void *gets_to_the_end(void *own) {
    struct worker *w = own;
    stm_answer answer = {.code = STM_DONE};
    for (; answer.code == STM_DONE; w->outcomes += answer.code == STM_DONE)
        answer = w->seed % 2 ? stm_atomically(service, GET, NULL, 0) : stm_atomically_within(service, GET, NULL, 0, UINT64_MAX);
    wants(answer.code == STM_CLOSED && answer.value == 0 && answer.entry == 0);
    return NULL;
}

static long waiting(void) {
    static char report[1 << 20];
    size_t length;
    wants(stm_service_report(service, report, sizeof report, &length) == STM_DONE);
    return lines_with(report, length, "\nparked ");
}

static void rests(long microseconds) { nanosleep(&(struct timespec){0, microseconds * 1000}, NULL); }

/* A hundred threads wait. So many are woken; and it is closed, or let go, while they wait and wake. */
static void closed_while_they_wait(int puts, int closes) {
    struct worker workers[MOST_THREADS] = {{0}};
    pthread_t threads[MOST_THREADS];
    long outcomes = 0;
    service = opens(QUEUE, NULL);
    for (int i = 0; i < MOST_THREADS; i++) {
        workers[i].seed = (unsigned)i;
        wants(pthread_create(&threads[i], NULL, gets_to_the_end, &workers[i]) == 0);
    }
    while (waiting() < MOST_THREADS) rests(500);
    for (int i = 0; i < puts; i++) wants(stm_atomically(service, PUT, NULL, 0).code == STM_DONE);
    if (closes) {
        stm_service_close(service);
        wants(waiting() == 0 && stm_atomically(service, PUT, NULL, 0).code == STM_CLOSED);
    } else {
        /* A thread that was woken may call once more: let each be back in its call. */
        while (waiting() < MOST_THREADS) rests(500);
        stm_service_free(service);
    }
    for (int i = 0; i < MOST_THREADS; i++) pthread_join(threads[i], NULL), outcomes += workers[i].outcomes;
    wants(outcomes == puts);
    if (!closes) return;
    struct judged judged = {{" get returned ", "\nmemory "}, {0}, 0};
    judges_the_last(service, &judged);
    wants(judged.lines[0] == puts && judged.lines[1] >= MOST_THREADS - puts);
    stm_service_free(service);
}

enum { MOVE, SUM, SLOW, SLOW_SUMS = 20 };
static long slow_sums;

static void *looks(void *own) {
    struct worker *w = own;
    for (;;) {
        stm_answer answer = stm_service_observe(service, w->transaction, NULL, 0);
        if (answer.code == STM_CLOSED) return NULL;
        wants(answer.code == STM_DONE && answer.value == 0 && answer.entry == 0);
        if (w->transaction == SLOW) __atomic_add_fetch(&slow_sums, 1, __ATOMIC_RELAXED);
    }
}

static void *moves(void *own) {
    struct worker *w = own;
    for (; w->outcomes < calls || __atomic_load_n(&slow_sums, __ATOMIC_RELAXED) < SLOW_SUMS; w->outcomes++)
        wants(stm_atomically(service, MOVE, NULL, 0).code == STM_DONE);
    return NULL;
}

#define MOVES_AND_SUMS "(var a 0)(var b 0)(var c 0)(var d 0)" \
    "(tx move (seq (set a (add a 1)) (set b (sub b 1))) a)(tx sum (skip) (add a b))"
#define SLOW_SUM "(tx slow (seq (set c a) (repeat 10 (repeat 1000 (set d (add d 1))))) (add c b))"

/* More threads look at a sum than there are observers, beside those that move between its parts. One sum takes so long
 * that something is moved meanwhile each time; or, with no observers, all are short. */
static void observers_beside(uint32_t observers) {
    const char *text = observers > 0 ? MOVES_AND_SUMS SLOW_SUM : MOVES_AND_SUMS "(tx slow (skip) (add a b))";
    stm_service_options options = {100, 0, observers, NULL, NULL};
    struct worker lookers[4] = {{SUM, 0, 0, 0, 0}, {SUM, 0, 0, 0, 0}, {SLOW, 0, 0, 0, 0}, {SLOW, 0, 0, 0, 0}}, movers[2] = {{0}};
    pthread_t threads[4];
    slow_sums = 0;
    service = opens(text, &options);
    for (int i = 0; i < 4; i++) wants(pthread_create(&threads[i], NULL, looks, &lookers[i]) == 0);
    with_threads(movers, 2, moves);
    stm_service_close(service);
    for (int i = 0; i < 4; i++) pthread_join(threads[i], NULL);
    wants((uint64_t)(movers[0].outcomes + movers[1].outcomes) == stm_service_entered(service));
    stm_service_free(service);
}

/* Works all the time, so that the others seldom have a processor. */
static int is_over;
static void *burdens(void *own) {
    while (!__atomic_load_n(&is_over, __ATOMIC_RELAXED)) continue;
    return own;
}

/* Services that are opened, used and let go at once, while all processors have work. */
static void short_runs(long runs) {
    pthread_t burden[4];
    long before = calls;
    for (int i = 0; i < 4; i++) wants(pthread_create(&burden[i], NULL, burdens, NULL) == 0);
    for (long run = 0; run < runs; run++) {
        struct worker workers[4] = {{PUT, 0, 0, 0, 0}, {GET, 0, 0, 0, 0}, {GET, 0, 0, 0, 0}, {PUT, 0, 0, 0, 0}};
        service = opens(QUEUE, NULL);
        calls = 1 + run % 5;
        with_threads(workers, 4, works);
        wants(stm_service_entered(service) == 4 * (uint64_t)calls);
        stm_service_free(service);
    }
    __atomic_store_n(&is_over, 1, __ATOMIC_RELAXED);
    for (int i = 0; i < 4; i++) pthread_join(burden[i], NULL);
    calls = before;
}

int main(int count, char **words) {
    calls = count > 1 ? atol(words[1]) : 2000;
    long runs = count > 2 ? atol(words[2]) : 1000;
    alarm(300); /* who waits for ever fails */
    for (int pairs = 1; pairs <= 8; pairs *= 2) producers_and_consumers(pairs, pairs < 4 ? 50 : 0);
    for (int threads = 2; threads <= 16; threads *= 2) late_while_woken(threads, threads < 8 ? 0 : 100);
    for (int puts = 0; puts <= 50; puts += 25) closed_while_they_wait(puts, 1), closed_while_they_wait(puts, 0);
    for (uint32_t observers = 0; observers <= 4; observers += 2) observers_beside(observers);
    short_runs(runs);
    printf("good\n");
    return 0;
}
