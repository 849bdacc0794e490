/* Long transactions of a service, which their threads evaluate beside what others commit: each is one atomic step all
 * the same, none is lost, and chapters, times that are up and the end of the service leave none behind. Prints `good`.
 *
 *     service_long CALLS     so many calls by each thread
 */
#include "judging.h"

#include <pthread.h>
#include <stdio.h>
#include <time.h>
#include <unistd.h>

enum { MOST_THREADS = 100 };
static stm_service *service;
static long calls;

/* What one thread does, and what it was told: how many outcomes, their sum, and how many times the time was up. */
struct worker {
    uint32_t transaction;
    unsigned seed;
    long outcomes, sum, late;
};

static void starts(pthread_t *threads, struct worker *workers, int count, void *(*work)(void *)) {
    for (int i = 0; i < count; i++) wants(pthread_create(&threads[i], NULL, work, &workers[i]) == 0);
}

static void with_threads(struct worker *workers, int count, void *(*work)(void *)) {
    pthread_t threads[MOST_THREADS];
    starts(threads, workers, count, work);
    for (int i = 0; i < count; i++) wants(pthread_join(threads[i], NULL) == 0);
}

static void rests(long microseconds) { nanosleep(&(struct timespec){0, microseconds * 1000}, NULL); }

/* Whether it tells a task and a chapter exactly where it was entered. */
static int is_whole(stm_answer answer) {
    return answer.entry > 0 ? answer.ticket >= 0 : answer.ticket == -1 && answer.chapter == 0;
}

static int is(stm_answer answer, int32_t code, int64_t value, uint64_t entry) {
    return answer.code == code && answer.value == value && answer.entry == entry && is_whole(answer);
}

/* Whether it returned, with this ticket, and was entered there. */
static int is_at(stm_answer answer, int64_t ticket, uint64_t chapter, uint64_t entry) {
    return answer.code == STM_DONE && answer.ticket == ticket && answer.chapter == chapter && answer.entry == entry;
}

/* A sum that does not change, though its parts do. Long ones read one part, work for a while, and read the other. */
enum { MOVE, COUNT, LOOK };
static const char SUMS[] =
    "(stm 2)(var a 0)(var b 0)(var d 0)(var sums 0)(always kept (eq (add a b) 0))"
    "(tx move (seq (set a (add a 1)) (set b (sub b 1))) a)"
    "(tx count (seq (set d a) (repeat 10 (repeat 100 (set d (add d 1)))) (set d (sub d 1000)) (set sums (add sums 1)))"
    " (add d b))"
    "(tx look (seq (set d a) (repeat 10 (repeat 100 (set d (add d 1)))) (set d 0)) (add a b))";

static void *sums(void *own) {
    struct worker *w = own;
    for (long i = 0; i < calls; i++, w->outcomes++) {
        stm_answer answer = stm_atomically(service, w->transaction, NULL, 0);
        wants(answer.code == STM_DONE && answer.entry > 0 && is_whole(answer) && (w->transaction == MOVE || answer.value == 0));
    }
    return NULL;
}

/* So many threads of long calls and as many of short ones. */
static void long_beside_short(int threads, size_t room, uint32_t workers_of_it) {
    struct judged judged = {{" count returned 0", " look returned 0", " move returned ", "\nmemory "}, {0}, 0};
    stm_service_options options = {room, 0, workers_of_it, judges, &judged};
    struct worker workers[MOST_THREADS] = {{0}};
    long wanted[3] = {0};
    service = opens(SUMS, &options);
    for (int i = 0; i < 2 * threads; i++) workers[i].transaction = i % 2 ? MOVE : i % 4 ? LOOK : COUNT;
    for (int i = 0; i < 2 * threads; i++) wanted[workers[i].transaction] += calls;
    with_threads(workers, 2 * threads, sums);
    judges_the_last(service, &judged);
    wants(judged.lines[0] == wanted[COUNT] && judged.lines[1] == wanted[LOOK] && judged.lines[2] == wanted[MOVE]);
    wants(judged.lines[3] == 0 && judged.chapters == (long)stm_service_chapter(service) + 1);
    wants(value_of(service, "sums") == wanted[COUNT] && value_of(service, "a") == wanted[MOVE]);
    stm_service_free(service);
}

/* A queue of at most three: each put and each get returns a number of its own, and every other call is a long one. */
enum { PUT, GET, LONG_PUT, LONG_GET, SLOW_GET };
#define TAKE "(if (eq made taken) (retry) (set taken (add taken 1)))"
#define MAKE "(if (le 3 (sub made taken)) (retry) (set made (add made 1)))"
#define WORK(times) "(repeat 10 (repeat " times " (set d (add d 1)))) (set d 0)"
static const char QUEUE[] =
    "(stm 2)(var made 0)(var taken 0)(var d 0)(always bounded (and (le taken made) (le made (add taken 3))))"
    "(tx put " MAKE " made)(tx get " TAKE " taken)(tx long_put (seq " WORK("100") " " MAKE ") made)"
    "(tx long_get (seq " TAKE " " WORK("100") ") taken)(tx slow_get (seq " WORK("1000") " " TAKE ") taken)";

static void *hands_on(void *own) {
    struct worker *w = own;
    for (long i = 0; i < calls; i++, w->outcomes++) {
        uint32_t transaction = w->transaction + (w->seed++ % 2 ? 2 : 0);
        stm_answer answer = stm_atomically(service, transaction, NULL, 0);
        wants(answer.code == STM_DONE && answer.entry > 0 && is_whole(answer));
        w->sum += answer.value;
    }
    return NULL;
}

/* Long ones that wait, are woken, and wait again, while chapters end: the numbers from 1 on were returned once each. */
static void they_wait(int pairs, size_t room, uint32_t workers_of_it) {
    struct judged judged = {{"put returned ", "get returned ", "\nmemory "}, {0}, 0};
    stm_service_options options = {room, 0, workers_of_it, judges, &judged};
    struct worker workers[MOST_THREADS] = {{0}};
    long of_each[2] = {0}, all = pairs * calls;
    service = opens(QUEUE, &options);
    for (int i = 0; i < 2 * pairs; i++) workers[i].transaction = i % 2 ? GET : PUT, workers[i].seed = (unsigned)i / 2;
    with_threads(workers, 2 * pairs, hands_on);
    for (int i = 0; i < 2 * pairs; i++) of_each[workers[i].transaction] += workers[i].sum;
    wants(of_each[PUT] == all * (all + 1) / 2 && of_each[GET] == of_each[PUT]);
    judges_the_last(service, &judged);
    wants(judged.lines[0] == all && judged.lines[1] == all && judged.lines[2] == 0);
    wants(stm_service_entered(service) == 2 * (uint64_t)all && value_of(service, "taken") == all);
    stm_service_free(service);
}

/* The time is up while its task runs, waits, or is woken. */
static void *hurries(void *own) {
    struct worker *w = own;
    for (long i = 0; i < calls; i++) {
        w->seed = w->seed * 1103515245 + 12345;
        uint32_t transaction = w->transaction + (w->seed >> 16) % 2 * 2;
        stm_answer answer = stm_atomically_within(service, transaction, NULL, 0, 1 + w->seed % 300000);
        wants(answer.code == STM_DONE || is(answer, STM_TIMED_OUT, 0, 0));
        if (answer.code == STM_DONE) w->outcomes++;
        else w->late++;
    }
    return NULL;
}

/* Each call whose time was up is given up, and each other one was entered: the journals have as many of both. Who waits
 * for the host has no task yet. */
static void late_while_it_runs(int threads, size_t room) {
    struct judged judged = {{"put returned ", "get returned ", "\nmemory "}, {0}, 0};
    stm_service_options options = {room, 0, 0, judges, &judged};
    struct worker workers[MOST_THREADS] = {{0}};
    long outcomes[2] = {0}, late = 0;
    service = opens(QUEUE, &options);
    for (int i = 0; i < threads; i++) workers[i] = (struct worker){i % 2 ? GET : PUT, (unsigned)i, 0, 0, 0};
    with_threads(workers, threads, hurries);
    for (int i = 0; i < threads; i++) outcomes[workers[i].transaction] += workers[i].outcomes, late += workers[i].late;
    judges_the_last(service, &judged);
    wants(judged.lines[0] == outcomes[PUT] && judged.lines[1] == outcomes[GET]);
    wants(judged.lines[2] == late || (room > 0 && judged.lines[2] < late));
    wants(value_of(service, "made") == outcomes[PUT] && value_of(service, "taken") == outcomes[GET]);
    stm_service_free(service);
}

static void *works_to_the_end(void *own) {
    struct worker *w = own;
    for (;; w->outcomes++) {
        stm_answer answer = w->seed % 2 ? stm_atomically(service, w->transaction, NULL, 0)
                                        : stm_atomically_within(service, w->transaction, NULL, 0, UINT64_MAX);
        if (answer.code != STM_DONE) return wants(is(answer, STM_CLOSED, 0, 0)), NULL;
    }
}

/* A hundred threads evaluate long ones, or wait with them, while it is closed: what was entered was told, and nothing
 * is entered any more. */
static void closed_while_they_run(const char *text, uint32_t first, uint32_t second) {
    struct worker workers[MOST_THREADS] = {{0}};
    pthread_t threads[MOST_THREADS];
    struct judged judged = {{" returned "}, {0}, 0}, end = {{"\nparked "}, {0}, 0};
    stm_service_options options = {0, 0, 32, judges, &judged};
    long outcomes = 0;
    service = opens(text, &options);
    for (int i = 0; i < MOST_THREADS; i++)
        workers[i] = (struct worker){i % 2 ? first : second, (unsigned)i / 2, 0, 0, 0};
    starts(threads, workers, MOST_THREADS, works_to_the_end);
    rests(50000);
    stm_service_close(service);
    uint64_t entered = stm_service_entered(service);
    for (int i = 0; i < MOST_THREADS; i++) pthread_join(threads[i], NULL), outcomes += workers[i].outcomes;
    judges_the_last(service, &judged);
    judges_the_last(service, &end);
    wants(stm_service_entered(service) == entered && (uint64_t)outcomes == entered);
    wants(judged.lines[0] == outcomes && end.lines[0] == 0);
    stm_service_free(service);
}

static void *gets_one(void *told) {
    *(stm_answer *)told = stm_atomically(service, LONG_GET, NULL, 0);
    pthread_testcancel();
    return NULL;
}

static void until_there_wait(long count) {
    static char report[1 << 20];
    size_t length;
    do rests(1000), wants(stm_service_report(service, report, sizeof report, &length) == STM_DONE);
    while (lines_with(report, length, "\nparked ") < count);
}

/* It is let go while a hundred threads evaluate what woke. */
static void let_go_while_they_run(void) {
    stm_answer told[MOST_THREADS];
    pthread_t threads[MOST_THREADS];
    long outcomes = 0;
    service = opens(QUEUE, NULL);
    for (int i = 0; i < MOST_THREADS; i++) wants(pthread_create(&threads[i], NULL, gets_one, &told[i]) == 0);
    until_there_wait(MOST_THREADS);
    for (int i = 1; i <= 3; i++) wants(stm_atomically(service, PUT, NULL, 0).code == STM_DONE);
    stm_service_free(service);
    for (int i = 0; i < MOST_THREADS; i++) {
        wants(pthread_join(threads[i], NULL) == 0 && (told[i].code == STM_DONE || is(told[i], STM_CLOSED, 0, 0)));
        outcomes += told[i].code == STM_DONE;
    }
    wants(outcomes <= 3);
}

/* Reports and files are asked for all the time: what runs then has its turn first. */
static int is_over;
static void *asks(void *own) {
    static char room[MOST_REPORT];
    size_t length;
    while (!__atomic_load_n(&is_over, __ATOMIC_RELAXED)) {
        wants(stm_service_report(service, room, sizeof room, &length) == STM_DONE);
        wants(stm_service_file(service, room, sizeof room, &length) == STM_DONE);
    }
    return own;
}

static void asked_while_they_run(void) {
    pthread_t asking;
    stm_service_options options = {1000, 0, 0, NULL, NULL};
    struct worker workers[8] = {{0}};
    service = opens(QUEUE, &options);
    is_over = 0;
    wants(pthread_create(&asking, NULL, asks, NULL) == 0);
    for (int i = 0; i < 8; i++) workers[i].transaction = i % 2 ? GET : PUT, workers[i].seed = (unsigned)i / 2;
    with_threads(workers, 8, hands_on);
    __atomic_store_n(&is_over, 1, __ATOMIC_RELAXED);
    pthread_join(asking, NULL);
    wants(stm_service_entered(service) == 8 * (uint64_t)calls);
    stm_service_free(service);
}

/* A call alone: each way in which it can end. */
static void each_end(void) {
    stm_service_options options = {3, 0, 0, NULL, NULL};
    stm_service *s = opens(QUEUE, &options);
    int64_t argument = 1;
    wants(is(stm_atomically(s, LONG_PUT, NULL, 0), STM_DONE, 1, 1));
    wants(is(stm_atomically(s, LONG_GET, NULL, 0), STM_DONE, 1, 2));
    wants(is(stm_atomically(s, LONG_PUT, &argument, 1), STM_UNKNOWN, 0, 0));
    wants(is(stm_try_atomically(s, LONG_GET, &argument, 1), STM_UNKNOWN, 0, 0));
    /* What only tries takes no room, and a time of 0 is a try. */
    for (int i = 0; i < 70000; i++) wants(is(stm_try_atomically(s, LONG_GET, NULL, 0), STM_RETRIES, 0, 0));
    for (int i = 0; i < 10; i++) wants(is(stm_atomically_within(s, LONG_GET, NULL, 0, 0), STM_TIMED_OUT, 0, 0));
    wants(stm_service_entered(s) == 2 && stm_service_chapter(s) == 0);
    wants(is(stm_atomically_within(s, SLOW_GET, NULL, 0, 0), STM_TIMED_OUT, 0, 0));
    wants(is(stm_atomically_within(s, SLOW_GET, NULL, 0, 1000), STM_TIMED_OUT, 0, 0));
    wants(is(stm_atomically_within(s, SLOW_GET, NULL, 0, 20000000), STM_TIMED_OUT, 0, 0));
    wants(is(stm_service_observe(s, LONG_GET, NULL, 0), STM_RETRIES, 0, 0) && stm_service_entered(s) == 2);
    wants(stm_atomically_within(s, LONG_PUT, NULL, 0, UINT64_MAX).value == 2);
    wants(stm_try_atomically(s, LONG_GET, NULL, 0).value == 2);
    stm_service_close(s);
    wants(is(stm_atomically(s, LONG_PUT, NULL, 0), STM_CLOSED, 0, 0));
    wants(is(stm_try_atomically(s, LONG_PUT, NULL, 0), STM_CLOSED, 0, 0));
    wants(is(stm_atomically_within(s, LONG_PUT, NULL, 0, 5), STM_CLOSED, 0, 0) && stm_service_entered(s) == 4);
    stm_service_free(s);
}

/* Of what was entered its ticket is told, its chapter, and the number of its entry there: also of one that waited until
 * the second chapter. */
static void where_each_was_entered(void) {
    stm_service_options options = {2, 0, 0, NULL, NULL};
    stm_answer told;
    pthread_t thread;
    service = opens(QUEUE, &options);
    wants(pthread_create(&thread, NULL, gets_one, &told) == 0);
    until_there_wait(1);
    wants(is(stm_atomically_within(service, GET, NULL, 0, 1000), STM_TIMED_OUT, 0, 0));
    wants(is_at(stm_atomically(service, LONG_PUT, NULL, 0), 2, 1, 1));
    pthread_join(thread, NULL);
    wants(is_at(told, 0, 1, 2) && told.value == 1);
    wants(is_at(stm_try_atomically(service, LONG_PUT, NULL, 0), 3, 2, 1));
    wants(is_at(stm_atomically_within(service, LONG_GET, NULL, 0, UINT64_MAX), 4, 2, 2));
    stm_service_free(service);
}

/* Each call has its own arguments, also where a commit made its first try stale and where it waited. */
static const char ADDS[] =
    "(stm 3)(var least 0)(var all 0)(var d 0)(tx more (n) (set least n) least)"
    "(tx adds (of from) (seq (if (lt least from) (retry) (skip)) " WORK("100") " (set all (add all of))) (mul of from))";

static void *adds(void *own) {
    struct worker *w = own;
    for (int64_t i = 0; i < calls; i++) {
        int64_t arguments[2] = {w->seed + i, i};
        wants(stm_atomically(service, 1, arguments, 2).value == arguments[0] * i);
        w->sum += arguments[0];
    }
    return NULL;
}

static void with_arguments(int threads) {
    struct worker workers[MOST_THREADS] = {{0}};
    pthread_t started[MOST_THREADS];
    long sum = 0;
    service = opens(ADDS, NULL);
    for (int i = 0; i < threads; i++) workers[i].seed = (unsigned)i * 1000;
    starts(started, workers, threads, adds);
    for (int64_t least = 1; least < calls; least++) wants(stm_atomically(service, 0, &least, 1).value == least);
    for (int i = 0; i < threads; i++) pthread_join(started[i], NULL), sum += workers[i].sum;
    wants(stm_service_entered(service) == (uint64_t)(threads + 1) * (uint64_t)calls - 1);
    wants(value_of(service, "all") == sum && stm_atomically(service, 1, NULL, 0).code == STM_UNKNOWN);
    stm_service_free(service);
}

/* Where every task of a chapter waits there is no room, and a try tells all the same that it retries; then a chapter
 * ends over them. One thread is cancelled meanwhile, which is so after its call. */
static void all_wait(void) {
    stm_service_options options = {3, 0, 0, NULL, NULL};
    stm_answer told[3];
    pthread_t threads[3];
    void *end = NULL;
    service = opens(QUEUE, &options);
    for (int i = 0; i < 3; i++) wants(pthread_create(&threads[i], NULL, gets_one, &told[i]) == 0);
    until_there_wait(3);
    wants(is(stm_try_atomically(service, LONG_GET, NULL, 0), STM_RETRIES, 0, 0));
    wants(is(stm_atomically(service, LONG_PUT, NULL, 0), STM_NO_ROOM, 0, 0));
    wants(is(stm_try_atomically(service, LONG_PUT, NULL, 0), STM_NO_ROOM, 0, 0) && stm_service_chapter(service) == 0);
    wants(pthread_cancel(threads[0]) == 0);
    rests(5000);
    stm_service_close(service);
    for (int i = 0; i < 3; i++) wants(pthread_join(threads[i], &end) == 0 && (end == PTHREAD_CANCELED) == (i == 0));
    for (int i = 0; i < 3; i++) wants(is(told[i], STM_CLOSED, 0, 0));
    stm_service_free(service);
    options.room = 4;
    service = opens(QUEUE, &options);
    for (int i = 0; i < 3; i++) wants(pthread_create(&threads[i], NULL, gets_one, &told[i]) == 0);
    until_there_wait(3);
    for (int i = 0; i < 3; i++) wants(stm_atomically(service, i % 2 ? LONG_PUT : PUT, NULL, 0).value == i + 1);
    for (int i = 0; i < 3; i++) wants(pthread_join(threads[i], NULL) == 0 && told[i].code == STM_DONE);
    wants(stm_service_chapter(service) > 0 && told[0].value + told[1].value + told[2].value == 6);
    stm_service_free(service);
}

int main(int count, char **words) {
    calls = count > 1 ? atol(words[1]) : 500;
    alarm(300); /* who waits for ever fails */
    each_end();
    where_each_was_entered();
    all_wait();
    for (int threads = 1; threads <= 8; threads *= 2) {
        long_beside_short(threads, threads < 4 ? 0 : 50, threads < 8 ? 0 : 32);
        long_beside_short(threads, threads < 4 ? 7 : 0, 1);
        they_wait(threads, threads < 4 ? 50 : 0, 0);
        they_wait(threads, (size_t)threads * 2 + 1, threads < 8 ? 1 : 32);
        with_arguments(threads);
    }
    for (int threads = 2; threads <= 16; threads *= 2) late_while_it_runs(threads, threads < 8 ? 0 : 100);
    closed_while_they_run(SUMS, COUNT, LOOK);
    closed_while_they_run(QUEUE, LONG_GET, LONG_PUT);
    closed_while_they_run(QUEUE, SLOW_GET, PUT);
    for (int times = 0; times < 5; times++) let_go_while_they_run();
    asked_while_they_run();
    printf("good\n");
    return 0;
}
