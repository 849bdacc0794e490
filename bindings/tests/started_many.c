/* Many calls without a thread: 60000 wait in one thread, one commit makes all of them ready, and each is told once; a
 * chain of a million, each started when the one before is told; both in a stack of 256 KB. Closing tells all; giving
 * one up beside the commit that wakes it. Prints `good`.
 *
 *     started_many [WAIT CHAIN RACES]    how many wait, how long the chain is, and how many are given up so */
#include "judging.h"

#include <limits.h>
#include <pthread.h>
#include <stdbool.h>
#include <time.h>

enum { WAIT, OPEN, INC, TAKE, GIVE, STACK = 256 * 1024, MOST_WAIT = 65000 };
static const char TEXT[] =
    "(stm 3)(var open 0)(var n 0)(var box 0)(tx wait (k) (if (eq open 0) (retry) (skip)) k)"
    "(tx open () (set open 1) 1)(tx inc () (set n (add n 1)) n)"
    "(tx take () (if (eq box 0) (retry) (set box (sub box 1))) box)(tx give () (set box (add box 1)) box)";

static long wait_count = 60000, chain_length = 1000000, races = 3000;
static stm_service *service;
static unsigned char told[MOST_WAIT];
static int64_t tickets[MOST_WAIT];
static long told_count;
static int32_t wanted;

static void in_a_small_stack(void *(*work)(void *)) {
    pthread_attr_t small;
    pthread_t thread;
    wants(pthread_attr_init(&small) == 0 && pthread_attr_setstacksize(&small, STACK) == 0);
    wants(pthread_create(&thread, &small, work, NULL) == 0 && pthread_join(thread, NULL) == 0);
    pthread_attr_destroy(&small);
}

/* One of those that wait, each of which has the place of its own number here. */
static void is_told(unsigned char *own, stm_answer answer) {
    long number = own - told;
    wants(number >= 0 && number < wait_count && ++*own == 1);
    wants(answer.code == wanted && answer.ticket == tickets[number]);
    if (wanted == STM_DONE) wants(answer.value == number && answer.entry > 0 && answer.place >= 1);
    told_count++;
}

static void hears(void *own, stm_answer answer) { is_told(own, answer); }

static void all_wait(stm_done *done) {
    memset(told, 0, sizeof told);
    told_count = 0;
    for (int64_t i = 0; i < wait_count; i++) {
        tickets[i] = stm_start(service, WAIT, &i, 1, done, &told[i]);
        wants(tickets[i] >= 0);
    }
    wants(told_count == 0);
}

/* As those who ask have it. */
static void asks(void) {
    static stm_call_told room[1000];
    int64_t got;
    while (told_count < wait_count && (got = stm_told(service, room, 1000, UINT64_MAX)) > 0)
        for (int64_t i = 0; i < got; i++) is_told(room[i].own, room[i].answer);
}

static void *one_commit(void *none) {
    wanted = STM_DONE;
    service = opens(TEXT, NULL);
    all_wait(hears);
    wants(stm_atomically(service, OPEN, NULL, 0).code == STM_DONE && told_count == wait_count);
    stm_service_free(service);
    service = opens(TEXT, NULL);
    all_wait(NULL);
    wants(stm_atomically(service, OPEN, NULL, 0).code == STM_DONE && told_count == 0);
    asks();
    wants(told_count == wait_count && stm_told(service, NULL, 0, 0) == 0);
    stm_service_free(service);
    return none;
}

static void *is_closed(void *none) {
    wanted = STM_CLOSED;
    service = opens(TEXT, NULL);
    all_wait(hears);
    stm_service_close(service);
    wants(told_count == wait_count);
    stm_service_free(service);
    service = opens(TEXT, NULL);
    all_wait(NULL);
    stm_service_close(service);
    asks();
    stm_call_told one;
    wants(told_count == wait_count && stm_told(service, &one, 1, UINT64_MAX) == STM_CLOSED);
    stm_service_free(service);
    return none;
}

/* All are given up, from the middle on: none is told, and what they waited for comes. */
static void *are_given_up(void *none) {
    service = opens(TEXT, NULL);
    all_wait(hears);
    for (long i = 0; i < wait_count; i++)
        wants(stm_cancel(service, tickets[(i + wait_count / 2) % wait_count]) == STM_DONE);
    wants(stm_atomically(service, OPEN, NULL, 0).code == STM_DONE && told_count == 0);
    wants(stm_service_entered(service) == 1);
    stm_service_free(service);
    return none;
}

/* ---- A chain ---- */

static long made;

static void goes_on(void *own, stm_answer answer) {
    wants(answer.code == STM_DONE && answer.value == ++made);
    if (made < chain_length) wants(stm_start(service, INC, NULL, 0, goes_on, own) >= 0);
}

static void *a_chain(void *none) {
    struct judged judged = {{" inc returned "}, {0}, 0};
    service = opens(TEXT, &(stm_service_options){1000, 0, 0, judges, &judged});
    made = 0;
    wants(stm_start(service, INC, NULL, 0, goes_on, NULL) == 0 && made == chain_length);
    judges_the_last(service, &judged);
    wants(judged.lines[0] == chain_length && value_of(service, "n") == chain_length);
    stm_service_free(service);
    return none;
}

/* ---- Given up beside the commit that wakes it ---- */

/* What was told of each: nothing, or that it was entered. */
static int outcomes[4096];

static void counts(void *own, stm_answer answer) {
    wants(answer.code == STM_DONE);
    __atomic_add_fetch((int *)own, 1, __ATOMIC_RELAXED);
}

static pthread_barrier_t both;

static void *gives(void *none) {
    for (long i = 0; i < races; i++) {
        pthread_barrier_wait(&both);
        wants(stm_atomically(service, GIVE, NULL, 0).code == STM_DONE);
        pthread_barrier_wait(&both);
    }
    return none;
}

/* Either it was given up, and is not told; or it was entered, and is told once. */
static void a_race(void) {
    pthread_t thread;
    long given_up = 0, entered = 0;
    service = opens(TEXT, NULL);
    wants(pthread_barrier_init(&both, NULL, 2) == 0 && pthread_create(&thread, NULL, gives, NULL) == 0);
    for (long i = 0; i < races; i++) {
        int *one = &outcomes[i % 4096];
        *one = 0;
        int64_t ticket = stm_start(service, TAKE, NULL, 0, counts, one);
        wants(ticket >= 0);
        pthread_barrier_wait(&both);
        for (volatile int spin = 0; spin < i % 512; spin++) {}
        int32_t code = stm_cancel(service, ticket);
        pthread_barrier_wait(&both);
        wants(*one == (code == STM_TOO_LATE) && (code == STM_TOO_LATE || code == STM_DONE));
        given_up += code == STM_DONE;
        entered += code == STM_TOO_LATE;
        if (code == STM_DONE) wants(stm_try_atomically(service, TAKE, NULL, 0).code == STM_DONE);
    }
    pthread_join(thread, NULL);
    pthread_barrier_destroy(&both);
    wants(given_up + entered == races && value_of(service, "box") == 0);
    stm_service_free(service);
}

int main(int count, char **words) {
    if (count > 1) wait_count = atol(words[1]);
    if (count > 2) chain_length = atol(words[2]);
    if (count > 3) races = atol(words[3]);
    wants(wait_count <= MOST_WAIT);
    in_a_small_stack(one_commit);
    in_a_small_stack(is_closed);
    in_a_small_stack(are_given_up);
    in_a_small_stack(a_chain);
    a_race();
    puts("good");
    return 0;
}
