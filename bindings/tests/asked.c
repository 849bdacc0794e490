/* Calls that are asked for: what ends at once is answered, and only what waits is told. Prints `good`. */
#include "judging.h"

#include <pthread.h>
#include <stdbool.h>

enum { PUT, GET, FAIL, LONG_GET, MILLISECOND = 1000000 };
#define WORK "(repeat 10 (repeat 100 (set far (add far 1))))"
static const uint64_t LONG_TIME = (uint64_t)60 * 1000 * MILLISECOND;
static const char TEXT[] =
    "(stm 3)(var box 0)(var far 0)(tx put (k) (set box (add box k)) box)"
    "(tx get (k) (if (lt box k) (retry) (set box (sub box k))) box)(tx fail (k) (throw k) 0)"
    "(tx long_get (k) (seq " WORK " (if (lt box k) (retry) (set box (sub box k)))) box)";

static int32_t asks_by(stm_service *s, uint32_t way, uint32_t transaction, int64_t number, void *own,
                       stm_answer *answer) {
    stm_request request = {transaction, way, 1, {number}, own, {0}, NULL, 0, 7};
    int32_t code = stm_ask(s, &request);
    wants(request.told_count == 0 && (code == STM_RUNNING || code == request.answer.code));
    *answer = request.answer;
    return code;
}

static int32_t ask(stm_service *s, uint32_t transaction, int64_t number, void *own, stm_answer *answer) {
    return asks_by(s, STM_WAITS, transaction, number, own, answer);
}

static bool is(const stm_answer *answer, int64_t ticket, int32_t code, int64_t value, uint64_t entry) {
    return answer->ticket == ticket && answer->code == code && answer->value == value && answer->entry == entry;
}

static bool tells_nothing(stm_service *s) {
    stm_call_told told;
    return stm_told(s, &told, 1, 0) == 0;
}

/* The one call that is told. */
static stm_answer told_of(stm_service *s, void *own) {
    stm_call_told told[2];
    wants(stm_told(s, told, 2, LONG_TIME) == 1 && told[0].own == own);
    return told[0].answer;
}

static void what_ends_at_once(void) {
    stm_service *s = opens(TEXT, NULL);
    stm_answer answer;
    wants(ask(s, PUT, 5, NULL, &answer) == STM_DONE && is(&answer, 0, STM_DONE, 5, 1) && answer.place == 0);
    wants(ask(s, GET, 2, NULL, &answer) == STM_DONE && is(&answer, 1, STM_DONE, 3, 2) && answer.place == 1);
    wants(ask(s, FAIL, 7, NULL, &answer) == STM_THROWN && is(&answer, 2, STM_THROWN, 7, 3));
    wants(asks_by(s, STM_TRIES, GET, 1, NULL, &answer) == STM_DONE && is(&answer, 3, STM_DONE, 2, 4));
    wants(asks_by(s, STM_TRIES, GET, 9, NULL, &answer) == STM_RETRIES && is(&answer, -1, STM_RETRIES, 0, 0));
    wants(asks_by(s, STM_TRIES, LONG_GET, 9, NULL, &answer) == STM_RETRIES && is(&answer, -1, STM_RETRIES, 0, 0));
    for (size_t count = 0; count < 10; count += 9) {
        stm_request wrong = {PUT, STM_WAITS, count, {0}, NULL, {0}, NULL, 0, 7};
        wants(stm_ask(s, &wrong) == STM_UNKNOWN && is(&wrong.answer, -1, STM_UNKNOWN, 0, 0));
    }
    wants(ask(s, 9, 1, NULL, &answer) == STM_UNKNOWN && is(&answer, -1, STM_UNKNOWN, 0, 0));
    wants(tells_nothing(s) && stm_service_entered(s) == 4);
    stm_service_close(s);
    wants(ask(s, PUT, 5, NULL, &answer) == STM_CLOSED && is(&answer, -1, STM_CLOSED, 0, 0));
    stm_call_told told;
    wants(stm_told(s, &told, 1, LONG_TIME) == STM_CLOSED);
    stm_service_free(s);
}

static void what_waits_is_told(uint32_t transaction) {
    stm_service *s = opens(TEXT, NULL);
    stm_answer answer;
    wants(ask(s, transaction, 3, &answer, &answer) == STM_RUNNING && answer.ticket == 0 && answer.entry == 0);
    wants(tells_nothing(s) && ask(s, PUT, 1, NULL, &answer) == STM_DONE && tells_nothing(s));
    wants(ask(s, PUT, 4, NULL, &answer) == STM_DONE && is(&answer, 2, STM_DONE, 5, 2));
    stm_answer told = told_of(s, &answer);
    wants(is(&told, 0, STM_DONE, 2, 3) && told.place == 2 && tells_nothing(s));
    /* One is given up, and what it waited for then comes: nothing is entered of it. */
    wants(ask(s, transaction, 8, s, &answer) == STM_RUNNING && stm_cancel(s, answer.ticket) == STM_DONE);
    wants(stm_cancel(s, answer.ticket) == STM_TOO_LATE && ask(s, PUT, 8, NULL, &answer) == STM_DONE);
    wants(tells_nothing(s) && stm_service_entered(s) == 4 && value_of(s, "box") == 10);
    wants(ask(s, transaction, 99, s, &answer) == STM_RUNNING);
    stm_service_close(s);
    told = told_of(s, s);
    wants(told.ticket == answer.ticket && told.code == STM_CLOSED && told.entry == 0);
    stm_service_free(s);
}

/* Who asks is told what it wakes: as many as there is room for, and the others by `stm_told`. */
static void what_is_woken_is_told_here(uint32_t transaction) {
    stm_service *s = opens(TEXT, NULL);
    stm_answer answer;
    stm_call_told told[2];
    char owns[5];
    for (int i = 0; i < 5; i++) wants(ask(s, transaction, 1, &owns[i], &answer) == STM_RUNNING);
    stm_request put = {PUT, STM_WAITS, 1, {1}, NULL, {0}, told, 2, 7};
    wants(stm_ask(s, &put) == STM_DONE && put.answer.value == 1);
    /* A long one is evaluated at the end of the call, and told by whoever asks then. */
    stm_answer first = transaction == GET ? told[0].answer : told_of(s, &owns[0]);
    wants(is(&first, 0, STM_DONE, 0, 2) && put.told_count == (transaction == GET));
    wants(transaction != GET || told[0].own == &owns[0]);
    put.arguments[0] = 4;
    wants(stm_ask(s, &put) == STM_DONE && put.told_count == (transaction == GET ? 2 : 0));
    stm_call_told rest[8];
    int64_t count = 0;
    while (count < 4 - (int64_t)put.told_count) count += stm_told(s, rest + count, 8, LONG_TIME);
    wants(count == 4 - (int64_t)put.told_count && rest[count - 1].own == &owns[4] && tells_nothing(s));
    wants(stm_ask(s, &put) == STM_DONE && put.told_count == 0 && put.answer.value == 4);
    stm_service_free(s);
}

/* What is long is evaluated first, and told. */
static void what_is_long(void) {
    stm_service *s = opens(TEXT, NULL);
    stm_answer answer;
    wants(ask(s, PUT, 3, NULL, &answer) == STM_DONE && ask(s, LONG_GET, 3, s, &answer) == STM_RUNNING);
    stm_answer told = told_of(s, s);
    wants(is(&told, answer.ticket, STM_DONE, 0, 2) && tells_nothing(s));
    stm_service_free(s);
}

/* It waits for no host that has a chapter to keep. */
static void where_the_host_is_behind(void) {
    stm_service *s = opens(TEXT, &(stm_service_options){2, 0, 0, stm_takes_chapters, NULL});
    stm_answer answer;
    stm_ended chapter = {0};
    for (int i = 0; i < 4; i++) wants(ask(s, PUT, 1, NULL, &answer) == STM_DONE && answer.code == STM_DONE);
    wants(ask(s, PUT, 1, NULL, &answer) == STM_NOT_ENDED && is(&answer, -1, STM_NOT_ENDED, 0, 0));
    /* The value is how often the host has said how it went. */
    wants(asks_by(s, STM_TRIES, PUT, 1, NULL, &answer) == STM_NOT_ENDED);
    wants(stm_told_chapter(s, &chapter, 0) == STM_DONE && stm_chapter_not_kept(s, &chapter) == STM_DONE);
    wants(stm_told_chapter(s, &chapter, 0) == STM_TIMED_OUT);
    /* It is offered again. */
    wants(ask(s, PUT, 1, NULL, &answer) == STM_NOT_ENDED && is(&answer, -1, STM_NOT_ENDED, 1, 0));
    wants(stm_told_chapter(s, &chapter, 0) == STM_DONE);
    wants(stm_chapter_kept(s, &chapter) == STM_DONE && stm_service_entered(s) == 4);
    wants(ask(s, PUT, 1, NULL, &answer) == STM_DONE && answer.value == 5 && answer.chapter == 2);
    wants(tells_nothing(s));
    stm_service_free(s);
}

static void where_all_wait(void) {
    stm_service *s = opens(TEXT, &(stm_service_options){2, 0, 0, NULL, NULL});
    stm_answer answer;
    for (int i = 0; i < 2; i++) wants(ask(s, GET, 1, NULL, &answer) == STM_RUNNING);
    wants(ask(s, PUT, 2, NULL, &answer) == STM_NO_ROOM && is(&answer, -1, STM_NO_ROOM, 0, 0));
    stm_service_free(s);
}

enum { THREADS = 4, CALLS = 2000 };
static long ended;

static void *asks(void *own) {
    stm_call_told told[3];
    for (int i = 0; i < CALLS; i++) {
        uint32_t transaction = i % 4 == 3 ? LONG_GET : i % 2 ? GET : PUT;
        stm_request request = {transaction, STM_WAITS, 1, {1}, own, {0}, told, (size_t)i % 4, 7};
        int32_t code = stm_ask(own, &request);
        wants(code == STM_RUNNING || code == STM_DONE);
        for (size_t at = 0; at < request.told_count; at++) wants(told[at].own == own && told[at].answer.entry > 0);
        __atomic_add_fetch(&ended, (long)request.told_count + (code == STM_DONE), __ATOMIC_RELAXED);
    }
    return NULL;
}

static void *takes(void *own) {
    stm_call_told told[8];
    int64_t count;
    while ((count = stm_told(own, told, 8, LONG_TIME)) >= 0)
        for (int64_t i = 0; i < count; i++) {
            wants(told[i].own == own && told[i].answer.code == STM_DONE);
            __atomic_add_fetch(&ended, 1, __ATOMIC_RELAXED);
        }
    return NULL;
}

/* Each of them is answered or told, once. */
static void by_threads(void) {
    stm_service *s = opens(TEXT, NULL);
    pthread_t threads[THREADS], taker;
    wants(pthread_create(&taker, NULL, takes, s) == 0);
    for (int i = 0; i < THREADS; i++) wants(pthread_create(&threads[i], NULL, asks, s) == 0);
    for (int i = 0; i < THREADS; i++) pthread_join(threads[i], NULL);
    while (__atomic_load_n(&ended, __ATOMIC_RELAXED) < THREADS * CALLS) wants(value_of(s, "box") >= 0);
    stm_service_close(s);
    pthread_join(taker, NULL);
    struct judged judged = {{"\nentry "}, {0}, 0};
    judges_the_last(s, &judged);
    wants(ended == THREADS * CALLS && judged.lines[0] == THREADS * CALLS && value_of(s, "box") == 0);
    stm_service_free(s);
}

int main(void) {
    what_ends_at_once();
    what_waits_is_told(GET);
    what_waits_is_told(LONG_GET);
    what_is_woken_is_told_here(GET);
    what_is_woken_is_told_here(LONG_GET);
    what_is_long();
    where_the_host_is_behind();
    where_all_wait();
    by_threads();
    puts("good");
    return 0;
}
