/* What the host of a service is told of chapters that end, with no lock held: while it takes long others go on, until
 * the next chapter is full too; it may call; and what it does not keep is told again. Prints `good`. */
#include "judging.h"

#include <pthread.h>
#include <stdbool.h>
#include <time.h>
#include <unistd.h>

enum { INC, WAIT, LONG, ROOM = 5, WAITERS = 8, SOON = 5000000 };
static const char TEXT[] =
    "(var n 0)(var out 0)(var far 0)(tx inc (set n (add n 1)) n)(tx wait (if (eq out 0) (retry) (skip)) out)"
    "(tx long (seq (repeat 10 (repeat 100 (set far (add far 1)))) (set n (add n 1))) n)";

/* A host: what it does when it is told a chapter; and the chapters that it kept. */
struct host {
    stm_service *service;
    /* Whether it waits until it may go on, whether it is told just now, and whether it may go on. */
    bool is_slow, is_in, goes_on;
    /* How often it was told a chapter, and how often more it does not keep one. */
    int told, failures;
    void (*calls)(struct host *);
    struct judged kept;
};

static void set(bool *flag) { __atomic_store_n(flag, true, __ATOMIC_RELEASE); }
static bool is_set(bool *flag) { return __atomic_load_n(flag, __ATOMIC_ACQUIRE); }
static void rests(long microseconds) { nanosleep(&(struct timespec){0, microseconds * 1000}, NULL); }

static void until(bool *flag) {
    while (!is_set(flag)) rests(100);
}

static int keeps(void *own, const char *file, size_t file_length, const char *report, size_t report_length) {
    struct host *host = own;
    __atomic_add_fetch(&host->told, 1, __ATOMIC_RELAXED);
    set(&host->is_in);
    if (host->is_slow) until(&host->goes_on);
    if (host->calls) host->calls(host);
    if (host->failures > 0) return host->failures--;
    return judges(&host->kept, file, file_length, report, report_length);
}

/* A service of this host, whose first chapter is full. */
static stm_service *full(struct host *host, const char *text) {
    stm_service_options options = {ROOM, 0, 0, keeps, host};
    host->kept = (struct judged){{"\nentry "}, {0}, 0};
    stm_service *s = host->service = opens(text, &options);
    for (int i = 1; i <= ROOM; i++) wants(stm_atomically(s, INC, NULL, 0).value == i);
    wants(host->told == 0 && stm_service_chapter(s) == 0);
    return s;
}

/* All of its entries are in the chapters that were kept, and in the last one. */
static void ends(struct host *host) {
    stm_service *s = host->service;
    stm_service_close(s);
    wants(host->kept.chapters == (long)stm_service_chapter(s));
    judges_the_last(s, &host->kept);
    wants(host->kept.lines[0] == (long)stm_service_entered(s));
    stm_service_free(s);
}

struct caller {
    stm_service *service;
    uint32_t transaction;
    stm_answer answer;
    bool is_begun, is_over;
};

static void *calls(void *own) {
    struct caller *caller = own;
    set(&caller->is_begun);
    caller->answer = stm_atomically(caller->service, caller->transaction, NULL, 0);
    set(&caller->is_over);
    return NULL;
}

static pthread_t starts(struct caller *caller, stm_service *s, uint32_t transaction) {
    pthread_t thread;
    *caller = (struct caller){s, transaction, {.code = STM_UNKNOWN}, false, false};
    wants(pthread_create(&thread, NULL, calls, caller) == 0);
    return thread;
}

/* Comes back when all of them wait, as far as can be known. */
static void until_begun(struct caller *callers) {
    for (int i = 0; i < WAITERS; i++) until(&callers[i].is_begun);
    rests(50000);
}

static void returns(pthread_t thread, const struct caller *caller, int32_t code) {
    pthread_join(thread, NULL);
    wants(caller->answer.code == code && (code == STM_DONE) == (caller->answer.entry > 0));
}

static void stops(void *own) {
    stm_waiter *waiter = own;
    waiter->stopped = 1;
}

/* The host is slow: others fill the next chapter; then they wait for it, by their time, or until they are stopped. */
static void a_slow_host(uint32_t transaction) {
    struct host host = {.is_slow = true};
    stm_service *s = full(&host, TEXT);
    struct caller first, others[WAITERS];
    pthread_t threads[WAITERS], telling = starts(&first, s, transaction);
    until(&host.is_in);
    for (int i = 1; i <= ROOM; i++) wants(stm_atomically(s, i % 2 ? INC : LONG, NULL, 0).value == ROOM + i);
    wants(stm_service_chapter(s) == 1 && stm_service_entered(s) == 2 * ROOM && value_of(s, "n") == 2 * ROOM);
    wants(!is_set(&first.is_over) && host.told == 1);
    wants(stm_atomically_within(s, transaction, NULL, 0, SOON).code == STM_TIMED_OUT);
    wants(stm_atomically_within(s, transaction, NULL, 0, 0).code == STM_TIMED_OUT);
    wants(stm_try_atomically(s, WAIT, NULL, 0).code == STM_RETRIES);
    wants(stm_service_observe(s, INC, NULL, 0).value == 2 * ROOM + 1);
    stm_waiter waiter = {stops, &waiter, 0};
    wants(stm_wait_by(&waiter) == STM_DONE && stm_atomically(s, transaction, NULL, 0).code == STM_TIMED_OUT);
    wants(stm_wait_by(NULL) == STM_DONE);
    for (int i = 0; i < WAITERS; i++) threads[i] = starts(&others[i], s, i % 2 ? transaction : INC);
    until_begun(others);
    for (int i = 0; i < WAITERS; i++) wants(!is_set(&others[i].is_over));
    wants(host.told == 1 && stm_service_entered(s) == 2 * ROOM);
    set(&host.goes_on);
    returns(telling, &first, STM_DONE);
    for (int i = 0; i < WAITERS; i++) returns(threads[i], &others[i], STM_DONE);
    wants(stm_service_entered(s) == 2 * ROOM + 1 + WAITERS);
    ends(&host);
}

/* It is slow, and keeps nothing: who has waited for it is told so, and it is not asked by each anew. */
static void a_slow_host_that_fails(void) {
    struct host host = {.is_slow = true, .failures = 2};
    stm_service *s = full(&host, TEXT);
    struct caller first, others[WAITERS];
    pthread_t threads[WAITERS], telling = starts(&first, s, INC);
    until(&host.is_in);
    for (int i = 1; i <= ROOM; i++) wants(stm_atomically(s, INC, NULL, 0).value == ROOM + i);
    for (int i = 0; i < WAITERS; i++) threads[i] = starts(&others[i], s, INC);
    until_begun(others);
    wants(host.told == 1);
    set(&host.goes_on);
    for (int i = 0; i < WAITERS; i++) returns(threads[i], &others[i], STM_NO_ROOM);
    pthread_join(telling, NULL);
    wants(first.answer.code == STM_NO_ROOM && host.told == 1 && stm_service_entered(s) == 2 * ROOM);
    wants(stm_atomically(s, INC, NULL, 0).code == STM_NO_ROOM && host.told == 2);
    wants(stm_atomically(s, INC, NULL, 0).value == 2 * ROOM + 1 && host.told == 4);
    ends(&host);
}

static void *waits(void *own) {
    struct caller *caller = own;
    caller->answer = stm_atomically_within(caller->service, WAIT, NULL, 0, UINT64_MAX);
    return NULL;
}

/* All room is taken by calls that wait: so there is none, whether the host keeps the chapter before or not. */
static void all_wait_while_one_is_not_kept(void) {
    struct host host = {.failures = 1};
    stm_service *s = full(&host, TEXT);
    struct caller waiting[ROOM];
    pthread_t threads[ROOM];
    for (int i = 0; i < ROOM; i++) {
        waiting[i] = (struct caller){s, WAIT, {.code = STM_UNKNOWN}, false, false};
        wants(pthread_create(&threads[i], NULL, waits, &waiting[i]) == 0);
    }
    static char report[100000];
    size_t length;
    do rests(1000), wants(stm_service_report(s, report, sizeof report, &length) == STM_DONE);
    while (lines_with(report, length, "\nparked ") < ROOM);
    wants(host.told == 1 && stm_service_chapter(s) == 1);
    /* It is asked once more, and keeps it; but there is no room all the same. */
    wants(stm_atomically(s, INC, NULL, 0).code == STM_NO_ROOM && host.told == 2 && host.kept.chapters == 1);
    wants(stm_atomically(s, INC, NULL, 0).code == STM_NO_ROOM && host.told == 2 && stm_service_chapter(s) == 1);
    stm_service_close(s);
    for (int i = 0; i < ROOM; i++) pthread_join(threads[i], NULL), wants(waiting[i].answer.code == STM_CLOSED);
    ends(&host);
}

/* ---- Calls of the host's own ---- */

/* The next chapter has room for them; once it is full too, its own call does not wait for itself. */
static void calls_while_told(struct host *host) {
    stm_service *s = host->service;
    host->calls = NULL;
    for (int i = 1; i <= ROOM; i++) wants(stm_atomically(s, i % 2 ? INC : LONG, NULL, 0).value == ROOM + i);
    for (int i = 0; i < 3; i++) wants(stm_atomically(s, INC, NULL, 0).code == STM_NO_ROOM);
    wants(stm_try_atomically(s, INC, NULL, 0).code == STM_NO_ROOM);
    wants(stm_atomically_within(s, LONG, NULL, 0, SOON).code == STM_NO_ROOM);
    wants(stm_service_chapter(s) == 1 && stm_service_entered(s) == 2 * ROOM && host->told == 1);
    wants(stm_service_observe(s, INC, NULL, 0).value == 2 * ROOM + 1 && value_of(s, "n") == 2 * ROOM);
}

static void closes_while_told(struct host *host) {
    host->calls = NULL;
    stm_service_close(host->service);
    stm_service_close(host->service);
    wants(stm_atomically(host->service, INC, NULL, 0).code == STM_CLOSED && host->told == 1);
}

static void a_host_that_calls(void) {
    struct host host = {.calls = calls_while_told};
    stm_service *s = full(&host, TEXT);
    wants(stm_atomically(s, INC, NULL, 0).value == 2 * ROOM + 1 && host.told == 2 && host.calls == NULL);
    ends(&host);
    host = (struct host){.calls = closes_while_told};
    s = full(&host, TEXT);
    wants(stm_atomically(s, INC, NULL, 0).code == STM_CLOSED && host.kept.chapters == 1);
    ends(&host);
    /* It closes, and fails then: it is told once more as the service is let go. */
    host = (struct host){.calls = closes_while_told, .failures = 1};
    s = full(&host, TEXT);
    wants(stm_atomically(s, INC, NULL, 0).code == STM_CLOSED && host.kept.chapters == 0);
    stm_service_free(s);
    wants(host.told == 2 && host.kept.chapters == 1);
}

/* ---- Its end ---- */

/* What was not kept is told once more by each that closes; and not by who lets it go afterwards. */
static void closed_when_one_is_not_kept(bool again) {
    struct host host = {.failures = 2};
    stm_service *s = full(&host, TEXT);
    wants(stm_atomically(s, INC, NULL, 0).value == ROOM + 1 && host.told == 1);
    stm_service_close(s);
    wants(host.told == 2 && host.kept.chapters == 0 && stm_service_chapter(s) == 1);
    if (again) stm_service_close(s), ends(&host);
    else stm_service_free(s);
    wants(host.told == (again ? 3 : 2));
    host = (struct host){.failures = 1};
    s = full(&host, TEXT);
    wants(stm_atomically(s, INC, NULL, 0).value == ROOM + 1 && host.told == 1);
    stm_service_free(s);
    wants(host.told == 2 && host.kept.chapters == 1 && host.kept.lines[0] == ROOM);
}

static void *closes(void *own) {
    struct caller *caller = own;
    stm_service_close(caller->service);
    set(&caller->is_over);
    return NULL;
}

/* It is closed while the host is told: who waits for that is told so at once, and who closes waits; then what was not
 * kept is told once more. */
static void closed_while_it_is_told(int failures) {
    struct host host = {.is_slow = true, .failures = failures};
    stm_service *s = full(&host, TEXT);
    struct caller first, others[WAITERS], closing = {.service = s};
    pthread_t threads[WAITERS], closer, telling = starts(&first, s, INC);
    until(&host.is_in);
    for (int i = 1; i <= ROOM; i++) wants(stm_atomically(s, INC, NULL, 0).value == ROOM + i);
    for (int i = 0; i < WAITERS; i++) threads[i] = starts(&others[i], s, i % 2 ? INC : LONG);
    until_begun(others);
    wants(pthread_create(&closer, NULL, closes, &closing) == 0);
    for (int i = 0; i < WAITERS; i++) returns(threads[i], &others[i], STM_CLOSED);
    rests(5000);
    wants(!is_set(&closing.is_over) && !is_set(&first.is_over) && host.told == 1);
    set(&host.goes_on);
    pthread_join(closer, NULL);
    returns(telling, &first, STM_CLOSED);
    wants(host.told == 1 + failures && host.kept.chapters == 1);
    ends(&host);
}

/* With no host a chapter is kept at once. */
static void no_host(void) {
    stm_service *s = opens(TEXT, &(stm_service_options){1, 0, 0, NULL, NULL});
    for (int i = 1; i <= 20; i++) {
        stm_answer answer = stm_atomically(s, INC, NULL, 0);
        wants(answer.value == i && answer.chapter == (uint64_t)i - 1 && answer.place == (uint64_t)i - 1);
    }
    stm_service_free(s);
}

int main(void) {
    alarm(300); /* who waits for ever fails */
    a_slow_host(INC);
    a_slow_host(LONG);
    a_slow_host_that_fails();
    all_wait_while_one_is_not_kept();
    a_host_that_calls();
    closed_when_one_is_not_kept(false);
    closed_when_one_is_not_kept(true);
    closed_while_it_is_told(0);
    closed_while_it_is_told(1);
    no_host();
    printf("good\n");
    return 0;
}
