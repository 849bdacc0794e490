/* Many calls at once: each is answered as by a try of its own, also where chapters end in between, where it is long, or
 * where it wakes others; and from where on none is made. Prints `good`. */
#include "judging.h"

#include <pthread.h>
#include <stdbool.h>
#include <time.h>
#include <unistd.h>

enum { PAY, TAKE, AUDIT, LONG_PAY, WAIT, MOST = 3000, LENGTH = 3, ROOM = 5, SOON = 5000000 };
#define WORK "(repeat 10 (repeat 100 (set far (add far 1))))"
#define PAYS \
    "(if (lt (at acct from) n) (throw n) (skip)) (put acct from (sub (at acct from) n))" \
    "(put acct to (add (at acct to) n))"
static const char TEXT[] =
    "(stm 3)(var far 0)(table acct 10 100)"
    "(tx pay (from to n) (seq " PAYS ") (at acct from))"
    "(tx take (from to n) (seq (if (lt (at acct from) n) (retry) (skip)) " PAYS ") (at acct from))"
    "(tx audit () (skip) (sum acct))"
    "(tx long_pay (from to n) (seq " WORK " (if (lt (at acct from) n) (retry) (skip)) " PAYS ") (at acct from))"
    "(tx wait (n) (if (lt (at acct 5) n) (retry) (skip)) (at acct 5))";

static int64_t arguments[MOST][LENGTH];
static stm_answer answers[MOST];

/* Payments of which some throw, or retry, and each eleventh is to an account that is not there. */
static void draw(unsigned seed) {
    for (int i = 0; i < MOST; i++) {
        for (int j = 0; j < LENGTH; j++) {
            seed = seed * 1103515245 + 12345;
            arguments[i][j] = seed >> 16 & 0x7FFF;
        }
        arguments[i][0] %= 10, arguments[i][1] %= i % 11 == 10 ? 20 : 10, arguments[i][2] %= 150;
    }
}

static bool is_same(const stm_answer *one, const stm_answer *other) {
    return one->ticket == other->ticket && one->code == other->code && one->value == other->value &&
           one->chapter == other->chapter && one->entry == other->entry && one->place == other->place;
}

static bool is_bare(const stm_answer *answer, int32_t code) {
    return is_same(answer, &(stm_answer){-1, code, 0, 0, 0, 0});
}

/* Whether so many calls from that one on were answered so, and not made. */
static bool all_are_bare(size_t from, size_t end, int32_t code) {
    for (size_t i = from; i < end; i++)
        if (!is_bare(&answers[i], code)) return false;
    return true;
}

/* Whether so many calls from that one on were entered, one behind the other, and returned. */
static bool all_returned(size_t from, size_t end) {
    for (size_t i = from; i < end; i++)
        if (answers[i].code != STM_DONE || answers[i].place != answers[from].place + (i - from)) return false;
    return true;
}

static size_t pays(stm_service *s, uint32_t transaction, size_t calls) {
    return stm_each(s, transaction, arguments[0], LENGTH, calls, answers);
}

/* Payments of 1, by account 3 to account 5. */
static void draw_ones(void) {
    for (int i = 0; i < MOST; i++) arguments[i][0] = 3, arguments[i][1] = 5, arguments[i][2] = 1;
}

/* ---- As single calls ---- */

/* Of two services of the text one is called each by each: so many of each end, and so many chapters. */
static void as_single_calls(uint32_t transaction, size_t calls, const stm_service_options *options) {
    stm_service *s = opens(TEXT, options), *other = opens(TEXT, options);
    size_t returned = 0, retries = 0, thrown = 0, outside = 0;
    memset(answers, 7, sizeof answers);
    wants(pays(s, transaction, calls) <= calls);
    for (size_t i = 0; i < calls; i++) {
        stm_answer answer = stm_try_atomically(other, transaction, arguments[i], LENGTH);
        wants(is_same(&answer, &answers[i]));
        returned += answer.code == STM_DONE, retries += answer.code == STM_RETRIES;
        thrown += answer.code == STM_THROWN, outside += answer.code == STM_OUTSIDE;
    }
    wants(calls == MOST || answers[calls].code == 0x07070707);
    wants(pays(s, AUDIT, 0) == 0 && stm_service_chapter(s) == stm_service_chapter(other));
    wants(returned + retries + thrown + outside == calls && stm_service_entered(s) == calls - retries);
    if (calls == MOST) wants(returned > MOST / 4 && outside > MOST / 60 && thrown + retries > MOST / 4);
    wants(transaction == PAY ? retries == 0 : thrown == 0);
    struct judged judged = {{" returned ", " outside"}, {0}, 0};
    judges_the_last(s, &judged);
    stm_service_free(s);
    stm_service_free(other);
}

static void each_number_of_calls(void) {
    static const size_t numbers[] = {0, 1, 2, 3, 10, 63, 64, 65, 127, 128, 129, 1000, MOST};
    for (unsigned i = 0; i < sizeof numbers / sizeof *numbers; i++) {
        draw(i);
        for (uint32_t transaction = PAY; transaction <= TAKE; transaction++) {
            struct judged judged = {{"\nentry "}, {0}, 0};
            as_single_calls(transaction, numbers[i], NULL);
            as_single_calls(transaction, numbers[i], &(stm_service_options){100, 0, 0, NULL, NULL});
            as_single_calls(transaction, numbers[i], &(stm_service_options){100, 0, 2, judges, &judged});
            if (numbers[i] > 200) continue;
            as_single_calls(transaction, numbers[i], &(stm_service_options){1, 0, 0, judges, &judged});
            as_single_calls(LONG_PAY, numbers[i], &(stm_service_options){50, 0, 0, NULL, NULL});
        }
    }
}

/* A call without parameters has no arguments, and each sees what those before it left. */
static void without_arguments(void) {
    stm_service *s = opens("(var n 5)(tx inc (set n (add n 1)) n)", NULL);
    wants(stm_each(s, 0, NULL, 0, MOST, answers) == MOST && all_returned(0, MOST));
    for (int i = 0; i < MOST; i++) wants(answers[i].value == 6 + i && answers[i].entry == (uint64_t)i + 1);
    wants(stm_each(s, 0, NULL, 0, 0, NULL) == 0 && value_of(s, "n") == 5 + MOST);
    stm_service_free(s);
}

/* ---- What is not made ---- */

static void what_is_refused(void) {
    static const size_t counts[] = {0, 1, 2, 4, 8, 9, 100};
    stm_service *s = opens(TEXT, NULL);
    draw(1);
    for (unsigned i = 0; i < sizeof counts / sizeof *counts; i++) {
        wants(stm_each(s, PAY, arguments[0], counts[i], 80, answers) == 0 && all_are_bare(0, 80, STM_UNKNOWN));
        wants(stm_ask_each(s, PAY, arguments[0], counts[i], 80, answers) == 80 && all_are_bare(0, 80, STM_UNKNOWN));
    }
    wants(pays(s, 5, 80) == 0 && all_are_bare(0, 80, STM_UNKNOWN));
    wants(pays(s, UINT32_MAX, 1) == 0 && all_are_bare(0, 1, STM_UNKNOWN));
    wants(stm_each(s, PAY, NULL, SIZE_MAX, 0, NULL) == 0 && stm_service_entered(s) == 0);
    stm_service_close(s);
    wants(pays(s, PAY, MOST) == 0 && all_are_bare(0, MOST, STM_CLOSED));
    wants(stm_each(s, 99, NULL, 0, 3, answers) == 0 && all_are_bare(0, 3, STM_CLOSED));
    stm_service_free(s);
}

static void closes(void *service, stm_answer answer) {
    wants(answer.code == STM_DONE && answer.value == 200);
    stm_service_close(service);
}

/* One of the calls ends one that was started, whose host closes the service, once the lock was let go: that is after 64
 * calls at most, and those behind them are not made. */
static void closed_in_the_middle(void) {
    const int64_t wanted = 200;
    stm_service *s = opens(TEXT, NULL);
    draw_ones();
    wants(stm_start(s, WAIT, &wanted, 1, closes, s) == 0);
    wants(pays(s, TAKE, MOST) == 100 && stm_service_entered(s) == 101 && all_returned(0, 100));
    size_t closed = 100;
    while (answers[closed].code == STM_RETRIES) closed++;
    wants(closed < 100 + 64 && all_are_bare(100, closed, STM_RETRIES) && all_are_bare(closed, MOST, STM_CLOSED));
    stm_service_free(s);
}

/* All room is taken by what waits. */
static void no_room(void) {
    stm_service *s = opens(TEXT, &(stm_service_options){2, 0, 0, NULL, NULL});
    const int64_t wanted = 999;
    draw_ones();
    for (int i = 0; i < 2; i++) wants(stm_start(s, WAIT, &wanted, 1, NULL, NULL) == i);
    arguments[0][2] = arguments[1][2] = 101;
    wants(pays(s, TAKE, 80) == 0 && all_are_bare(0, 2, STM_RETRIES) && all_are_bare(2, 80, STM_NO_ROOM));
    wants(stm_ask_each(s, TAKE, arguments[0], LENGTH, 80, answers) == 80 && all_are_bare(2, 80, STM_NO_ROOM));
    stm_service_free(s);
}

/* ---- Chapters, and a host that is told them ---- */

struct host {
    stm_service *service;
    int told, failures;
    /* What it does when it is told first. */
    void (*calls)(stm_service *);
    struct judged kept;
};

static int keeps(void *own, const char *file, size_t file_length, const char *report, size_t report_length) {
    struct host *host = own;
    if (host->told++ == 0 && host->calls) host->calls(host->service);
    if (host->failures > 0) return host->failures--;
    return judges(&host->kept, file, file_length, report, report_length);
}

static stm_service *hosted(struct host *host) {
    stm_service_options options = {ROOM, 0, 0, keeps, host};
    host->kept = (struct judged){{"\nentry "}, {0}, 0};
    draw_ones();
    return host->service = opens(TEXT, &options);
}

/* All of its entries are in the chapters that were kept, and in the last one. */
static void ends(struct host *host) {
    stm_service_close(host->service);
    judges_the_last(host->service, &host->kept);
    wants(host->kept.lines[0] == (long)stm_service_entered(host->service));
    stm_service_free(host->service);
}

static void a_host_that_keeps(void) {
    struct host host = {0};
    stm_service *s = hosted(&host);
    wants(pays(s, PAY, 4 * ROOM) == 4 * ROOM && all_returned(0, 4 * ROOM) && host.told == 3);
    for (uint64_t i = 0; i < 4 * ROOM; i++) wants(answers[i].chapter == i / ROOM && answers[i].entry == i % ROOM + 1);
    ends(&host);
}

/* It is told once of a chapter that it does not keep, and once more when the next one is full: from there on none is
 * made, and it is not asked by each anew. Then it keeps both. */
static void a_host_that_does_not_keep(void) {
    struct host host = {.failures = 2};
    stm_service *s = hosted(&host);
    wants(pays(s, PAY, MOST) == 2 * ROOM && all_returned(0, 2 * ROOM) && all_are_bare(2 * ROOM, MOST, STM_NO_ROOM));
    wants(host.told == 2 && stm_service_entered(s) == 2 * ROOM && host.failures == 0);
    wants(pays(s, PAY, ROOM) == ROOM && all_returned(0, ROOM) && answers[0].place == 2 * ROOM && host.told == 4);
    ends(&host);
}

static void calls_each(stm_service *s) {
    static stm_answer own[2 * ROOM];
    wants(stm_each(s, PAY, arguments[0], LENGTH, 2 * ROOM, own) == ROOM);
    for (int i = 0; i < 2 * ROOM; i++) wants(own[i].code == (i < ROOM ? STM_DONE : STM_NO_ROOM));
}

/* Its own calls have the room of the next chapter, and do not wait for itself. */
static void a_host_that_calls(void) {
    struct host host = {.calls = calls_each};
    stm_service *s = hosted(&host);
    wants(pays(s, PAY, ROOM + 1) == ROOM + 1 && host.told == 2 && stm_service_entered(s) == 2 * ROOM + 1);
    ends(&host);
}

static bool is_in, goes_on;

static void is_slow(stm_service *s) {
    (void)s;
    __atomic_store_n(&is_in, true, __ATOMIC_RELEASE);
    while (!__atomic_load_n(&goes_on, __ATOMIC_ACQUIRE)) nanosleep(&(struct timespec){0, 100000}, NULL);
}

static void *calls_one(void *service) {
    wants(stm_atomically(service, AUDIT, NULL, 0).code == STM_DONE);
    return NULL;
}

static void stops(void *own) {
    stm_waiter *waiter = own;
    waiter->own = NULL;
    waiter->stopped = 1;
}

/* Another thread tells the host, which is slow: the calls fill the next chapter, and wait until they are stopped, once,
 * or the host goes on. */
static void a_slow_host(void) {
    struct host host = {.calls = is_slow};
    stm_service *s = hosted(&host);
    pthread_t thread;
    is_in = goes_on = false;
    wants(pays(s, PAY, ROOM) == ROOM && pthread_create(&thread, NULL, calls_one, s) == 0);
    while (!__atomic_load_n(&is_in, __ATOMIC_ACQUIRE)) nanosleep(&(struct timespec){0, 100000}, NULL);
    stm_waiter waiter = {stops, &waiter, 0};
    wants(stm_wait_by(&waiter) == STM_DONE && pays(s, PAY, MOST) == ROOM && !waiter.own);
    wants(all_returned(0, ROOM) && all_are_bare(ROOM, MOST, STM_TIMED_OUT) && stm_wait_by(NULL) == STM_DONE);
    wants(stm_ask_each(s, PAY, arguments[0], LENGTH, 9, answers) == 0 && all_are_bare(0, 1, STM_NOT_ENDED));
    __atomic_store_n(&goes_on, true, __ATOMIC_RELEASE);
    wants(pays(s, PAY, 9) == 9);
    pthread_join(thread, NULL);
    wants(host.told == 3 && stm_service_entered(s) == 2 * ROOM + 10);
    ends(&host);
}

/* ---- A host that takes the chapters ---- */

static size_t asks(stm_service *s, size_t calls) { return stm_ask_each(s, PAY, arguments[0], LENGTH, calls, answers); }

static void is_taken(stm_service *s, int32_t (*says)(stm_service *, stm_ended *)) {
    stm_ended chapter = {0};
    wants(stm_told_chapter(s, &chapter, 0) == STM_DONE && says(s, &chapter) == STM_DONE);
}

/* The calls stop where they would wait for it, and go on when it has said how it went. */
static void chapters_are_taken(void) {
    stm_service *s = opens(TEXT, &(stm_service_options){ROOM, 0, 0, stm_takes_chapters, NULL});
    draw_ones();
    wants(asks(s, ROOM) == ROOM && asks(s, 0) == 0);
    for (int64_t said = 0; said < 3; said++) {
        wants(asks(s, MOST) == ROOM && all_returned(0, ROOM) && stm_service_chapter(s) == (uint64_t)said + 1);
        wants(is_same(&answers[ROOM], &(stm_answer){-1, STM_NOT_ENDED, said, 0, 0, 0}));
        wants(asks(s, 1) == 0 && answers[0].code == STM_NOT_ENDED && answers[0].value == said);
        is_taken(s, stm_chapter_kept);
    }
    wants(asks(s, ROOM) == ROOM);
    is_taken(s, stm_chapter_not_kept);
    wants(asks(s, 1) == 0 && answers[0].code == STM_NOT_ENDED && answers[0].value == 4);
    is_taken(s, stm_chapter_kept);
    wants(asks(s, ROOM) == ROOM && stm_service_entered(s) == 6 * ROOM);
    stm_service_close(s);
    wants(asks(s, MOST) == MOST && all_are_bare(0, MOST, STM_CLOSED));
    stm_service_free(s);
}

/* ---- What they wake ---- */

static void *waits(void *own) {
    stm_service *s = *(stm_service **)own;
    const int64_t wanted = 150;
    static stm_answer told;
    told = stm_atomically(s, WAIT, &wanted, 1);
    return &told;
}

struct told {
    int count;
    stm_answer answer;
};

static void is_told(void *own, stm_answer answer) {
    struct told *told = own;
    told->count++;
    told->answer = answer;
}

/* A thread that waits, and a call that was started, have their turns right behind the call that wakes them, and the
 * started one is told before all return. */
static void what_they_wake(void) {
    const int64_t wanted = 130;
    stm_service *s = opens(TEXT, &(stm_service_options){ROOM, 0, 0, NULL, NULL});
    struct told told = {0, {0}};
    stm_service_counts counts = {0};
    pthread_t thread;
    void *answer;
    draw_ones();
    wants(stm_start(s, WAIT, &wanted, 1, is_told, &told) == 0 && pthread_create(&thread, NULL, waits, &s) == 0);
    for (; counts.waiting < 2; stm_service_get_counts(s, &counts)) nanosleep(&(struct timespec){0, 100000}, NULL);
    wants(pays(s, PAY, 90) == 90 && told.count == 1 && stm_service_entered(s) == 92);
    wants(told.answer.code == STM_DONE && told.answer.value == 130 && told.answer.place == answers[29].place + 1);
    wants(answers[30].place == answers[29].place + 2 && answers[50].place == answers[49].place + 2);
    pthread_join(thread, &answer);
    wants(((stm_answer *)answer)->value == 150 && ((stm_answer *)answer)->place == answers[49].place + 1);
    stm_service_free(s);
}

int main(void) {
    alarm(300); /* who waits for ever fails */
    each_number_of_calls();
    without_arguments();
    what_is_refused();
    closed_in_the_middle();
    no_room();
    a_host_that_keeps();
    a_host_that_does_not_keep();
    a_host_that_calls();
    a_slow_host();
    chapters_are_taken();
    what_they_wake();
    printf("good\n");
    return 0;
}
