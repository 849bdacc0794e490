/* A service: each way in which a call can end, all that is refused, and chapters. Prints `good`. */
#include "judging.h"

#include <pthread.h>
#include <stdbool.h>
#include <stdio.h>
#include <time.h>

static const char ENDS[] =
    "(stm 2)(var n 7)(var low 0)(var out 0)(always kept (eq low 0))"
    "(tx inc (set n (add n 1)) n)(tx bad (throw n) 0)(tx over (skip) (mul n 9223372036854775807))"
    "(tx zero (skip) (div n 0))(tx break (set low 1) 0)(tx wait (if (eq out 0) (retry) (skip)) out)(tx go (set out n) out)"
    "(run inc 2)(run wait 1)(run bad 1)";

static uint32_t number_of(stm_service *service, const char *name) {
    int64_t number = stm_service_transaction(service, name, strlen(name));
    wants(number >= 0);
    return (uint32_t)number;
}

/* Whether it tells a task and a chapter exactly where it was entered. */
static int is_whole(stm_answer answer) {
    return answer.entry > 0 ? answer.ticket >= 0 : answer.ticket == -1 && answer.chapter == 0 && answer.place == 0;
}

static int is(stm_answer answer, int32_t code, int64_t value, uint64_t entry) {
    return answer.code == code && answer.value == value && answer.entry == entry && is_whole(answer);
}

/* Whether it returned, with this ticket, and was entered there, and at this place of the history. */
static int is_at(stm_answer answer, int64_t ticket, uint64_t chapter, uint64_t entry, uint64_t place) {
    return answer.code == STM_DONE && answer.ticket == ticket && answer.chapter == chapter && answer.entry == entry &&
           answer.place == place;
}

/* The runs of the file have had their turns: two increments and a throw; one waits. */
static void each_end(void) {
    stm_service *s = opens(ENDS, NULL);
    wants(stm_service_entered(s) == 3 && stm_service_chapter(s) == 0 && value_of(s, "n") == 9);
    wants(is(stm_atomically(s, number_of(s, "inc"), NULL, 0), STM_DONE, 10, 4));
    wants(is(stm_atomically(s, number_of(s, "bad"), NULL, 0), STM_THROWN, 10, 5));
    wants(is(stm_atomically(s, number_of(s, "over"), NULL, 0), STM_OVERFLOW, 0, 6));
    wants(is(stm_atomically(s, number_of(s, "zero"), NULL, 0), STM_DIVIDE_BY_ZERO, 0, 7));
    wants(is(stm_atomically(s, number_of(s, "break"), NULL, 0), STM_BROKEN, 0, 8));
    uint32_t wait = number_of(s, "wait");
    wants(is(stm_try_atomically(s, wait, NULL, 0), STM_RETRIES, 0, 0));
    wants(is(stm_atomically_within(s, wait, NULL, 0, 1000), STM_TIMED_OUT, 0, 0));
    wants(is(stm_service_observe(s, wait, NULL, 0), STM_RETRIES, 0, 0));
    wants(is(stm_service_observe(s, number_of(s, "inc"), NULL, 0), STM_DONE, 11, 0));
    wants(is(stm_service_observe(s, number_of(s, "bad"), NULL, 0), STM_THROWN, 10, 0) && value_of(s, "n") == 10);
    /* The run of the file that waited has its turn behind the call that woke it. */
    wants(is(stm_try_atomically(s, number_of(s, "go"), NULL, 0), STM_DONE, 10, 9) && stm_service_entered(s) == 10);
    wants(is(stm_atomically_within(s, wait, NULL, 0, UINT64_MAX), STM_DONE, 10, 11));
    wants(is(stm_try_atomically(s, wait, NULL, 0), STM_DONE, 10, 12));
    int64_t value = 0;
    uint64_t version = 0;
    wants(stm_service_value(s, "n", 1, &value, &version) == STM_DONE && value == 10 && version == 4);
    struct judged judged = {{" memory ", "\nmemory "}, {0}, 0};
    judges_the_last(s, &judged);
    wants(judged.lines[1] == 1);
    stm_service_free(s);
}

static void unknown_names(stm_service *s) {
    int64_t value = 5;
    uint64_t version = 6;
    wants(stm_service_transaction(s, "in", 2) == STM_UNKNOWN);
    wants(stm_service_transaction(s, NULL, 0) == STM_UNKNOWN);
    wants(stm_service_value(s, "inc", 3, &value, &version) == STM_UNKNOWN && value == 5 && version == 6);
    for (uint32_t unknown = 7; unknown != 0; unknown = unknown == 7 ? UINT32_MAX : 0) {
        wants(is(stm_atomically(s, unknown, NULL, 0), STM_UNKNOWN, 0, 0));
        wants(is(stm_try_atomically(s, unknown, NULL, 0), STM_UNKNOWN, 0, 0));
        wants(is(stm_atomically_within(s, unknown, NULL, 0, 5), STM_UNKNOWN, 0, 0));
        wants(is(stm_service_observe(s, unknown, NULL, 0), STM_UNKNOWN, 0, 0));
    }
}

static void short_rooms(stm_service *s) {
    char room[1000];
    size_t report = 0, file = 0, again = 0;
    wants(stm_service_report(s, NULL, 0, &report) == STM_SHORT && stm_service_file(s, NULL, 0, &file) == STM_SHORT);
    wants(report > 0 && report < sizeof room && file > 0 && file < sizeof room);
    wants(stm_service_report(s, room, report - 1, &again) == STM_SHORT && again == report);
    wants(stm_service_report(s, room, report, &again) == STM_DONE && stm_service_file(s, room, file, &again) == STM_DONE);
}

/* With workers or without, it is told the same how a call would end. */
static void observed(uint32_t observers) {
    stm_service_options options = {0, 0, observers, NULL, NULL};
    stm_service *s = opens(ENDS, &options);
    uint32_t wait = number_of(s, "wait");
    wants(is(stm_service_observe(s, wait, NULL, 0), STM_RETRIES, 0, 0));
    wants(is(stm_service_observe(s, number_of(s, "inc"), NULL, 0), STM_DONE, 10, 0));
    wants(is(stm_service_observe(s, number_of(s, "bad"), NULL, 0), STM_THROWN, 9, 0));
    wants(is(stm_service_observe(s, number_of(s, "break"), NULL, 0), STM_BROKEN, 0, 0));
    wants(is(stm_service_observe(s, 99, NULL, 0), STM_UNKNOWN, 0, 0));
    wants(stm_service_entered(s) == 3 && value_of(s, "n") == 9);
    stm_service_close(s);
    wants(is(stm_service_observe(s, wait, NULL, 0), STM_CLOSED, 0, 0));
    stm_service_free(s);
}

/* What is refused leaves no entry; and a closed service answers what asks for no transaction. */
static void what_is_refused(void) {
    stm_service *s = opens(ENDS, NULL);
    unknown_names(s);
    short_rooms(s);
    wants(stm_service_entered(s) == 3);
    stm_service_close(s);
    stm_service_close(s);
    wants(is(stm_atomically(s, 0, NULL, 0), STM_CLOSED, 0, 0));
    wants(is(stm_try_atomically(s, 0, NULL, 0), STM_CLOSED, 0, 0));
    wants(is(stm_atomically_within(s, 99, NULL, 0, 0), STM_CLOSED, 0, 0));
    wants(is(stm_service_observe(s, 0, NULL, 0), STM_CLOSED, 0, 0));
    short_rooms(s);
    wants(stm_service_entered(s) == 3 && stm_service_chapter(s) == 0 && value_of(s, "n") == 9 && number_of(s, "inc") == 0);
    stm_service_free(s);
    stm_service_free(NULL);
}

static int32_t opened(const char *text, size_t room, uint32_t observers, hook *ended) {
    static struct judged judged;
    stm_service_options options = {room, 0, observers, ended, &judged};
    stm_service *s = (stm_service *)&options;
    int32_t code = stm_service_open(text, strlen(text), &options, &s);
    wants((code == STM_DONE) == (s != NULL));
    stm_service_free(s);
    return code;
}

/* A service that is not opened, and one at each limit. */
static void what_is_not_opened(void) {
    static const char one[] = "(var x 0)(tx inc (set x (add x 1)) x)(run inc 1)";
    wants(opened("(var x 0", 0, 0, NULL) == STM_FILE_SHAPE && opened("(var \xff 0)", 0, 0, NULL) == STM_FILE_BAD_BYTE);
    wants(opened("(var x 0)(tx t (skip) y)", 0, 0, NULL) == STM_FILE_NAME && opened("", 0, 0, NULL) == STM_DONE);
    wants(opened("(stm 2)(var x 0)(always a (eq x 1))", 0, 0, NULL) == STM_FILE_BROKEN);
    wants(opened(one, 65535, 32, NULL) == STM_DONE && opened(one, 65536, 0, NULL) == STM_NO_ROOM);
    wants(opened(one, SIZE_MAX, 0, NULL) == STM_NO_ROOM && opened(one, 0, 33, NULL) == STM_NO_WORKER);
    /* A host that keeps chapters has room for as many tasks: what is too long for form 1 is of form 3. */
    wants(opened(one, 65535, 1, judges) == STM_DONE && opened(one, 65536, 1, judges) == STM_NO_ROOM);
    static const char runs[] = "(var x 0)(tx inc (set x (add x 1)) x)(run inc 65536)";
    wants(opened(runs, 0, 0, judges) == STM_DONE && opened(runs, 0, 0, NULL) == STM_DONE);
    stm_service *s = opens("(var x 0)", NULL);
    wants(is(stm_atomically(s, 0, NULL, 0), STM_UNKNOWN, 0, 0));
    wants(is(stm_service_observe(s, 0, NULL, 0), STM_UNKNOWN, 0, 0));
    stm_service_free(s);
}

static const char LONG_NAMES[] =
    "(var x 0)(tx a2345678901234567890123456789012 (set x (add x -4611686018427387904)) x)"
    "(tx b2345678901234567890123456789012 (set x 0) x)";

/* The longest chapters, by names of 32 bytes, by turns: their files are too long for form 1, and are of form 3. */
static void the_longest_chapters(void) {
    struct judged judged = {{"\nentry "}, {0}, 0};
    stm_service_options options = {0, 0, 0, judges, &judged};
    stm_service *s = opens(LONG_NAMES, &options);
    for (uint32_t i = 0; i < 132000; i++) wants(stm_atomically(s, i % 2, NULL, 0).code == STM_DONE);
    wants(judged.chapters == 2 && stm_service_chapter(s) == 2 && judged.lines[0] == 131072);
    judges_the_last(s, &judged);
    wants(judged.lines[0] == 132000 && stm_service_entered(s) == 132000);
    stm_service_free(s);
}

/* A hook that fails so many times. */
static int failures;
static int fails_first(void *own, const char *file, size_t file_length, const char *report, size_t report_length) {
    wants(judges(own, file, file_length, report, report_length) == 0);
    return failures-- > 0 ? 1 : 0;
}

/* What the host does not keep is told again, and nothing of it is lost. Meanwhile there is room for one chapter more,
 * in which the run of the file that waits has a place too. */
static void a_hook_that_fails(void) {
    struct judged judged = {{"\nentry "}, {0}, 0};
    stm_service_options options = {3, 0, 0, fails_first, &judged};
    stm_service *s = opens(ENDS, &options);
    for (int i = 0; i < 3; i++) wants(stm_atomically(s, 0, NULL, 0).code == STM_DONE);
    failures = 3;
    for (int i = 1; i <= 6; i++) wants(is_at(stm_atomically(s, 0, NULL, 0), 6 + i, 1, (uint64_t)i, (uint64_t)i + 5));
    wants(judged.chapters == 1 && judged.lines[0] == 6 && stm_service_chapter(s) == 1);
    wants(is(stm_atomically(s, 0, NULL, 0), STM_NO_ROOM, 0, 0) && judged.chapters == 2);
    wants(is(stm_try_atomically(s, 0, NULL, 0), STM_NO_ROOM, 0, 0) && judged.chapters == 3);
    wants(stm_service_chapter(s) == 1 && stm_service_entered(s) == 12 && judged.lines[0] == 18);
    wants(is(stm_atomically(s, 0, NULL, 0), STM_DONE, 19, 1) && judged.chapters == 5 && judged.lines[0] == 30);
    wants(stm_service_chapter(s) == 2 && stm_service_entered(s) == 13);
    stm_service_free(s);
}

static const char WAITS[] = "(var out 0)(var n 0)(tx wait (if (eq out 0) (retry) (skip)) out)(tx go (set out 5) out)"
                            "(tx inc (set n (add n 1)) n)";
static stm_service *waited_for;

static void *waits(void *expects) {
    wants(stm_atomically(waited_for, number_of(waited_for, "wait"), NULL, 0).code == *(int32_t *)expects);
    return NULL;
}

static long lines_now(stm_service *s, const char *word) {
    static char report[1 << 20];
    size_t length;
    wants(stm_service_report(s, report, sizeof report, &length) == STM_DONE);
    return lines_with(report, length, word);
}

static bool counts(stm_service *s, uint64_t entered, uint64_t chapter, uint64_t waiting, uint64_t woken, uint64_t space) {
    stm_service_counts told;
    stm_service_get_counts(s, &told);
    return told.entered == entered && told.chapter == chapter && told.waiting == waiting && told.woken == woken &&
           told.stale == 0 && told.room == space;
}

/* Comes back when so many tasks wait. */
static void until_there_wait(stm_service *s, long count) {
    while (lines_now(s, "\nparked ") < count) nanosleep(&(struct timespec){0, 1000000}, NULL);
}

/* Where every task of a chapter waits there is no room; a try that retries wants none; and who waits is told all the same. */
static void all_wait(void) {
    stm_service_options options = {3, 0, 0, NULL, NULL};
    stm_service *s = waited_for = opens(WAITS, &options);
    int32_t done = STM_DONE, closed = STM_CLOSED;
    pthread_t threads[3];
    for (int i = 0; i < 2; i++) wants(pthread_create(&threads[i], NULL, waits, &done) == 0);
    until_there_wait(s, 2);
    for (int i = 1; i <= 20; i++) wants(is(stm_atomically(s, 2, NULL, 0), STM_DONE, i, 1) && stm_service_chapter(s) == (uint64_t)i - 1);
    wants(is(stm_atomically_within(s, 0, NULL, 0, 10), STM_TIMED_OUT, 0, 0));
    wants(is(stm_try_atomically(s, 0, NULL, 0), STM_RETRIES, 0, 0));
    wants(stm_atomically(s, 1, NULL, 0).code == STM_DONE && value_of(s, "out") == 5);
    for (int i = 0; i < 2; i++) pthread_join(threads[i], NULL);
    stm_service_free(s);
    s = waited_for = opens(WAITS, &options);
    for (int i = 0; i < 3; i++) wants(pthread_create(&threads[i], NULL, waits, &closed) == 0);
    until_there_wait(s, 3);
    wants(is(stm_atomically(s, 1, NULL, 0), STM_NO_ROOM, 0, 0));
    wants(is(stm_try_atomically(s, 2, NULL, 0), STM_NO_ROOM, 0, 0));
    wants(is(stm_try_atomically(s, 0, NULL, 0), STM_RETRIES, 0, 0) && stm_service_chapter(s) == 0);
    stm_service_close(s);
    for (int i = 0; i < 3; i++) pthread_join(threads[i], NULL);
    wants(lines_now(s, "\nparked ") == 0 && lines_now(s, "\nmemory ") == 3);
    stm_service_free(s);
}

static void *waits_for_answer(void *told) {
    *(stm_answer *)told = stm_atomically(waited_for, number_of(waited_for, "wait"), NULL, 0);
    return NULL;
}

/* Of what was entered its ticket is told, its chapter, the number of its entry there, and its place in the history:
 * also of one that waited, and in the chapters after the first. What was not entered has none. */
static void where_each_was_entered(void) {
    enum { WAIT, GO, INC };
    stm_service_options options = {3, 0, 0, NULL, NULL};
    stm_service *s = waited_for = opens(WAITS, &options);
    stm_answer told = {.code = STM_UNKNOWN};
    pthread_t thread;
    wants(pthread_create(&thread, NULL, waits_for_answer, &told) == 0);
    wants(counts(s, 0, 0, 0, 0, 3) || counts(s, 0, 0, 1, 0, 2));
    until_there_wait(s, 1);
    wants(counts(s, 0, 0, 1, 0, 2));
    wants(is_at(stm_atomically(s, INC, NULL, 0), 1, 0, 1, 0) && is_at(stm_try_atomically(s, INC, NULL, 0), 2, 0, 2, 1));
    wants(counts(s, 2, 0, 1, 0, 0));
    wants(is_at(stm_atomically_within(s, INC, NULL, 0, UINT64_MAX), 3, 1, 1, 2));
    wants(is(stm_try_atomically(s, WAIT, NULL, 0), STM_RETRIES, 0, 0));
    wants(is_at(stm_atomically(s, GO, NULL, 0), 4, 1, 2, 3));
    pthread_join(thread, NULL);
    wants(is_at(told, 0, 1, 3, 4) && told.value == 5 && counts(s, 5, 1, 0, 1, 0));
    wants(is_at(stm_try_atomically(s, WAIT, NULL, 0), 5, 2, 1, 5));
    wants(is(stm_service_observe(s, WAIT, NULL, 0), STM_DONE, 5, 0) && is_at(stm_atomically(s, INC, NULL, 0), 6, 2, 2, 6));
    stm_service_free(s);
}

static void stops(void *own) {
    stm_waiter *waiter = own;
    waiter->stopped = 1;
}

/* What it waits for comes when it waits no longer: nothing is entered of it. That it was given up has a place. */
static void too_late(void) {
    enum { WAIT, GO };
    stm_waiter waiter = {stops, &waiter, 0};
    for (int is_stopped = 0; is_stopped < 2; is_stopped++) {
        stm_service *s = opens(WAITS, NULL);
        wants(stm_wait_by(is_stopped ? &waiter : NULL) == STM_DONE);
        stm_answer late = is_stopped ? stm_atomically(s, WAIT, NULL, 0) : stm_atomically_within(s, WAIT, NULL, 0, 1000000);
        wants(is(late, STM_TIMED_OUT, 0, 0) && stm_wait_by(NULL) == STM_DONE);
        wants(is_at(stm_atomically(s, GO, NULL, 0), 1, 0, 1, 1) && stm_service_entered(s) == 1);
        wants(is_at(stm_atomically(s, WAIT, NULL, 0), 2, 0, 2, 2) && stm_service_entered(s) == 2);
        stm_service_free(s);
    }
}

/* Calls wait whose tickets are far apart. */
static void wait_far_apart(void) {
    enum { BETWEEN = 4096 };
    stm_service *s = waited_for = opens(WAITS, NULL);
    int32_t done = STM_DONE;
    pthread_t threads[3];
    for (int i = 0; i < 3; i++) {
        wants(pthread_create(&threads[i], NULL, waits, &done) == 0);
        until_there_wait(s, i + 1);
        for (int calls = 1; calls < BETWEEN; calls++) wants(stm_atomically(s, 2, NULL, 0).code == STM_DONE);
    }
    wants(is(stm_atomically_within(s, 0, NULL, 0, 1000), STM_TIMED_OUT, 0, 0));
    wants(stm_atomically(s, 1, NULL, 0).code == STM_DONE);
    for (int i = 0; i < 3; i++) pthread_join(threads[i], NULL);
    stm_service_free(s);
}

static void *waits_and_is_cancelled(void *told) {
    waits_for_answer(told);
    pthread_testcancel();
    return NULL;
}

/* A thread that is cancelled while it waits is so after its call. */
static void a_thread_is_cancelled(void) {
    stm_service *s = waited_for = opens(ENDS, NULL);
    stm_answer told = {.code = STM_UNKNOWN};
    void *end = NULL;
    pthread_t thread;
    wants(pthread_create(&thread, NULL, waits_and_is_cancelled, &told) == 0);
    until_there_wait(s, 2);
    wants(pthread_cancel(thread) == 0);
    nanosleep(&(struct timespec){0, 5000000}, NULL);
    wants(lines_now(s, "\nparked ") == 2 && stm_atomically(s, number_of(s, "go"), NULL, 0).code == STM_DONE);
    wants(pthread_join(thread, &end) == 0 && end == PTHREAD_CANCELED && is(told, STM_DONE, 9, 6));
    stm_service_free(s);
}

/* With checkpoints outcomes are told as without, and the reports are short. */
static void with_checkpoints(void) {
    struct judged judged = {{"\nentry "}, {0}, 0};
    stm_service_options options = {100, 8, 0, judges, &judged};
    stm_service *s = opens("(var x 0)(tx inc (set x (add x 1)) x)", &options);
    for (int i = 1; i <= 1000; i++) wants(stm_atomically(s, 0, NULL, 0).value == i);
    wants(judged.chapters == 9 && judged.lines[0] < 9 * 8 && stm_service_entered(s) == 1000);
    stm_service_free(s);
}

int main(void) {
    each_end();
    for (uint32_t observers = 0; observers <= 32; observers += 16) observed(observers);
    what_is_refused();
    what_is_not_opened();
    the_longest_chapters();
    a_hook_that_fails();
    all_wait();
    where_each_was_entered();
    too_late();
    wait_far_apart();
    a_thread_is_cancelled();
    with_checkpoints();
    printf("good\n");
    return 0;
}
