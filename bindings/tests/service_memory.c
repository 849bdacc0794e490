/* Each request for memory of a service is refused in turn: it is not opened, or a call answers that there is none and had
 * no effect; and nothing is left behind but what the header says stays. Then a life of many calls: chapters pass while
 * threads wait, and no memory grows. Prints `good`.
 *
 *     service_memory CALLS
 *
 * It brings its own memory, and counts requests, blocks and bytes.
 */
#include "counted.h"
#include "judging.h"

#include <pthread.h>
#include <time.h>
#include <unistd.h>

enum { INC, WAIT, GO, WIDE, LONG, LONG_WAIT, FAR, FAR_WAIT, KINDS = 3, WAITERS = 9 };
/* `wide` and `long` read and write so much that evaluating them takes memory, a long one outside the lock; `far` and
 * `far_wait` read more cells than an attempt has room for by itself, of which some have the same place there. */
#define WORK "(repeat 10 (repeat 100 (set a (add a 1))))"
static const char TEXT[] =
    "(stm 3)"
    "(var n 0)(var out 0)(var a 0)(var b 0)(var c 0)(var d 0)(var e 0)(var f 0)(var g 0)(var h 0)(var i 0)(var j 0)"
    "(table t 300 0)"
    "(tx inc () (set n (add n 1)) n)(tx wait () (if (eq out 0) (retry) (skip)) out)(tx go () (set out 1) out)"
    "(tx wide () (orelse (seq (set a n) (set b 1) (retry)) (seq (set a b) (set b c) (set c d) (set d e) (set e f)"
    "(set f g) (set g h) (set h i) (set i j) (set j (add j 1)))) j)"
    "(tx long () (seq " WORK " (orelse (seq (set a n) (set b 1) (retry)) (set j (add j 1)))) j)"
    "(tx long_wait () (seq " WORK " (if (eq out 0) (retry) (skip))) out)"
    "(tx far () (seq (put t 3 1) (put t 259 1) (put t 299 1)) (sum t))"
    "(tx far_wait () (if (eq (sum t) 0) (retry) (skip)) (at t 3))"
    "(run inc 1)(run wait 1)";

typedef stm_answer calls(stm_service *, uint32_t, const int64_t *, size_t);

/* A call that may be refused memory once: whether it was. Made again it is not refused, and the first had no effect. */
static int is_refused(stm_service *s, calls *call, uint32_t transaction, int32_t code, int64_t value) {
    stm_answer answer = call(s, transaction, NULL, 0);
    int refusal = answer.code == STM_MEMORY;
    if (refusal) {
        wants(answer.ticket == -1 && answer.value == 0 && answer.chapter == 0 && answer.entry == 0);
        answer = call(s, transaction, NULL, 0);
    }
    wants(answer.code == code && answer.value == value);
    return refusal;
}

static stm_answer within(stm_service *s, uint32_t transaction, const int64_t *arguments, size_t count) {
    return stm_atomically_within(s, transaction, arguments, count, 1000);
}

/* Three calls at once, of which one may be refused memory: whether it was. It had no effect, and the others are made: the
 * first value is that one, and each next one is greater by so much. */
static int is_one_refused(stm_service *s, uint32_t transaction, int64_t value, int64_t more) {
    stm_answer answers[3];
    int told_of = 0;
    size_t returned = stm_each(s, transaction, NULL, 0, 3, answers);
    for (int i = 0; i < 3; i++) {
        if (answers[i].code == STM_MEMORY) {
            wants(answers[i].ticket == -1 && answers[i].value == 0 && answers[i].entry == 0);
            told_of++;
            continue;
        }
        wants(answers[i].code == STM_DONE && answers[i].value == value && answers[i].entry > 0);
        value += more;
    }
    wants(returned == (size_t)(3 - told_of) && told_of <= 1);
    if (told_of > 0) wants(stm_atomically(s, transaction, NULL, 0).value == value);
    return told_of;
}

/* Judges a chapter, while nothing is refused or counted. */
static int judges_in_peace(void *own, const char *file, size_t file_length, const char *report, size_t report_length) {
    long of = refused, made = requests, most = most_bytes;
    refused = 0;
    int failed = judges(own, file, file_length, report, report_length);
    refused = of, requests = made, most_bytes = most;
    return failed;
}

/* All of a service's life: how many refusals were told. */
static int lives(void) {
    static char room[10000];
    struct judged judged = {{"\nentry "}, {0}, 0};
    stm_service_options options = {3, 0, 2, judges_in_peace, &judged};
    stm_service *s = NULL;
    int32_t code = stm_service_open(TEXT, strlen(TEXT), &options, &s);
    if (code != STM_DONE) return wants(code == STM_MEMORY && s == NULL), 1;
    int told_of = 0;
    int64_t first = value_of(s, "n");
    wants(first == 1 || refused > 0);
    for (int64_t i = first + 1; i <= first + 20; i++) told_of += is_refused(s, stm_atomically, INC, STM_DONE, i);
    told_of += is_refused(s, within, WAIT, STM_TIMED_OUT, 0);
    told_of += is_refused(s, stm_service_observe, INC, STM_DONE, first + 21);
    told_of += is_refused(s, stm_try_atomically, WAIT, STM_RETRIES, 0);
    told_of += is_refused(s, within, LONG_WAIT, STM_TIMED_OUT, 0);
    told_of += is_refused(s, stm_try_atomically, LONG_WAIT, STM_RETRIES, 0);
    told_of += is_refused(s, within, FAR_WAIT, STM_TIMED_OUT, 0);
    told_of += is_refused(s, stm_try_atomically, FAR_WAIT, STM_RETRIES, 0);
    told_of += is_refused(s, stm_try_atomically, GO, STM_DONE, 1);
    told_of += is_refused(s, stm_atomically, WAIT, STM_DONE, 1);
    told_of += is_refused(s, stm_atomically, WIDE, STM_DONE, 1);
    told_of += is_refused(s, stm_atomically, LONG, STM_DONE, 2);
    told_of += is_refused(s, stm_atomically, LONG_WAIT, STM_DONE, 1);
    told_of += is_refused(s, stm_service_observe, FAR, STM_DONE, 3);
    told_of += is_refused(s, stm_atomically, FAR, STM_DONE, 3);
    told_of += is_refused(s, stm_atomically, FAR_WAIT, STM_DONE, 1);
    told_of += is_one_refused(s, WIDE, 3, 1);
    told_of += is_one_refused(s, LONG, 6, 1);
    told_of += is_one_refused(s, FAR, 3, 0);
    size_t length = 0;
    code = stm_service_report(s, room, sizeof room, &length);
    if (code != STM_DONE) wants(code == STM_MEMORY && ++told_of == 1);
    code = stm_service_file(s, room, sizeof room, &length);
    if (code != STM_DONE) wants(code == STM_MEMORY && ++told_of == 1);
    stm_service_free(s);
    return told_of;
}

static void each_refusal(void) {
    stm_program program = {0};
    long before = blocks;
    wants(stm_read(TEXT, strlen(TEXT), &program) == STM_DONE);
    stm_program_free(&program);
    long stays = blocks - before, told_of = 0;
    before = blocks, requests = 0;
    lives();
    wants(stays > 0 && blocks - before == stays);
    long all = requests;
    for (refused = 1; refused <= all; refused++) {
        requests = 0;
        before = blocks;
        told_of += lives();
        wants(blocks - before <= stays);
    }
    refused = 0;
    wants(told_of > all / 2);
}

static stm_service *service;
static long rounds;

static void *waits(void *own) {
    wants(stm_atomically(service, *(uint32_t *)own, NULL, 0).value == 1);
    return own;
}

static void *increments(void *own) {
    for (long i = 0; i < rounds / 2; i++) wants(stm_atomically(service, INC, NULL, 0).code == STM_DONE);
    return own;
}

static void by_two(void) {
    pthread_t threads[2];
    for (int i = 0; i < 2; i++) wants(pthread_create(&threads[i], NULL, increments, NULL) == 0);
    for (int i = 0; i < 2; i++) pthread_join(threads[i], NULL);
}

static void until_all_wait(void) {
    static char report[MOST_REPORT];
    for (long parked = 0; parked < WAITERS; nanosleep(&(struct timespec){0, 1000000}, NULL)) {
        size_t length;
        wants(stm_service_report(service, report, sizeof report, &length) == STM_DONE);
        /* One is the file's own. */
        parked = lines_with(report, length, "\nparked ") - 1;
    }
}

/* Threads wait from the first chapter to the last. After the first tenth of the calls the peak of memory grows no more, but
 * for some bytes where chapters are kept, as numbers become longer. */
static void a_life(hook *ended, long all) {
    struct judged judged = {{"\nentry "}, {0}, 0};
    stm_service_options options = {100, 0, 0, ended, &judged};
    uint32_t waited_with[KINDS] = {WAIT, LONG_WAIT, FAR_WAIT};
    pthread_t threads[WAITERS];
    service = opens(TEXT, &options);
    most_bytes = bytes;
    for (int i = 0; i < WAITERS; i++) wants(pthread_create(&threads[i], NULL, waits, &waited_with[i % KINDS]) == 0);
    until_all_wait();
    rounds = all / 10;
    by_two();
    long before = most_bytes;
    rounds = all - all / 10;
    by_two();
    wants(most_bytes <= before + (ended ? 10000 : 0));
    wants(stm_service_chapter(service) >= (uint64_t)all / 100 && stm_service_entered(service) == (uint64_t)all + 1);
    wants(stm_atomically(service, GO, NULL, 0).code == STM_DONE && stm_atomically(service, FAR, NULL, 0).value == 3);
    for (int i = 0; i < WAITERS; i++) pthread_join(threads[i], NULL);
    wants(stm_service_entered(service) == (uint64_t)all + 4 + WAITERS && value_of(service, "n") == all + 1);
    if (ended) {
        judges_the_last(service, &judged);
        wants(judged.lines[0] == all + 4 + WAITERS && judged.chapters == (long)stm_service_chapter(service) + 1);
    }
    stm_service_free(service);
}

int main(int count, char **words) {
    alarm(300);
    each_refusal();
    long all = count > 1 ? atol(words[1]) : 1000000;
    a_life(NULL, all);
    a_life(judges_in_peace, all / 10);
    printf("good\n");
    return 0;
}
