/* Threads that make many calls at once, beside others: no sum is ever wrong, others come in between, nobody waits for
 * ever, and a service is let go only when they are over. Prints `good`.
 *
 *     each_threads CALLS     so many by each thread
 */
#include "judging.h"

#include <pthread.h>
#include <stdbool.h>
#include <time.h>
#include <unistd.h>

enum { PAY, AUDIT, PUT, GET, INC, ACCOUNTS = 100, ALL = 10000, MOST = 20000, OFTEN = 20, ROW = 100, THREADS = 4 };
static const char TEXT[] =
    "(stm 3)(var made 0)(var taken 0)(var n 0)(table acct 100 100)"
    "(always bounded (and (le taken made) (le made (add taken 50))))"
    "(tx pay (from to n_) (seq (if (lt (at acct from) n_) (throw n_) (skip))"
    " (put acct from (sub (at acct from) n_)) (put acct to (add (at acct to) n_))) (at acct from))"
    "(tx audit () (skip) (sum acct))"
    "(tx put () (if (le 50 (sub made taken)) (retry) (set made (add made 1))) made)"
    "(tx get () (if (eq made taken) (retry) (set taken (add taken 1))) taken)"
    "(tx inc () (set n (add n 1)) n)";

static stm_service *service;
static size_t calls;
static bool is_over;

static bool is_set(bool *flag) { return __atomic_load_n(flag, __ATOMIC_ACQUIRE); }
static void set(bool *flag) { __atomic_store_n(flag, true, __ATOMIC_RELEASE); }
static void rests(long microseconds) { nanosleep(&(struct timespec){0, microseconds * 1000}, NULL); }

/* What one thread does: its transaction; how many of its calls were entered, and the sum of what they returned. */
struct worker {
    uint32_t transaction;
    unsigned seed;
    long entered, sum;
    pthread_t thread;
};

static void start(struct worker *workers, int count, void *(*work)(void *)) {
    for (int i = 0; i < count; i++) wants(pthread_create(&workers[i].thread, NULL, work, &workers[i]) == 0);
}

static long join(struct worker *workers, int count) {
    long entered = 0;
    for (int i = 0; i < count; i++) pthread_join(workers[i].thread, NULL), entered += workers[i].entered;
    return entered;
}

/* ---- Sums ---- */

static void draw(struct worker *w, int64_t (*rows)[3], int count) {
    for (int i = 0; i < count; i++) {
        for (int j = 0; j < 3; j++) w->seed = w->seed * 1103515245 + 12345, rows[i][j] = w->seed >> 16 & 0x7FFF;
        rows[i][0] %= ACCOUNTS, rows[i][1] %= ACCOUNTS, rows[i][2] %= 120;
    }
}

static void *pays_many(void *own) {
    struct worker *w = own;
    int64_t rows[ROW][3];
    stm_answer answers[ROW];
    for (size_t made = 0; made < calls; made += ROW) {
        draw(w, rows, ROW);
        stm_each(service, PAY, rows[0], 3, ROW, answers);
        for (int i = 0; i < ROW; i++) {
            wants(answers[i].code == STM_DONE || (answers[i].code == STM_THROWN && answers[i].value == rows[i][2]));
            wants(answers[i].entry > 0 && (i == 0 || answers[i].place > answers[i - 1].place));
            w->entered++;
        }
    }
    return NULL;
}

static void *pays_one(void *own) {
    struct worker *w = own;
    int64_t row[1][3];
    for (size_t made = 0; made < calls / 10; made++, w->entered++) {
        draw(w, row, 1);
        wants(stm_atomically(service, PAY, row[0], 3).entry > 0);
    }
    return NULL;
}

static void *audits(void *own) {
    struct worker *w = own;
    int64_t values[ACCOUNTS];
    while (!is_set(&is_over)) {
        stm_answer answers[3];
        int64_t sum = 0;
        wants(stm_each(service, AUDIT, NULL, 0, 3, answers) == 3);
        for (int i = 0; i < 3; i++) wants(answers[i].value == ALL), w->entered++;
        wants(stm_service_cells(service, 0, 0, values, ACCOUNTS) == ACCOUNTS);
        for (int i = 0; i < ACCOUNTS; i++) sum += values[i];
        wants(sum == ALL);
    }
    return NULL;
}

static void sums(size_t room, hook *ended) {
    struct judged judged = {{"\nentry "}, {0}, 0};
    struct worker many[THREADS] = {{0}}, ones[THREADS] = {{0}}, auditor = {0};
    service = opens(TEXT, &(stm_service_options){room, 0, 0, ended, &judged});
    is_over = false;
    for (int i = 0; i < THREADS; i++) many[i].seed = (unsigned)i, ones[i].seed = (unsigned)i + 100;
    start(&auditor, 1, audits);
    start(many, THREADS, pays_many);
    start(ones, THREADS, pays_one);
    long entered = join(many, THREADS) + join(ones, THREADS);
    set(&is_over);
    entered += join(&auditor, 1);
    wants(stm_service_entered(service) == (uint64_t)entered);
    judges_the_last(service, &judged);
    wants(ended == NULL || judged.lines[0] == entered);
    stm_service_free(service);
}

/* ---- A queue, of which most calls retry ---- */

static void *works(void *own) {
    struct worker *w = own;
    stm_answer answers[ROW];
    while ((size_t)w->entered < calls) {
        size_t left = calls - (size_t)w->entered, count = left < ROW ? left : ROW, returned = 0;
        size_t told = stm_each(service, w->transaction, NULL, 0, count, answers);
        for (size_t i = 0; i < count; i++) {
            wants(answers[i].code == STM_DONE || answers[i].code == STM_RETRIES);
            if (answers[i].code == STM_DONE) returned++, w->sum += answers[i].value;
        }
        wants(told == returned);
        w->entered += (long)returned;
        if (returned == 0) rests(50);
    }
    return NULL;
}

/* The numbers from 1 on were returned once each. */
static void a_queue(void) {
    struct worker workers[THREADS] = {{0}};
    long sums[2] = {0}, all = THREADS / 2 * (long)calls;
    service = opens(TEXT, &(stm_service_options){1000, 0, 0, NULL, NULL});
    for (int i = 0; i < THREADS; i++) workers[i].transaction = i % 2 ? GET : PUT;
    start(workers, THREADS, works);
    wants(join(workers, THREADS) == 2 * all);
    for (int i = 0; i < THREADS; i++) sums[i % 2] += workers[i].sum;
    wants(sums[0] == all * (all + 1) / 2 && sums[1] == sums[0] && value_of(service, "taken") == all);
    stm_service_free(service);
}

/* ---- Others come in between ---- */

/* Makes many at once, until others have come in between some of them often enough. */
static void *makes_many(void *own) {
    static stm_answer answers[MOST];
    struct worker *w = own;
    for (int between = 0; between < OFTEN; w->entered += MOST) {
        wants(stm_each(service, INC, NULL, 0, MOST, answers) == MOST);
        for (int i = 1; i < MOST; i++) between += answers[i].place > answers[i - 1].place + 1;
    }
    set(&is_over);
    return NULL;
}

/* While one thread makes many calls at once, another makes its own one by one. */
static void others_come_in_between(void) {
    struct worker worker = {0};
    service = opens(TEXT, NULL);
    is_over = false;
    start(&worker, 1, makes_many);
    while (!is_set(&is_over)) wants(stm_atomically(service, AUDIT, NULL, 0).value == ALL);
    wants(value_of(service, "n") == join(&worker, 1));
    stm_service_free(service);
}

/* ---- The end ---- */

static void *makes_to_the_end(void *own) {
    struct worker *w = own;
    stm_answer told[ROW];
    do {
        stm_each(service, INC, NULL, 0, ROW, told);
        for (int i = 0; i < ROW; i++) {
            wants(told[i].entry > 0 ? told[i].code == STM_DONE : told[i].code == STM_CLOSED);
            wants(i == 0 || told[i].entry == 0 || told[i - 1].entry > 0);
            w->entered += told[i].entry > 0;
        }
    } while (told[ROW - 1].code == STM_DONE);
    return NULL;
}

/* It is closed while threads call: each call was entered, or answered that it is closed, and none behind such a one. */
static void closed_while_they_call(void) {
    struct worker workers[THREADS] = {{0}};
    service = opens(TEXT, NULL);
    start(workers, THREADS, makes_to_the_end);
    while (stm_service_entered(service) < calls) rests(100);
    stm_service_close(service);
    wants((uint64_t)join(workers, THREADS) == stm_service_entered(service));
    wants(value_of(service, "n") == (int64_t)stm_service_entered(service));
    stm_service_free(service);
}

static bool is_told, goes_on, is_free;

static int is_slow(void *own, const char *file, size_t file_length, const char *report, size_t report_length) {
    set(&is_told);
    while (!is_set(&goes_on)) rests(100);
    return judges(own, file, file_length, report, report_length);
}

static void *lets_go(void *own) {
    stm_service_free(service);
    set(&is_free);
    return own;
}

/* It is let go while a thread tells its host a chapter in the middle: not before the calls are over. */
static void let_go_in_the_middle(void) {
    struct judged judged = {{"\nentry "}, {0}, 0};
    struct worker worker = {0};
    pthread_t letting;
    service = opens(TEXT, &(stm_service_options){ROW / 2, 0, 0, is_slow, &judged});
    start(&worker, 1, makes_to_the_end);
    while (!is_set(&is_told)) rests(100);
    wants(pthread_create(&letting, NULL, lets_go, NULL) == 0);
    while (stm_service_observe(service, INC, NULL, 0).code != STM_CLOSED) rests(100);
    rests(100000);
    wants(!is_set(&is_free));
    set(&goes_on);
    wants(join(&worker, 1) == ROW / 2 && judged.lines[0] == ROW / 2);
    pthread_join(letting, NULL);
}

int main(int count, char **words) {
    calls = count > 1 ? (size_t)atol(words[1]) : 20000;
    alarm(300); /* who waits for ever fails */
    sums(0, NULL);
    sums(1000, judges);
    a_queue();
    others_come_in_between();
    closed_while_they_call();
    let_go_in_the_middle();
    printf("good\n");
    return 0;
}
