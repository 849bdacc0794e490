/* All tasks of a file by so many threads, with an observer beside them; the report is judged.
 *
 *     threads FILE THREADS [CHECKPOINT]
 */
#include "stm.h"

#include <pthread.h>
#include <stdio.h>
#include <stdlib.h>
#include <time.h>

enum { STALE_TRIES = 8, MOST = 32 };

static pthread_mutex_t lock = PTHREAD_MUTEX_INITIALIZER;
static stm_program program;
static stm_store store;
static stm_lender lender;
static size_t transactions;
static int ended;

static int is_ended(void) {
    pthread_mutex_lock(&lock);
    int now = ended;
    pthread_mutex_unlock(&lock);
    return now;
}

static void run(stm_worker *worker, stm_job job) {
    for (int tries = 0; tries < STALE_TRIES; tries++) {
        int32_t tried = stm_try_job(worker, job);
        if (tried != STM_DONE && tried != STM_STALE) break;
        if (tried == STM_STALE) continue;
        pthread_mutex_lock(&lock);
        stm_answer told = stm_bring(&store, worker);
        pthread_mutex_unlock(&lock);
        if (told.code != STM_STALE) return;
    }
    pthread_mutex_lock(&lock);
    stm_turn(&store, &lender, job);
    pthread_mutex_unlock(&lock);
}

static void *work(void *argument) {
    for (;;) {
        pthread_mutex_lock(&lock);
        stm_job job = stm_take(&store);
        pthread_mutex_unlock(&lock);
        if (job.ticket < 0) return NULL;
        run(argument, job);
    }
}

/* Observes each transaction, with arguments of 0. */
static void *watch(void *argument) {
    static const int64_t zeros[8];
    while (!is_ended()) {
        for (size_t tx = 0; tx < transactions; tx++) {
            size_t parameters = (size_t)stm_program_parameters(&program, (uint32_t)tx);
            if (stm_observe(argument, (uint32_t)tx, zeros, parameters).code < 0) exit(8);
        }
    }
    return NULL;
}

static double seconds(void) {
    struct timespec now;
    clock_gettime(CLOCK_MONOTONIC, &now);
    return (double)now.tv_sec + (double)now.tv_nsec / 1e9;
}

/* All tasks, and the observer beside them: how many seconds it took, and below 0 where a thread did not begin. */
static double run_all(stm_worker *workers, int threads, stm_worker *observer) {
    static pthread_t pool[MOST];
    pthread_t watching;
    double begin = seconds();
    if (pthread_create(&watching, NULL, watch, observer)) return -1;
    for (int i = 0; i < threads; i++) {
        if (pthread_create(&pool[i], NULL, work, &workers[i])) return -1;
    }
    for (int i = 0; i < threads; i++) pthread_join(pool[i], NULL);
    double end = seconds();
    pthread_mutex_lock(&lock);
    ended = 1;
    pthread_mutex_unlock(&lock);
    pthread_join(watching, NULL);
    return end - begin;
}

int main(int count, char **words) {
    static char file[1 << 20], report[8388608];
    static stm_worker workers[MOST];
    FILE *input = count < 3 ? NULL : fopen(words[1], "rb");
    if (!input) return 9;
    size_t length = fread(file, 1, sizeof file, input), wanted = 0;
    fclose(input);
    int threads = atoi(words[2]);
    stm_worker observer = {0};
    if (stm_read(file, length, &program) != STM_DONE || stm_read(file, length, &program) != STM_FULL) return 2;
    transactions = stm_program_transactions(&program);
    if (stm_open(&program, 33, 0, &store) != STM_NO_WORKER) return 2;
    uint32_t checkpoint = count > 3 ? (uint32_t)atoi(words[3]) : 0;
    if (stm_open(&program, (size_t)threads + 1, checkpoint, &store) != STM_DONE) return 2;
    for (int i = 0; i < threads; i++) {
        if (stm_open_worker(&store, &workers[i]) != STM_DONE) return 3;
    }
    if (stm_open_worker(&store, &observer) != STM_DONE || stm_open_lender(&store, &lender) != STM_DONE) return 3;
    stm_worker none = {0};
    if (stm_open_worker(&store, &none) != STM_NO_WORKER || none.at) return 3;
    stm_job stranger = {.ticket = (int64_t)stm_program_tasks(&program), .transaction = UINT32_MAX};
    if (stm_try_job(&observer, stranger) != STM_UNKNOWN || stm_try_job(&none, stranger) != STM_EMPTY) return 3;
    if (stm_bring(&store, &observer).code != STM_NOT_ENDED) return 3;
    if (stm_turn(&store, &lender, stranger).code != STM_GONE || stm_give_up(&store, stranger.ticket) != STM_GONE) return 3;
    double took = run_all(workers, threads, &observer);
    if (took < 0) return 4;
    if (stm_report(&store, report, 3, &wanted) != STM_SHORT) return 5;
    if (stm_report(&store, report, sizeof report, &wanted) != STM_DONE) return 5;
    int32_t verdict = stm_check(file, length, report, wanted);
    stm_store_free(&store);
    stm_store_free(&store);
    for (int i = 0; i < threads; i++) stm_worker_free(&workers[i]);
    stm_worker_free(&observer);
    stm_lender_free(&lender);
    stm_program_free(&program);
    fprintf(stderr, "%d threads: %.1f ms\n", threads, took * 1e3);
    printf("%s\n", verdict == STM_DONE ? "good" : "bad");
    return verdict == STM_DONE ? 0 : 1;
}
