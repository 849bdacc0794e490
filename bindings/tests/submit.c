/* submit FILE TRANSACTION COUNT THREADS: opens a store of the file with room for COUNT tasks more, and submits that many
 * of the transaction while the threads work. Prints `good` where the file as it has become and the report are a pair that
 * a check finds good. */
#include "stm.h"
#include <pthread.h>
#include <stdio.h>
#include <stdlib.h>
#include <string.h>

enum { STALE_TRIES = 8, MOST = 31 };

static pthread_mutex_t lock = PTHREAD_MUTEX_INITIALIZER;
static pthread_cond_t more = PTHREAD_COND_INITIALIZER;
static stm_store store;
static stm_lender lender;
static int closed;

/* The next job; none once all are in and none is ready. */
static stm_job next(void) {
    pthread_mutex_lock(&lock);
    stm_job job = stm_take(&store);
    while (job.ticket < 0 && !closed) {
        pthread_cond_wait(&more, &lock);
        job = stm_take(&store);
    }
    pthread_mutex_unlock(&lock);
    return job;
}

static void run(stm_worker *worker, stm_job job) {
    for (int tries = 0; tries < STALE_TRIES; tries++) {
        int32_t tried = stm_try_job(worker, job);
        if (tried == STM_STALE) continue;
        if (tried != STM_DONE) break;
        pthread_mutex_lock(&lock);
        stm_answer told = stm_bring(&store, worker);
        pthread_mutex_unlock(&lock);
        if (told.code == STM_GONE) exit(7);
        if (told.code != STM_STALE) return;
    }
    pthread_mutex_lock(&lock);
    stm_turn(&store, &lender, job);
    pthread_mutex_unlock(&lock);
}

static void *work(void *argument) {
    for (stm_job job = next(); job.ticket >= 0; job = next()) run(argument, job);
    return NULL;
}

/* As many tasks as there is room for, and one that is refused; one transaction that there is not. */
static int submit_all(uint32_t transaction, size_t count, size_t before) {
    for (size_t i = 0; i < count; i++) {
        pthread_mutex_lock(&lock);
        int64_t ticket = stm_submit(&store, transaction, NULL, 0);
        pthread_cond_signal(&more);
        pthread_mutex_unlock(&lock);
        if (ticket != (int64_t)(before + i)) return 0;
    }
    pthread_mutex_lock(&lock);
    int refused = stm_submit(&store, transaction, NULL, 0) == STM_NO_ROOM && stm_submit(&store, UINT32_MAX, NULL, 0) == STM_UNKNOWN;
    closed = 1;
    pthread_cond_broadcast(&more);
    pthread_mutex_unlock(&lock);
    return refused;
}

static int told(size_t tasks) {
    static char file[1 << 20], report[8388608];
    size_t file_length = 0, report_length = 0;
    stm_counts counts;
    if (stm_report(&store, report, sizeof report, &report_length) != STM_DONE) return 0;
    if (stm_report_now(&store, report, sizeof report, &report_length) != STM_DONE) return 0;
    if (stm_file(&store, file, 1, &file_length) != STM_SHORT) return 0;
    if (stm_file(&store, file, sizeof file, &file_length) != STM_DONE) return 0;
    if (stm_get_counts(&store, &counts) != STM_DONE || counts.ready != 0 || counts.running != 0) return 0;
    if (counts.parked + counts.done + counts.given_up != tasks || stm_store_tasks(&store) != tasks) return 0;
    return stm_check(file, file_length, report, report_length) == STM_DONE;
}

int main(int count, char **words) {
    static char file[1 << 20];
    static stm_worker workers[MOST];
    pthread_t pool[MOST];
    if (count != 5) return 9;
    FILE *input = fopen(words[1], "rb");
    if (!input) return 9;
    size_t length = fread(file, 1, sizeof file, input);
    fclose(input);
    size_t room = (size_t)atol(words[3]);
    int threads = atoi(words[4]);
    stm_program program = {0};
    stm_job none = stm_take(&store);
    if (none.ticket != STM_EMPTY || stm_submit(&store, 0, NULL, 0) != STM_EMPTY) return 2;
    if (stm_read(file, length, &program) != STM_DONE) return 2;
    size_t tasks = stm_program_tasks(&program);
    int64_t transaction = stm_program_transaction(&program, words[2], strlen(words[2]));
    if (transaction < 0) return 2;
    if (stm_open_with_room(&program, (size_t)threads, 0, 65537 - tasks, &store) != STM_NO_ROOM) return 2;
    if (stm_open_with_room(&program, (size_t)threads, 0, room, &store) != STM_DONE) return 2;
    if (stm_open_lender(&store, &lender) != STM_DONE) return 2;
    int64_t value = 0;
    uint64_t version = 0;
    if (stm_value(&store, "?", 1, &value, &version) != STM_UNKNOWN) return 3;
    for (int i = 0; i < threads; i++)
        if (stm_open_worker(&store, &workers[i]) != STM_DONE) return 3;
    for (int i = 0; i < threads; i++)
        if (pthread_create(&pool[i], NULL, work, &workers[i])) return 4;
    int submitted = submit_all((uint32_t)transaction, room, tasks);
    for (int i = 0; i < threads; i++) pthread_join(pool[i], NULL);
    int good = submitted && told(tasks + room);
    printf("%s\n", good ? "good" : "bad");
    stm_lender_free(&lender);
    stm_store_free(&store);
    for (int i = 0; i < threads; i++) stm_worker_free(&workers[i]);
    stm_program_free(&program);
    return good ? 0 : 1;
}
