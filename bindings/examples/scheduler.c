/* A scheduler: jobs that wait for one another, and a pool of threads of the host's own.
 *
 * Three sources are compiled, the objects are linked, the program is tested. The tasks stand in the
 * wrong order on purpose: a job that comes too early is parked, and is ready again when what it read
 * has changed. No job runs before those that it waits for, whatever the threads do: the order of the
 * entries shows it, and the report is judged.
 *
 *     scheduler THREADS
 */
#include "stm.h"

#include <pthread.h>
#include <stdio.h>
#include <stdlib.h>
#include <string.h>

static const char build[] =
    "(stm 2)\n"
    "(var sources 3) (var objects 0) (var linked 0) (var tested 0)\n"
    "(always counted (eq (add sources objects) 3))\n"
    "(always in_order (and (le linked (div objects 3)) (le tested linked)))\n"
    "(tx test (if (lt linked 1) (retry) (set tested 1)) tested)\n"
    "(tx link (if (lt objects 3) (retry) (set linked 1)) linked)\n"
    "(tx compile (seq (set sources (sub sources 1)) (set objects (add objects 1))) objects)\n"
    "(run test 1) (run link 1) (run compile 3)\n";

enum { TASKS = 5, STALE_TRIES = 8, MOST_THREADS = 32 };
static const char *const names[TASKS] = {"test", "link", "compile", "compile", "compile"};

/* What the threads share: the store and what is lent to its turns, behind the lock, and which task each entry is of. */
static pthread_mutex_t lock = PTHREAD_MUTEX_INITIALIZER;
static stm_store store;
static stm_lender lender;
static uint64_t entry[TASKS];

static stm_answer bring(stm_worker *worker) {
    pthread_mutex_lock(&lock);
    stm_answer told = stm_bring(&store, worker);
    pthread_mutex_unlock(&lock);
    return told;
}

/* All tries of a job, and then a turn under the lock. */
static stm_answer run(stm_worker *worker, stm_job job) {
    for (int tries = 0; tries < STALE_TRIES; tries++) {
        int32_t tried = stm_try_job(worker, job);
        if (tried == STM_DONE) {
            stm_answer told = bring(worker);
            if (told.code != STM_STALE) return told;
        } else if (tried != STM_STALE) {
            break;
        }
    }
    pthread_mutex_lock(&lock);
    stm_answer told = stm_turn(&store, &lender, job);
    pthread_mutex_unlock(&lock);
    return told;
}

static void *work(void *argument) {
    stm_worker *worker = argument;
    for (;;) {
        pthread_mutex_lock(&lock);
        stm_job job = stm_take(&store);
        pthread_mutex_unlock(&lock);
        if (job.ticket < 0) return NULL;
        stm_answer told = run(worker, job);
        if (told.code == STM_DONE) {
            pthread_mutex_lock(&lock);
            entry[told.ticket] = told.entry;
            pthread_mutex_unlock(&lock);
        }
    }
}

static int fail(const char *what, int32_t code) {
    fprintf(stderr, "%s: %s\n", what, stm_word(code));
    return 1;
}

int main(int count, char **words) {
    int threads = count > 1 ? atoi(words[1]) : 4;
    if (threads < 1 || threads > MOST_THREADS) return fail("threads", STM_NO_WORKER);
    stm_program program = {0};
    int32_t code = stm_read(build, strlen(build), &program);
    if (code != STM_DONE) return fail("read", code);
    code = stm_open(&program, (size_t)threads, 0, &store);
    if (code == STM_DONE) code = stm_open_lender(&store, &lender);
    if (code != STM_DONE) return fail("open", code);

    static stm_worker workers[MOST_THREADS];
    static pthread_t pool[MOST_THREADS];
    for (int i = 0; i < threads; i++) {
        code = stm_open_worker(&store, &workers[i]);
        if (code != STM_DONE) return fail("worker", code);
    }
    for (int i = 0; i < threads; i++) {
        if (pthread_create(&pool[i], NULL, work, &workers[i]) != 0) return fail("thread", STM_MEMORY);
    }
    for (int i = 0; i < threads; i++) pthread_join(pool[i], NULL);

    static char report[4096];
    size_t length = 0;
    code = stm_report(&store, report, sizeof report, &length);
    if (code != STM_DONE) return fail("report", code);
    int32_t verdict = stm_check(build, strlen(build), report, length);

    for (uint64_t number = 1; number <= TASKS; number++) {
        for (int task = 0; task < TASKS; task++) {
            if (entry[task] == number) printf("%s\n", names[task]);
        }
    }
    printf("%s\n", verdict == STM_DONE ? "good" : "bad");
    for (int i = 0; i < threads; i++) stm_worker_free(&workers[i]);
    stm_lender_free(&lender);
    stm_store_free(&store);
    stm_program_free(&program);
    return verdict == STM_DONE ? 0 : 1;
}
