/* A job scheduler: workers that sleep until a job is ready, and take an urgent one before any other.
 *
 * Jobs are numbers, which stand in two queues. `next` prefers by `orelse` an urgent job, else takes any other, else sees
 * whether work is over; where it is not it retries, and the worker sleeps until a job is added. `all_done` waits until
 * each job that was added is done. In the end the journal is judged.
 *
 *     jobs WORKERS
 */
#include "service.h"

#include <pthread.h>
#include <stdio.h>
#include <stdlib.h>
#include <string.h>

static const char PROGRAM[] =
    "(stm 3)"
    "(var urgent_begun 0) (var urgent_added 0) (var other_begun 0) (var other_added 0)"
    "(var done 0) (var over 0) (var job 0)"
    "(table urgent 64 0) (table other 64 0)"
    "(always once (le done (add urgent_begun other_begun)))"
    "(tx add_urgent (n) (seq (if (eq (sub urgent_added urgent_begun) 64) (retry) (skip))"
    "    (put urgent (rem urgent_added 64) n) (set urgent_added (add urgent_added 1))) n)"
    "(tx add_other (n) (seq (if (eq (sub other_added other_begun) 64) (retry) (skip))"
    "    (put other (rem other_added 64) n) (set other_added (add other_added 1))) n)"
    "(tx next () (orelse (seq (if (eq urgent_begun urgent_added) (retry) (skip))"
    "        (set job (at urgent (rem urgent_begun 64))) (set urgent_begun (add urgent_begun 1)))"
    "    (orelse (seq (if (eq other_begun other_added) (retry) (skip))"
    "        (set job (at other (rem other_begun 64))) (set other_begun (add other_begun 1)))"
    "    (if (eq over 0) (retry) (set job -1)))) job)"
    "(tx finish () (set done (add done 1)) done)"
    "(tx all_done () (if (lt done (add urgent_added other_added)) (retry) (skip)) done)"
    "(tx close () (set over 1) over)";

enum { ADD_URGENT, ADD_OTHER, NEXT, FINISH, ALL_DONE, CLOSE };
enum { END = -1, JOBS = 100, MOST_WORKERS = 32 };

static stm_service *service;
/* Who did the job of each number, counted from 1. */
static int done_by[JOBS];

static void holds(int so, const char *what) {
    if (so) return;
    fprintf(stderr, "not so: %s\n", what);
    exit(1);
}

/* The value that the transaction returns; each of this program returns one. */
static int64_t run(uint32_t transaction, const int64_t *arguments, size_t count) {
    stm_answer answer = stm_atomically(service, transaction, arguments, count);
    holds(answer.code == STM_DONE, "it returns");
    return answer.value;
}

static void add(int64_t job) { run(job % 10 == 0 ? ADD_URGENT : ADD_OTHER, &job, 1); }

static void *work(void *own) {
    for (int64_t job; (job = run(NEXT, NULL, 0)) != END; run(FINISH, NULL, 0)) {
        holds(done_by[job] == 0, "no job is done twice");
        done_by[job] = *(int *)own;
    }
    return NULL;
}

static void judge(void) {
    static char file[1 << 20], report[1 << 20];
    size_t file_length, report_length;
    stm_service_close(service);
    holds(stm_service_file(service, file, sizeof file, &file_length) == STM_DONE, "the file fits");
    holds(stm_service_report(service, report, sizeof report, &report_length) == STM_DONE, "the report fits");
    holds(stm_check(file, file_length, report, report_length) == STM_DONE, "the journal is good");
}

int main(int count, char **words) {
    int workers = count > 1 ? atoi(words[1]) : 4, numbers[MOST_WORKERS];
    pthread_t pool[MOST_WORKERS];
    holds(1 <= workers && workers <= MOST_WORKERS, "1 to 32 workers");
    holds(stm_service_open(PROGRAM, strlen(PROGRAM), NULL, &service) == STM_DONE, "it is opened");
    for (int64_t job = 1; job <= 10; job++) add(job);
    int64_t first = run(NEXT, NULL, 0);
    printf("the first is job %lld\n", (long long)first);
    done_by[first] = MOST_WORKERS + 1;
    run(FINISH, NULL, 0);
    for (int i = 0; i < workers; i++) {
        numbers[i] = i + 1;
        holds(pthread_create(&pool[i], NULL, work, &numbers[i]) == 0, "a worker begins");
    }
    for (int64_t job = 11; job < JOBS; job++) add(job);
    printf("%lld jobs are done\n", (long long)run(ALL_DONE, NULL, 0));
    run(CLOSE, NULL, 0);
    for (int i = 0; i < workers; i++) pthread_join(pool[i], NULL);
    for (int job = 1; job < JOBS; job++) holds(done_by[job] > 0, "each job is done");
    judge();
    puts("the journal is good");
    stm_service_free(service);
    return 0;
}
