/* programs THREADS: one program's handle is read by so many threads at once, with no lock: its counts and names, and a store
 * of its own for each, whose tasks it runs. Prints `good`. */
#include "stm.h"

#include <pthread.h>
#include <stdio.h>
#include <stdlib.h>
#include <string.h>

enum { MOST = 32, TIMES = 200 };

static const char FILE_TEXT[] = "(var x 5)(tx inc (set x (add x 1)) x)(tx get (skip) x)(run inc 3)";
static stm_program program;

static int asks(void) {
    stm_store store = {0};
    stm_lender lender = {0};
    int64_t value = 0;
    uint64_t version = 0;
    if (stm_program_tasks(&program) != 3 || stm_program_variables(&program) != 1) return 0;
    if (stm_program_transactions(&program) != 2 || stm_program_variable(&program, "x", 1) != 0) return 0;
    if (stm_program_transaction(&program, "get", 3) != 1) return 0;
    if (stm_open(&program, 0, 0, &store) != STM_DONE || stm_open_lender(&store, &lender) != STM_DONE) return 0;
    for (stm_job job = stm_take(&store); job.ticket >= 0; job = stm_take(&store))
        if (stm_turn(&store, &lender, job).code != STM_DONE) return 0;
    if (stm_value(&store, "x", 1, &value, &version) != STM_DONE) return 0;
    stm_lender_free(&lender);
    stm_store_free(&store);
    return value == 8 && version == 3;
}

static void *work(void *argument) {
    int *good = argument;
    *good = 1;
    for (int i = 0; i < TIMES; i++) *good = *good && asks();
    return NULL;
}

int main(int count, char **words) {
    pthread_t pool[MOST];
    int good[MOST];
    int threads = count > 1 ? atoi(words[1]) : 4, all = 1;
    if (threads < 1 || threads > MOST) return 9;
    if (stm_read(FILE_TEXT, strlen(FILE_TEXT), &program) != STM_DONE) return 2;
    for (int i = 0; i < threads; i++)
        if (pthread_create(&pool[i], NULL, work, &good[i])) return 4;
    for (int i = 0; i < threads; i++) {
        pthread_join(pool[i], NULL);
        all = all && good[i];
    }
    stm_program_free(&program);
    printf("%s\n", all ? "good" : "bad");
    return all ? 0 : 1;
}
