/* Tasks come in while all are parked: one that is submitted wakes the others. One worker, turn by turn; each pair of file
 * and report is judged. Prints `good`. */
#include "stm.h"
#include "wants.h"

#include <stdio.h>
#include <string.h>

static const char WAITING[] = "(var full 0)\n"
                              "(tx get (if (eq full 0) (retry) (set full 0)) full)\n"
                              "(tx put (if (eq full 1) (retry) (set full 1)) full)\n"
                              "(run get 2)\n";
static stm_store store;
static stm_worker worker;
static stm_lender lender;
static char none;
static size_t unused;

/* The next job ends so. */
static void ends(int64_t ticket, uint32_t transaction, int32_t code) {
    stm_job job = stm_take(&store);
    wants(job.ticket == ticket && job.transaction == transaction);
    wants(stm_report_now(&store, &none, 0, &unused) == STM_WORK_LEFT);
    wants(stm_try_job(&worker, job) == STM_DONE);
    wants(stm_bring(&store, &worker).code == code);
}

static void stand(size_t ready, size_t running, size_t parked, size_t done) {
    stm_counts counts = {9, 9, 9, 9, 9};
    wants(stm_get_counts(&store, &counts) == STM_DONE);
    wants(counts.ready == ready && counts.running == running && counts.parked == parked);
    wants(counts.done == done && counts.given_up == 0);
}

static void is(int64_t wanted, uint64_t since) {
    int64_t value = 9;
    uint64_t version = 9;
    wants(stm_value(&store, "empty", 5, &value, &version) == STM_UNKNOWN && value == 9 && version == 9);
    wants(stm_value(&store, "full", 4, &value, &version) == STM_DONE && value == wanted && version == since);
}

/* File and report of this moment are a pair that a check finds good, and the file has so many runs. */
static void agree(int runs) {
    char file[4096], report[4096];
    size_t file_length = 0, report_length = 0;
    wants(stm_report_now(&store, report, 10, &report_length) == STM_SHORT);
    wants(stm_report_now(&store, report, report_length, &report_length) == STM_DONE);
    wants(stm_file(&store, file, 0, &file_length) == STM_SHORT);
    wants(stm_file(&store, file, file_length, &file_length) == STM_DONE);
    wants(stm_check(file, file_length, report, report_length) == STM_DONE);
    for (size_t i = 0; i + 5 <= file_length; i++) runs -= memcmp(file + i, "(run ", 5) == 0;
    wants(runs == 0);
}

static void empty_handles(void) {
    stm_counts counts;
    int64_t value;
    uint64_t version;
    stm_program program = {0};
    wants(stm_open_with_room(&program, 1, 0, 1, &store) == STM_EMPTY);
    wants(stm_submit(&store, 0, NULL, 0) == STM_EMPTY && stm_take(&store).ticket == STM_EMPTY);
    wants(stm_get_counts(&store, &counts) == STM_EMPTY);
    wants(stm_value(&store, "full", 4, &value, &version) == STM_EMPTY);
    wants(stm_file(&store, &none, 0, &unused) == STM_EMPTY && stm_report_now(&store, &none, 0, &unused) == STM_EMPTY);
    wants(stm_try_job(&worker, (stm_job){.ticket = 0}) == STM_EMPTY);
    wants(stm_observe(&worker, 0, NULL, 0).code == STM_EMPTY && stm_bring(&store, &worker).code == STM_EMPTY);
    wants(stm_open(&program, 1, 0, &store) == STM_EMPTY && stm_open_worker(&store, &worker) == STM_EMPTY);
    wants(stm_claim(&store, 0).ticket == STM_EMPTY && stm_turn(&store, &lender, stm_take(&store)).code == STM_EMPTY);
    wants(stm_give_up(&store, 0) == STM_EMPTY && stm_checkpoint(&store) == STM_EMPTY);
    wants(stm_report(&store, &none, 0, &unused) == STM_EMPTY);
    wants(stm_program_variable(&program, "x", 1) == STM_EMPTY && stm_program_transaction(&program, "x", 1) == STM_EMPTY);
    wants(stm_program_tasks(&program) + stm_program_variables(&program) + stm_program_transactions(&program) == 0);
    wants(stm_store_spare(&store) + stm_store_tasks(&store) == 0);
    stm_worker_free(&worker);
    stm_store_free(&store);
    stm_program_free(&program);
    wants(!worker.at && !store.at && !program.at);
}

/* What is full is not filled again, and what is let go is empty. */
static void full_handles(stm_program *program) {
    wants(stm_read(WAITING, strlen(WAITING), program) == STM_FULL);
    wants(stm_open(program, 1, 0, &store) == STM_FULL && stm_open_worker(&store, &worker) == STM_FULL);
    stm_worker none_hired = {0};
    wants(stm_open_worker(&store, &none_hired) == STM_NO_WORKER && stm_bring(&store, &none_hired).code == STM_EMPTY);
    wants(stm_bring(&store, &worker).code == STM_NOT_ENDED && stm_program_tasks(program) == 2);
}

/* Turns under the lock: so many as were asked for, or until none is ready. What was tried before can be brought after. */
static void turns(stm_program *program) {
    wants(stm_turns(&store, &lender, 9) == STM_EMPTY);
    wants(stm_open_with_room(program, 1, 0, 2, &store) == STM_DONE && stm_open_worker(&store, &worker) == STM_DONE);
    wants(stm_turns(&store, &lender, 9) == STM_EMPTY && stm_open_lender(&store, &lender) == STM_DONE);
    wants(stm_turns(&store, &lender, 0) == 0);
    stand(2, 0, 0, 0);
    wants(stm_turns(&store, &lender, 1) == 1);
    stand(1, 0, 1, 0);
    wants(stm_turns(&store, &lender, UINT32_MAX) == 1);
    stand(0, 0, 2, 0);

    /* One that comes in wakes both: one of them ends, and the other waits again. */
    wants(stm_submit(&store, 1, NULL, 0) == 2 && stm_turns(&store, &lender, UINT32_MAX) == 3);
    stand(0, 0, 1, 2);
    is(0, 2);
    agree(2);

    wants(stm_submit(&store, 1, NULL, 0) == 3);
    stm_job job = stm_take(&store);
    wants(job.ticket == 3 && stm_try_job(&worker, job) == STM_DONE);
    wants(stm_turns(&store, &lender, UINT32_MAX) == 0 && stm_bring(&store, &worker).code == STM_DONE);
    wants(stm_bring(&store, &worker).code == STM_NOT_ENDED && stm_turn(&store, &lender, job).code == STM_NOT_RUNNING);
    wants(stm_turns(&store, &lender, 1) == 1);
    stand(0, 0, 0, 4);
    stm_worker_free(&worker);
    stm_lender_free(&lender);
    stm_store_free(&store);
}

/* Both wait, and nothing is ready. */
static void waiting(void) {
    ends(0, 0, STM_RETRIES);
    ends(1, 0, STM_RETRIES);
    wants(stm_take(&store).ticket == STM_NOT_READY);
    stand(0, 0, 2, 0);
    is(0, 0);
    agree(1);

    /* A task that comes in wakes both; one of them waits again. */
    wants(stm_store_spare(&store) == 3 && stm_store_tasks(&store) == 2);
    wants(stm_submit(&store, 2, NULL, 0) == STM_UNKNOWN && stm_store_spare(&store) == 3);
    wants(stm_submit(&store, 1, NULL, 0) == 2);
    stand(1, 0, 2, 0);
    ends(2, 1, STM_DONE);
    stand(2, 0, 0, 1);
    is(1, 1);
    ends(0, 0, STM_DONE);
    ends(1, 0, STM_RETRIES);
    stand(0, 0, 1, 2);
    is(0, 2);
    agree(2);
}

/* Up to the room: the second waits until the one before was got. */
static void up_to_the_room(void) {
    wants(stm_submit(&store, 1, NULL, 0) == 3 && stm_submit(&store, 1, NULL, 0) == 4);
    wants(stm_submit(&store, 1, NULL, 0) == STM_NO_ROOM && stm_store_spare(&store) == 0);
    wants(stm_store_tasks(&store) == 5);
    ends(3, 1, STM_DONE);
    ends(1, 0, STM_DONE);
    ends(4, 1, STM_DONE);
    stand(0, 0, 0, 5);
    is(1, 5);
    agree(4);
}

int main(void) {
    stm_program program = {0};
    empty_handles();
    wants(stm_read(WAITING, strlen(WAITING), &program) == STM_DONE);
    wants(stm_open_with_room(&program, 1, 0, 65535, &store) == STM_NO_ROOM);
    wants(stm_open_with_room(&program, 1, 0, 3, &store) == STM_DONE);
    wants(stm_open_with_room(&program, 1, 0, 3, &store) == STM_FULL);
    wants(stm_open_worker(&store, &worker) == STM_DONE);
    full_handles(&program);
    wants(stm_try_job(&worker, (stm_job){.ticket = -1}) == STM_UNKNOWN);
    wants(stm_try_job(&worker, (stm_job){.transaction = 2}) == STM_UNKNOWN);

    waiting();
    up_to_the_room();
    stm_worker_free(&worker);
    stm_store_free(&store);
    turns(&program);
    stm_program_free(&program);
    wants(!worker.at && !lender.at && !store.at && !program.at);
    printf("good\n");
    return 0;
}
