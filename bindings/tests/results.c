/* How transactions end, as a turn, a call, a worker's end and the journal tell it; tasks that are claimed and given up.
 * Prints `good`. */
#include "stm.h"
#include "wants.h"

#include <stdio.h>
#include <string.h>

static stm_program program;
static stm_store store;
static stm_lender lender;
static stm_worker worker;

static void begins(const char *file, size_t workers, uint32_t checkpoint, size_t spare) {
    wants(stm_read(file, strlen(file), &program) == STM_DONE);
    wants(stm_open_with_room(&program, workers, checkpoint, spare, &store) == STM_DONE);
    wants(stm_open_lender(&store, &lender) == STM_DONE && stm_open_lender(&store, &lender) == STM_FULL);
    if (workers) wants(stm_open_worker(&store, &worker) == STM_DONE);
}

static void ends(void) {
    stm_worker_free(&worker);
    stm_lender_free(&lender);
    stm_store_free(&store);
    stm_program_free(&program);
    wants(!worker.at && !lender.at && !store.at && !program.at);
}

/* All are of the first chapter. */
static int tells(stm_answer told, int64_t ticket, int32_t code, int64_t value, uint64_t entry) {
    return told.ticket == ticket && told.code == code && told.value == value && told.chapter == 0 && told.entry == entry;
}

/* It is about no task, and this is why. */
static int none(stm_answer told, int32_t code) { return tells(told, -1, code, 0, 0); }

static stm_answer calls(uint32_t transaction, uint32_t way) {
    return stm_call(&store, &lender, transaction, NULL, 0, way);
}

/* The lowest ready task has its turn. */
static stm_answer turns(void) { return stm_turn(&store, &lender, stm_take(&store)); }

/* The tasks that are submitted while others are ready; entries, until a checkpoint takes them. */
static void increments(void) {
    begins("(var x 5)(tx inc (set x (add x 1)) x)(run inc 2)", 0, 0, 3);
    wants(stm_standing(&store, 0).code == STM_READY && stm_outcome(&store, 0).code == STM_NO_ENTRY);
    wants(tells(calls(0, STM_WAITS), 2, STM_DONE, 6, 1));
    wants(tells(turns(), 0, STM_DONE, 7, 2));
    wants(tells(stm_outcome(&store, 2), 2, STM_DONE, 6, 1) && tells(stm_outcome(&store, 0), 0, STM_DONE, 7, 2));
    wants(tells(stm_outcome(&store, 1), 1, STM_NO_ENTRY, 0, 0) && tells(stm_standing(&store, 2), 2, STM_DONE, 0, 1));
    wants(stm_checkpoint(&store) == STM_DONE);
    wants(tells(stm_outcome(&store, 2), 2, STM_NO_ENTRY, 0, 0) && tells(stm_standing(&store, 2), 2, STM_DONE, 0, 1));

    stm_job job = stm_claim(&store, 1);
    wants(job.ticket == 1 && job.chapter == 0 && job.task == 1 && job.transaction == 0);
    wants(stm_claim(&store, 1).ticket == STM_NOT_READY && tells(stm_standing(&store, 1), 1, STM_RUNNING, 0, 0));
    wants(stm_claim(&store, 0).ticket == STM_NOT_READY && stm_claim(&store, 3).ticket == STM_GONE);
    wants(stm_take(&store).ticket == STM_NOT_READY && none(turns(), STM_GONE));
    wants(tells(stm_turn(&store, &lender, job), 1, STM_DONE, 8, 3) && none(stm_turn(&store, &lender, job), STM_NOT_RUNNING));
    wants(stm_give_up(&store, 1) == STM_GONE && tells(stm_standing(&store, 1), 1, STM_DONE, 0, 3));

    wants(tells(calls(0, STM_TRIES), 3, STM_DONE, 9, 4));
    wants(tells(calls(0, STM_WAITS), 4, STM_DONE, 10, 5));
    wants(none(calls(0, STM_WAITS), STM_NO_ROOM) && none(calls(0, STM_TRIES), STM_NO_ROOM));
    wants(none(calls(1, STM_WAITS), STM_UNKNOWN) && none(calls(UINT32_MAX, STM_TRIES), STM_UNKNOWN));
    ends();
}

/* A ticket that no task has, and one that is no ticket. */
static void strangers(void) {
    begins("(var x 5)(tx inc (set x (add x 1)) x)(run inc 2)", 0, 0, 3);
    const int64_t strange[] = {2, 65536, INT64_MAX, -1, STM_EMPTY, INT64_MIN};
    for (size_t i = 0; i < sizeof strange / sizeof *strange; i++) {
        wants(stm_claim(&store, strange[i]).ticket == STM_GONE && stm_give_up(&store, strange[i]) == STM_GONE);
        wants(none(stm_turn(&store, &lender, (stm_job){.ticket = strange[i]}), STM_GONE));
        wants(none(stm_standing(&store, strange[i]), STM_GONE) && none(stm_outcome(&store, strange[i]), STM_GONE));
    }
    stm_counts counts;
    wants(stm_get_counts(&store, &counts) == STM_DONE && counts.ready == 2);
    ends();
}

/* A task is given up once, whether it is ready, running or parked: then it has no turn any more. */
static void given_up(void) {
    begins("(tx back (skip) 9)(tx t (retry) 0)(run back 3)(run t 1)", 0, 0, 0);
    stm_job job = stm_take(&store);
    wants(stm_give_up(&store, 0) == STM_DONE && none(stm_turn(&store, &lender, job), STM_NOT_RUNNING));
    wants(stm_give_up(&store, 1) == STM_DONE && stm_claim(&store, 1).ticket == STM_NOT_READY);
    wants(tells(turns(), 2, STM_DONE, 9, 1) && tells(turns(), 3, STM_RETRIES, 0, 0) && stm_give_up(&store, 3) == STM_DONE);
    for (int64_t ticket = 0; ticket < 4; ticket++) wants(stm_give_up(&store, ticket) == STM_GONE);
    wants(tells(stm_standing(&store, 0), 0, STM_GIVEN_UP, 0, 0) && tells(stm_standing(&store, 3), 3, STM_GIVEN_UP, 0, 0));
    stm_counts counts;
    wants(stm_get_counts(&store, &counts) == STM_DONE && counts.given_up == 3 && counts.done == 1);
    ends();
}

/* A parked task can't be claimed; it is given up, and stands among those that were. */
static void parked(void) {
    static const char file[] = "(tx t (retry) 0)(run t 1)";
    static const char report[] = "base 0\nnow 0\nmemory 0 t\nend\n";
    char room[sizeof report];
    size_t length = 0;
    begins(file, 0, 0, 1);
    wants(tells(turns(), 0, STM_RETRIES, 0, 0) && tells(stm_standing(&store, 0), 0, STM_RETRIES, 0, 0));
    wants(stm_claim(&store, 0).ticket == STM_NOT_READY && stm_give_up(&store, 0) == STM_DONE);
    wants(stm_give_up(&store, 0) == STM_GONE && tells(stm_standing(&store, 0), 0, STM_GIVEN_UP, 0, 0));
    wants(none(calls(0, STM_TRIES), STM_RETRIES) && none(calls(0, UINT32_MAX), STM_RETRIES) && stm_store_spare(&store) == 1);
    wants(stm_report_now(&store, room, sizeof room, &length) == STM_DONE && length == strlen(report));
    wants(memcmp(room, report, length) == 0 && stm_check(file, strlen(file), room, length) == STM_DONE);
    wants(tells(calls(0, STM_WAITS), 1, STM_RETRIES, 0, 0) && stm_store_spare(&store) == 0);
    wants(none(calls(0, STM_TRIES), STM_RETRIES));
    ends();
}

static const char FAULTS[] =
    "(stm 2)(var x 1)(always one (eq x 1))(tx back (skip) 9)(tx user (throw -7) x)(tx high (skip) (add 9223372036854775807 x))"
    "(tx zero (skip) (div x 0))(tx two (set x 2) x)(run back 1)(run user 1)(run high 1)(run zero 1)(run two 1)";
static const struct {
    int32_t code;
    int64_t value;
} faults[] = {{STM_DONE, 9}, {STM_THROWN, -7}, {STM_OVERFLOW, 0}, {STM_DIVIDE_BY_ZERO, 0}, {STM_BROKEN, 0}};
enum { FAULTS_OF = sizeof faults / sizeof *faults };

/* Each way in which a transaction ends, told by each call that tells one; with a checkpoint after each entry too. */
static void each_end(uint32_t checkpoint) {
    begins(FAULTS, 1, checkpoint, 2 * FAULTS_OF);
    uint64_t entry = 0;
    for (uint32_t tx = 0; tx < FAULTS_OF; tx++) {
        int32_t code = faults[tx].code;
        int64_t value = faults[tx].value;
        stm_job job = stm_take(&store);
        wants(tells(stm_observe(&worker, tx, NULL, 0), -1, code, value, 0));
        wants(job.ticket == (int64_t)tx && stm_try_job(&worker, job) == STM_DONE);
        wants(tells(stm_bring(&store, &worker), job.ticket, code, value, ++entry));
        wants(tells(calls(tx, STM_WAITS), FAULTS_OF + 2 * (int64_t)tx, code, value, entry + 1));
        entry++;
        int64_t ticket = stm_submit(&store, tx, NULL, 0);
        wants(tells(stm_turn(&store, &lender, stm_claim(&store, ticket)), ticket, code, value, ++entry));
        stm_answer told = stm_outcome(&store, ticket);
        wants(checkpoint ? tells(told, ticket, STM_NO_ENTRY, 0, 0) : tells(told, ticket, code, value, entry));
    }
    wants(stm_entered(&store) == entry && stm_chapter(&store) == 0);
    ends();
}

static void empty_handles(void) {
    begins("(var x 5)(tx inc (set x (add x 1)) x)", 0, 0, 1);
    stm_store no_store = {0};
    stm_lender no_lender = {0};
    wants(stm_open_lender(&no_store, &no_lender) == STM_EMPTY);
    const stm_job job = {.ticket = 0};
    wants(none(stm_turn(&no_store, &lender, job), STM_EMPTY) && none(stm_turn(&store, &no_lender, job), STM_EMPTY));
    for (uint32_t way = STM_WAITS; way <= STM_TRIES; way++) {
        wants(none(stm_call(&no_store, &lender, 0, NULL, 0, way), STM_EMPTY));
        wants(none(stm_call(&store, &no_lender, 0, NULL, 0, way), STM_EMPTY));
    }
    wants(stm_turns(&no_store, &lender, 1) == STM_EMPTY && stm_turns(&store, &no_lender, 1) == STM_EMPTY);
    wants(stm_take(&no_store).ticket == STM_EMPTY && stm_claim(&no_store, 0).ticket == STM_EMPTY);
    wants(none(stm_bring(&no_store, &worker), STM_EMPTY) && none(stm_bring(&store, &worker), STM_EMPTY));
    wants(stm_give_up(&no_store, 0) == STM_EMPTY);
    wants(none(stm_standing(&no_store, 0), STM_EMPTY) && none(stm_outcome(&no_store, 0), STM_EMPTY));
    wants(stm_begin_chapter(&no_store) == STM_EMPTY && stm_chapter(&no_store) == 0 && stm_entered(&no_store) == 0);
    wants(tells(calls(0, STM_WAITS), 0, STM_DONE, 6, 1));
    ends();
}

/* A lender serves other stores, too, and there is none for a program without a transaction. */
static void lenders(void) {
    begins("(var x 5)(tx inc (set x (add x 1)) x)", 0, 0, 1);
    stm_program other = {0};
    stm_store second = {0};
    static const char file[] = "(var y 1)(var z 2)(tx sum (skip) (add y z))";
    wants(stm_read(file, strlen(file), &other) == STM_DONE && stm_open_with_room(&other, 0, 0, 1, &second) == STM_DONE);
    wants(tells(stm_call(&second, &lender, 0, NULL, 0, STM_WAITS), 0, STM_DONE, 3, 1));
    wants(tells(calls(0, STM_WAITS), 0, STM_DONE, 6, 1));
    stm_store_free(&second);
    stm_program_free(&other);
    ends();
    wants(stm_read("(var x 5)", 9, &program) == STM_DONE && stm_open(&program, 0, 0, &store) == STM_DONE);
    wants(stm_open_lender(&store, &lender) == STM_NO_WORKER && !lender.at);
    ends();
}

int main(void) {
    increments();
    strangers();
    given_up();
    parked();
    each_end(0);
    each_end(1);
    empty_handles();
    lenders();
    printf("good\n");
    return 0;
}
