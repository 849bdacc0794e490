/* A desk by one thread: how calls end and at which places, those that wait, long ones, chapters that are kept or not, what
 * is seen, and each refusal. Prints `good`. */
#include "desk.h"
#include "wants.h"

#include <stdio.h>
#include <string.h>

enum { PUT, GET, LONG_GET, FAIL };
#define TAKE "(if (eq made taken) (retry) (set taken (add taken 1)))"
static const char QUEUE[] =
    "(stm 3)(var made 0)(var taken 0)(var d 0)(table acct 2 5)"
    "(tx put (n) (set made (add made n)) made)(tx get () " TAKE " taken)"
    "(tx long_get () (seq " TAKE " (repeat 10 (repeat 100 (set d (add d 1)))) (set d 0)) taken)"
    "(tx fail () (throw 7) 0)(run get 1)";

static stm_program program;
static stm_store store;
static stm_worker worker;
static stm_desk desk;
static stm_ended ended;
static stm_job job;
static char room[2000];
static size_t wanted;

static void reads(const char *file, size_t spare) {
    wants(stm_read(file, strlen(file), &program) == STM_DONE);
    wants(stm_open_with_room(&program, 1, 0, spare, &store) == STM_DONE && stm_open_worker(&store, &worker) == STM_DONE);
}

static void opens(size_t spare) {
    reads(QUEUE, spare);
    wants(stm_open_desk(&store, &desk) == STM_DONE && desk.at && !store.at);
}

static void ends(void) {
    stm_ended_free(&ended);
    stm_worker_free(&worker);
    stm_desk_free(&desk);
    stm_store_free(&store);
    stm_program_free(&program);
    wants(!ended.at && !worker.at && !desk.at);
}

static stm_answer asks(uint32_t transaction, uint32_t way, uint64_t whose) {
    int64_t one = 1;
    job = (stm_job){.ticket = -77};
    return stm_desk_ask(&desk, transaction, &one, transaction == PUT, way, whose, &job);
}

/* It was entered: as this task, at this place. */
static int is_at(stm_answer told, int64_t ticket, int32_t code, int64_t value, uint64_t chapter, uint64_t entry, uint64_t place) {
    return told.ticket == ticket && told.code == code && told.value == value && told.chapter == chapter
           && told.entry == entry && told.place == place;
}

/* It is about no task, or about one that was not entered, and `job` stayed. */
static int is_none(stm_answer told, int64_t ticket, int32_t code, uint64_t chapter) {
    return is_at(told, ticket, code, 0, chapter, 0, 0) && job.ticket == -77;
}

/* Nothing more is to be told, or evaluated. */
static int is_all_told(void) {
    stm_desk_told told = stm_desk_next_told(&desk);
    stm_desk_due due = stm_desk_next_due(&desk);
    return told.whose == 0 && is_at(told.answer, -1, STM_NOT_READY, 0, 0, 0, 0) && due.whose == 0
           && due.job.ticket == STM_NOT_READY;
}

static int64_t value_of(const char *name) {
    int64_t value = 0;
    uint64_t version = 0;
    wants(stm_desk_value(&desk, name, strlen(name), &value, &version) == STM_DONE);
    return value;
}

static void of_empty_handles(void) {
    int64_t value = 3;
    uint64_t version = 4;
    stm_counts counts = {.ready = 9};
    reads(QUEUE, 1);
    wants(is_none(asks(PUT, STM_WAITS, 1), -1, STM_EMPTY, 0));
    wants(stm_desk_outcome_now(&desk, PUT, &value, 1).code == STM_EMPTY);
    wants(stm_desk_next_told(&desk).answer.code == STM_EMPTY && stm_desk_next_due(&desk).job.ticket == STM_EMPTY);
    wants(stm_desk_bring(&desk, &worker) == STM_EMPTY && stm_desk_run_now(&desk, job) == STM_EMPTY);
    wants(stm_desk_leave(&desk, 0) == STM_EMPTY && stm_desk_close(&desk) == STM_EMPTY);
    wants(stm_desk_end_chapter(&desk, &ended) == STM_EMPTY && stm_desk_kept(&desk, &ended) == STM_EMPTY);
    wants(stm_desk_not_kept(&desk, &ended) == STM_EMPTY && stm_ended_chapter(&ended) == 0);
    wants(stm_ended_file(&ended, room, sizeof room, &wanted) == STM_EMPTY && wanted == 0);
    wants(stm_ended_report(&ended, room, sizeof room, &wanted) == STM_EMPTY && wanted == 0);
    wants(stm_desk_value(&desk, "made", 4, &value, &version) == STM_EMPTY);
    wants(stm_desk_cell(&desk, 0, 0, &value, &version) == STM_EMPTY && stm_desk_cells(&desk, 0, 0, &value, 1) == STM_EMPTY);
    wants(stm_desk_counts(&desk, &counts) == STM_EMPTY && counts.ready == 9 && value == 3 && version == 4);
    wants(stm_desk_spare(&desk) == 0 && stm_desk_chapter(&desk) == 0 && stm_desk_entered(&desk) == 0);
    wants(stm_desk_report(&desk, room, sizeof room, &wanted) == STM_EMPTY && wanted == 0);
    wants(stm_desk_file(&desk, room, sizeof room, &wanted) == STM_EMPTY && wanted == 0);
    stm_store none = {0};
    wants(stm_open_desk(&none, &desk) == STM_EMPTY && !desk.at);
    ends();
}

/* A store whose task is taken has no desk; what is ready has had its turn. */
static void opened(void) {
    stm_counts counts;
    reads(QUEUE, 3);
    stm_job taken = stm_take(&store);
    wants(taken.ticket == 0 && stm_open_desk(&store, &desk) == STM_WORK_LEFT && store.at && !desk.at);
    wants(stm_try_job(&worker, taken) == STM_DONE && stm_bring(&store, &worker).code == STM_RETRIES);
    wants(stm_submit(&store, FAIL, NULL, 0) == 1 && stm_open_desk(&store, &desk) == STM_DONE && !store.at);
    wants(stm_desk_counts(&desk, &counts) == STM_DONE && counts.ready == 0 && counts.parked == 1 && counts.done == 1);
    wants(stm_desk_spare(&desk) == 2 && stm_desk_entered(&desk) == 1 && is_all_told());
    stm_store other = {0};
    wants(stm_open(&program, 0, 0, &other) == STM_DONE && stm_open_desk(&other, &desk) == STM_FULL && other.at);
    stm_store_free(&other);
    ends();
}

/* The run of the file waits for the first that is put; then each call by itself, and what it woke. */
static void calls(void) {
    opens(20);
    wants(is_at(asks(PUT, STM_WAITS, 1), 1, STM_DONE, 1, 0, 1, 0) && stm_desk_entered(&desk) == 2 && value_of("taken") == 1);
    wants(is_at(asks(FAIL, STM_TRIES, 1), 2, STM_THROWN, 7, 0, 3, 2) && job.ticket == -77);
    wants(is_none(asks(GET, STM_TRIES, 1), -1, STM_RETRIES, 0) && is_none(asks(9, STM_WAITS, 1), -1, STM_UNKNOWN, 0));
    wants(stm_desk_ask(&desk, GET, (int64_t[]){1}, 1, STM_WAITS, 1, &job).code == STM_UNKNOWN);
    wants(is_none(asks(GET, STM_WAITS, 41), 3, STM_RETRIES, 0) && is_none(asks(GET, STM_WAITS, 42), 4, STM_RETRIES, 0));
    wants(is_none(asks(GET, STM_WAITS, 43), 5, STM_RETRIES, 0) && is_all_told());
    wants(stm_desk_leave(&desk, 4) == STM_DONE && stm_desk_leave(&desk, 4) == STM_GONE && stm_desk_leave(&desk, -1) == STM_GONE);
    wants(is_at(asks(PUT, STM_WAITS, 44), 6, STM_DONE, 2, 0, 4, 4) && value_of("taken") == 2);
    stm_desk_told told = stm_desk_next_told(&desk);
    wants(told.whose == 41 && is_at(told.answer, 3, STM_DONE, 2, 0, 5, 5) && is_all_told());
    wants(stm_desk_close(&desk) == STM_DONE && is_none(asks(PUT, STM_WAITS, 1), -1, STM_CLOSED, 0));
    told = stm_desk_next_told(&desk);
    wants(told.whose == 43 && is_at(told.answer, 5, STM_CLOSED, 0, 0, 0, 0) && is_all_told());
    wants(stm_desk_leave(&desk, 5) == STM_GONE);
    ends();
}

static stm_answer would_end(uint32_t transaction, size_t count) {
    return stm_desk_outcome_now(&desk, transaction, (int64_t[]){1, 1}, count);
}

/* How calls would end: nothing comes of it, also where one would wake who waits. */
static void looked_ahead(void) {
    opens(2);
    wants(is_at(would_end(PUT, 1), -1, STM_DONE, 1, 0, 0, 0) && is_at(would_end(PUT, 1), -1, STM_DONE, 1, 0, 0, 0));
    wants(is_at(would_end(GET, 0), -1, STM_RETRIES, 0, 0, 0, 0) && is_at(would_end(FAIL, 0), -1, STM_THROWN, 7, 0, 0, 0));
    wants(is_at(would_end(LONG_GET, 0), -1, STM_RETRIES, 0, 0, 0, 0));
    wants(is_at(would_end(9, 0), -1, STM_UNKNOWN, 0, 0, 0, 0) && would_end(GET, 1).code == STM_UNKNOWN);
    wants(would_end(PUT, 0).code == STM_UNKNOWN && would_end(PUT, 2).code == STM_UNKNOWN);
    wants(stm_desk_entered(&desk) == 0 && stm_desk_spare(&desk) == 2 && value_of("made") == 0 && is_all_told());
    wants(asks(PUT, STM_WAITS, 1).ticket == 1 && is_at(would_end(LONG_GET, 0), -1, STM_RETRIES, 0, 0, 0, 0));
    wants(asks(PUT, STM_WAITS, 1).ticket == 2 && is_at(would_end(LONG_GET, 0), -1, STM_DONE, 2, 0, 0, 0));
    wants(asks(GET, STM_TRIES, 1).code == STM_CHAPTER_FULL && is_at(would_end(GET, 0), -1, STM_DONE, 2, 0, 0, 0));
    wants(stm_desk_close(&desk) == STM_DONE && is_at(would_end(GET, 0), -1, STM_CLOSED, 0, 0, 0, 0));
    ends();
}

/* A long call is evaluated outside; it waits, is woken, is stale, and has its turn here. */
static void long_calls(void) {
    opens(20);
    wants(asks(PUT, STM_WAITS, 1).code == STM_DONE && stm_desk_bring(&desk, &worker) == STM_NOT_ENDED);
    wants(is_at(asks(LONG_GET, STM_WAITS, 50), 2, STM_RUNNING, 0, 0, 0, 0) && job.ticket == 2 && job.transaction == LONG_GET);
    wants(job.chapter == 0 && job.count == 0 && is_all_told());
    wants(stm_try_job(&worker, job) == STM_DONE && stm_desk_bring(&desk, &worker) == STM_DONE && is_all_told());
    wants(stm_try_job(&worker, job) == STM_DONE && stm_desk_bring(&desk, &worker) == STM_NOT_RUNNING);
    wants(stm_desk_run_now(&desk, job) == STM_NOT_RUNNING && asks(PUT, STM_WAITS, 1).code == STM_DONE);
    stm_desk_due due = stm_desk_next_due(&desk);
    wants(due.whose == 50 && due.job.ticket == 2 && due.job.transaction == LONG_GET && is_all_told());
    wants(stm_try_job(&worker, due.job) == STM_DONE && asks(PUT, STM_WAITS, 1).code == STM_DONE);
    wants(stm_desk_bring(&desk, &worker) == STM_STALE && stm_desk_run_now(&desk, due.job) == STM_DONE);
    stm_desk_told told = stm_desk_next_told(&desk);
    wants(told.whose == 50 && is_at(told.answer, 2, STM_DONE, 2, 0, 5, 4) && is_all_told());
    wants(stm_desk_run_now(&desk, due.job) == STM_NOT_RUNNING);
    due.job.chapter = 1;
    wants(stm_desk_run_now(&desk, due.job) == STM_GONE);
    due.job.transaction = 9;
    wants(stm_desk_run_now(&desk, due.job) == STM_UNKNOWN);
    due.job.ticket = -1;
    wants(stm_desk_run_now(&desk, due.job) == STM_GONE && is_at(asks(LONG_GET, STM_TRIES, 1), 5, STM_DONE, 3, 0, 6, 5));
    ends();
}

/* The worker of another program, which says otherwise of the transaction. */
static void stranger(void) {
    static const char other[] = "(stm 3)(var x 0)(tx put (n) (set x n) x)(tx a () (skip) x)(tx b () (skip) x)";
    stm_program its = {0};
    stm_store theirs = {0};
    stm_worker hired = {0};
    opens(20);
    wants(stm_read(other, strlen(other), &its) == STM_DONE && stm_open(&its, 1, 0, &theirs) == STM_DONE);
    wants(stm_open_worker(&theirs, &hired) == STM_DONE && asks(LONG_GET, STM_WAITS, 1).code == STM_RUNNING);
    wants(stm_try_job(&hired, job) == STM_DONE && stm_desk_bring(&desk, &hired) == STM_OTHER_PROGRAM && is_all_told());
    stm_worker none = {0};
    wants(stm_desk_bring(&desk, &none) == STM_EMPTY);
    stm_worker_free(&hired);
    stm_store_free(&theirs);
    stm_program_free(&its);
    ends();
}

/* The chapter in the handle has this number, and its two texts are a pair. */
static int is_ended(uint64_t chapter) {
    static char file[2000];
    size_t length = 0;
    wants(stm_ended_file(&ended, file, 3, &length) == STM_SHORT && length > 3);
    wants(stm_ended_file(&ended, file, sizeof file, &length) == STM_DONE);
    wants(stm_ended_report(&ended, room, 3, &wanted) == STM_SHORT && wanted > 3);
    wants(stm_ended_report(&ended, room, sizeof room, &wanted) == STM_DONE);
    return stm_ended_chapter(&ended) == chapter && stm_check(file, length, room, wanted) == STM_DONE;
}

static void chapters(void) {
    opens(2);
    wants(asks(PUT, STM_WAITS, 1).code == STM_DONE && asks(LONG_GET, STM_WAITS, 60).code == STM_RUNNING);
    wants(is_none(asks(PUT, STM_WAITS, 1), -1, STM_CHAPTER_FULL, 0) && stm_desk_spare(&desk) == 0);
    wants(stm_desk_kept(&desk, &ended) == STM_EMPTY && stm_desk_end_chapter(&desk, &ended) == STM_DONE && is_ended(0));
    wants(stm_desk_chapter(&desk) == 1 && stm_desk_spare(&desk) == 2 && is_all_told());
    stm_ended second = {0};
    wants(stm_desk_end_chapter(&desk, &second) == STM_NOT_ENDED && !second.at);
    wants(stm_desk_end_chapter(&desk, &ended) == STM_FULL && is_ended(0));
    wants(stm_desk_not_kept(&desk, &ended) == STM_DONE && !ended.at && stm_desk_not_kept(&desk, &ended) == STM_EMPTY);
    wants(is_at(asks(PUT, STM_WAITS, 1), 3, STM_DONE, 2, 1, 1, 2) && asks(PUT, STM_WAITS, 1).code == STM_DONE);
    stm_desk_due due = stm_desk_next_due(&desk);
    wants(due.whose == 60 && due.job.chapter == 1 && is_none(asks(PUT, STM_WAITS, 1), -1, STM_NO_ROOM, 0));
    wants(stm_desk_end_chapter(&desk, &ended) == STM_DONE && is_ended(0) && stm_desk_chapter(&desk) == 1);
    wants(stm_desk_kept(&desk, &ended) == STM_DONE && !ended.at && is_none(asks(PUT, STM_WAITS, 1), -1, STM_CHAPTER_FULL, 0));
    wants(stm_desk_end_chapter(&desk, &ended) == STM_DONE && is_ended(1) && stm_desk_chapter(&desk) == 2);
    stm_desk_told told = stm_desk_next_told(&desk);
    wants(told.whose == 60 && is_at(told.answer, 2, STM_DONE, 2, 1, 3, 4) && is_all_told());
    stm_desk first = desk;
    stm_worker of_first = worker;
    desk.at = worker.at = store.at = program.at = NULL;
    opens(2);
    wants(stm_desk_kept(&desk, &ended) == STM_NOT_ENDED && stm_desk_not_kept(&desk, &ended) == STM_NOT_ENDED && is_ended(1));
    wants(stm_desk_kept(&first, &ended) == STM_DONE && !ended.at);
    stm_worker_free(&of_first);
    stm_desk_free(&first);
    ends();
}

static void looks(void) {
    int64_t value = 0, both[3] = {0};
    uint64_t version = 9;
    opens(20);
    wants(asks(PUT, STM_WAITS, 1).code == STM_DONE && asks(PUT, STM_WAITS, 1).code == STM_DONE);
    wants(stm_desk_value(&desk, "made", 4, &value, &version) == STM_DONE && value == 2 && version == 3);
    wants(stm_desk_value(&desk, "none", 4, &value, &version) == STM_UNKNOWN && value == 2 && version == 3);
    wants(stm_desk_cell(&desk, 0, 1, &value, &version) == STM_DONE && value == 5 && version == 0);
    wants(stm_desk_cell(&desk, 0, 2, &value, &version) == STM_UNKNOWN && stm_desk_cell(&desk, 1, 0, &value, &version) == STM_UNKNOWN);
    wants(stm_desk_cells(&desk, 0, 0, both, 3) == 2 && both[0] == 5 && both[1] == 5 && both[2] == 0);
    wants(stm_desk_cells(&desk, 1, 0, both, 3) == STM_UNKNOWN);
    wants(asks(LONG_GET, STM_WAITS, 70).code == STM_RUNNING);
    wants(stm_desk_file(&desk, room, 3, &wanted) == STM_SHORT && value_of("taken") == 2);
    stm_desk_told told = stm_desk_next_told(&desk);
    wants(told.whose == 70 && is_at(told.answer, 3, STM_DONE, 2, 0, 4, 3) && is_all_told());
    static char file[2000];
    size_t length;
    wants(asks(LONG_GET, STM_WAITS, 71).code == STM_RUNNING);
    wants(stm_desk_report(&desk, room, 3, &wanted) == STM_SHORT && stm_desk_report(&desk, room, sizeof room, &wanted) == STM_DONE);
    wants(stm_desk_file(&desk, file, sizeof file, &length) == STM_DONE && stm_check(file, length, room, wanted) == STM_DONE);
    wants(is_all_told());
    ends();
}

int main(void) {
    of_empty_handles();
    opened();
    calls();
    looked_ahead();
    long_calls();
    stranger();
    chapters();
    looks();
    puts("good");
    return 0;
}
