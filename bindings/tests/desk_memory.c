/* Each request for memory of a desk is refused in turn: each call says so, nothing is lost, and it is done when it is made
 * again. Prints `good`. It brings its own memory, and counts blocks and requests. */
#include "desk.h"
#include "refusing.h"
#include "wants.h"

#include <stdio.h>

static long refusals;

enum { PUT, GET, LONG_GET };
#define TAKE "(if (eq made taken) (retry) (set taken (add taken 1)))"
static const char QUEUE[] =
    "(stm 3)(var made 0)(var taken 0)(var d 0)(tx put () (set made (add made 1)) made)(tx get () " TAKE " taken)"
    "(tx long_get () (seq " TAKE " (repeat 10 (repeat 100 (set d (add d 1)))) (set d 0)) taken)";

static stm_program program;
static stm_store store;
static stm_worker worker;
static stm_desk desk;
static stm_ended ended;
static stm_job job;
static char file[2000], report[2000];
static size_t file_length, report_length;

/* The store stays where its desk is refused memory. */
static void opens(void) {
    while (stm_open_desk(&store, &desk) == STM_MEMORY) {
        wants(store.at && !desk.at);
        refusals++;
    }
    wants(desk.at && !store.at);
}

/* Asked until it is made: the task of a call that is refused memory is given up. */
static stm_answer asks(uint32_t transaction, uint64_t whose) {
    stm_answer answer;
    while ((answer = stm_desk_ask(&desk, transaction, NULL, 0, STM_WAITS, whose, &job)).code == STM_MEMORY) {
        wants(answer.ticket == -1);
        refusals++;
    }
    return answer;
}

/* The next that is told returned so, if memory was not refused to it. */
static void is_told(uint64_t whose, int64_t value) {
    stm_desk_told told = stm_desk_next_told(&desk);
    if (told.answer.code == STM_MEMORY) refusals++;
    else wants(told.answer.code == STM_DONE && told.answer.value == value);
    wants(told.whose == whose && told.answer.ticket >= 0);
}

/* A chapter ends, and is kept or not; where its host gets no memory it is given again. */
static void ends_chapter(uint64_t chapter, int32_t keeps(stm_desk *, stm_ended *)) {
    int32_t code;
    while ((code = stm_desk_end_chapter(&desk, &ended)) == STM_MEMORY) {
        wants(!ended.at);
        refusals++;
    }
    wants(code == STM_DONE && stm_ended_chapter(&ended) == chapter && stm_desk_chapter(&desk) == chapter + 1);
    wants(stm_ended_file(&ended, file, sizeof file, &file_length) == STM_DONE);
    wants(stm_ended_report(&ended, report, sizeof report, &report_length) == STM_DONE && keeps(&desk, &ended) == STM_DONE);
}

static void is_good(void) {
    long turn = refused;
    refused = 0;
    wants(stm_check(file, file_length, report, report_length) == STM_DONE);
    refused = turn;
}

static void lives(void) {
    opens();
    stm_answer end;
    while ((end = stm_desk_outcome_now(&desk, LONG_GET, NULL, 0)).code == STM_MEMORY) refusals++;
    wants(end.code == STM_RETRIES && end.ticket == -1);
    wants(asks(GET, 1).code == STM_RETRIES && asks(LONG_GET, 2).code == STM_RUNNING);
    int32_t tried;
    while ((tried = stm_try_job(&worker, job)) == STM_MEMORY) refusals++;
    wants(tried == STM_DONE && stm_desk_bring(&desk, &worker) == STM_DONE && asks(PUT, 3).code == STM_DONE);
    is_told(1, 1);
    wants(asks(PUT, 4).code == STM_DONE);
    ends_chapter(0, stm_desk_not_kept);
    ends_chapter(0, stm_desk_kept);
    is_good();
    is_told(2, 2);
    int32_t code;
    while ((code = stm_desk_report(&desk, report, sizeof report, &report_length)) == STM_MEMORY) refusals++;
    wants(code == STM_DONE);
    while ((code = stm_desk_file(&desk, file, sizeof file, &file_length)) == STM_MEMORY) refusals++;
    wants(code == STM_DONE);
    is_good();
    ends_chapter(1, stm_desk_kept);
    is_good();
    stm_desk_free(&desk);
}

/* A desk of a store of the program; the requests are counted from its begin. */
static void with_refusal(long turn) {
    refused = 0;
    wants(stm_open_with_room(&program, 1, 0, 100, &store) == STM_DONE && stm_open_worker(&store, &worker) == STM_DONE);
    requests = 0;
    refused = turn;
    lives();
    refused = 0;
    stm_worker_free(&worker);
}

int main(void) {
    wants(stm_read(QUEUE, sizeof QUEUE - 1, &program) == STM_DONE);
    long stays = blocks;
    with_refusal(0);
    long all = requests;
    wants(blocks == stays && refusals == 0 && all > 10);
    for (long turn = 1; turn <= all; turn++) {
        with_refusal(turn);
        wants(blocks == stays && refusals <= turn);
    }
    stm_program_free(&program);
    puts("good");
    return 0;
}
