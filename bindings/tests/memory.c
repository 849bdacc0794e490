/* Each request for memory is refused in turn: every call answers, nothing is lost but what the header says stays.
 *
 *     memory FILE
 *
 * It brings its own memory, and counts blocks and requests.
 */
#include "stm.h"
#include "refusing.h"

#include <stdio.h>
#include <stdlib.h>

static char file[1 << 20], room[8388608];
static uint8_t is_long[4096];
static size_t length, wanted;

/* All tasks by one worker; what is refused is given up. Whether a refusal was told. */
static int host(long *kept) {
    int told_of = 0;
    stm_program program = {0};
    stm_store store = {0};
    stm_worker worker = {0};
    stm_lender lender = {0};
    told_of |= stm_read(file, length, &program) == STM_MEMORY;
    *kept = blocks;
    told_of |= stm_program_long(&program, is_long, sizeof is_long, &wanted) == STM_MEMORY;
    told_of |= stm_open(&program, 2, 0, &store) == STM_MEMORY;
    told_of |= stm_open_worker(&store, &worker) == STM_MEMORY;
    told_of |= stm_open_lender(&store, &lender) == STM_MEMORY;
    stm_job first = {.ticket = STM_NOT_READY};
    if (lender.at) first = stm_take(&store);
    int32_t turned = stm_turn(&store, &lender, first).code;
    if (turned == STM_EMPTY ? store.at && lender.at : turned < 0) exit(6);
    told_of |= turned == STM_GIVEN_UP;
    for (stm_job job; worker.at && (job = stm_take(&store)).ticket >= 0;) {
        int32_t tried = stm_try_job(&worker, job);
        if (tried == STM_MEMORY) {
            told_of = 1;
            if (stm_give_up(&store, job.ticket) != STM_DONE) exit(6);
        } else if (stm_bring(&store, &worker).code < 0) {
            exit(6);
        }
    }
    int32_t code = stm_report(&store, room, sizeof room, &wanted);
    if (code == STM_MEMORY) {
        told_of = 1;
        code = stm_report(&store, room, sizeof room, &wanted);
    }
    if (code != (store.at ? STM_DONE : STM_EMPTY)) exit(6);
    refused = 0;
    if (code == STM_DONE && stm_check(file, length, room, wanted) != STM_DONE) exit(7);
    stm_worker_free(&worker);
    stm_lender_free(&lender);
    stm_store_free(&store);
    stm_program_free(&program);
    return told_of;
}

/* Calls, turns, and all that is asked or done of one task by its ticket, and chapters: none of it takes memory. */
static int takes_none(void) {
    static const char text[] = "(var x 0)(tx inc (set x (add x 1)) x)(tx wait (if (lt x 100) (retry) (skip)) x)";
    stm_program program = {0};
    stm_store store = {0};
    stm_lender lender = {0};
    if (stm_read(text, sizeof text - 1, &program) != STM_DONE) return 0;
    if (stm_open_with_room(&program, 0, 0, 6, &store) != STM_DONE || stm_open_lender(&store, &lender) != STM_DONE) return 0;
    long before = requests;
    for (int chapter = 0; chapter < 50; chapter++) {
        int64_t ticket = stm_submit(&store, 0, NULL, 0), other = stm_submit(&store, 1, NULL, 0);
        stm_job job = stm_claim(&store, ticket);
        if (ticket < 0 || job.ticket != ticket || stm_turn(&store, &lender, job).code != STM_DONE) return 0;
        if (stm_outcome(&store, ticket).code != STM_DONE || stm_standing(&store, ticket).code != STM_DONE) return 0;
        int32_t waits = stm_turn(&store, &lender, stm_take(&store)).code;
        if (waits != STM_RETRIES && waits != STM_DONE) return 0;
        for (uint32_t way = STM_WAITS; way <= STM_TRIES; way++)
            if (stm_call(&store, &lender, 0, NULL, 0, way).code != STM_DONE) return 0;
        stm_give_up(&store, other);
        if (stm_begin_chapter(&store) != STM_DONE) return 0;
    }
    int none = requests == before;
    stm_lender_free(&lender);
    stm_store_free(&store);
    stm_program_free(&program);
    return none;
}

/* Whether this answers a run: with a good report, or with running out of memory. */
static int is_answer(int32_t code) {
    if (code != STM_DONE) return code == STM_MEMORY;
    long turn = refused;
    refused = 0;
    int32_t verdict = stm_check(file, length, room, wanted);
    refused = turn;
    return verdict == STM_DONE;
}

int main(int count, char **words) {
    if (count < 2) return 9;
    FILE *input = fopen(words[1], "rb");
    if (!input) return 9;
    length = fread(file, 1, sizeof file, input);
    fclose(input);
    /* Whole files: without a refusal nothing is left; with one the answer is out of memory, and nothing is left. */
    long all;
    if (stm_run_one(file, length, 0, room, sizeof room, &wanted) != STM_DONE || blocks != 0) return 2;
    for (all = requests, refused = 1; refused <= all; refused++) {
        requests = 0;
        int32_t code = stm_run_one(file, length, 0, room, sizeof room, &wanted);
        if (blocks != 0 || !is_answer(code)) return 3;
    }
    refused = 0;
    if (!takes_none()) return 8;
    /* A store: what stays is what the program says, and nothing else; a refusal changes nothing of that. */
    long kept, before = blocks;
    refused = 0;
    requests = 0;
    host(&kept);
    long stays = blocks - before;
    if (stays < 1 || blocks != kept) return 4;
    all = requests;
    for (long turn = 1; turn <= all; turn++) {
        before = blocks;
        requests = 0;
        refused = turn;
        host(&kept);
        if (blocks != kept || blocks - before > stays) return 5;
    }
    printf("%ld requests refused, %ld blocks stay\n", all, stays);
    return 0;
}
