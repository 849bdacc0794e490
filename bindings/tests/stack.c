/* stack FILE [refused]: makes each kind of call on the file, on a stack that was painted before, and prints the bytes of it
 * that the most greedy call has touched, and those that opening a desk has. With a second word each call has to refuse the
 * file for a name. */
#include "desk.h"

#include <pthread.h>
#include <stdio.h>
#include <stdlib.h>
#include <string.h>
#include <sys/mman.h>

enum { SIZE = 1 << 20, PAINT = 0xa5, OPENS = 6, CALLS = 8 };

static char file[1 << 20], report[8388608], *room;
static size_t length, report_length, wanted;
static const char schedule[] = "begin 0\ncommit 0\n";
static int call, refused;

/* A store, each of whose tasks is tried, brought and observed, and given a turn. */
static int32_t host(void) {
    stm_program program = {0};
    stm_store store = {0};
    stm_worker worker = {0};
    stm_lender lender = {0};
    int32_t code = stm_read(file, length, &program);
    if (refused) return code;
    if (code != STM_DONE || stm_open(&program, 1, 3, &store) != STM_DONE) exit(2);
    if (stm_open_worker(&store, &worker) == STM_DONE && stm_open_lender(&store, &lender) == STM_DONE) {
        for (stm_job job; (job = stm_take(&store)).ticket >= 0;) {
            stm_observe(&worker, job.transaction, NULL, 0);
            if (stm_try_job(&worker, job) == STM_DONE) stm_bring(&store, &worker);
            stm_turn(&store, &lender, job);
        }
        stm_turns(&store, &lender, 9);
    }
    stm_checkpoint(&store);
    stm_report(&store, room, sizeof report, &wanted);
    stm_file(&store, room, sizeof report, &wanted);
    stm_worker_free(&worker);
    stm_lender_free(&lender);
    stm_store_free(&store);
    stm_program_free(&program);
    return STM_DONE;
}

/* What came of a call is told; what is long is tried, brought, and run. */
static void asks(stm_desk *desk, stm_worker *worker, uint32_t transaction, uint32_t way) {
    stm_job job;
    if (stm_desk_ask(desk, transaction, NULL, 0, way, 1, &job).code == STM_RUNNING) {
        if (stm_try_job(worker, job) == STM_DONE) stm_desk_bring(desk, worker);
        stm_desk_run_now(desk, job);
    }
    stm_desk_next_told(desk);
    stm_desk_next_due(desk);
}

static stm_program program;
static stm_worker worker;
static stm_desk desk;

static int32_t opens(void) {
    stm_store store = {0};
    int32_t code = stm_read(file, length, &program);
    if (refused) return code;
    if (code != STM_DONE || stm_open(&program, 1, 3, &store) != STM_DONE) exit(2);
    stm_open_worker(&store, &worker);
    return stm_open_desk(&store, &desk);
}

/* The desk that was opened: it is asked for each transaction, in two chapters of it. */
static int32_t works(void) {
    stm_ended ended = {0};
    if (refused) return STM_FILE_NAME;
    for (int chapter = 0; chapter < 2; chapter++) {
        for (uint32_t transaction = 0; transaction < stm_program_transactions(&program); transaction++)
            for (uint32_t way = STM_WAITS; way <= STM_TRIES; way++) asks(&desk, &worker, transaction, way);
        stm_desk_report(&desk, room, sizeof report, &wanted);
        stm_desk_file(&desk, room, sizeof report, &wanted);
        if (stm_desk_end_chapter(&desk, &ended) != STM_DONE) exit(2);
        stm_ended_report(&ended, room, sizeof report, &wanted);
        stm_ended_file(&ended, room, sizeof report, &wanted);
        if (stm_desk_kept(&desk, &ended) != STM_DONE) exit(2);
    }
    stm_desk_close(&desk);
    stm_worker_free(&worker);
    stm_desk_free(&desk);
    stm_program_free(&program);
    return STM_DONE;
}

static void *makes(void *unused) {
    int32_t code = 0;
    switch (call) {
    case 0: code = stm_run_one(file, length, 0, room, sizeof report, &wanted); break;
    case 1: code = stm_check(file, length, report, report_length); break;
    case 2: code = stm_world(file, length, schedule, strlen(schedule), room, sizeof report, &wanted); break;
    case 3: code = stm_explore(file, length, 100, room, sizeof report, &wanted); break;
    case 4: code = stm_explore_to(file, length, 100, 1, room, sizeof report, &wanted); break;
    case 5: code = host(); break;
    case OPENS: code = opens(); break;
    default: code = works();
    }
    if (refused ? code != STM_FILE_NAME : code < 0) fprintf(stderr, "call %d answers %d\n", call, (int)code), exit(2);
    return unused;
}

/* How many bytes of a fresh stack the call touches. */
static size_t used(void) {
    pthread_attr_t attributes;
    pthread_t thread;
    uint8_t *stack = mmap(NULL, SIZE, PROT_READ | PROT_WRITE, MAP_PRIVATE | MAP_ANONYMOUS, -1, 0);
    if (stack == MAP_FAILED) exit(3);
    memset(stack, PAINT, SIZE);
    if (pthread_attr_init(&attributes) || pthread_attr_setstack(&attributes, stack, SIZE)) exit(3);
    if (pthread_create(&thread, &attributes, makes, NULL) || pthread_join(thread, NULL)) exit(3);
    size_t clean = 0;
    while (clean < SIZE && stack[clean] == PAINT) clean++;
    munmap(stack, SIZE);
    return SIZE - clean;
}

int main(int count, char **words) {
    size_t most = 0, opening = 0;
    if (count < 2) return 9;
    FILE *input = fopen(words[1], "rb");
    if (!input) return 9;
    length = fread(file, 1, sizeof file, input);
    fclose(input);
    room = malloc(sizeof report);
    refused = count > 2;
    if (!room || (!refused && stm_run_one(file, length, 0, report, sizeof report, &report_length) != STM_DONE)) return 2;
    for (call = 0; call < CALLS; call++) {
        size_t bytes = used(), *of = call == OPENS ? &opening : &most;
        if (bytes > *of) *of = bytes;
    }
    printf("%zu %zu\n", most, opening);
    return 0;
}
