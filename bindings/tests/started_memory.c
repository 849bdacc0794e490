/* Memory of calls without a thread, and of chapters that the host takes: each request is refused in turn, and a call is
 * not begun then, or is told so, and none is told twice or left behind; what one takes while it waits; and none of it
 * stays. Prints `good`. It brings its own memory. */
#include "counted.h"
#include "service.h"
#include "wants.h"

enum { INC, WAIT, GO, LONG, LONG_WAIT, FAR_WAIT, KINDS, MOST = 600, MANY = 60000, AT_MOST = 200 };
#define WORK "(repeat 10 (repeat 100 (set a (add a 1))))"
static const char TEXT[] =
    "(stm 3)(var n 0)(var out 0)(var a 0)(table t 300 0)"
    "(tx inc () (set n (add n 1)) n)(tx wait () (if (eq out 0) (retry) (skip)) out)(tx go () (set out 1) out)"
    "(tx long () (seq " WORK " (set n (add n 1))) n)"
    "(tx long_wait () (seq " WORK " (if (eq out 0) (retry) (skip))) out)"
    "(tx far_wait () (if (eq (add (sum t) out) 0) (retry) (skip)) (at t 3))";

/* Of each call its ticket, and how often it was told. */
static struct {
    int64_t ticket;
    int told;
} calls[MOST];
static int begun, told_memory;

static void is_told(void *own, stm_answer answer) {
    int *times = own;
    wants(++*times == 1);
    wants(answer.code == STM_DONE || ((answer.code == STM_MEMORY || answer.code == STM_CLOSED) && answer.ticket >= 0));
    told_memory += answer.code == STM_MEMORY;
}

static void starts(stm_service *s, uint32_t kind, stm_done *done) {
    calls[begun].told = 0;
    int64_t ticket = stm_start(s, kind, NULL, 0, done, &calls[begun].told);
    wants(ticket >= 0 || (ticket == STM_MEMORY && refused > 0 && ++told_memory));
    if (ticket < 0) wants(calls[begun].told == 0);
    calls[begun].ticket = ticket;
    begun++;
}

static void asks(stm_service *s) {
    stm_call_told room[10];
    int64_t got;
    while ((got = stm_told(s, room, 10, 0)) > 0)
        for (int64_t i = 0; i < got; i++) is_told(room[i].own, room[i].answer);
}

/* Takes the chapters that are there. */
static void takes(stm_service *s) {
    stm_ended chapter = {0};
    int32_t code;
    while ((code = stm_told_chapter(s, &chapter, 0)) == STM_DONE || code == STM_MEMORY) {
        if (code == STM_MEMORY) told_memory++;
        else wants(stm_chapter_kept(s, &chapter) == STM_DONE);
    }
    wants(code == STM_TIMED_OUT || code == STM_CLOSED);
}

/* Where it is refused memory, once more. */
static void calls_it(stm_service *s, uint32_t kind) {
    int32_t code = stm_atomically(s, kind, NULL, 0).code;
    if (code == STM_MEMORY) {
        told_memory++;
        takes(s);
        code = stm_atomically(s, kind, NULL, 0).code;
    }
    wants(code == STM_DONE);
}

/* All of a service's life, with so many more that wait. */
static void lives(int more) {
    stm_service_options options = {(size_t)more + 12, 0, 2, stm_takes_chapters, NULL};
    stm_service *s = NULL;
    begun = told_memory = 0;
    int32_t code = stm_service_open(TEXT, strlen(TEXT), &options, &s);
    if (code != STM_DONE) {
        wants(code == STM_MEMORY && !s);
        return;
    }
    for (uint32_t kind = 0; kind < KINDS; kind++)
        if (kind != GO) starts(s, kind, is_told), starts(s, kind, kind % 2 ? NULL : is_told);
    for (int i = 0; i < more; i++) starts(s, WAIT, is_told);
    if (calls[2].ticket >= 0) wants(stm_cancel(s, calls[2].ticket) == STM_DONE && ++calls[2].told);
    for (int i = 0; i < 20; i++) calls_it(s, INC), takes(s);
    calls_it(s, GO);
    asks(s);
    for (int i = 0; i < begun; i++) wants(calls[i].told == (calls[i].ticket >= 0));
    starts(s, INC, NULL);
    stm_service_free(s);
}

static long stays(void) {
    stm_program program = {0};
    long before = blocks;
    wants(stm_read(TEXT, strlen(TEXT), &program) == STM_DONE);
    stm_program_free(&program);
    return blocks - before;
}

static void each_refusal(int more, long from) {
    long stay = stays(), before = blocks, told = 0;
    requests = 0;
    lives(more);
    wants(stay > 0 && blocks - before == stay && told_memory == 0);
    long all = requests;
    for (refused = from; refused <= all; refused++) {
        requests = 0;
        before = blocks;
        lives(more);
        told += told_memory > 0;
        wants(blocks - before <= stay);
    }
    refused = 0;
    wants(told > (all - from) / 4);
}

static void nothing(void *own, stm_answer answer) { (void)own, (void)answer; }

/* What is taken since then, as malloc counts: each block has some bytes of its own. */
static long taken(long bytes_before, long blocks_before) {
    return bytes - bytes_before + 16 * (blocks - blocks_before);
}

/* What the desk by itself takes for so many that wait: their places in the store. */
static long of_desk[MANY + 1];

static void wait_at_a_desk(void) {
    stm_program program = {0};
    stm_store store = {0};
    stm_desk desk = {0};
    stm_job job;
    wants(stm_read(TEXT, strlen(TEXT), &program) == STM_DONE);
    wants(stm_open_with_room(&program, 0, 0, MANY, &store) == STM_DONE && stm_open_desk(&store, &desk) == STM_DONE);
    long before = bytes, of_blocks = blocks;
    for (long i = 1; i <= MANY; i++) {
        wants(stm_desk_ask(&desk, WAIT, NULL, 0, STM_WAITS, (uint64_t)i, &job).code == STM_RETRIES);
        of_desk[i] = taken(before, of_blocks);
    }
    stm_desk_free(&desk);
    stm_program_free(&program);
}

/* What one takes while it waits, beside its place in the store, with the table in which it is found. */
static void what_one_takes(void) {
    stm_service_options options = {MANY, 0, 0, NULL, NULL};
    stm_service *s = NULL;
    wait_at_a_desk();
    wants(stm_service_open(TEXT, strlen(TEXT), &options, &s) == STM_DONE);
    long before = bytes, of_blocks = blocks;
    for (long i = 1; i <= MANY; i++) {
        wants(stm_start(s, WAIT, NULL, 0, nothing, NULL) == i - 1);
        wants(taken(before, of_blocks) - of_desk[i] <= AT_MOST * i);
    }
    wants(stm_atomically(s, GO, NULL, 0).code == STM_NO_ROOM);
    stm_service_free(s);
}

int main(void) {
    what_one_takes();
    each_refusal(0, 1);
    each_refusal(300, 300);
    puts("good");
    return 0;
}
