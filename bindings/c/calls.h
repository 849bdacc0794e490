/* A call of a service: as it is asked for at a seat of the lock, and as it waits on its thread's stack. It is a part of
 * service.c. */
#ifndef STM_CALLS_H
#define STM_CALLS_H

#include "bell.h"
#include "lock.h"

/* How many arguments are asked for in a line of memory. */
enum { FEW = 4, MOST_ARGUMENTS = 8 };

/* What a call asks for. */
struct asked {
    uint32_t transaction;
    /* One of `enum stm_way`. */
    uint32_t way;
    size_t count;
    /* Where it lies while it waits, as the desk is told. */
    uint64_t whose;
    /* More than few lie where its thread has them. */
    union {
        int64_t given[FEW];
        const int64_t *elsewhere;
    } arguments;
};

/* A call as it lies at a seat, and then its answer. */
union seated {
    struct asked asked;
    stm_answer answer;
    unsigned char room[CALL];
};

/* A call that waits, for its task or in a line, or whose task its thread evaluates: on its thread's stack. */
struct call {
    /* Of a long one: the job that its thread is to evaluate, if it is. */
    stm_job job;
    bool is_long, is_due;
    /* Its task; -1: it waits in this line. */
    int64_t ticket;
    struct call **line;
    /* Whether its answer is there. */
    bool is_told;
    stm_answer answer;
    /* Whether its bell is to be rung, or was and its thread has not seen it yet. */
    bool is_owed;
    /* The next one to ring, or in its line. */
    struct call *next;
    struct bell bell;
};

/* Whose call it is, by a number: where it lies; and one more where no thread waits for it (started.h). In either place
 * the job comes first. */
static inline uint64_t whose_is(const void *call, bool is_started) { return (uint64_t)(uintptr_t)call | is_started; }
static inline bool is_started(uint64_t whose) { return whose & 1; }
static inline void *place_of(uint64_t whose) { return (void *)(uintptr_t)(whose & ~(uint64_t)1); }

static inline const int64_t *arguments_of(const struct asked *asked) {
    return asked->count <= FEW ? asked->arguments.given : asked->arguments.elsewhere;
}

/* What a call asks for. Its arguments are there, or stay where they are until it was made. */
static inline void ask_for(struct asked *asked, uint64_t whose, uint32_t way, uint32_t transaction,
                           const int64_t *arguments, size_t count) {
    *asked = (struct asked){transaction, way, count, whose, {{0}}};
    if (count > FEW) asked->arguments.elsewhere = arguments;
    else for (size_t i = 0; i < count; i++) asked->arguments.given[i] = arguments[i];
}

/* An answer of no task. */
static inline stm_answer bare(int32_t code) { return (stm_answer){-1, code, 0, 0, 0, 0}; }

/* Whether a call has its answer by that; else its thread has to do something for it. */
static inline bool is_over(const stm_answer *answer) {
    if (answer->entry > 0) return true;
    if (answer->code == STM_RETRIES) return answer->ticket < 0;
    return answer->code != STM_RUNNING && answer->code != STM_CHAPTER_FULL;
}

/* With this ticket it has no answer yet. */
static void begin_call(struct call *call, int64_t ticket) {
    call->ticket = ticket;
    call->is_long = call->is_due = call->is_told = call->is_owed = false;
    call->bell.state = QUIET;
}

/* By who has the lock: its bell is rung when that is let go. */
static void owe(struct lock *l, struct call *call) {
    if (call->is_owed) return;
    call->is_owed = true;
    call->next = l->left;
    l->left = call;
}

/* Rings the bells from this call's on. */
static void ring_all(void *first) {
    for (struct call *next, *call = first; call; call = next) {
        next = call->next;
        ring(&call->bell);
    }
}

#endif
