/* Calls without a thread: how they are started, given up and told, and what the threads that find them out do for them.
 * It is a part of service.c. */
#ifndef STM_STARTING_H
#define STM_STARTING_H

#include "asking.h"

/* ---- What is owed, by a thread without the lock ---- */

/* The host is told, and the call is gone before. */
static void call_host(struct started *one) {
    stm_service *s = one->service;
    stm_done *done = one->done;
    void *own = one->own;
    stm_answer answer = one->is.answer;
    rattle_dealloc(one);
    done(own, answer);
    leave(s);
}

/* Has the lock: evaluates the job for as long as there is one. */
static void evaluate_started(stm_service *s, struct started *one) {
    while (one->is_due) {
        stm_worker *worker = borrow(&s->workers);
        stm_job job = one->is.job;
        one->is_due = false;
        int32_t code = evaluate(s, worker, &job, NULL);
        hand_on(s);
        bool fails = code == STM_MEMORY && one->standing == STILL_WAITS;
        if (fails && stm_desk_leave(&s->desk, one->ticket) == STM_DONE) end_started(s, one, bare(code));
        if (worker) give_back(&s->workers, worker);
    }
}

/* The call's job is evaluated, and what became of the call meanwhile is done. */
static void run_started(struct started *one) {
    stm_service *s = one->service;
    take_lock(&s->lock);
    evaluate_started(s, one);
    bool waits = one->standing == STILL_WAITS, is_left = one->standing == IS_LEFT, asks = !one->done;
    one->is_at_thread = false;
    if (!waits && !is_left && asks) tell_who_asks(s, one);
    release(&s->lock);
    if (is_left) rattle_dealloc(one);
    if (waits || is_left || asks) leave(s);
    else call_host(one);
}

__attribute__((noinline)) static void do_all_owed(void) {
    int before;
    pthread_setcancelstate(PTHREAD_CANCEL_DISABLE, &before);
    owed.is_doing = true;
    for (struct started *one; (one = owed.first);) {
        owed.first = one->next;
        if (one->is_at_thread) run_started(one);
        else call_host(one);
    }
    owed.is_doing = false;
    pthread_setcancelstate(before, &before);
}

/* ---- What the host calls ---- */

static struct started *new_started(stm_service *s, stm_done *done, void *own) {
    struct block block = rattle_alloc(sizeof(struct started), 16);
    if (!block.got) return NULL;
    struct started *one = memset(block.at, 0, sizeof *one);
    one->service = s;
    one->done = done;
    one->own = own;
    return one;
}

/* The chapter was full when it was asked for. */
__attribute__((noinline)) static stm_answer start_again(stm_service *s, const struct asked *asked, bool waits) {
    struct call call;
    int before;
    held_back.of = NULL;
    pthread_setcancelstate(PTHREAD_CANCEL_DISABLE, &before);
    stm_answer answer = ask_again(s, asked, waits ? &call : NULL, NULL);
    leave(s);
    pthread_setcancelstate(before, &before);
    return answer;
}

/* The call is asked for; where it waits, what becomes of it is told. `waits`: for a host that is told a chapter. From
 * here on another thread may have let it go, but where it has its answer or something is owed. */
static inline stm_answer start(stm_service *s, struct started *one, bool waits, uint32_t way, uint32_t transaction,
                               const int64_t *arguments, size_t count) {
    union seated seated;
    ask_for(&seated.asked, whose_is(one, true), way, transaction, arguments, count);
    make_call(&s->lock, &seated);
    if (is_full(&seated.answer)) {
        struct asked asked;
        ask_for(&asked, whose_is(one, true), way, transaction, arguments, count);
        seated.answer = start_again(s, &asked, waits);
    }
    return seated.answer;
}

int64_t stm_start(stm_service *s, uint32_t transaction, const int64_t *arguments, size_t count, stm_done *done,
                  void *own) {
    struct started *one = new_started(s, done, own);
    if (!one) return STM_MEMORY;
    stm_answer answer = start(s, one, !takes_chapters(s), STM_WAITS, transaction, arguments, count);
    if (answer.ticket < 0) rattle_dealloc(one);
    else if (answer.entry > 0 ? done != NULL : answer.code == STM_RUNNING) owe_started(one);
    do_what_is_owed();
    if (answer.code == STM_NOT_ENDED) return STM_NO_ROOM;
    return answer.ticket < 0 ? answer.code : answer.ticket;
}

/* What became of calls is told in the room of the one that was asked for, if it is held back for that. */
static void tell_here(stm_service *s, stm_request *request, size_t room);

int32_t stm_ask(stm_service *s, stm_request *request) {
    size_t room = request->told_room;
    bool is_known = request->count <= MOST_ARGUMENTS;
    struct started *one = is_known ? new_started(s, NULL, request->own) : NULL;
    request->told_count = 0;
    request->answer = bare(is_known ? STM_MEMORY : STM_UNKNOWN);
    if (!one) return request->answer.code;
    one->is_answered = true;
    held_back.of = room > 0 ? s : NULL;
    stm_answer answer = start(s, one, false, request->way, request->transaction, request->arguments, request->count);
    held_back.of = NULL;
    bool waits = answer.entry == 0 && answer.ticket >= 0;
    request->answer = answer;
    if (!waits) rattle_dealloc(one);
    else if (answer.code == STM_RUNNING) owe_started(one);
    if (held_back.is_any) tell_here(s, request, room);
    do_what_is_owed();
    return waits ? STM_RUNNING : answer.code;
}

int32_t stm_cancel(stm_service *s, int64_t ticket) {
    lock(s);
    struct started *one = found_in(&s->started, ticket), *left = NULL;
    int32_t code = one && stm_desk_leave(&s->desk, ticket) == STM_DONE ? STM_DONE : STM_TOO_LATE;
    if (code == STM_DONE) {
        forget(s, one, IS_LEFT);
        if (!one->done) count_down(s, 1);
        if (!one->is_at_thread) left = one;
    }
    unlock_and_leave(s);
    if (left) rattle_dealloc(left);
    return code;
}

/* ---- Who asks what became of calls ---- */

/* Under the lock: takes as many as there are, but no more than that: the first one, and how many. */
static struct started *take_told(stm_service *s, size_t most, size_t *count) {
    struct started *first = s->told.first, *after = first;
    struct started **end = &first;
    for (*count = 0; after && *count < most; ++*count) after = *(end = &after->next);
    *end = NULL;
    s->told.first = after;
    count_down(s, *count);
    return first;
}

static void tell_all(struct started *one, stm_call_told *room) {
    for (struct started *next; one; one = next) {
        next = one->next;
        *room++ = (stm_call_told){one->own, one->is.answer};
        rattle_dealloc(one);
    }
}

static void tell_here(stm_service *s, stm_request *request, size_t room) {
    held_back.is_any = false;
    lock(s);
    struct started *first = take_told(s, room, &request->told_count);
    if (s->told.first) wake_first(s, &s->told.takers, STM_DONE);
    unlock_and_leave(s);
    tell_all(first, request->told);
}

static bool is_more_to_tell(const stm_service *s) { return !s->is_closed || s->told.count > 0; }

/* Waits until there is one to be told, or none will be, or until then: how many it has taken, and the first one. */
static struct started *wait_for_told(stm_service *s, size_t most, uint64_t nanoseconds, int64_t *answer) {
    struct call call;
    const struct timespec until = time_in(nanoseconds);
    bool waits = nanoseconds > 0 && most > 0;
    size_t count;
    lock(s);
    struct started *first = take_told(s, most, &count);
    while (waits && count == 0 && is_more_to_tell(s)) {
        waits = wait_in(s, &s->told.takers, &call, &until) != STM_TIMED_OUT;
        first = take_told(s, most, &count);
    }
    *answer = count > 0 || is_more_to_tell(s) ? (int64_t)count : STM_CLOSED;
    unlock_and_leave(s);
    return first;
}

int64_t stm_told(stm_service *s, stm_call_told *room, size_t count, uint64_t nanoseconds) {
    int before;
    int64_t answer;
    pthread_setcancelstate(PTHREAD_CANCEL_DISABLE, &before);
    struct started *one = wait_for_told(s, count, nanoseconds, &answer);
    tell_all(one, room);
    pthread_setcancelstate(before, &before);
    return answer;
}

/* Those that nobody asked for, and the table, of a service that is let go. */
static void free_started(stm_service *s) {
    for (struct started *next, *one = s->told.first; one; one = next) {
        next = one->next;
        rattle_dealloc(one);
    }
    close_table(&s->started);
}

#endif
