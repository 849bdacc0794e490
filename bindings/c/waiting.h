/* The calls of a service that wait, and those that are long: what the desk tells is handed to their threads. It is a
 * part of service.c. */
#ifndef STM_WAITING_H
#define STM_WAITING_H

#include "ending.h"

/* How often a transaction is observed or tried beside the commits, before it is evaluated under the lock. */
enum { TRIES = 8 };

/* ---- Under the lock ---- */

/* The call waits from now on: it was answered that it retries, or that it is long. */
static void begin_wait(stm_service *s, struct call *call, const stm_answer *answer) {
    begin_call(call, answer->ticket);
    call->is_long = call->is_due = answer->code == STM_RUNNING;
    s->waiting++;
    s->long_ones += call->is_long;
}

/* The call's answer is there, and the desk knows the call no more. */
static void end(stm_service *s, struct call *call, stm_answer answer) {
    call->answer = answer.entry > 0 ? answer : bare(answer.code);
    call->is_told = true;
    s->waiting--;
    s->long_ones -= call->is_long;
}

/* Hands on what the desk tells: to each thread its answer, or the job that it is to evaluate; and of calls without a
 * thread to this one. */
static void hand_on(stm_service *s) {
    while (s->waiting > 0) {
        stm_desk_told told = stm_desk_next_told(&s->desk);
        struct call *call = place_of(told.whose);
        if (!call) break;
        s->woken += told.answer.entry > 0;
        if (is_started(told.whose)) {
            end_started(s, place_of(told.whose), told.answer);
            continue;
        }
        end(s, call, told.answer);
        owe(&s->lock, call);
    }
    while (s->long_ones > 0) {
        stm_desk_due due = stm_desk_next_due(&s->desk);
        struct call *call = place_of(due.whose);
        if (!call) break;
        if (is_started(due.whose)) {
            begin_due(s, place_of(due.whose), &due.job);
            continue;
        }
        call->job = due.job;
        call->is_due = true;
        owe(&s->lock, call);
    }
}

/* Its thread gives the call up, but where its answer is there. */
static void give_up(stm_service *s, struct call *call, int32_t code) {
    if (call->is_told) return;
    if (call->ticket < 0) {
        leave_line(call);
        call->answer = bare(code);
    } else if (stm_desk_leave(&s->desk, call->ticket) == STM_DONE) {
        end(s, call, bare(code));
    }
}

/* ---- By its thread, which does not have the lock ---- */

/* Waits for the call's answer. Where the thread waits no longer the call is given up. */
static void wait_for(stm_service *s, struct call *call, const struct timespec *until) {
    do_what_is_owed();
    if (is_rung(&call->bell, until)) return;
    take_lock(&s->lock);
    give_up(s, call, STM_TIMED_OUT);
    bool owed = call->is_owed;
    release(&s->lock);
    if (owed) is_rung_by(&call->bell, NULL);
}

/* Waits in the line, and has the lock before and after: the code that who waits there is woken with; STM_TIMED_OUT. */
static int32_t wait_in(stm_service *s, struct call **line, struct call *call, const struct timespec *until) {
    begin_call(call, -1);
    call->line = line;
    call->next = *line;
    *line = call;
    release(&s->lock);
    wait_for(s, call, until);
    take_lock(&s->lock);
    return call->answer.code;
}

/* What became of the job, which is evaluated by the worker beside what others commit; or under the lock, where none is
 * idle or too many commits came in between. The lock is held but while it is evaluated. */
static int32_t evaluate(stm_service *s, stm_worker *worker, const stm_job *job, const struct timespec *until) {
    for (int tries = 0; worker && tries < TRIES; tries++) {
        release(&s->lock);
        int32_t code = stm_try_job(worker, *job);
        take_lock(&s->lock);
        if (is_past(until)) return STM_TIMED_OUT;
        if (code == STM_DONE) code = stm_desk_bring(&s->desk, worker);
        if (code != STM_STALE) return code;
        s->stale++;
    }
    return stm_desk_run_now(&s->desk, *job);
}

/* The thread evaluates what is due of its call: so that is told its answer, or waits, or is due again. */
static void run_due(stm_service *s, struct call *call, const struct timespec *until) {
    stm_worker *worker = borrow(&s->workers);
    stm_job job = call->job;
    call->is_due = false;
    int32_t code = is_past(until) ? STM_TIMED_OUT : evaluate(s, worker, &job, until);
    hand_on(s);
    if (code == STM_TIMED_OUT || code == STM_MEMORY) give_up(s, call, code);
    if (worker) give_back(&s->workers, worker);
}

/* As `wait_for`, of a long one, which the thread evaluates whenever it is due. */
static void run_long(stm_service *s, struct call *call, const struct timespec *until) {
    take_lock(&s->lock);
    while (!call->is_told) {
        if (call->is_due) {
            run_due(s, call, until);
            continue;
        }
        release(&s->lock);
        do_what_is_owed();
        bool rung = is_rung(&call->bell, until);
        take_lock(&s->lock);
        if (rung) call->is_owed = false;
        else if (!call->is_due) give_up(s, call, STM_TIMED_OUT);
    }
    bool owed = call->is_owed;
    release(&s->lock);
    if (owed) is_rung_by(&call->bell, NULL);
}

#endif
