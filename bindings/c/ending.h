/* How calls without a thread begin to wait and end. It is a part of service.c. All here stands under the lock. A thread
 * that owes something to such a call is in a call of the service until that is done. */
#ifndef STM_ENDING_H
#define STM_ENDING_H

#include "lines.h"

/* Its answer is there, and it is at no thread: it is told to who asks. */
static void tell_who_asks(stm_service *s, struct started *one) {
    struct told *told = &s->told;
    one->next = NULL;
    if (told->first) told->last->next = one;
    else told->first = one;
    told->last = one;
    if (held_back.of == s) held_back.is_any = true;
    else wake_first(s, &told->takers, STM_DONE);
}

/* One less of those whose host asks. */
static void count_down(stm_service *s, size_t count) {
    s->told.count -= count;
    if (s->is_closed && s->told.count == 0) wake_line(s, &s->told.takers, STM_DONE);
}

/* The desk knows it no more. */
static void forget(stm_service *s, struct started *one, enum standing standing) {
    take_from(&s->started, one);
    s->waiting--;
    s->long_ones -= one->is_long;
    one->is_due = false;
    one->standing = standing;
}

/* The call was answered so; of a fault the ticket is told. */
static void end_started(stm_service *s, struct started *one, stm_answer answer) {
    forget(s, one, HAS_ANSWER);
    one->is.answer = answer.entry > 0 ? answer : (stm_answer){one->ticket, answer.code, 0, 0, 0, 0};
    if (one->is_at_thread) return;
    if (!one->done) {
        tell_who_asks(s, one);
        return;
    }
    enter(s);
    owe_started(one);
}

/* Its job is to be evaluated: by this thread, if no other has it. */
static void begin_due(stm_service *s, struct started *one, const stm_job *job) {
    one->is.job = *job;
    one->is_due = true;
    if (one->is_at_thread) return;
    one->is_at_thread = true;
    enter(s);
    owe_started(one);
}

/* The desk has answered the call: it ended, or it waits, or it is long. If something is owed, it is so by who has
 * asked, who is in a call from now on. */
static void begin_started(stm_service *s, struct started *one, const stm_answer *answer) {
    one->ticket = answer->ticket;
    if (answer->entry > 0 && one->is_answered) return;
    s->told.count += !one->done;
    if (answer->entry > 0) {
        one->standing = HAS_ANSWER;
        one->is.answer = *answer;
        if (one->done) enter(s);
        else tell_who_asks(s, one);
        return;
    }
    one->is_long = one->is_due = one->is_at_thread = answer->code == STM_RUNNING;
    add_to(&s->started, one);
    s->waiting++;
    s->long_ones += one->is_long;
    if (one->is_at_thread) enter(s);
}

#endif
