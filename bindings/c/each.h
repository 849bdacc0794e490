/* Many calls of one transaction at once: the thread takes the lock for some of them at a time. It is a part of
 * service.c. */
#ifndef STM_EACH_H
#define STM_EACH_H

#include "asking.h"

/* Calls that are made one after another: how many arguments each has, and those of all, one behind the other. */
struct each {
    uint32_t transaction;
    size_t count;
    const int64_t *arguments;
    size_t calls;
    stm_answer *answers;
    /* How many have their answers, and how many returned. */
    size_t answered, returned;
    /* How many are made in the next row: at first one, for nobody knows yet how long one takes. */
    size_t row;
};

/* The next one, as the desk is asked for it. A call that tries waits only for the host: there. */
static inline struct asked asked_next(const struct each *each, const struct call *there) {
    struct asked asked;
    const int64_t *given = each->count > 0 ? each->arguments + each->answered * each->count : NULL;
    ask_for(&asked, whose_is(there, false), STM_TRIES, each->transaction, given, each->count);
    return asked;
}

/* Whether those behind it are answered the same, and not made: there is no room, or the thread waits for some no
 * longer, or the service is closed. */
static inline bool ends_all(const stm_answer *answer) {
    if (answer->entry > 0) return false;
    return answer->code == STM_NO_ROOM || answer->code == STM_TIMED_OUT || answer->code == STM_CLOSED;
}

/* The next one is answered so, and maybe all behind it. */
static inline void answer_next(struct each *each, stm_answer answer) {
    each->answers[each->answered++] = answer;
    each->returned += answer.code == STM_DONE;
    while (ends_all(&answer) && each->answered < each->calls) each->answers[each->answered++] = answer;
}

/* Under the lock: makes calls until so many have their answers: whether none of them found the chapter full. */
static bool make_until(stm_service *s, struct each *each, size_t end, const struct call *there) {
    while (each->answered < end) {
        struct asked asked = asked_next(each, there);
        stm_answer answer = ask_desk(s, &asked);
        if (is_full(&answer)) return false;
        answer_next(each, answer);
    }
    return true;
}

/* Makes a row of calls, and then those of all who ask: whether none of its own found the chapter full. A row is so long
 * that it takes no longer than ROW_TIME, if it can be. */
static bool make_row(stm_service *s, struct each *each, const struct call *there) {
    size_t left = each->calls - each->answered, length = left < each->row ? left : each->row;
    take_lock(&s->lock);
    int64_t begun = clock_now();
    bool goes_on = make_until(s, each, each->answered + length, there);
    int64_t took = clock_now() - begun;
    release(&s->lock);
    do_what_is_owed();
    if (took > ROW_TIME && each->row > 1) each->row /= 2;
    if (took < ROW_TIME / 2 && each->row < MOST_ROW) each->row *= 2;
    return goes_on;
}

/* Makes all of them. With `waits` the thread waits for the host where it has to; else it stops there, and the next one
 * is answered STM_NOT_ENDED. */
static void make_all(stm_service *s, struct each *each, bool waits) {
    struct call call;
    stm_answer answer = bare(STM_DONE);
    int before;
    enter(s);
    pthread_setcancelstate(PTHREAD_CANCEL_DISABLE, &before);
    while (each->answered < each->calls && answer.code != STM_NOT_ENDED) {
        if (make_row(s, each, &call)) continue;
        struct asked asked = asked_next(each, &call);
        answer = ask_again(s, &asked, waits ? &call : NULL, NULL);
        if (answer.code == STM_NOT_ENDED) each->answers[each->answered] = answer;
        else answer_next(each, answer);
    }
    leave(s);
    pthread_setcancelstate(before, &before);
    do_what_is_owed();
}

size_t stm_each(stm_service *s, uint32_t transaction, const int64_t *arguments, size_t count, size_t calls,
                stm_answer *answers) {
    struct each each = {transaction, count, arguments, calls, answers, 0, 0, 1};
    make_all(s, &each, true);
    return each.returned;
}

size_t stm_ask_each(stm_service *s, uint32_t transaction, const int64_t *arguments, size_t count, size_t calls,
                    stm_answer *answers) {
    struct each each = {transaction, count, arguments, calls, answers, 0, 0, 1};
    make_all(s, &each, false);
    return each.answered;
}

#endif
