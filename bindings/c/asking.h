/* How the desk is asked for a call, and what is done where the chapter is full. It is a part of service.c. */
#ifndef STM_ASKING_H
#define STM_ASKING_H

#include "chapters.h"

static inline bool is_full(const stm_answer *answer) { return answer->entry == 0 && answer->code == STM_CHAPTER_FULL; }

/* Under the lock: the call was answered, and nothing was entered, or no thread waits for it. STM_CHAPTER_FULL is also
 * that the host is to be asked again for what it did not keep. */
static stm_answer heed(stm_service *s, uint64_t whose, stm_answer answer) {
    if (answer.entry == 0 && answer.code == STM_NO_ROOM && s->chapters.is_refused) answer.code = STM_CHAPTER_FULL;
    if (is_started(whose)) {
        if (answer.ticket >= 0) begin_started(s, place_of(whose), &answer);
    } else if (!is_over(&answer) && !is_full(&answer)) {
        begin_wait(s, place_of(whose), &answer);
    }
    return answer;
}

/* Under the lock: asks the desk, and hands on what it tells. */
static inline stm_answer ask_desk(stm_service *s, const struct asked *asked) {
    stm_answer answer = stm_desk_ask(&s->desk, asked->transaction, arguments_of(asked), asked->count, asked->way,
                                     asked->whose, place_of(asked->whose));
    if (answer.entry == 0 || is_started(asked->whose)) answer = heed(s, asked->whose, answer);
    if (s->waiting > 0) hand_on(s);
    return answer;
}

/* Asks where the chapter was found full, until one is not. With `call` the thread waits for the host. */
static stm_answer ask_again(stm_service *s, const struct asked *asked, struct call *call,
                            const struct timespec *until) {
    bool is_refused = false;
    take_lock(&s->lock);
    stm_answer answer = ask_desk(s, asked);
    while (is_full(&answer)) {
        int32_t code = end_chapter(s, call, until, &is_refused);
        answer = code == STM_DONE ? ask_desk(s, asked) : bare(code);
    }
    if (answer.code == STM_NOT_ENDED) answer.value = s->chapters.said;
    release(&s->lock);
    return answer;
}

#endif
