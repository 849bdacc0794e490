/* The chapters of a service whose host takes them. It is a part of service.c. */
#ifndef STM_TAKING_H
#define STM_TAKING_H

#include "chapters.h"

/* Under the lock: the chapter that is to be taken, if there is one: STM_DONE, STM_NOT_READY, STM_MEMORY, STM_CLOSED. */
static int32_t take_chapter(stm_service *s, stm_ended *chapter) {
    struct chapters *c = &s->chapters;
    int32_t code = s->is_closed && !c->out ? STM_CLOSED : STM_NOT_READY;
    if (c->offered.at) {
        *chapter = c->offered;
        c->offered.at = NULL;
        code = STM_DONE;
    } else if (c->is_due && !c->out) {
        code = stm_desk_end_chapter(&s->desk, chapter);
        c->is_due = code != STM_DONE;
        hand_on(s);
    }
    if (code == STM_DONE) c->out = chapter->at;
    return code;
}

int32_t stm_told_chapter(stm_service *s, stm_ended *chapter, uint64_t nanoseconds) {
    struct call call;
    const struct timespec until = time_in(nanoseconds);
    bool waits = nanoseconds > 0;
    int before;
    if (chapter->at) return STM_FULL;
    if (!takes_chapters(s)) return STM_NOT_ENDED;
    pthread_setcancelstate(PTHREAD_CANCEL_DISABLE, &before);
    lock(s);
    int32_t code = take_chapter(s, chapter);
    while (waits && code == STM_NOT_READY) {
        waits = wait_in(s, &s->chapters.takers, &call, &until) != STM_TIMED_OUT;
        code = take_chapter(s, chapter);
    }
    unlock_and_leave(s);
    pthread_setcancelstate(before, &before);
    return code == STM_NOT_READY ? STM_TIMED_OUT : code;
}

/* The host has said how it went with the chapter: who waits for that goes on. */
static int32_t says(stm_service *s, stm_ended *chapter, int32_t (*tells)(stm_desk *, stm_ended *), int32_t went) {
    lock(s);
    int32_t code = !chapter->at ? STM_EMPTY : chapter->at != s->chapters.out ? STM_NOT_ENDED : tells(&s->desk, chapter);
    if (code == STM_DONE) {
        s->chapters.out = NULL;
        s->chapters.said++;
        s->chapters.is_refused = went != STM_DONE;
        s->chapters.is_due &= s->chapters.is_refused;
        wake_line(s, &s->chapters.waiting, went);
        wake_line(s, &s->chapters.takers, STM_DONE);
    }
    unlock_and_leave(s);
    return code;
}

int32_t stm_chapter_kept(stm_service *s, stm_ended *chapter) { return says(s, chapter, stm_desk_kept, STM_DONE); }

int32_t stm_chapter_not_kept(stm_service *s, stm_ended *chapter) {
    return says(s, chapter, stm_desk_not_kept, STM_NO_ROOM);
}

#endif
