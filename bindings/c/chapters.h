/* The chapters of a service that end: its host is told one at a time, with no lock held. It is a part of service.c. */
#ifndef STM_CHAPTERS_H
#define STM_CHAPTERS_H

#include "waiting.h"

/* ---- What the host is told ---- */

typedef int32_t copies(stm_ended *, char *, size_t, size_t *);

/* Copies a text of the chapter, into a longer room where it has to be. */
static int32_t copy(struct text *text, stm_ended *ended, copies *by) {
    int32_t code = by(ended, text->at, text->room, &text->length);
    if (code != STM_SHORT) return code;
    struct block block = rattle_alloc(text->length, 16);
    if (!block.got) return STM_MEMORY;
    if (text->at) rattle_dealloc(text->at);
    text->at = block.at;
    text->room = text->length;
    return by(ended, text->at, text->room, &text->length);
}

static void free_texts(struct chapters *c) {
    if (c->file.at) rattle_dealloc(c->file.at);
    if (c->report.at) rattle_dealloc(c->report.at);
}

/* Tells the host file and report of the chapter: STM_DONE, it kept them; STM_NO_ROOM, it did not. */
static int32_t tell_host(stm_service *s, stm_ended *ended) {
    struct text *file = &s->chapters.file, *report = &s->chapters.report;
    int32_t code = copy(file, ended, stm_ended_file);
    if (code == STM_DONE) code = copy(report, ended, stm_ended_report);
    if (code != STM_DONE) return code;
    /* What the host's own calls find meanwhile is told after it. */
    bool was_doing = owed.is_doing;
    owed.is_doing = true;
    int failed = s->options.ended(s->options.own, file->at, file->length, report->at, report->length);
    owed.is_doing = was_doing;
    return failed ? STM_NO_ROOM : STM_DONE;
}

int stm_takes_chapters(void *own, const char *file, size_t file_length, const char *report,
                       size_t report_length) {
    (void)own, (void)file, (void)file_length, (void)report, (void)report_length;
    return 1;
}

static bool takes_chapters(const stm_service *s) { return s->options.ended == stm_takes_chapters; }

int stm_ask_keeper(void *own, const char *file, size_t file_length, const char *report, size_t report_length) {
    stm_keeper *keeper = own;
    keeper->file = file;
    keeper->file_length = file_length;
    keeper->report = report;
    keeper->report_length = report_length;
    keeper->kept = 0;
    keeper->asked(keeper->own);
    return keeper->kept ? 0 : 1;
}

/* ---- Under the lock, which is let go while the host is told or waited for ---- */

static bool is_teller(const stm_service *s) { return s->chapters.teller == &my_seat; }

/* The host takes the chapter that ended when it likes. */
static int32_t offer(stm_service *s, stm_ended *ended) {
    s->chapters.offered = *ended;
    s->chapters.is_due = false;
    wake_first(s, &s->chapters.takers, STM_DONE);
    return STM_DONE;
}

/* Tells the host a chapter that ended, and the desk what it says. Who waits for the host knows by this code whether it
 * kept the chapter. */
static int32_t tell(stm_service *s, stm_ended *ended) {
    if (takes_chapters(s)) return offer(s, ended);
    s->chapters.teller = &my_seat;
    release(&s->lock);
    int32_t code = tell_host(s, ended);
    take_lock(&s->lock);
    s->chapters.teller = NULL;
    s->chapters.said++;
    if (code == STM_DONE) stm_desk_kept(&s->desk, ended);
    else stm_desk_not_kept(&s->desk, ended);
    s->chapters.is_refused = code != STM_DONE;
    wake_line(s, &s->chapters.waiting, code);
    return code;
}

/* Waits until the host has said how it went: what it says; STM_TIMED_OUT. */
static int32_t wait_for_host(stm_service *s, struct call *call, const struct timespec *until) {
    return wait_in(s, &s->chapters.waiting, call, until);
}

/* The chapter is full. It ends, or the one before that was not kept is told again: STM_DONE, ask again; else the code
 * of the call's answer. A call has the host asked once for what it does not keep, and the host's own call not at all.
 * With no `call` the thread does not wait for the host, and the code is STM_NOT_ENDED. */
static int32_t end_chapter(stm_service *s, struct call *call, const struct timespec *until, bool *is_refused) {
    stm_ended ended = {0};
    if (is_teller(s) || (*is_refused && s->chapters.is_refused)) return STM_NO_ROOM;
    uint64_t chapter = stm_desk_chapter(&s->desk);
    bool is_told = s->options.ended != NULL;
    int32_t code = is_told ? stm_desk_end_chapter(&s->desk, &ended) : stm_desk_begin_chapter(&s->desk);
    hand_on(s);
    if (!is_told) return code;
    /* It may have ended all the same, and counts as not kept then. */
    if (code == STM_MEMORY && stm_desk_chapter(&s->desk) != chapter) {
        s->chapters.is_refused = true;
        s->chapters.is_due = takes_chapters(s);
    }
    if (code == STM_NOT_ENDED && !call) return code;
    if (code == STM_DONE) code = tell(s, &ended);
    else if (code == STM_NOT_ENDED) code = wait_for_host(s, call, until);
    else if (code == STM_MEMORY) wake_first(s, &s->chapters.takers, code);
    *is_refused = code == STM_NO_ROOM;
    return *is_refused ? STM_DONE : code;
}

/* Nothing is entered any more: once no other thread does so, the host is told what it did not keep. */
static void tell_last(stm_service *s) {
    struct call call;
    stm_ended ended = {0};
    while (s->chapters.teller && !is_teller(s)) wait_for_host(s, &call, NULL);
    if (s->chapters.teller) return;
    s->chapters.are_over = true;
    if (takes_chapters(s)) {
        s->chapters.is_due = s->chapters.offered.at || s->chapters.out || s->chapters.is_refused;
        return;
    }
    if (!s->chapters.is_refused) return;
    if (stm_desk_end_chapter(&s->desk, &ended) == STM_DONE) tell(s, &ended);
}

#endif
