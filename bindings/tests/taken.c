/* Chapters that the host takes: each is told until it was kept, by its number, with file and report, a pair; calls go
 * on while one is out, and wait where the next one is full too; and the end of the service. Prints `good`. */
#include "judging.h"

#include <pthread.h>
#include <stdbool.h>
#include <time.h>

enum { INC, GET, MILLISECOND = 1000000 };
static const uint64_t LONG_TIME = (uint64_t)60 * 1000 * MILLISECOND;
static const char TEXT[] = "(stm 3)(var n 0)(tx inc () (set n (add n 1)) n)(tx get (k) (if (lt n k) (retry) (skip)) n)";

static stm_service *taking(size_t room) {
    return opens(TEXT, &(stm_service_options){room, 0, 0, stm_takes_chapters, NULL});
}

static int32_t incs(stm_service *s, int times) {
    stm_answer answer = {0};
    for (int i = 0; i < times; i++) answer = stm_atomically(s, INC, NULL, 0);
    return answer.code;
}

/* A text of the chapter, in a room that is as long as it has to be. */
static char *text_of(stm_ended *chapter, int32_t (*by)(stm_ended *, char *, size_t, size_t *), size_t *length) {
    wants(by(chapter, NULL, 0, length) == STM_SHORT);
    char *text = malloc(*length);
    wants(text && by(chapter, text, *length, length) == STM_DONE);
    return text;
}

/* Whether the chapter has this number, and as many entries. */
static bool is(stm_ended *chapter, uint64_t number, long entries) {
    struct judged judged = {{"\nentry "}, {0}, 0};
    size_t file_length, report_length;
    char *file = text_of(chapter, stm_ended_file, &file_length);
    char *report = text_of(chapter, stm_ended_report, &report_length);
    judges(&judged, file, file_length, report, report_length);
    free(file);
    free(report);
    return stm_ended_chapter(chapter) == number && judged.lines[0] == entries;
}

/* ---- In one thread ---- */

static void is_taken(void) {
    stm_service *s = taking(3);
    stm_ended chapter = {0};
    wants(stm_told_chapter(s, &chapter, 0) == STM_TIMED_OUT);
    wants(stm_told_chapter(s, &chapter, MILLISECOND) == STM_TIMED_OUT);
    wants(incs(s, 3) == STM_DONE && stm_told_chapter(s, &chapter, 0) == STM_TIMED_OUT && !chapter.at);
    /* One call more, and the first has ended. The next has room for it and two more. */
    wants(incs(s, 1) == STM_DONE && stm_told_chapter(s, &chapter, 0) == STM_DONE && is(&chapter, 0, 3));
    wants(incs(s, 2) == STM_DONE && stm_told_chapter(s, &chapter, 0) == STM_FULL && is(&chapter, 0, 3));
    stm_ended other = {0};
    wants(stm_told_chapter(s, &other, MILLISECOND) == STM_TIMED_OUT && stm_chapter_kept(s, &other) == STM_EMPTY);
    wants(stm_atomically_within(s, INC, NULL, 0, MILLISECOND).code == STM_TIMED_OUT);
    wants(stm_start(s, INC, NULL, 0, NULL, NULL) == STM_NO_ROOM && stm_service_entered(s) == 6);
    wants(stm_chapter_kept(s, &chapter) == STM_DONE && !chapter.at && stm_chapter_kept(s, &chapter) == STM_EMPTY);
    wants(stm_start(s, INC, NULL, 0, NULL, NULL) == 6);
    wants(stm_told_chapter(s, &chapter, LONG_TIME) == STM_DONE && is(&chapter, 1, 3));
    stm_service_close(s);
    wants(stm_chapter_kept(s, &chapter) == STM_DONE && stm_told_chapter(s, &chapter, LONG_TIME) == STM_CLOSED);
    struct judged judged = {{"\nentry "}, {0}, 0};
    judges_the_last(s, &judged);
    wants(judged.lines[0] == 1);
    stm_service_free(s);
}

static void is_not_kept(stm_service *s, stm_ended *chapter) {
    wants(stm_told_chapter(s, chapter, LONG_TIME) == STM_DONE && is(chapter, 0, 3));
    wants(stm_chapter_not_kept(s, chapter) == STM_DONE && !chapter->at);
    wants(stm_chapter_not_kept(s, chapter) == STM_EMPTY);
}

/* It is told again when the next chapter is full too, by each call that finds it so, and once by each closing. */
static void is_told_until_it_is_kept(void) {
    stm_service *s = taking(3);
    stm_ended chapter = {0};
    wants(incs(s, 4) == STM_DONE);
    is_not_kept(s, &chapter);
    wants(stm_told_chapter(s, &chapter, MILLISECOND) == STM_TIMED_OUT && stm_service_chapter(s) == 1);
    wants(incs(s, 2) == STM_DONE && stm_told_chapter(s, &chapter, 0) == STM_TIMED_OUT);
    for (int i = 0; i < 3; i++) {
        if (i % 2) wants(stm_atomically_within(s, INC, NULL, 0, MILLISECOND).code == STM_TIMED_OUT);
        else wants(stm_start(s, INC, NULL, 0, NULL, NULL) == STM_NO_ROOM);
        is_not_kept(s, &chapter);
        wants(stm_told_chapter(s, &chapter, 0) == STM_TIMED_OUT && !chapter.at);
    }
    for (int i = 0; i < 3; i++) {
        stm_service_close(s);
        is_not_kept(s, &chapter);
        wants(stm_told_chapter(s, &chapter, LONG_TIME) == STM_CLOSED);
    }
    stm_service_close(s);
    wants(stm_told_chapter(s, &chapter, 0) == STM_DONE && is(&chapter, 0, 3));
    wants(stm_chapter_kept(s, &chapter) == STM_DONE && stm_told_chapter(s, &chapter, LONG_TIME) == STM_CLOSED);
    stm_service_close(s);
    wants(stm_told_chapter(s, &chapter, LONG_TIME) == STM_CLOSED);
    stm_service_free(s);
}

/* It is closed while its host has the chapter, or could take it: what it does not keep then is told once more. */
static void is_closed_meanwhile(bool is_out) {
    stm_service *s = taking(3);
    stm_ended chapter = {0};
    wants(incs(s, 4) == STM_DONE);
    if (is_out) wants(stm_told_chapter(s, &chapter, 0) == STM_DONE);
    stm_service_close(s);
    if (is_out) wants(stm_chapter_not_kept(s, &chapter) == STM_DONE);
    else is_not_kept(s, &chapter);
    is_not_kept(s, &chapter);
    wants(stm_told_chapter(s, &chapter, LONG_TIME) == STM_CLOSED);
    stm_service_free(s);
}

/* It is its host's, also when the service is gone; and one that nobody took goes with the service. */
static void outlives_the_service(void) {
    stm_service *s = taking(3);
    stm_ended chapter = {0};
    wants(incs(s, 4) == STM_DONE && stm_told_chapter(s, &chapter, 0) == STM_DONE);
    stm_service_free(s);
    wants(is(&chapter, 0, 3));
    s = taking(3);
    wants(stm_chapter_kept(s, &chapter) == STM_NOT_ENDED && incs(s, 4) == STM_DONE);
    wants(stm_chapter_kept(s, &chapter) == STM_NOT_ENDED && stm_chapter_not_kept(s, &chapter) == STM_NOT_ENDED);
    stm_ended_free(&chapter);
    wants(incs(s, 2) == STM_DONE);
    stm_service_free(s);
}

static void takes_none(void) {
    struct judged judged = {{"\nentry "}, {0}, 0};
    stm_service *s = opens(TEXT, &(stm_service_options){3, 0, 0, judges, &judged});
    stm_ended chapter = {0};
    wants(incs(s, 4) == STM_DONE && stm_told_chapter(s, &chapter, LONG_TIME) == STM_NOT_ENDED && judged.chapters == 1);
    stm_service_free(s);
}

/* ---- Threads ---- */

enum { THREADS = 4, CALLS = 500, ROOM = 20 };
static long entries, chapters, refusals;

/* Each second one is not kept at first. */
static void *takes(void *service) {
    stm_ended chapter = {0};
    int32_t code;
    uint64_t number = 0;
    bool refuses = true;
    while ((code = stm_told_chapter(service, &chapter, LONG_TIME)) == STM_DONE) {
        if (refuses) {
            wants(stm_chapter_not_kept(service, &chapter) == STM_DONE);
            refusals++;
        } else {
            wants(is(&chapter, number, ROOM) && stm_chapter_kept(service, &chapter) == STM_DONE);
            number++, chapters++, entries += ROOM;
        }
        refuses = !refuses;
    }
    wants(code == STM_CLOSED);
    return NULL;
}

static void *calls(void *service) {
    for (int i = 0; i < CALLS;) {
        int32_t code = stm_atomically(service, INC, NULL, 0).code;
        wants(code == STM_DONE || code == STM_NO_ROOM);
        i += code == STM_DONE;
    }
    return NULL;
}

/* None is lost, and each is told in its turn. */
static void beside_calls(void) {
    stm_service *s = taking(ROOM);
    pthread_t taker, callers[THREADS];
    wants(pthread_create(&taker, NULL, takes, s) == 0);
    for (int i = 0; i < THREADS; i++) wants(pthread_create(&callers[i], NULL, calls, s) == 0);
    for (int i = 0; i < THREADS; i++) pthread_join(callers[i], NULL);
    stm_service_close(s);
    pthread_join(taker, NULL);
    struct judged judged = {{"\nentry "}, {0}, 0};
    judges_the_last(s, &judged);
    wants(value_of(s, "n") == THREADS * CALLS && entries + judged.lines[0] == THREADS * CALLS);
    wants(chapters == (long)stm_service_chapter(s));
    wants(refusals >= chapters);
    stm_service_free(s);
}

/* Calls that wait for the host are answered: the chapter was kept, or not, or the service was closed. */
static int32_t answered;

static void *calls_once(void *service) {
    int32_t code = stm_atomically(service, INC, NULL, 0).code;
    __atomic_store_n(&answered, code, __ATOMIC_RELEASE);
    return NULL;
}

/* Whenever the call comes. */
static void keeps_none(stm_service *s, stm_ended *chapter) {
    wants(stm_chapter_not_kept(s, chapter) == STM_DONE);
    while (__atomic_load_n(&answered, __ATOMIC_ACQUIRE) == STM_STALE)
        if (stm_told_chapter(s, chapter, MILLISECOND) == STM_DONE) wants(stm_chapter_not_kept(s, chapter) == STM_DONE);
}

static void rests(void) { nanosleep(&(struct timespec){0, 20 * MILLISECOND}, NULL); }

static void who_waits_is_answered(int32_t wanted) {
    stm_service *s = taking(2);
    stm_ended chapter = {0};
    pthread_t thread;
    answered = STM_STALE;
    wants(incs(s, 4) == STM_DONE && stm_told_chapter(s, &chapter, 0) == STM_DONE);
    wants(pthread_create(&thread, NULL, calls_once, s) == 0);
    rests();
    if (wanted == STM_DONE) wants(stm_chapter_kept(s, &chapter) == STM_DONE);
    if (wanted == STM_NO_ROOM) keeps_none(s, &chapter);
    if (wanted == STM_CLOSED) stm_service_close(s);
    pthread_join(thread, NULL);
    wants(answered == wanted);
    stm_ended_free(&chapter);
    stm_service_free(s);
}

/* ---- Calls without a thread ---- */

static stm_service *of_it;
static long told;

static void goes_on(void *own, stm_answer answer) {
    (void)own;
    wants(answer.code == STM_DONE && ++told == answer.value);
    if (told < 100) {
        while (stm_start(of_it, INC, NULL, 0, goes_on, NULL) == STM_NO_ROOM) {
            stm_ended chapter = {0};
            wants(stm_told_chapter(of_it, &chapter, 0) == STM_DONE && stm_chapter_kept(of_it, &chapter) == STM_DONE);
        }
    }
}

/* One thread starts calls, each from the one before, and takes the chapters. */
static void one_thread_does_both(void) {
    of_it = taking(7);
    wants(stm_start(of_it, INC, NULL, 0, goes_on, NULL) == 0 && told == 100 && stm_service_entered(of_it) == 100);
    stm_service_free(of_it);
}

int main(void) {
    is_taken();
    is_told_until_it_is_kept();
    is_closed_meanwhile(true);
    is_closed_meanwhile(false);
    outlives_the_service();
    takes_none();
    beside_calls();
    who_waits_is_answered(STM_DONE);
    who_waits_is_answered(STM_NO_ROOM);
    who_waits_is_answered(STM_CLOSED);
    one_thread_does_both();
    puts("good");
    return 0;
}
