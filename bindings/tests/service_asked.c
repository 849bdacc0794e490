/* What a service asks of its host: a keeper, whose word counts and not its answer; and a waiter, who can end a wait. Prints
 * `good`. */
#include "judging.h"

#include <pthread.h>
#include <stdbool.h>
#include <time.h>

enum { INC, GET, PUT, LONG_GET, SLICE = 50000000, SOON = 5000000 };
#define WORK "(repeat 10 (repeat 100 (set far (add far 1))))"
static const char TEXT[] =
    "(var n 0)(var out 0)(var far 0)(tx inc (set n (add n 1)) n)"
    "(tx get (if (eq out 0) (retry) (set out (sub out 1))) out)(tx put (set out (add out 1)) out)"
    "(tx long_get (seq " WORK " (if (eq out 0) (retry) (set out (sub out 1)))) out)";

/* ---- A keeper ---- */

struct kept {
    stm_keeper keeper;
    int asked, refused, good;
};

static void keeps(void *own) {
    struct kept *kept = own;
    const stm_keeper *keeper = &kept->keeper;
    wants(keeper->kept == 0);
    int32_t code = stm_check(keeper->file, keeper->file_length, keeper->report, keeper->report_length);
    kept->good += code == STM_DONE;
    kept->keeper.kept = ++kept->asked > kept->refused ? 5 : 0;
}

static void a_keeper_is_believed_by_its_word(void) {
    struct kept kept = {{keeps, &kept, NULL, 0, NULL, 0, 5}, 0, 2, 0};
    stm_service *s = opens(TEXT, &(stm_service_options){1, 0, 0, stm_ask_keeper, &kept.keeper});
    wants(stm_atomically(s, INC, NULL, 0).value == 1 && kept.asked == 0);
    wants(stm_atomically(s, INC, NULL, 0).value == 2 && kept.asked == 1);
    wants(stm_atomically(s, INC, NULL, 0).code == STM_NO_ROOM && kept.asked == 2);
    wants(stm_service_chapter(s) == 1 && stm_service_entered(s) == 2);
    for (int i = 3; i < 6; i++) wants(stm_atomically(s, INC, NULL, 0).value == i && kept.asked == i + 1);
    struct judged judged = {{"\nentry "}, {0}, 0};
    judges_the_last(s, &judged);
    wants(kept.asked == 6 && kept.good == 6 && stm_service_chapter(s) == 4 && judged.lines[0] == 1);
    stm_service_free(s);
}

/* ---- A waiter ---- */

struct asked {
    stm_waiter waiter;
    stm_service *service;
    int times, last;
    /* Whether it puts what the other call waits for, and stops at once. */
    bool puts;
};

static int64_t now(void) {
    struct timespec time;
    clock_gettime(CLOCK_MONOTONIC, &time);
    return (int64_t)time.tv_sec * 1000000000 + time.tv_nsec;
}

/* It may call, and wait too; while it does nobody is asked. */
static void is_asked(void *own) {
    struct asked *asked = own;
    wants(asked->waiter.stopped == 0);
    asked->times++;
    if (asked->puts) {
        wants(stm_atomically(asked->service, PUT, NULL, 0).value == 1);
    } else {
        wants(stm_atomically_within(asked->service, GET, NULL, 0, SLICE + SOON).code == STM_TIMED_OUT);
    }
    asked->waiter.stopped = asked->times == asked->last ? -1 : 0;
}

static void a_waiter_stops(uint32_t transaction) {
    stm_service *s = opens(TEXT, NULL);
    struct asked asked = {{is_asked, &asked, 7}, s, 0, 2, false};
    wants(stm_wait_by(&asked.waiter) == STM_DONE);
    int64_t begun = now();
    wants(stm_atomically(s, transaction, NULL, 0).code == STM_TIMED_OUT);
    wants(asked.times == 2 && now() - begun >= 2 * SLICE && stm_service_entered(s) == 0);
    /* What was given up is never entered. */
    wants(stm_atomically(s, PUT, NULL, 0).value == 1 && value_of(s, "out") == 1);
    wants(stm_atomically(s, transaction, NULL, 0).code == STM_DONE && asked.times == 2);
    /* A time that is up sooner is kept. */
    wants(stm_atomically_within(s, transaction, NULL, 0, SOON).code == STM_TIMED_OUT && asked.times == 2);
    /* Who was entered before it could be given up has its answer. */
    asked.puts = true;
    asked.last = 3;
    wants(stm_atomically(s, transaction, NULL, 0).code == STM_DONE && asked.times == 3);
    wants(stm_wait_by(NULL) == STM_DONE);
    wants(stm_atomically_within(s, transaction, NULL, 0, SLICE + SOON).code == STM_TIMED_OUT && asked.times == 3);
    stm_service_free(s);
}

/* It is asked of its own thread alone, and what others enter is waited for as ever. */
static void *waits(void *own) {
    struct asked *asked = own;
    wants(stm_atomically(asked->service, GET, NULL, 0).code == STM_DONE);
    return NULL;
}

static void other_threads_are_not_asked(void) {
    stm_service *s = opens(TEXT, NULL);
    struct asked asked = {{is_asked, &asked, 0}, s, 0, 1, false};
    wants(stm_wait_by(&asked.waiter) == STM_DONE);
    pthread_t other;
    wants(pthread_create(&other, NULL, waits, &asked) == 0);
    nanosleep(&(struct timespec){0, 2 * SLICE}, NULL);
    wants(asked.times == 0 && stm_atomically(s, PUT, NULL, 0).value == 1);
    pthread_join(other, NULL);
    wants(stm_wait_by(NULL) == STM_DONE);
    stm_service_free(s);
}

int main(void) {
    a_keeper_is_believed_by_its_word();
    a_waiter_stops(GET);
    a_waiter_stops(LONG_GET);
    other_threads_are_not_asked();
    puts("good");
    return 0;
}
