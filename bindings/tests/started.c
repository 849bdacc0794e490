/* Calls without a thread, some at a time: what each answers, who tells it and when, how one is given up, long ones, and
 * how all end with their service. Prints `good`. */
#include "judging.h"

#include <pthread.h>
#include <stdbool.h>
#include <time.h>

enum { INC, GET, PUT, FAIL, LONG, LONG_GET, MOST = 64 };
enum { SECONDS = 60, MILLISECOND = 1000000 };
static const uint64_t LONG_TIME = (uint64_t)SECONDS * 1000 * MILLISECOND;
#define WORK "(repeat 10 (repeat 100 (set d (add d 1)))) (set d 0)"
static const char TEXT[] =
    "(stm 3)(var n 0)(var box 0)(var d 0)"
    "(tx inc () (set n (add n 1)) n)"
    "(tx get (least) (if (lt box least) (retry) (set box (sub box least))) least)"
    "(tx put (k) (set box (add box k)) box)"
    "(tx fail (k) (throw k) 0)"
    "(tx long () (seq " WORK " (set n (add n 1))) n)"
    "(tx long_get (least) (seq " WORK " (if (lt box least) (retry) (set box (sub box least)))) least)";

/* What a host was told, in the order in which it was. */
static struct one {
    stm_service *service;
    int number;
    int64_t starts, cancels;
    int32_t cancelled;
    int64_t started;
    pthread_t by;
} ones[MOST];
static struct {
    struct one *one;
    stm_answer answer;
} told[MOST];
static int count;

static void hears(void *own, stm_answer answer) {
    struct one *one = own;
    told[count].one = one;
    told[count].answer = answer;
    one->by = pthread_self();
    __atomic_store_n(&count, count + 1, __ATOMIC_RELEASE);
    if (one->cancels >= 0) one->cancelled = stm_cancel(one->service, one->cancels);
    if (one->starts >= 0) {
        struct one *next = one + 1;
        *next = (struct one){one->service, one->number + 1, -1, -1, 0, -1, one->by};
        one->started = stm_start(one->service, (uint32_t)one->starts, NULL, 0, hears, next);
    }
}

static struct one *a_host(stm_service *s, int number) {
    ones[number] = (struct one){s, number, -1, -1, STM_STALE, -1, pthread_self()};
    return &ones[number];
}

static void begins(void) { count = 0; }
static int how_many(void) { return __atomic_load_n(&count, __ATOMIC_ACQUIRE); }
static void rests(long milliseconds) { nanosleep(&(struct timespec){0, milliseconds * MILLISECOND}, NULL); }

static bool is(stm_answer answer, int32_t code, int64_t value, int64_t ticket, uint64_t entry, uint64_t place) {
    return answer.code == code && answer.value == value && answer.ticket == ticket && answer.entry == entry &&
           answer.place == place && answer.chapter == 0;
}

static bool was_told(int at, int number, int32_t code, int64_t value, int64_t ticket, uint64_t entry, uint64_t place) {
    return at < how_many() && told[at].one == &ones[number] && is(told[at].answer, code, value, ticket, entry, place);
}

/* ---- What each answers ---- */

static int64_t starts(stm_service *s, uint32_t transaction, int64_t argument, int number) {
    size_t given = transaction == GET || transaction == PUT || transaction == FAIL || transaction == LONG_GET;
    return stm_start(s, transaction, &argument, given, hears, a_host(s, number));
}

static void each_is_told(void) {
    stm_service *s = opens(TEXT, &(stm_service_options){3, 0, 0, NULL, NULL});
    begins();
    wants(starts(s, INC, 0, 0) == 0 && was_told(0, 0, STM_DONE, 1, 0, 1, 0));
    wants(starts(s, FAIL, 7, 1) == 1 && was_told(1, 1, STM_THROWN, 7, 1, 2, 1));
    wants(starts(s, GET, 5, 2) == 2 && how_many() == 2);
    /* Told by who wakes it, before that goes on. */
    int64_t five = 5;
    wants(stm_atomically(s, PUT, &five, 1).value == 5 && how_many() == 3 && pthread_equal(ones[2].by, pthread_self()));
    wants(told[2].answer.code == STM_DONE && told[2].answer.ticket == 2 && told[2].answer.place == 3);
    wants(told[2].answer.chapter == 1 && told[2].answer.entry == 2 && stm_service_entered(s) == 4);
    stm_service_free(s);
}

/* Nothing follows. */
static void none_is_started(void) {
    stm_service *s = opens(TEXT, &(stm_service_options){2, 0, 0, NULL, NULL});
    begins();
    wants(stm_start(s, 9, NULL, 0, hears, a_host(s, 0)) == STM_UNKNOWN);
    wants(stm_start(s, GET, NULL, 0, hears, a_host(s, 0)) == STM_UNKNOWN);
    wants(starts(s, GET, 1, 0) == 0 && starts(s, GET, 1, 1) == 1);
    wants(starts(s, GET, 1, 2) == STM_NO_ROOM && starts(s, INC, 1, 2) == STM_NO_ROOM && how_many() == 0);
    stm_service_close(s);
    wants(how_many() == 2 && was_told(0, 0, STM_CLOSED, 0, 0, 0, 0) && was_told(1, 1, STM_CLOSED, 0, 1, 0, 0));
    wants(starts(s, INC, 1, 2) == STM_CLOSED && stm_cancel(s, 0) == STM_TOO_LATE);
    wants(stm_start(s, INC, NULL, 0, NULL, NULL) == STM_CLOSED && how_many() == 2);
    stm_service_free(s);
    wants(how_many() == 2);
}

/* ---- Given up ---- */

/* Nothing is entered of it, and nothing told; then what it waited for comes. */
static void is_given_up(void) {
    stm_service *s = opens(TEXT, NULL);
    begins();
    wants(starts(s, GET, 5, 0) == 0 && starts(s, GET, 5, 1) == 1);
    wants(stm_cancel(s, 0) == STM_DONE && stm_cancel(s, 0) == STM_TOO_LATE && stm_cancel(s, 77) == STM_TOO_LATE);
    int64_t ten = 10;
    wants(stm_atomically(s, PUT, &ten, 1).value == 10 && how_many() == 1);
    wants(was_told(0, 1, STM_DONE, 5, 1, 2, 2) && value_of(s, "box") == 5 && stm_cancel(s, 1) == STM_TOO_LATE);
    struct judged judged = {{"\nentry ", "\nmemory "}, {0}, 0};
    judges_the_last(s, &judged);
    wants(judged.lines[0] == 2 && judged.lines[1] == 1);
    stm_service_free(s);
    wants(how_many() == 1);
}

/* The first is told, and gives up the second, which waits, or the third, which was entered in the same hold of the
 * lock. */
static void one_gives_up_others(void) {
    stm_service *s = opens(TEXT, NULL);
    begins();
    wants(starts(s, GET, 1, 0) == 0 && starts(s, GET, 100, 1) == 1 && starts(s, GET, 1, 2) == 2);
    ones[0].cancels = 1;
    ones[2].cancels = 0;
    int64_t two = 2;
    wants(stm_atomically(s, PUT, &two, 1).value == 2 && how_many() == 2);
    wants(ones[0].cancelled == STM_DONE && ones[2].cancelled == STM_TOO_LATE && value_of(s, "box") == 0);
    begins();
    wants(starts(s, GET, 1, 3) == 4 && starts(s, GET, 1, 4) == 5);
    ones[3].cancels = 5;
    ones[4].cancels = 4;
    wants(stm_atomically(s, PUT, &two, 1).value == 2 && how_many() == 2);
    wants(ones[3].cancelled == STM_TOO_LATE && ones[4].cancelled == STM_TOO_LATE);
    stm_service_free(s);
}

/* Who waits in a thread is not given up so. */
static void *waits(void *service) {
    int64_t one = 1;
    wants(stm_atomically(service, GET, &one, 1).code == STM_DONE);
    return NULL;
}

static void a_thread_is_not_given_up(void) {
    stm_service *s = opens(TEXT, NULL);
    pthread_t thread;
    wants(pthread_create(&thread, NULL, waits, s) == 0);
    rests(20);
    wants(stm_cancel(s, 0) == STM_TOO_LATE);
    int64_t one = 1;
    wants(stm_atomically(s, PUT, &one, 1).value == 1);
    pthread_join(thread, NULL);
    stm_service_free(s);
}

/* ---- Long ones ---- */

static void long_ones(void) {
    stm_service *s = opens(TEXT, NULL);
    begins();
    wants(starts(s, LONG, 0, 0) == 0 && was_told(0, 0, STM_DONE, 1, 0, 1, 0));
    /* It waits, is woken in vain, and then not in vain: each time it is evaluated by who wakes it. */
    wants(starts(s, LONG_GET, 5, 1) == 1 && how_many() == 1);
    int64_t three = 3;
    wants(stm_atomically(s, PUT, &three, 1).value == 3 && how_many() == 1);
    wants(stm_atomically(s, PUT, &three, 1).value == 6 && was_told(1, 1, STM_DONE, 5, 1, 4, 3));
    /* One that ends starts another long one. */
    wants(starts(s, GET, 3, 2) == 4);
    ones[2].starts = LONG;
    wants(stm_atomically(s, PUT, &three, 1).value == 4 && how_many() == 4);
    wants(ones[2].started == 6 && was_told(3, 3, STM_DONE, 2, 6, 7, 6));
    wants(starts(s, LONG_GET, 5, 4) == 7 && stm_cancel(s, 7) == STM_DONE && starts(s, LONG_GET, 5, 5) == 8);
    stm_service_close(s);
    wants(how_many() == 5 && told[4].one == &ones[5] && told[4].answer.code == STM_CLOSED);
    stm_service_free(s);
}

/* ---- In the call of another ---- */

/* It waits until another thread commits, and makes other calls: who comes behind it is told after it. */
static void waits_in_it(void *own, stm_answer answer) {
    stm_service *s = own;
    int64_t nine = 9;
    wants(answer.code == STM_DONE);
    stm_answer own_call = stm_atomically(s, GET, &nine, 1);
    wants(own_call.code == STM_DONE && how_many() == 0 && stm_service_entered(s) >= 3);
    wants(stm_try_atomically(s, INC, NULL, 0).code == STM_DONE && starts(s, INC, 0, 7) >= 0 && how_many() == 0);
}

static void *starts_it(void *service) {
    wants(stm_start(service, INC, NULL, 0, waits_in_it, service) >= 0);
    wants(how_many() == 1 && told[0].one == &ones[7]);
    return NULL;
}

static void one_waits(void) {
    stm_service *s = opens(TEXT, NULL);
    pthread_t thread;
    begins();
    wants(pthread_create(&thread, NULL, starts_it, s) == 0);
    rests(20);
    int64_t nine = 9;
    wants(stm_atomically(s, PUT, &nine, 1).code == STM_DONE);
    wants(stm_atomically(s, INC, NULL, 0).code == STM_DONE);
    pthread_join(thread, NULL);
    stm_service_free(s);
}

static void closes(void *own, stm_answer answer) {
    wants(answer.code == STM_DONE);
    stm_service_close(own);
    wants(how_many() == 0 && stm_atomically(own, INC, NULL, 0).code == STM_CLOSED);
}

static void one_closes(void) {
    stm_service *s = opens(TEXT, NULL);
    begins();
    wants(starts(s, GET, 1, 0) == 0 && starts(s, LONG_GET, 1, 1) == 1);
    wants(stm_start(s, INC, NULL, 0, closes, s) == 2 && how_many() == 2);
    wants(told[0].answer.code == STM_CLOSED && told[1].answer.code == STM_CLOSED);
    stm_service_free(s);
}

/* ---- Who asks ---- */

static stm_call_told room[MOST];

static int64_t asked_for(stm_service *s, uint32_t transaction, int64_t argument, int number) {
    return stm_start(s, transaction, &argument, transaction != INC, NULL, &ones[number]);
}

static void who_asks_is_told(void) {
    stm_service *s = opens(TEXT, NULL);
    begins();
    wants(stm_told(s, room, MOST, 0) == 0 && stm_told(s, room, MOST, MILLISECOND) == 0);
    wants(stm_told(s, room, 0, LONG_TIME) == 0);
    wants(asked_for(s, INC, 0, 0) == 0 && asked_for(s, GET, 2, 1) == 1 && asked_for(s, PUT, 3, 2) == 2);
    wants(stm_told(s, room, 2, 0) == 2 && room[0].own == &ones[0] && is(room[0].answer, STM_DONE, 1, 0, 1, 0));
    wants(room[1].own == &ones[2] && is(room[1].answer, STM_DONE, 3, 2, 2, 1));
    wants(stm_told(s, room, 2, LONG_TIME) == 1 && room[0].own == &ones[1] && is(room[0].answer, STM_DONE, 2, 1, 3, 2));
    wants(asked_for(s, GET, 5, 3) == 3 && stm_cancel(s, 3) == STM_DONE && asked_for(s, LONG_GET, 5, 4) == 4);
    stm_service_close(s);
    wants(stm_told(s, room, 0, 0) == 0 && stm_told(s, room, MOST, LONG_TIME) == 1 && room[0].own == &ones[4]);
    wants(is(room[0].answer, STM_CLOSED, 0, 4, 0, 0));
    wants(stm_told(s, room, MOST, LONG_TIME) == STM_CLOSED && stm_told(s, room, 0, 0) == STM_CLOSED && how_many() == 0);
    stm_service_free(s);
}

/* Those that nobody asked for go with the service. */
static void nobody_asks(void) {
    stm_service *s = opens(TEXT, NULL);
    for (int i = 0; i < 10; i++) wants(asked_for(s, i % 2 ? INC : GET, 1, i) == i);
    stm_service_free(s);
}

static long asked_of;

static void *asks(void *service) {
    stm_call_told own[3];
    int64_t got;
    while ((got = stm_told(service, own, 3, LONG_TIME)) != STM_CLOSED) {
        wants(got >= 0);
        for (int i = 0; i < got; i++) wants(own[i].answer.code == STM_DONE || own[i].answer.code == STM_CLOSED);
        __atomic_add_fetch(&asked_of, got, __ATOMIC_RELAXED);
    }
    return NULL;
}

/* Several threads ask: each call is told to one of them, and all know when it is closed. */
static void many_ask(void) {
    enum { THREADS = 4, CALLS = 2000, WAIT = 10 };
    stm_service *s = opens(TEXT, NULL);
    pthread_t threads[THREADS];
    asked_of = 0;
    for (int i = 0; i < THREADS; i++) wants(pthread_create(&threads[i], NULL, asks, s) == 0);
    for (int i = 0; i < CALLS; i++) wants(asked_for(s, INC, 0, 0) >= 0);
    for (int i = 0; i < WAIT; i++) wants(asked_for(s, GET, 1, 0) >= 0);
    rests(20);
    stm_service_close(s);
    for (int i = 0; i < THREADS; i++) pthread_join(threads[i], NULL);
    wants(asked_of == CALLS + WAIT);
    stm_service_free(s);
}

/* ---- The end of a service ---- */

static bool goes_on, is_free;

static void is_slow(void *own, stm_answer answer) {
    (void)own;
    wants(answer.code == STM_DONE);
    while (!__atomic_load_n(&goes_on, __ATOMIC_ACQUIRE)) rests(1);
    begins();
    hears(a_host(own, 0), answer);
}

static void *starts_a_slow_one(void *service) {
    wants(stm_start(service, INC, NULL, 0, is_slow, service) == 0);
    return NULL;
}

static void *lets_go(void *service) {
    stm_service_free(service);
    __atomic_store_n(&is_free, true, __ATOMIC_RELEASE);
    return NULL;
}

/* It is there until the host that is told has returned. */
static void it_waits_for_hosts(void) {
    stm_service *s = opens(TEXT, NULL);
    pthread_t slow, letting;
    begins();
    goes_on = is_free = false;
    wants(pthread_create(&slow, NULL, starts_a_slow_one, s) == 0);
    while (stm_service_entered(s) == 0) rests(1);
    wants(pthread_create(&letting, NULL, lets_go, s) == 0);
    rests(50);
    wants(!__atomic_load_n(&is_free, __ATOMIC_ACQUIRE));
    __atomic_store_n(&goes_on, true, __ATOMIC_RELEASE);
    pthread_join(slow, NULL);
    pthread_join(letting, NULL);
    wants(is_free && how_many() == 1);
}

int main(void) {
    each_is_told();
    none_is_started();
    is_given_up();
    one_gives_up_others();
    a_thread_is_not_given_up();
    long_ones();
    one_waits();
    one_closes();
    who_asks_is_told();
    nobody_asks();
    many_ask();
    it_waits_for_hosts();
    puts("good");
    return 0;
}
