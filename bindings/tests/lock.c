/* The lock of a service, by itself: what is done under it is done by one thread at a time, each call is made once and
 * answered, no wait is without end, and what is left is done once the lock is let go. Prints `good`.
 *
 *     lock CALLS     so many calls by each thread
 */
#include "../c/lock.h"
#include "wants.h"

#include <unistd.h>

enum { EIGHT = 8, MANY = 100, MOST_THREADS = 300 };

/* What a call asks for, and in its place its answer. */
union asked {
    struct {
        int64_t number, waits, is_left;
    } asked;
    struct {
        int64_t sum, made;
    } answer;
    unsigned char room[CALL];
};

/* What the lock guards: it is changed with no other protection. */
static struct guarded {
    struct lock lock;
    int64_t sum, made, inside;
} one;

/* How many calls were made, to be looked at beside them; and what was left and is done. */
static int64_t made_so_far, is_done, calls;

static bool makes(void *own, void *call) {
    struct guarded *it = own;
    union asked *asked = call;
    wants(it == &one && ++it->inside == 1);
    bool waits = asked->asked.waits;
    if (asked->asked.is_left) it->lock.left = (void *)((intptr_t)it->lock.left + 1);
    it->sum += asked->asked.number;
    asked->answer.sum = it->sum;
    asked->answer.made = ++it->made;
    __atomic_store_n(&made_so_far, it->made, __ATOMIC_RELAXED);
    it->inside--;
    return !waits;
}

static void finishes(void *left) { __atomic_add_fetch(&is_done, (intptr_t)left, __ATOMIC_RELAXED); }

static void begins(void) {
    memset(&one, 0, sizeof one);
    made_so_far = is_done = 0;
    open_lock(&one.lock, makes, finishes, &one);
}

/* By the lock itself. */
static void ends(int64_t made, int64_t sum) {
    take_lock(&one.lock);
    wants(one.made == made && one.sum == sum && one.inside == 0 && is_alone(&one.lock));
    release(&one.lock);
    wants(one.lock.word == FREE && !one.lock.left);
    close_lock(&one.lock);
}

/* What one thread does: how many nanoseconds it thinks between its calls; how often it takes the lock itself, and asks
 * for what waits. And what it has seen: the longest wait, and how many calls were made meanwhile in all its waits. */
struct worker {
    int number;
    int64_t thinks, takes_each, waits_each;
    int64_t longest, meanwhile, left;
};

static int64_t made_by(struct worker *w, int64_t i) {
    if (w->takes_each && i % w->takes_each == 0) {
        take_lock(&one.lock);
        wants(++one.inside == 1);
        one.sum += w->number;
        int64_t made = ++one.made;
        one.inside--;
        release(&one.lock);
        return made;
    }
    bool waits = w->waits_each && i % w->waits_each == 0;
    union asked call = {.asked = {w->number, waits, i % 3 == 0}};
    w->left += i % 3 == 0;
    make_call(&one.lock, &call);
    return call.answer.made;
}

static void *works(void *own) {
    struct worker *w = own;
    int64_t last = 0;
    for (int64_t i = 1; i <= calls; i++) {
        int64_t before = __atomic_load_n(&made_so_far, __ATOMIC_RELAXED), begun = clock_now();
        int64_t made = made_by(w, i), waited = clock_now() - begun;
        wants(made > last);
        last = made;
        if (waited > w->longest) w->longest = waited;
        w->meanwhile += made - before;
        if (w->thinks) rest(w->thinks);
    }
    return NULL;
}

/* By so many threads, of which each second one thinks: nobody waits for more than some seconds, however busy the
 * machine is. */
static void with_threads(int count, int64_t thinks, int64_t takes_each, int64_t waits_each) {
    struct worker workers[MOST_THREADS] = {{0}};
    pthread_t threads[MOST_THREADS];
    int64_t sum = 0, left = 0;
    begins();
    for (int i = 0; i < count; i++) {
        workers[i] = (struct worker){i + 1, i % 2 ? 0 : thinks, takes_each, waits_each, 0, 0, 0};
        wants(pthread_create(&threads[i], NULL, works, &workers[i]) == 0);
    }
    for (int i = 0; i < count; i++) {
        wants(pthread_join(threads[i], NULL) == 0);
        sum += calls * workers[i].number;
        left += workers[i].left;
        wants(workers[i].longest < 10 * (int64_t)SECOND);
    }
    wants(is_done == left);
    ends(count * calls, sum);
}

/* ---- A wait is bounded by what others do meanwhile ---- */

static bool is_over;

static void *hurries(void *own) {
    union asked call;
    (void)own;
    while (!__atomic_load_n(&is_over, __ATOMIC_RELAXED)) {
        call = (union asked){.asked = {1, 0, 0}};
        make_call(&one.lock, &call);
    }
    return NULL;
}

static int by_number(const void *one_of, const void *other) {
    int64_t a = *(const int64_t *)one_of, b = *(const int64_t *)other;
    return (a > b) - (a < b);
}

/* While others call all the time, whoever asks has to let few calls by, mostly: no more than two rows of the owner's
 * and those of all who ask. A thread that the system stops before it asks has missed more. */
static void few_calls_go_by(int others) {
    enum { ASKED_OFTEN = 200 };
    pthread_t threads[EIGHT];
    int64_t missed[ASKED_OFTEN];
    begins();
    __atomic_store_n(&is_over, false, __ATOMIC_RELAXED);
    for (int i = 0; i < others; i++) wants(pthread_create(&threads[i], NULL, hurries, NULL) == 0);
    for (int i = 0; i < ASKED_OFTEN; i++) {
        union asked call = {.asked = {1, 0, 0}};
        int64_t before = __atomic_load_n(&made_so_far, __ATOMIC_RELAXED);
        make_call(&one.lock, &call);
        missed[i] = call.answer.made - before;
        rest(20000);
    }
    __atomic_store_n(&is_over, true, __ATOMIC_RELAXED);
    for (int i = 0; i < others; i++) pthread_join(threads[i], NULL);
    qsort(missed, ASKED_OFTEN, sizeof missed[0], by_number);
    wants(missed[ASKED_OFTEN / 2] <= 3 * MOST_ROW);
    ends(made_so_far, made_so_far);
}

/* ---- Who sleeps is woken, and is there meanwhile ---- */

static void *asks_once(void *own) {
    union asked call = {.asked = {7, 0, 0}};
    make_call(&one.lock, &call);
    wants(call.answer.sum % 7 == 0);
    __atomic_add_fetch((int64_t *)own, 1, __ATOMIC_RELEASE);
    return NULL;
}

static void *takes_once(void *own) {
    take_lock(&one.lock);
    one.sum += 7;
    one.made++;
    release(&one.lock);
    __atomic_add_fetch((int64_t *)own, 1, __ATOMIC_RELEASE);
    return NULL;
}

/* So many threads ask while the lock is held for so long; at last more than have seats. */
static void all_sleep(int count, int64_t nanoseconds) {
    pthread_t threads[MOST_THREADS];
    int64_t ended = 0;
    begins();
    take_lock(&one.lock);
    for (int i = 0; i < count; i++) {
        wants(pthread_create(&threads[i], NULL, i % 3 ? asks_once : takes_once, &ended) == 0);
    }
    rest(nanoseconds);
    /* At least the first to come is there by now. */
    while (is_alone(&one.lock)) rest(nanoseconds);
    wants(__atomic_load_n(&ended, __ATOMIC_ACQUIRE) == 0 && one.made == 0);
    release(&one.lock);
    for (int i = 0; i < count; i++) pthread_join(threads[i], NULL);
    wants(ended == count);
    ends(count, 7 * count);
}

int main(int count, char **words) {
    calls = count > 1 ? atol(words[1]) : 20000;
    alarm(300); /* who waits for ever fails */
    for (int threads = 1; threads <= EIGHT; threads *= 2) {
        with_threads(threads, 0, 0, 0);
        with_threads(threads, 2000, 50, 7);
        with_threads(threads, 0, 3, 0);
    }
    for (int others = 1; others < EIGHT; others += 2) few_calls_go_by(others);
    all_sleep(3, 10 * PATIENCE);
    all_sleep(MANY, 50 * PATIENCE);
    all_sleep(MOST_THREADS, 500 * PATIENCE);
    calls = calls / 20 + 1;
    with_threads(MANY, 0, 10, 0);
    puts("good");
    return 0;
}
