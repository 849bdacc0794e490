/* A lock with seats. Who finds it taken sits down and asks for a call, and who has the lock makes the calls of all who
 * ask before it lets go: so few threads sleep, and what is done stays with one processor for some calls. It is a part
 * of service.c, and knows nothing of what a call does.
 *
 * A seat is one line of memory, in which a call is asked for and answered. Up to 256 threads have a seat at a time.
 * Beyond these, and for who wants the lock itself, there is one seat more, which they have one after another.
 *
 * While it is calm, who asks marks the lock, and who has it sees the mark as it lets go, and looks at the seats. Where
 * threads come one soon after another that is dear: for each call two lines move from processor to processor and back.
 * Then it is *crowded*: the lock is left to its owner, who makes up to 64 calls of its own in a row, and then those of
 * all who ask in one go. Who asks leaves the lock alone meanwhile, and looks only at its seat.
 *
 * A wait at a seat is bounded. Who has asked in vain for 15 microseconds marks the lock although it is crowded, and
 * then its call is made before whoever has the lock lets it go. */
#ifndef STM_LOCK_H
#define STM_LOCK_H

#include "sleep.h"

#include <pthread.h>
#include <string.h>

enum {
    /* A processor's line of memory, and how much of it a call has. */
    LINE = 64,
    CALL = 56,
    /* How many seats there are, and how many of them are looked at in one go. */
    SEATS = 256,
    BLOCK = 64,
    /* How many calls of its own the owner makes in a row: so many that a row takes no longer than ROW_TIME, if it can
     * be. All times are in nanoseconds. */
    LEAST_ROW = 8,
    MOST_ROW = 64,
    ROW_TIME = 10000,
    /* How long who asks rests before its first look where it is crowded, and before each other one: a look takes the
     * line back from the processor that is about to answer. */
    FIRST_REST = 800,
    REST = 300,
    /* When it marks the lock although it is crowded, which is more than a row; and when it sleeps. A sleep and its end
     * take some 10000. */
    VAIN = 15000,
    PATIENCE = 20000,
    /* It is crowded once the lock was found marked so often in a row, each time within so many nanoseconds. */
    CROWD = 16,
    SOON = 2000,
    /* It is calm again after so many rows in which nobody asked; or after so many signs in a row that the owner thinks
     * between its calls, which are a row in which a call takes longer than SLOW, and a wait in vain after which the
     * lock is found free. After such signs it has to be marked so many times more, since the same threads would else be
     * a crowd at once. */
    LONELY = 8,
    SIGNS = 8,
    SLOW = 3000,
    PAUSE = 1000,
    /* For how many rows a thread is the owner while others ask; and how often who has the lock makes the calls of
     * others before one of these has it. */
    TERM = 64,
    ROUNDS = 16
};

/* A seat is nobody's, or somebody fills it. Its thread asks, and may sleep. Then it is answered, and its thread still
 * to be woken or not; or the lock is its thread's. */
enum seat_state { EMPTY, FILLED, ASKS, SLEEPS, TO_WAKE, ANSWERED, YOURS };
/* Nobody has the lock; somebody has it; and some have asked since it last looked at the seats. */
enum lock_state { FREE, HELD, MARKED };

struct seat {
    uint32_t state;
    unsigned char call[CALL] __attribute__((aligned(8)));
} __attribute__((aligned(LINE)));

struct lock {
    /* What only who has the lock changes; but others look at the word, and mark it. */
    uint32_t word;
    /* Where it is crowded: how many calls the owner makes in a row and has made in this one, how many of others were
     * made meanwhile, and how many rows there were. */
    uint32_t length, row, for_others, rows;
    /* When the row was begun, or where it is calm, when the lock was last found marked. */
    int64_t begun;
    /* How often it was found marked soon, and how much more often it has to be than CROWD; rows in which nobody asked;
     * and signs that the owner thinks. */
    int32_t soon, pause, lonely, signs;
    bool is_any_to_wake;
    /* What the calls have left to do once the lock is let go; NULL: nothing. */
    void *left;
    /* What all look at, and what seldom changes: whose the lock is where it is crowded, by an address of the thread's
     * own; how many seats were ever taken. */
    const void *owner __attribute__((aligned(LINE)));
    bool is_crowded;
    uint32_t seated;
    /* Makes the call that lies there, and writes the answer in its place: whether its thread goes on at once, and does
     * not wait for others. And does what was left. */
    bool (*make)(void *own, void *call);
    void (*finish)(void *left);
    void *own;
    /* Of those who want the lock itself: how many there are, and who has the seat for it, the last one. */
    uint32_t standing;
    pthread_mutex_t gate;
    struct seat seats[SEATS + 1];
};

/* The seat that this thread had last. Its address is the thread's own. A shared library finds it without a call, since
 * it has a place from the start: four bytes of those that the C library keeps for libraries that are loaded late. */
static __thread uint32_t my_seat __attribute__((tls_model("initial-exec")));

static void open_lock(struct lock *l, bool (*make)(void *, void *), void (*finish)(void *), void *own) {
    memset(l, 0, sizeof *l);
    l->length = MOST_ROW;
    l->make = make;
    l->finish = finish;
    l->own = own;
    l->gate = (pthread_mutex_t)PTHREAD_MUTEX_INITIALIZER;
}

static void close_lock(struct lock *l) { pthread_mutex_destroy(&l->gate); }

static inline uint32_t look_at(const uint32_t *word) { return __atomic_load_n(word, __ATOMIC_RELAXED); }

static inline bool is_changed(uint32_t *word, uint32_t from, uint32_t to) {
    return __atomic_compare_exchange_n(word, &from, to, false, __ATOMIC_ACQ_REL, __ATOMIC_RELAXED);
}

static inline bool try_lock(struct lock *l) { return look_at(&l->word) == FREE && is_changed(&l->word, FREE, HELD); }

/* ---- Who has the lock ---- */

static bool is_asking(struct seat *seat) {
    uint32_t state = __atomic_load_n(&seat->state, __ATOMIC_ACQUIRE);
    return state == ASKS || state == SLEEPS;
}

/* One who is answered and still to be woken, which is done by this address; NULL: nobody. */
static uint32_t *next_to_wake(struct lock *l) {
    for (uint32_t i = 0; i < look_at(&l->seated); i++)
        if (look_at(&l->seats[i].state) == TO_WAKE && is_changed(&l->seats[i].state, TO_WAKE, ANSWERED))
            return &l->seats[i].state;
    return NULL;
}

/* Makes the calls of those who ask at some seats, but at one: how many. All are looked at before the first call: so
 * their lines come at once. */
static uint32_t make_block(struct lock *l, struct seat *seats, uint32_t count, const struct seat *but) {
    uint32_t made = 0;
    uint64_t asking = 0;
    for (uint32_t i = 0; i < count; i++) asking |= (uint64_t)(is_asking(&seats[i]) && &seats[i] != but) << i;
    for (; asking; asking &= asking - 1, made++) {
        struct seat *seat = &seats[__builtin_ctzll(asking)];
        l->make(l->own, seat->call);
        if (!is_changed(&seat->state, ASKS, ANSWERED)) {
            __atomic_store_n(&seat->state, TO_WAKE, __ATOMIC_RELEASE);
            l->is_any_to_wake = true;
        }
    }
    return made;
}

/* Makes the calls of all who ask, but at one seat: how many. */
static uint32_t make_asked(struct lock *l, const struct seat *but) {
    uint32_t seated = look_at(&l->seated), made = 0;
    for (uint32_t i = 0; i < seated; i += BLOCK)
        made += make_block(l, &l->seats[i], seated - i < BLOCK ? seated - i : BLOCK, but);
    return made;
}

/* One to whom the lock is handed over: who wants it itself; or, where that may be, the next who asks and does not
 * sleep. NULL: nobody. */
static struct seat *next_of(struct lock *l, bool may_be_any) {
    uint32_t seated = may_be_any ? look_at(&l->seated) : 0;
    if (is_asking(&l->seats[SEATS])) return &l->seats[SEATS];
    for (uint32_t i = 1; i <= seated; i++) {
        struct seat *seat = &l->seats[(my_seat + i) % seated];
        if (__atomic_load_n(&seat->state, __ATOMIC_ACQUIRE) == ASKS) return seat;
    }
    return NULL;
}

/* What was left is done when the lock is another's; so the lock may be gone. */
static void hand_over_to(struct lock *l, struct seat *seat) {
    void (*finish)(void *) = l->finish;
    void *left = l->left;
    l->left = NULL;
    if (__atomic_exchange_n(&seat->state, YOURS, __ATOMIC_ACQ_REL) == SLEEPS) wake_at(&seat->state);
    if (left) finish(left);
}

/* Lets the lock go, but where it is marked. What was left is done then, and the lock may be gone. */
static inline bool is_let_go(struct lock *l) {
    void (*finish)(void *) = l->finish;
    void *left = l->left;
    if (left) l->left = NULL;
    bool is_free = is_changed(&l->word, HELD, FREE);
    if (left) finish(left);
    return is_free;
}

/* ---- Whose it is ---- */

/* Whether the lock is left to another thread. */
static inline bool is_left(struct lock *l) {
    const void *owner = __atomic_load_n(&l->owner, __ATOMIC_RELAXED);
    return owner && owner != &my_seat;
}

static void begin_row(struct lock *l, int64_t now) {
    l->begun = now;
    l->row = l->for_others = 0;
}

/* The lock is left to this thread, which has it; or to nobody. */
static void leave_to(struct lock *l, const void *owner) {
    __atomic_store_n(&l->owner, owner, __ATOMIC_RELAXED);
    l->rows = 0;
    if (owner) begin_row(l, clock_now());
}

static void be_calm(struct lock *l, int32_t pause) {
    leave_to(l, NULL);
    l->is_crowded = false;
    l->pause = pause;
    l->soon = l->signs = l->lonely = 0;
}

/* The lock was found marked. Where it is crowded from now on, the next one to call is the owner. */
static void be_marked(struct lock *l) {
    int64_t now = clock_now();
    l->soon = now - l->begun < SOON ? l->soon + 1 : 0;
    l->is_crowded = l->soon >= CROWD + l->pause;
    l->begun = now;
}

/* One sign more that the owner thinks between its calls; or none. */
static void see(struct lock *l, bool thinks) {
    l->signs = thinks ? l->signs + 1 : 0;
    if (l->signs >= SIGNS) be_calm(l, PAUSE);
}

/* Makes the calls of all who ask, and lets the lock go, to one who wants it if there is one. Who marks it meanwhile has
 * asked before it did. Of those who sleep one is woken, who wakes the next one: so that they do not all want a
 * processor at once. */
static void release(struct lock *l) {
    for (int round = 1;; round++) {
        if (look_at(&l->word) == MARKED && is_changed(&l->word, MARKED, HELD) && !l->is_crowded) be_marked(l);
        struct seat *next = next_of(l, round > ROUNDS);
        l->for_others += make_asked(l, next);
        if (!next) next = next_of(l, false);
        uint32_t *sleeper = l->is_any_to_wake ? next_to_wake(l) : NULL;
        l->is_any_to_wake = false;
        if (next) hand_over_to(l, next);
        bool is_over = next || is_let_go(l);
        if (sleeper) wake_at(sleeper);
        if (is_over) return;
    }
}

/* The owner's row has ended: whether it is another's turn to be the owner. */
static bool ends_term(struct lock *l) {
    int64_t now = clock_now(), took = now - l->begun;
    bool is_slow = took > SLOW * (int64_t)l->length, is_over = l->for_others && ++l->rows >= TERM;
    l->lonely = l->for_others ? 0 : l->lonely + 1;
    if (took > ROW_TIME && l->length > LEAST_ROW) l->length /= 2;
    if (took < ROW_TIME / 2 && l->length < MOST_ROW) l->length *= 2;
    begin_row(l, now);
    if (l->lonely >= LONELY) be_calm(l, 0);
    else see(l, is_slow);
    return is_over;
}

/* A call of this thread's own was made where it is crowded: it may be the last of the row. */
__attribute__((noinline)) static void count_own(struct lock *l, bool goes_on) {
    if (l->owner != &my_seat) leave_to(l, &my_seat);
    if (!goes_on) leave_to(l, NULL);
    if (goes_on && ++l->row < l->length && is_let_go(l)) return;
    bool is_over = l->row >= l->length && ends_term(l);
    if (is_over) leave_to(l, NULL);
    release(l);
    /* Those who were answered are back by then. */
    if (is_over) rest(FIRST_REST);
}

/* ---- Who asks ---- */

/* Waits at a seat that asks: whether the lock is this thread's. Otherwise the seat is answered. */
static bool waits_for_lock(struct lock *l, struct seat *seat, bool *has_slept) {
    int64_t begun = clock_now(), waited = 0;
    bool is_marked = false, was_left = is_left(l);
    for (;; waited = clock_now() - begun) {
        uint32_t state = __atomic_load_n(&seat->state, __ATOMIC_ACQUIRE);
        if (state >= TO_WAKE) return state == YOURS;
        if (!is_marked && (waited >= VAIN || !is_left(l))) {
            if (__atomic_exchange_n(&l->word, MARKED, __ATOMIC_ACQ_REL) == FREE) return true;
            is_marked = true;
        }
        if (waited < PATIENCE) {
            rest(waited == 0 && was_left ? FIRST_REST : REST);
        } else {
            *has_slept = true;
            is_changed(&seat->state, ASKS, SLEEPS);
            sleep_at(&seat->state, SLEEPS, NULL);
        }
    }
}

/* Has the lock itself. */
static void take_lock(struct lock *l) {
    if (try_lock(l)) return;
    struct seat *last = &l->seats[SEATS];
    __atomic_add_fetch(&l->standing, 1, __ATOMIC_RELAXED);
    pthread_mutex_lock(&l->gate);
    __atomic_store_n(&last->state, ASKS, __ATOMIC_RELEASE);
    bool has_slept = false;
    waits_for_lock(l, last, &has_slept);
    __atomic_store_n(&last->state, EMPTY, __ATOMIC_RELAXED);
    pthread_mutex_unlock(&l->gate);
    __atomic_sub_fetch(&l->standing, 1, __ATOMIC_RELEASE);
}

/* A seat for this thread; NULL: all are taken. */
static struct seat *sit_down(struct lock *l) {
    for (uint32_t looks = 0, i = my_seat; looks < SEATS; looks++, i = (i + 1) % SEATS) {
        if (look_at(&l->seats[i].state) != EMPTY || !is_changed(&l->seats[i].state, EMPTY, FILLED)) continue;
        my_seat = i;
        for (uint32_t seated; (seated = look_at(&l->seated)) <= i;) is_changed(&l->seated, seated, i + 1);
        return &l->seats[i];
    }
    return NULL;
}

/* Asks for the call until it was made, by whoever has the lock. */
__attribute__((noinline)) static void ask(struct lock *l, void *call) {
    struct seat *seat = sit_down(l);
    if (!seat) {
        take_lock(l);
        l->make(l->own, call);
        release(l);
        return;
    }
    memcpy(seat->call, call, CALL);
    __atomic_store_n(&seat->state, ASKS, __ATOMIC_RELEASE);
    bool has_slept = false;
    if (waits_for_lock(l, seat, &has_slept)) {
        bool is_in_vain = !is_changed(&seat->state, YOURS, ASKS) && is_left(l);
        if (l->is_crowded) leave_to(l, &my_seat);
        if (is_in_vain) see(l, true);
        release(l);
    }
    memcpy(call, seat->call, CALL);
    uint32_t *sleeper = has_slept ? next_to_wake(l) : NULL;
    if (sleeper) wake_at(sleeper);
    __atomic_store_n(&seat->state, EMPTY, __ATOMIC_RELEASE);
}

/* Makes the call that lies there, as long as a call of a seat, and has the answer in its place. */
static inline void make_call(struct lock *l, void *call) {
    if (is_left(l) || !try_lock(l)) {
        ask(l, call);
        return;
    }
    bool goes_on = l->make(l->own, call);
    if (l->is_crowded) count_own(l, goes_on);
    else if (!is_let_go(l)) release(l);
}

/* By who has the lock: whether no other thread has to do with it. */
static bool is_alone(struct lock *l) {
    for (uint32_t i = 0; i < look_at(&l->seated); i++)
        if (__atomic_load_n(&l->seats[i].state, __ATOMIC_ACQUIRE) != EMPTY) return false;
    return __atomic_load_n(&l->standing, __ATOMIC_ACQUIRE) == 0;
}

#endif
