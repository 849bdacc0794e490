/* Calls from any thread, over pthreads: see service.h. It is inside libstm.a and libstm.so.
 *
 * What a call does, who waits for what, and when a chapter is full, is the desk's (desk.h), on which one call at a time
 * is made. Here are its lock (lock.h), the threads that sleep until the desk tells them something (bell.h, waiting.h),
 * the workers by which they evaluate what is long (workers.h), and the host, who is told the chapters (chapters.h).
 *
 * A thread that finds the lock taken asks for its call at a seat, and who has the lock makes it: so under contention
 * the desk stays with one processor for some calls, and few threads sleep.
 *
 * A call that waits lies on its thread's stack, and the desk knows it by where it lies. Who has the lock writes the
 * answer down there. The bells are rung when the lock is free again, and a thread goes on only after its bell: so a
 * call is there for as long as another thread knows of it.
 *
 * A call without a thread lies in a block of its own, and is found by its ticket (started.h). Who has the lock writes
 * its answer down too, and tells it when it has no lock, at the end of its own call (ending.h, starting.h). */
#ifndef _POSIX_C_SOURCE
#define _POSIX_C_SOURCE 200809L
#endif
#include "chapter_room.h"
#include "each.h"
#include "looks.h"
#include "starting.h"
#include "taking.h"

#include <string.h>
#include <unistd.h>

/* ---- Calls ---- */

/* Under the lock: asks for a thread as it asks at its seat: whether that goes on at once. One that does not is in a
 * call until it leaves. */
static bool make(void *service, void *place) {
    union seated *seated = place;
    bool has_thread = !is_started(seated->asked.whose);
    seated->answer = ask_desk(service, &seated->asked);
    bool goes_on = has_thread ? is_over(&seated->answer) : !is_full(&seated->answer);
    if (!goes_on) enter(service);
    return goes_on;
}

/* What is left to do for a call that has no answer yet. */
__attribute__((noinline)) static stm_answer finish(stm_service *s, const struct asked *asked, stm_answer answer,
                                                   const struct timespec *until) {
    struct call *call = place_of(asked->whose);
    int before;
    pthread_setcancelstate(PTHREAD_CANCEL_DISABLE, &before);
    if (is_full(&answer)) answer = ask_again(s, asked, call, until);
    if (!is_over(&answer)) {
        if (answer.code == STM_RUNNING) run_long(s, call, until);
        else wait_for(s, call, until);
        answer = call->answer;
    }
    leave(s);
    pthread_setcancelstate(before, &before);
    return answer;
}

/* Runs the transaction; where it waits, at most until then; NULL: without end. */
static inline stm_answer run(stm_service *s, uint32_t way, uint32_t transaction, const int64_t *arguments, size_t count,
                             const struct timespec *until) {
    struct call call;
    union seated seated;
    ask_for(&seated.asked, whose_is(&call, false), way, transaction, arguments, count);
    make_call(&s->lock, &seated);
    if (!is_over(&seated.answer)) {
        struct asked asked;
        ask_for(&asked, whose_is(&call, false), way, transaction, arguments, count);
        seated.answer = finish(s, &asked, seated.answer, until);
    }
    do_what_is_owed();
    return seated.answer;
}

stm_answer stm_atomically(stm_service *s, uint32_t transaction, const int64_t *arguments, size_t count) {
    return run(s, STM_WAITS, transaction, arguments, count, NULL);
}

stm_answer stm_try_atomically(stm_service *s, uint32_t transaction, const int64_t *arguments, size_t count) {
    return run(s, STM_TRIES, transaction, arguments, count, NULL);
}

stm_answer stm_atomically_within(stm_service *s, uint32_t transaction, const int64_t *arguments, size_t count,
                                 uint64_t nanoseconds) {
    const struct timespec until = time_in(nanoseconds);
    stm_answer answer = run(s, nanoseconds > 0 ? STM_WAITS : STM_TRIES, transaction, arguments, count, &until);
    if (answer.code == STM_RETRIES) answer.code = STM_TIMED_OUT;
    return answer;
}

int32_t stm_wait_by(stm_waiter *waiter) {
    pthread_once(&before_waiters, make_waiters);
    if (!__atomic_load_n(&has_waiters, __ATOMIC_ACQUIRE)) return STM_MEMORY;
    return pthread_setspecific(waiters, waiter) == 0 ? STM_DONE : STM_MEMORY;
}

/* ---- Observers ---- */

/* Beside the commits: STM_STALE where too many came in between, or no worker is idle. */
static stm_answer observe(stm_service *s, uint32_t transaction, const int64_t *arguments, size_t count) {
    stm_answer answer = bare(STM_STALE);
    stm_worker *worker = borrow(&s->workers);
    if (!worker) return answer;
    for (int tries = 0; tries < TRIES && answer.code == STM_STALE; tries++) {
        answer = stm_observe(worker, transaction, arguments, count);
    }
    give_back(&s->workers, worker);
    return answer;
}

stm_answer stm_service_observe(stm_service *s, uint32_t transaction, const int64_t *arguments, size_t count) {
    enter(s);
    stm_answer answer = observe(s, transaction, arguments, count);
    if (answer.code == STM_STALE) {
        take_lock(&s->lock);
        answer = stm_desk_outcome_now(&s->desk, transaction, arguments, count);
        release(&s->lock);
    }
    leave(s);
    do_what_is_owed();
    return answer;
}

/* ---- Its begin ---- */

/* The store that the desk takes, and its workers, which are opened before. */
static int32_t open_store(stm_service *s, stm_store *store) {
    size_t most, own = stm_program_tasks(&s->program), room = s->options.room;
    int32_t code = most_tasks(&s->program, s->options.ended != NULL, &most);
    if (code != STM_DONE) return code;
    if (own > most || room > most - own) return STM_NO_ROOM;
    if (room == 0) room = most - own;
    code = stm_open_with_room(&s->program, s->options.observers, s->options.checkpoint, room, store);
    if (code != STM_DONE) return code;
    return open_workers(&s->workers, store, s->options.observers, stm_program_transactions(&s->program) > 0);
}

static int32_t open_desk(stm_service *s, const char *file, size_t file_length) {
    stm_store store = {0};
    uint32_t *observers = &s->options.observers;
    if (*observers > MOST_WORKERS) return STM_NO_WORKER;
    int32_t code = stm_read(file, file_length, &s->program);
    if (code == STM_DONE && *observers == 0) code = needed_workers(&s->program, observers);
    if (code == STM_DONE) code = open_store(s, &store);
    if (code == STM_DONE) code = stm_open_desk(&store, &s->desk);
    stm_store_free(&store);
    return code;
}

/* What a service holds, or one that could not be opened. */
static void let_go(stm_service *s) {
    free_workers(&s->workers);
    free_started(s);
    stm_ended_free(&s->chapters.offered);
    stm_desk_free(&s->desk);
    stm_program_free(&s->program);
    free_texts(&s->chapters);
    close_lock(&s->lock);
    rattle_dealloc(s->block);
}

int32_t stm_service_open(const char *file, size_t file_length, const stm_service_options *options,
                         stm_service **out) {
    *out = NULL;
    struct block block = rattle_alloc(sizeof(stm_service) + LINE, 16);
    if (!block.got) return STM_MEMORY;
    /* At the begin of a line of memory, as its seats are. */
    stm_service *s = (stm_service *)(((uintptr_t)block.at + LINE - 1) / LINE * LINE);
    memset(s, 0, sizeof *s);
    s->block = block.at;
    s->process = getpid();
    open_lock(&s->lock, make, ring_all, s);
    open_table(&s->started);
    s->workers.lock = (pthread_mutex_t)PTHREAD_MUTEX_INITIALIZER;
    if (options) s->options = *options;
    int32_t code = open_desk(s, file, file_length);
    if (code == STM_DONE) *out = s;
    else let_go(s);
    return code;
}

/* ---- Its end ---- */

/* Whether it is another process's, of which this one is a child. The threads that were in a call there are not here, so
 * their locks stay taken, and they stay in their calls. */
static bool is_of_another_process(const stm_service *s) { return s->process != getpid(); }

/* Nothing is entered from now on. The host is told what it did not keep, where it was not told so before, or
 * `again`. */
static void close_service(stm_service *s, bool again) {
    int before;
    pthread_setcancelstate(PTHREAD_CANCEL_DISABLE, &before);
    lock(s);
    stm_desk_close(&s->desk);
    s->is_closed = true;
    hand_on(s);
    wake_line(s, &s->chapters.waiting, STM_DONE);
    wake_line(s, &s->told.takers, STM_DONE);
    close_workers(&s->workers);
    if (again || !s->chapters.are_over) tell_last(s);
    wake_line(s, &s->chapters.takers, STM_DONE);
    unlock_and_leave(s);
    pthread_setcancelstate(before, &before);
}

void stm_service_close(stm_service *s) {
    if (!is_of_another_process(s)) close_service(s, true);
}

/* Whether no thread is in a call, by one that is in none. */
static bool is_unused(stm_service *s) {
    take_lock(&s->lock);
    bool unused = is_alone(&s->lock) && __atomic_load_n(&s->inside, __ATOMIC_ACQUIRE) == 0;
    release(&s->lock);
    do_what_is_owed();
    return unused;
}

void stm_service_free(stm_service *s) {
    if (!s || is_of_another_process(s)) return;
    close_service(s, false);
    int before;
    pthread_setcancelstate(PTHREAD_CANCEL_DISABLE, &before);
    while (!is_unused(s)) nanosleep(&(struct timespec){0, 100000}, NULL);
    pthread_setcancelstate(before, &before);
    let_go(s);
}
