/* Stores and their workers are let go, in every order, in one thread and in many: nothing of them is left, and a worker
 * reads the last values as long as it is there. What the program says stays, and its handle holds it to the end.
 *
 *     freed [ROUNDS]
 *
 * It brings its own memory, and counts blocks. ROUNDS is how often each order is tried.
 */
#include "stm.h"
#include "memory.h"
#include "wants.h"

#include <pthread.h>

enum { WORKERS = 3, HANDLES = WORKERS + 1, STORE = WORKERS, TASKS = 2 };

/* Threads count at once, and are not to wait for one another here. */
static long blocks;

static void count(long more) { __atomic_add_fetch(&blocks, more, __ATOMIC_RELAXED); }

static long counted(void) { return __atomic_load_n(&blocks, __ATOMIC_RELAXED); }

struct block rattle_alloc(size_t size, size_t align) {
    void *at = malloc(size ? size : align);
    if (at) count(1);
    return told(at);
}

struct block rattle_realloc(void *old, size_t old_size, size_t size, size_t align) {
    (void)old_size;
    return told(realloc(old, size ? size : align));
}

void rattle_dealloc(void *old) {
    count(-1);
    free(old);
}

static const char text[] = "(var x 0)(var y 0)(tx inc (seq (set x (add x 1)) (set y (add y 1))) x)(tx sum (skip) (add x y))(run inc 2)";
static stm_program program;
static stm_store store;
static stm_worker workers[WORKERS];

/* A store whose tasks are done by a worker, and so many workers hired of the three that it has room for. */
static void open_store(int hired) {
    wants(stm_open(&program, WORKERS, 0, &store) == STM_DONE);
    for (int i = 0; i < hired; i++) wants(stm_open_worker(&store, &workers[i]) == STM_DONE);
    for (int done = 0; hired && done < TASKS; done++) {
        stm_job job = stm_take(&store);
        wants(job.ticket == done && stm_try_job(&workers[0], job) == STM_DONE);
        wants(stm_bring(&store, &workers[0]).code == STM_DONE);
    }
}

/* A worker of such a store reads what was committed last. */
static void reads(stm_worker *worker) {
    stm_answer sum = stm_observe(worker, 1, NULL, 0);
    wants(sum.code == STM_DONE && sum.value == 2 * TASKS);
}

static void free_one(int which) {
    if (which == STORE) {
        stm_store_free(&store);
    } else {
        stm_worker_free(&workers[which]);
    }
}

/* Opens a store, and lets it and its workers go in this order; those that are left read after each. */
static void in_order(const int *order, int hired) {
    bool gone[HANDLES] = {false};
    open_store(hired);
    for (int next = 0; next < HANDLES; next++) {
        free_one(order[next]);
        gone[order[next]] = true;
        for (int i = 0; i < hired; i++) {
            if (!gone[i]) reads(&workers[i]);
        }
    }
}

/* Each order of the handles, from the place `from` on. How many there are. */
static int each_order(int *order, int from, long rounds, long kept) {
    if (from == HANDLES) {
        for (long round = 0; round < rounds; round++) {
            in_order(order, (int)(round % (WORKERS + 1)));
            wants(counted() == kept);
        }
        return 1;
    }
    int orders = 0;
    for (int next = from; next < HANDLES; next++) {
        int first = order[next];
        order[next] = order[from];
        order[from] = first;
        orders += each_order(order, from + 1, rounds, kept);
        order[from] = order[next];
        order[next] = first;
    }
    return orders;
}

/* A thread with a worker, which it lets go when it has read. */
static void *read_and_free(void *argument) {
    for (int i = 0; i < 3; i++) reads(argument);
    stm_worker_free(argument);
    return NULL;
}

/* The last of the store and its workers is let go in whichever thread that is. */
static void in_threads(long kept) {
    pthread_t threads[WORKERS];
    open_store(WORKERS);
    for (int i = 0; i < WORKERS; i++) wants(pthread_create(&threads[i], NULL, read_and_free, &workers[i]) == 0);
    stm_store_free(&store);
    for (int i = 0; i < WORKERS; i++) pthread_join(threads[i], NULL);
    wants(counted() == kept);
}

/* A store that nobody reads, with an attempt that is lent to it. */
static void with_none(long kept) {
    stm_lender lender = {0};
    wants(stm_open_with_room(&program, 0, 0, 1, &store) == STM_DONE && stm_open_lender(&store, &lender) == STM_DONE);
    wants(stm_call(&store, &lender, 0, NULL, 0, STM_WAITS).value == 1);
    stm_store_free(&store);
    stm_lender_free(&lender);
    wants(counted() == kept);
}

int main(int words_count, char **words) {
    long rounds = words_count > 1 ? atol(words[1]) : 200;
    int order[HANDLES];
    for (int i = 0; i < HANDLES; i++) order[i] = i;
    wants(stm_read(text, sizeof text - 1, &program) == STM_DONE);
    long kept = counted();
    int orders = each_order(order, 0, rounds, kept);
    for (long round = 0; round < rounds; round++) in_threads(kept);
    for (long round = 0; round < rounds; round++) with_none(kept);
    fprintf(stderr, "%ld stores let go, %ld blocks stay\n", (orders + 2) * rounds, kept);
    puts("good");
    return 0;
}
