/* Workers of a service, by which threads observe and evaluate long transactions beside what others commit, each for one
 * thread at a time. It is a part of service.c. */
#ifndef STM_WORKERS_H
#define STM_WORKERS_H

#include "stm.h"

#include <pthread.h>
#include <stdbool.h>
#include <string.h>

enum { MOST_WORKERS = 32, WORKERS = 4, MOST_TRANSACTIONS = 256 };

struct workers {
    pthread_mutex_t lock;
    stm_worker all[MOST_WORKERS];
    stm_worker *idle[MOST_WORKERS];
    size_t idle_count;
    bool is_closed;
};

/* How many there are where the host does not say: each commit writes down for them what it changed, so there are none
 * where no transaction is long. */
static int32_t needed_workers(const stm_program *program, uint32_t *count) {
    uint8_t is_long[MOST_TRANSACTIONS];
    size_t transactions;
    int32_t code = stm_program_long(program, is_long, sizeof is_long, &transactions);
    *count = code == STM_DONE && memchr(is_long, 1, transactions) ? WORKERS : 0;
    return code;
}

/* So many workers of the store. Where it has no transaction none is opened, for no call comes to one. */
static int32_t open_workers(struct workers *w, stm_store *store, size_t count, bool has_transactions) {
    int32_t code = STM_DONE;
    for (size_t i = 0; has_transactions && i < count && code == STM_DONE; i++) {
        code = stm_open_worker(store, &w->all[i]);
        w->idle[w->idle_count++] = &w->all[i];
    }
    return code;
}

/* A worker for this thread; NULL: none is idle, or they are closed. */
static stm_worker *borrow(struct workers *w) {
    pthread_mutex_lock(&w->lock);
    stm_worker *worker = !w->is_closed && w->idle_count > 0 ? w->idle[--w->idle_count] : NULL;
    pthread_mutex_unlock(&w->lock);
    return worker;
}

static void give_back(struct workers *w, stm_worker *worker) {
    pthread_mutex_lock(&w->lock);
    w->idle[w->idle_count++] = worker;
    pthread_mutex_unlock(&w->lock);
}

/* None is lent from now on. */
static void close_workers(struct workers *w) {
    pthread_mutex_lock(&w->lock);
    w->is_closed = true;
    pthread_mutex_unlock(&w->lock);
}

static void free_workers(struct workers *w) {
    for (size_t i = 0; i < MOST_WORKERS; i++) stm_worker_free(&w->all[i]);
    pthread_mutex_destroy(&w->lock);
}

#endif
