/* One store for a whole life: tasks come in by calls and by submits, chapter after chapter, while others sleep through
 * hundreds of chapters until a bell wakes them.
 *
 *     store_for_life FOLDER TASKS THREADS
 *
 * It brings its own memory, and counts its bytes. The file and the report of chapter K are left as FOLDER/K.stm and
 * FOLDER/K.report. Prints how many chapters there were, how many sleepers were woken, the bytes and the resident pages at the
 * end of the first chapter and of the last, and `good`. */
#include "stm.h"
#include "memory.h"
#include "wants.h"

#include <malloc.h>
#include <pthread.h>
#include <stdio.h>
#include <stdlib.h>
#include <string.h>

static long bytes_held;

static struct block counted(void *at) {
    if (at) __atomic_fetch_add(&bytes_held, (long)malloc_usable_size(at), __ATOMIC_RELAXED);
    return told(at);
}

struct block rattle_alloc(size_t size, size_t align) { return counted(malloc(size ? size : align)); }

struct block rattle_realloc(void *old, size_t old_size, size_t size, size_t align) {
    (void)old_size;
    __atomic_fetch_sub(&bytes_held, (long)malloc_usable_size(old), __ATOMIC_RELAXED);
    return counted(realloc(old, size ? size : align));
}

void rattle_dealloc(void *old) {
    __atomic_fetch_sub(&bytes_held, (long)malloc_usable_size(old), __ATOMIC_RELAXED);
    free(old);
}

static long resident_pages(void) {
    long all = 0, resident = 0;
    FILE *file = fopen("/proc/self/statm", "r");
    wants(file && fscanf(file, "%ld %ld", &all, &resident) == 2 && fclose(file) == 0);
    return resident;
}

static const char FILE_TEXT[] = "(stm 2)(var n 0)(var bell 0)(always heard (le 0 bell))(tx inc (set n (add n 1)) n)"
                                "(tx sleep (if (lt bell 1) (retry) (set bell (sub bell 1))) bell)"
                                "(tx ring (set bell (add bell 1)) bell)";
enum { INC, SLEEP, RING, TASK_ROOM = 4096, SLEEPERS = 16, RINGS_EVERY = 100, MOST = 32 };

static pthread_mutex_t lock = PTHREAD_MUTEX_INITIALIZER;
static stm_store store;
static stm_lender lender;
/* What the lock guards: what is left to do, how many increments were asked for and how many entered, the chapters that
 * ended, who sleeps, and the memory at the end of the first chapter. */
static long left, asked;
static int64_t entered;
static uint64_t chapters, woken, rings;
static int64_t sleepers[SLEEPERS];
static long first_bytes, first_pages, last_bytes, last_pages;
static const char *folder;
static char file[1 << 20], report[1 << 20];

static void keep(const char *kind, const char *text, size_t length) {
    char path[4096];
    snprintf(path, sizeof path, "%s/%llu.%s", folder, (unsigned long long)chapters, kind);
    FILE *out = fopen(path, "wb");
    wants(out && fwrite(text, 1, length, out) == length && fclose(out) == 0);
}

/* An increment was entered: each has the number after the one before. */
static void counts(int64_t value) { wants(value == ++entered); }

/* A turn of a task of this chapter. */
static void turned(uint32_t transaction, stm_answer turn) {
    wants(turn.ticket >= 0 && turn.chapter == chapters);
    if (turn.code == STM_RETRIES) wants(transaction == SLEEP);
    else wants(turn.code == STM_DONE && turn.entry > 0);
    if (transaction == INC) counts(turn.value);
}

static stm_answer calls(uint32_t transaction, uint32_t way) {
    return stm_call(&store, &lender, transaction, NULL, 0, way);
}

/* Those that still sleep have their tickets; in the place of one that was woken another lies down. */
static void look_at_sleepers(void) {
    for (int i = 0; i < SLEEPERS; i++) {
        stm_answer how = stm_standing(&store, sleepers[i]);
        if (how.code == STM_RETRIES) continue;
        wants(how.code == STM_GONE);
        woken++;
        stm_answer turn = calls(SLEEP, STM_WAITS);
        wants(turn.code == STM_RETRIES);
        sleepers[i] = turn.ticket;
    }
}

/* What is ready or running has its turn, the chapter's file and report are kept, and the next one begins. */
static void next_chapter(void) {
    size_t file_length = 0, report_length = 0;
    uint64_t version = 0, before = stm_entered(&store);
    wants(stm_report(&store, report, sizeof report, &report_length) == STM_DONE);
    wants(stm_file(&store, file, sizeof file, &file_length) == STM_DONE);
    wants(stm_check(file, file_length, report, report_length) == STM_DONE);
    keep("stm", file, file_length);
    keep("report", report, report_length);
    wants(stm_value(&store, "n", 1, &entered, &version) == STM_DONE);
    wants(stm_entered(&store) >= before && stm_begin_chapter(&store) == STM_DONE && stm_chapter(&store) == ++chapters);
    last_bytes = bytes_held;
    last_pages = resident_pages();
    if (chapters == 1) first_bytes = last_bytes, first_pages = last_pages;
    wants(last_bytes == first_bytes);
    look_at_sleepers();
    wants(stm_store_spare(&store) == TASK_ROOM - SLEEPERS);
    if (chapters % RINGS_EVERY == 0) {
        turned(RING, calls(RING, STM_WAITS));
        rings++;
    }
}

/* A job that was taken: tried beside the lock, and brought under it. */
static void brings(stm_worker *worker, stm_job job) {
    pthread_mutex_unlock(&lock);
    int32_t tried = stm_try_job(worker, job);
    pthread_mutex_lock(&lock);
    stm_answer end = tried == STM_DONE ? stm_bring(&store, worker) : (stm_answer){.ticket = -1, .code = tried};
    if (end.code == STM_STALE) end = stm_turn(&store, &lender, job);
    switch (end.code) {
    case STM_DONE:
        if (job.transaction == INC) counts(end.value);
        return;
    case STM_RETRIES: wants(job.transaction == SLEEP); return;
    /* A chapter ended meanwhile, and the task had its turn before, or has another one now. */
    case STM_GONE:
    case STM_NOT_RUNNING: return;
    default: fails(stm_word(end.code), __LINE__);
    }
}

/* One task more, in one of four ways. */
static void one_more(stm_worker *worker, long way) {
    asked++;
    if (way == 0) {
        turned(INC, calls(INC, STM_WAITS));
    } else if (way == 1) {
        turned(INC, calls(INC, STM_TRIES));
    } else {
        int64_t ticket = stm_submit(&store, INC, NULL, 0);
        wants(ticket >= 0);
        stm_job job = way == 2 ? stm_claim(&store, ticket) : stm_take(&store);
        wants(job.ticket >= 0 && job.chapter == chapters);
        brings(worker, job);
    }
}

static void *work(void *worker) {
    pthread_mutex_lock(&lock);
    for (; left > 0; pthread_mutex_unlock(&lock), pthread_mutex_lock(&lock)) {
        if (stm_store_spare(&store) < 2) next_chapter();
        one_more(worker, left-- % 4);
    }
    pthread_mutex_unlock(&lock);
    return NULL;
}

static int sleeping(void) {
    int still = 0;
    for (int i = 0; i < SLEEPERS; i++) still += stm_standing(&store, sleepers[i]).code == STM_RETRIES;
    return still;
}

/* The bell rings until nobody sleeps. */
static void all_wake(void) {
    for (next_chapter();; rings++) {
        for (stm_job job; (job = stm_take(&store)).ticket >= 0;) turned(job.transaction, stm_turn(&store, &lender, job));
        if (!sleeping()) break;
        turned(RING, calls(RING, STM_WAITS));
    }
    wants(woken + SLEEPERS == rings && entered == asked);
}

int main(int count, char **words) {
    static stm_worker workers[MOST];
    static pthread_t pool[MOST];
    stm_program program = {0};
    if (count != 4) return 9;
    folder = words[1];
    left = atol(words[2]);
    int threads = atoi(words[3]);
    /* One arena for all threads, so that pages are as many as bytes want. */
    wants(0 < threads && threads <= MOST && mallopt(M_ARENA_MAX, 1) == 1);
    wants(stm_read(FILE_TEXT, strlen(FILE_TEXT), &program) == STM_DONE);
    wants(stm_open_with_room(&program, (size_t)threads, 0, TASK_ROOM, &store) == STM_DONE && stm_open_lender(&store, &lender) == STM_DONE);
    for (int i = 0; i < SLEEPERS; i++) {
        stm_answer turn = calls(SLEEP, STM_WAITS);
        wants(turn.code == STM_RETRIES && turn.ticket == i);
        sleepers[i] = turn.ticket;
    }
    /* Each worker's attempt has its memory from the first chapter on. */
    for (int i = 0; i < threads; i++) {
        wants(stm_open_worker(&store, &workers[i]) == STM_DONE);
        wants(stm_observe(&workers[i], INC, NULL, 0).code == STM_DONE);
        wants(stm_observe(&workers[i], SLEEP, NULL, 0).code == STM_RETRIES);
    }
    for (int i = 0; i < threads; i++) wants(pthread_create(&pool[i], NULL, work, &workers[i]) == 0);
    for (int i = 0; i < threads; i++) wants(pthread_join(pool[i], NULL) == 0);
    all_wake();
    next_chapter();
    printf("%llu chapters, %llu woken, bytes %ld %ld, pages %ld %ld\n", (unsigned long long)chapters,
           (unsigned long long)woken, first_bytes, last_bytes, first_pages, last_pages);
    for (int i = 0; i < threads; i++) stm_worker_free(&workers[i]);
    stm_lender_free(&lender);
    stm_store_free(&store);
    stm_program_free(&program);
    puts("good");
    return 0;
}
