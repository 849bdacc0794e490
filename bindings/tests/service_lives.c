/* Short lives of a service: 64 threads call, wait for one another, and wait no longer, while chapters end, are not kept
 * and are told again, until it is closed in the midst of it. Of each call that was answered an entry the kept reports
 * have that entry once, where the answer says; of the others they have none; and no two answers have the same place.
 * Prints `good`.
 *
 * service_lives LIVES */
#include "service.h"
#include "wants.h"

#include <pthread.h>
#include <stdlib.h>
#include <string.h>
#include <time.h>
#include <unistd.h>

enum { THREADS = 64, CALLS = 24, ALL = THREADS * CALLS, MOST_CHAPTERS = ALL + 1, MOST_TEXT = 1 << 18 };
enum { PUT, GET, LONG_PUT, LONG_GET, FAIL, KINDS };
/* Each returns or throws the number that its call was given. */
#define MAKE "(if (le 5 (sub made taken)) (retry) (set made (add made 1)))"
#define TAKE "(if (eq made taken) (retry) (set taken (add taken 1)))"
#define WORK "(repeat 10 (repeat 20 (set d (add d 1)))) (set d 0)"
static const char TEXT[] =
    "(stm 3)(var made 0)(var taken 0)(var d 0)(always bounded (and (le taken made) (le made (add taken 5))))"
    "(tx put (id) " MAKE " id)(tx get (id) " TAKE " id)(tx long_put (id) (seq " WORK " " MAKE ") id)"
    "(tx long_get (id) (seq " TAKE " " WORK ") id)(tx fail (id) (seq (set d id) (throw id)) id)";

static stm_service *service;
static unsigned life;

/* What a call was answered. Its number is that of its place here. */
struct called {
    int is_made;
    stm_answer answer;
};
static struct called called[ALL];

/* Where the reports have the entry of a call, and how often. */
struct found {
    uint64_t chapter, entry;
    int times;
};
static struct found found[ALL];

static unsigned drawn(unsigned *seed) {
    *seed = *seed * 1103515245 + 12345;
    return *seed >> 16;
}

static void rests(long microseconds) { nanosleep(&(struct timespec){0, microseconds * 1000}, NULL); }

/* ---- The host ---- */

/* What it keeps: the chapters, in their order. It is told one at a time, and does not keep each at once. */
struct host {
    unsigned seed;
    int is_told, failures;
    uint64_t chapters, entries;
};

/* The entries of a report, as `entry 5 3 put returned 12`. */
static uint64_t find_entries(const char *report, size_t length, uint64_t chapter) {
    uint64_t entries = 0;
    for (const char *line = report, *end = report + length; line < end; line = strchr(line, '\n') + 1) {
        unsigned long long number, task;
        char name[32], how[32];
        long long id;
        if (strncmp(line, "entry ", 6) != 0) continue;
        wants(sscanf(line, "entry %llu %llu %31s %31s %lld", &number, &task, name, how, &id) == 5 && id >= 0 && id < ALL);
        found[id] = (struct found){chapter, number, found[id].times + 1};
        entries++;
    }
    return entries;
}

static void keep(struct host *host, const char *file, size_t file_length, const char *report, size_t length) {
    static char text[MOST_TEXT];
    wants(length < sizeof text && stm_check(file, file_length, report, length) == STM_DONE);
    memcpy(text, report, length);
    text[length] = 0;
    host->entries += find_entries(text, length, host->chapters++);
}

static int keeps(void *own, const char *file, size_t file_length, const char *report, size_t report_length) {
    struct host *host = own;
    wants(__atomic_exchange_n(&host->is_told, 1, __ATOMIC_ACQ_REL) == 0);
    int is_kept = drawn(&host->seed) % 4 != 0;
    if (drawn(&host->seed) % 4 == 0) rests(drawn(&host->seed) % 200);
    if (is_kept) keep(host, file, file_length, report, report_length);
    else host->failures++;
    wants(__atomic_exchange_n(&host->is_told, 0, __ATOMIC_ACQ_REL) == 1);
    return !is_kept;
}

static void keeps_the_last(struct host *host) {
    static char file[MOST_TEXT], report[MOST_TEXT];
    size_t file_length, report_length;
    wants(stm_service_file(service, file, sizeof file, &file_length) == STM_DONE);
    wants(stm_service_report(service, report, sizeof report, &report_length) == STM_DONE);
    keep(host, file, file_length, report, report_length);
}

/* ---- The threads ---- */

static stm_answer call(unsigned *seed, uint32_t transaction, int64_t id) {
    switch (drawn(seed) % 4) {
    case 0: return stm_try_atomically(service, transaction, &id, 1);
    case 1: return stm_atomically(service, transaction, &id, 1);
    default: return stm_atomically_within(service, transaction, &id, 1, drawn(seed) % 4 ? drawn(seed) * 8 : 0);
    }
}

static void *calls(void *own) {
    struct called *first = own;
    unsigned seed = (unsigned)(first - called) + life * 31;
    for (struct called *one = first; one < first + CALLS; one++) {
        one->answer = call(&seed, drawn(&seed) % KINDS, one - called);
        one->is_made = 1;
        if (one->answer.code == STM_CLOSED) break;
    }
    return NULL;
}

/* ---- What has to hold ---- */

static int by_place(const void *one, const void *other) {
    uint64_t place = (*(struct called *const *)one)->answer.place, of = (*(struct called *const *)other)->answer.place;
    return (place > of) - (place < of);
}

/* The places are all different, and in the order of the entries. */
static void are_in_order(struct called **entered, long count) {
    qsort(entered, (size_t)count, sizeof *entered, by_place);
    for (long i = 1; i < count; i++) {
        const stm_answer *before = &entered[i - 1]->answer, *here = &entered[i]->answer;
        wants(before->place < here->place && before->ticket != here->ticket);
        wants(before->chapter < here->chapter || (before->chapter == here->chapter && before->entry < here->entry));
    }
}

static int is_fault(const stm_answer *answer) {
    int32_t code = answer->code;
    return answer->ticket == -1 && answer->place == 0 && answer->chapter == 0 && answer->value == 0 &&
           (code == STM_CLOSED || code == STM_TIMED_OUT || code == STM_RETRIES || code == STM_NO_ROOM);
}

static void judge(const struct host *host) {
    static struct called *entered[ALL];
    long count = 0;
    for (int64_t id = 0; id < ALL; id++) {
        const stm_answer *answer = &called[id].answer;
        if (!called[id].is_made || answer->entry == 0) {
            wants(found[id].times == 0 && (!called[id].is_made || is_fault(answer)));
            continue;
        }
        wants((answer->code == STM_DONE || answer->code == STM_THROWN) && answer->value == id && answer->ticket >= 0);
        wants(found[id].times == 1 && found[id].chapter == answer->chapter && found[id].entry == answer->entry);
        entered[count++] = &called[id];
    }
    are_in_order(entered, count);
    wants((uint64_t)count == host->entries && host->entries == stm_service_entered(service));
    wants(host->chapters == stm_service_chapter(service) + 1);
}

static int lives(void) {
    unsigned seed = life * 7919 + 1;
    struct host host = {seed, 0, 0, 0, 0};
    stm_service_options options = {2 + drawn(&seed) % 100, 0, 1 + drawn(&seed) % 8, keeps, &host};
    pthread_t threads[THREADS];
    memset(called, 0, sizeof called);
    memset(found, 0, sizeof found);
    wants(stm_service_open(TEXT, strlen(TEXT), &options, &service) == STM_DONE);
    for (int i = 0; i < THREADS; i++) wants(pthread_create(&threads[i], NULL, calls, &called[i * CALLS]) == 0);
    rests(drawn(&seed) % 4000);
    stm_service_close(service);
    for (int i = 0; i < THREADS; i++) pthread_join(threads[i], NULL);
    /* What was not kept then is told once more by each that closes. */
    while (host.chapters < stm_service_chapter(service)) stm_service_close(service);
    keeps_the_last(&host);
    judge(&host);
    stm_service_free(service);
    return host.failures;
}

int main(int count, char **words) {
    unsigned all = count > 1 ? (unsigned)atol(words[1]) : 500;
    long failures = 0;
    alarm(300); /* who waits for ever fails */
    for (life = 0; life < all; life++) failures += lives();
    wants(failures > all / 4);
    printf("good\n");
    return 0;
}
