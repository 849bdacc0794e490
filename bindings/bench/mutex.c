/* Calls under a mutex: one lock, one condition variable, a plain array. With -DJOURNAL each call also writes 16 bytes,
 * what was asked and what was answered, to a ring under the same lock: the least that a journal costs. */
#include <harness.h>

static pthread_mutex_t lock = PTHREAD_MUTEX_INITIALIZER;
static pthread_cond_t changed = PTHREAD_COND_INITIALIZER;
static int64_t *table, length;

#ifdef JOURNAL
static struct entry {
    uint64_t asked;
    int64_t answered;
} journal[65536];
static uint16_t entered;

static void enter(uint64_t asked, int64_t answered) { journal[entered++] = (struct entry){asked, answered}; }
#else
static void enter(uint64_t asked, int64_t answered) { (void)asked, (void)answered; }
#endif

static int offers(const char *workload) { return workload != NULL; }

static void set_up(int64_t cells, int64_t first, int unused) {
    (void)unused;
    table = malloc((size_t)cells * sizeof *table);
    length = cells;
    if (!table) exit(4);
    for (int64_t i = 0; i < cells; i++) table[i] = first;
}

static int64_t transfer(int64_t from, int64_t to, int64_t amount) {
    pthread_mutex_lock(&lock);
    int64_t left = ~amount;
    if (table[from] >= amount) {
        table[from] -= amount;
        table[to] += amount;
        left = table[from];
    }
    enter((uint64_t)amount << 40 | (uint64_t)from << 20 | (uint64_t)to, left);
    pthread_mutex_unlock(&lock);
    return left;
}

static int64_t audit(void) {
    pthread_mutex_lock(&lock);
    int64_t sum = 0;
    for (int64_t i = 0; i < length; i++) sum += table[i];
    enter((uint64_t)1 << 60, sum);
    pthread_mutex_unlock(&lock);
    return sum;
}

static void put(int64_t buffer, int64_t value) {
    int64_t *at = table + base(buffer);
    pthread_mutex_lock(&lock);
    while (at[1] - at[0] == places) pthread_cond_wait(&changed, &lock);
    int was_empty = at[1] == at[0];
    at[2 + at[1] % places] = value;
    at[1]++;
    enter((uint64_t)2 << 60 | (uint64_t)buffer, value);
    pthread_mutex_unlock(&lock);
    if (was_empty) pthread_cond_broadcast(&changed);
}

static int64_t get(int64_t buffer) {
    int64_t *at = table + base(buffer);
    pthread_mutex_lock(&lock);
    while (at[1] == at[0]) pthread_cond_wait(&changed, &lock);
    int was_full = at[1] - at[0] == places;
    int64_t value = at[2 + at[0] % places];
    at[0]++;
    enter((uint64_t)3 << 60 | (uint64_t)buffer, value);
    pthread_mutex_unlock(&lock);
    if (was_full) pthread_cond_broadcast(&changed);
    return value;
}

static int64_t cell(int64_t index) { return table[index]; }

static void tear_down(void) { free(table); }
