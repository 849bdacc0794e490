/* Calls by the compiler's transactions (-fgnu-tm) with the method ml_wt: many versioned locks, written through. They
 * can't wait: who finds a buffer full or empty lets others run and tries again. */
#include <harness.h>

/* A transaction begins a function of its own. */
#define CALL __attribute__((noinline)) static

static int64_t *table, length;

static int offers(const char *workload) { return workload != NULL; }

static void set_up(int64_t cells, int64_t first, int unused) {
    (void)unused;
    /* With one thread the library else leaves its method for a serial one. */
    setenv("ITM_DEFAULT_METHOD", "ml_wt", 0);
    table = malloc((size_t)cells * sizeof *table);
    length = cells;
    if (!table) exit(4);
    for (int64_t i = 0; i < cells; i++) table[i] = first;
}

CALL int64_t transfer(int64_t from, int64_t to, int64_t amount) {
    int64_t *v = table, left = ~amount;
    __transaction_atomic {
        if (v[from] >= amount) {
            v[from] -= amount;
            v[to] += amount;
            left = v[from];
        }
    }
    return left;
}

CALL int64_t audit(void) {
    int64_t *v = table, most = length, sum;
    __transaction_atomic {
        sum = 0;
        for (int64_t i = 0; i < most; i++) sum += v[i];
    }
    return sum;
}

CALL int puts_now(int64_t *at, int64_t mask, int64_t value) {
    int done = 0;
    __transaction_atomic {
        int64_t given = at[1];
        if (given - at[0] != mask + 1) {
            at[2 + (given & mask)] = value;
            at[1] = given + 1;
            done = 1;
        }
    }
    return done;
}

CALL int gets_now(int64_t *at, int64_t mask, int64_t *value) {
    int done = 0;
    int64_t found = 0;
    __transaction_atomic {
        int64_t got = at[0];
        if (at[1] != got) {
            found = at[2 + (got & mask)];
            at[0] = got + 1;
            done = 1;
        }
    }
    *value = found;
    return done;
}

static void put(int64_t buffer, int64_t value) {
    while (!puts_now(table + base(buffer), places - 1, value)) sched_yield();
}

static int64_t get(int64_t buffer) {
    int64_t value;
    while (!gets_now(table + base(buffer), places - 1, &value)) sched_yield();
    return value;
}

static int64_t cell(int64_t index) { return table[index]; }

static void tear_down(void) { free(table); }
