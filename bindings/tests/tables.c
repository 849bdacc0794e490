/* Tables, of a store and of a service: cells by their numbers and by their names. Prints `good`. */
#include "judging.h"

#include <pthread.h>
#include <stdio.h>
#include <unistd.h>

static const char TEXT[] =
    "(stm 3)(var spare 9)(table acct 4 100)(table rate 2 5 6)"
    "(tx pay (from to n) (seq (if (lt (at acct from) n) (throw n) (skip)) (put acct from (sub (at acct from) n))"
    " (put acct to (add (at acct to) n))) (at acct from))"
    "(tx audit () (skip) (sum acct))";

/* Who takes a cell waits until one is given there. */
static const char PLACES[] =
    "(stm 3)(table q 10000 0)(tx give (i) (put q i (add (at q i) 1)) (at q i))"
    "(tx take (i) (seq (if (eq (at q i) 0) (retry) (skip)) (put q i (sub (at q i) 1))) i)"
    "(tx take_any () (if (eq (max q) 0) (retry) (skip)) (max q))";

enum { PAY, AUDIT, PAID = 100 };
enum { GIVE, TAKE, TAKE_ANY, TAKERS = 20, APART = 256 };

static stm_program program;
static stm_store store;
static stm_lender lender;
static int64_t value;
static uint64_t version;

static int64_t table_of(const char *name) {
    return stm_program_table(&program, name, strlen(name));
}

static int is(int32_t code, int64_t wanted, uint64_t changed) {
    return code == STM_DONE && value == wanted && version == changed;
}

static int32_t named(const char *name) {
    return stm_value(&store, name, strlen(name), &value, &version);
}

/* Nothing is written where there is no such cell. */
static int is_none(int32_t code) {
    int stays = value == -7 && version == 77;
    return code == STM_UNKNOWN && stays;
}

static void declared(void) {
    stm_program none = {0};
    wants(stm_program_tables(&program) == 2 && table_of("acct") == 0 && table_of("rate") == 1);
    wants(table_of("spare") == STM_UNKNOWN && table_of("acct[0]") == STM_UNKNOWN && table_of("\xff") == STM_UNKNOWN);
    wants(stm_program_cells(&program, 0) == 4 && stm_program_cells(&program, 1) == 2);
    wants(stm_program_cells(&program, 2) == STM_UNKNOWN && stm_program_cells(&program, UINT32_MAX) == STM_UNKNOWN);
    wants(stm_program_tables(&none) == 0 && stm_program_cells(&none, 0) == STM_EMPTY);
    wants(stm_program_table(&none, "acct", 4) == STM_EMPTY);
}

static void single(void) {
    const char *none[] = {
        "acct", "acct[4]", "acct[03]", "acct[-0]", "acct[3", "acct[3]]", "acct[]", "spare[0]", "\xff[0]",
    };
    const int64_t given[] = {0, 3, 60};
    wants(stm_call(&store, &lender, PAY, given, 3, STM_WAITS).code == STM_DONE);
    wants(is(stm_cell(&store, 0, 0, &value, &version), 40, 1) && is(stm_cell(&store, 0, 3, &value, &version), 160, 1));
    wants(is(stm_cell(&store, 0, 1, &value, &version), 100, 0) && is(stm_cell(&store, 1, 1, &value, &version), 6, 0));
    wants(is(named("acct[3]"), 160, 1) && is(named("rate[0]"), 5, 0) && is(named("spare"), 9, 0));
    value = -7, version = 77;
    for (size_t i = 0; i < sizeof none / sizeof *none; i++) wants(is_none(named(none[i])));
    wants(is_none(stm_cell(&store, 0, 4, &value, &version)) && is_none(stm_cell(&store, 2, 0, &value, &version)));
    wants(is_none(stm_cell(&store, UINT32_MAX, UINT32_MAX, &value, &version)));
}

static void many(void) {
    stm_store none = {0};
    int64_t values[3] = {-7, -7, -7};
    wants(stm_cells(&store, 0, 2, values, 3) == 2 && values[0] == 100 && values[1] == 160 && values[2] == -7);
    wants(stm_cells(&store, 0, 0, values, 3) == 3 && values[0] == 40 && values[1] == 100 && values[2] == 100);
    wants(stm_cells(&store, 1, 0, values, 1) == 1 && values[0] == 5 && values[1] == 100);
    wants(stm_cells(&store, 0, 4, values, 3) == 0 && stm_cells(&store, 0, UINT32_MAX, values, 3) == 0);
    wants(stm_cells(&store, 0, 0, NULL, 0) == 0 && stm_cells(&store, 2, 0, NULL, 0) == STM_UNKNOWN);
    wants(stm_cells(&store, 2, 0, values, 3) == STM_UNKNOWN && stm_cells(&none, 0, 0, values, 3) == STM_EMPTY);
    wants(values[0] == 5 && values[1] == 100 && values[2] == 100);
    wants(stm_cell(&none, 0, 0, &value, &version) == STM_EMPTY);
}

static void faults(void) {
    const int64_t behind[] = {0, 4, 1}, before[] = {-1, 0, 0};
    wants(stm_call(&store, &lender, PAY, behind, 3, STM_WAITS).code == STM_OUTSIDE);
    wants(stm_call(&store, &lender, PAY, before, 3, STM_WAITS).code == STM_OUTSIDE);
    wants(stm_call(&store, &lender, AUDIT, NULL, 0, STM_WAITS).value == 400);
}

/* The same of a service, which is looked at also once it is closed. */
static void cells_of_a_service(void) {
    const char acct[] = "acct", wrong[] = "acct[0]";
    const int64_t given[] = {0, 3, 60};
    int64_t values[3] = {-7, -7, -7};
    stm_service *service = opens(TEXT, NULL);
    wants(stm_atomically(service, PAY, given, 3).value == 40);
    for (int closed = 0; closed < 2; closed++) {
        wants(stm_service_table(service, acct, 4) == 0 && stm_service_table(service, wrong, 7) == STM_UNKNOWN);
        wants(stm_service_table_length(service, 0) == 4 && stm_service_table_length(service, 1) == 2);
        wants(stm_service_table_length(service, 2) == STM_UNKNOWN);
        wants(is(stm_service_cell(service, 0, 3, &value, &version), 160, 1));
        wants(is(stm_service_cell(service, 1, 1, &value, &version), 6, 0));
        value = -7, version = 77;
        wants(is_none(stm_service_cell(service, 0, 4, &value, &version)));
        wants(is_none(stm_service_cell(service, 2, 0, &value, &version)));
        wants(stm_service_cells(service, 0, 2, values, 3) == 2 && values[0] == 100 && values[1] == 160);
        wants(values[2] == (closed ? 100 : -7));
        wants(stm_service_cells(service, 0, 0, values, 3) == 3 && values[0] == 40 && values[2] == 100);
        wants(stm_service_cells(service, 0, 4, values, 3) == 0 && stm_service_cells(service, 0, 0, NULL, 0) == 0);
        wants(stm_service_cells(service, 2, 0, values, 3) == STM_UNKNOWN && values[0] == 40);
        stm_service_close(service);
    }
    stm_service_free(service);
}

/* A service's chapters end while the values of cells get longer, and each is good. */
static void of_a_service(void) {
    struct judged judged = {{" pay returned ", NULL}, {0}, 0};
    stm_service_options options = {10, 0, 0, judges, &judged};
    const int64_t given[] = {0, 3, -1000000000};
    stm_service *service = opens(TEXT, &options);
    for (int i = 0; i < PAID; i++) wants(stm_atomically(service, PAY, given, 3).code == STM_DONE);
    wants(value_of(service, "acct[0]") == 100 + PAID * INT64_C(1000000000));
    wants(value_of(service, "acct[3]") == 100 - PAID * INT64_C(1000000000) && value_of(service, "rate[1]") == 6);
    stm_service_close(service);
    judges_the_last(service, &judged);
    wants(judged.lines[0] == PAID && judged.chapters > 3);
    stm_service_free(service);
}

static stm_service *places;

static void *takes(void *own) {
    const int64_t *cell = own;
    wants(stm_atomically(places, TAKE, cell, 1).value == *cell);
    return NULL;
}

static void *takes_any(void *own) {
    wants(stm_atomically(places, TAKE_ANY, NULL, 0).value == 1);
    return own;
}

static void starts(pthread_t *thread, void *(*run)(void *), void *own) {
    wants(pthread_create(thread, NULL, run, own) == 0);
}

/* Threads wait for cells whose numbers have the same low bits, and one for all cells: each is woken by its own. */
static void woken_by_their_own(void) {
    struct judged judged = {{" take returned ", " take_any returned "}, {0}, 0};
    pthread_t takers[TAKERS], any;
    int64_t cells[TAKERS], other = 7;
    places = opens(PLACES, NULL);
    for (int i = 0; i < TAKERS; i++) cells[i] = 3 + i * APART, starts(&takers[i], takes, &cells[i]);
    starts(&any, takes_any, NULL);
    wants(stm_atomically(places, GIVE, &other, 1).value == 1);
    pthread_join(any, NULL);
    for (int i = TAKERS - 1; i >= 0; i--) {
        wants(stm_atomically(places, GIVE, &cells[i], 1).code == STM_DONE);
        pthread_join(takers[i], NULL);
        wants(value_of(places, "q[3]") == 0 && stm_service_entered(places) == (uint64_t)(2 + 2 * (TAKERS - i)));
    }
    stm_service_close(places);
    judges_the_last(places, &judged);
    wants(judged.lines[0] == TAKERS && judged.lines[1] == 1 && value_of(places, "q[7]") == 1);
    stm_service_free(places);
}

int main(void) {
    alarm(300);
    wants(stm_read(TEXT, strlen(TEXT), &program) == STM_DONE);
    wants(stm_open_with_room(&program, 0, 0, 4, &store) == STM_DONE && stm_open_lender(&store, &lender) == STM_DONE);
    declared();
    single();
    many();
    faults();
    stm_lender_free(&lender);
    stm_store_free(&store);
    stm_program_free(&program);
    cells_of_a_service();
    of_a_service();
    woken_by_their_own();
    puts("good");
    return 0;
}
