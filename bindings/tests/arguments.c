/* Calls that give arguments, of a store and of a service: each gets its own, as many as its transaction has parameters,
 * or is refused. Prints `good`. */
#include "judging.h"

#include <pthread.h>
#include <stdio.h>

/* `digits` returns its arguments as the digits of a number. */
static const char TEXT[] =
    "(stm 3)(var alice 100)(var bob 20)"
    "(tx pay (n) (seq (if (lt alice n) (throw n) (skip)) (set alice (sub alice n)) (set bob (add bob n))) alice)"
    "(tx take (n) (seq (if (lt bob n) (retry) (skip)) (set bob (sub bob n))) n)"
    "(tx sum () (skip) (add alice bob))(tx same (n) (skip) n)"
    "(tx digits (a b c d e f g h) (skip) (add (mul (add (mul (add (mul (add (mul (add (mul (add (mul (add (mul a 10) b)"
    " 10) c) 10) d) 10) e) 10) f) 10) g) 10) h))"
    "(run pay 2 10)";

enum { PAY, TAKE, SUM, SAME, DIGITS, TRANSACTIONS };

static const int64_t NINE[] = {1, 2, 3, 4, 5, 6, 7, 8, 9};
static stm_program program;
static stm_store store;
static stm_lender lender;
static stm_worker worker;

static stm_answer calls(uint32_t transaction, int64_t argument) {
    return stm_call(&store, &lender, transaction, &argument, 1, STM_WAITS);
}

/* The lowest ready task has its turn. */
static stm_answer turns(void) { return stm_turn(&store, &lender, stm_take(&store)); }

static int is(stm_answer told, int64_t ticket, int32_t code, int64_t value, uint64_t entry) {
    return told.ticket == ticket && told.code == code && told.value == value && told.entry == entry;
}

static int32_t read_as(const char *text) {
    stm_program read = {0};
    int32_t code = stm_read(text, strlen(text), &read);
    stm_program_free(&read);
    return code;
}

static void files(void) {
    wants(read_as("(stm 3)(tx t (a b c d e f g h) (skip) h)(run t 1 1 2 3 4 5 6 7 8)") == STM_DONE);
    wants(read_as("(stm 3)(tx t (a b c d e f g h i) (skip) i)") == STM_FILE_LIMIT);
    wants(read_as("(stm 3)(tx t (a) (skip) a)(run t 1)") == STM_FILE_NAME);
    wants(read_as("(stm 3)(tx t (a) (skip) a)(run t 0 1 2)") == STM_FILE_NAME);
    wants(read_as("(stm 3)(tx t (skip) 0)") == STM_FILE_SHAPE && read_as("(tx t (a) (skip) a)") == STM_FILE_SHAPE);
}

static void parameters(void) {
    const int64_t wanted[] = {1, 1, 0, 1, 8, STM_UNKNOWN};
    stm_program none = {0};
    for (uint32_t tx = 0; tx <= TRANSACTIONS; tx++) wants(stm_program_parameters(&program, tx) == wanted[tx]);
    wants(stm_program_parameters(&program, UINT32_MAX) == STM_UNKNOWN && stm_program_parameters(&none, 0) == STM_EMPTY);
}

/* A job has its arguments; with others it is no task of the store. */
static void jobs(void) {
    stm_job job = stm_take(&store), other = stm_claim(&store, 1);
    wants(job.ticket == 0 && job.transaction == PAY && job.count == 1 && job.arguments[0] == 10);
    for (int i = 1; i < 8; i++) wants(job.arguments[i] == 0);
    wants(stm_try_job(&worker, job) == STM_DONE && stm_bring(&store, &worker).value == 90);
    stm_job changed = other;
    changed.arguments[0] = 11;
    wants(stm_try_job(&worker, changed) == STM_DONE && stm_bring(&store, &worker).code == STM_GONE);
    wants(stm_turn(&store, &lender, changed).code == STM_GONE);
    for (size_t count = 0; count <= 9; count++) {
        changed.count = count;
        wants(stm_try_job(&worker, changed) == (count == 1 ? STM_DONE : STM_UNKNOWN));
        wants(stm_turn(&store, &lender, changed).code == STM_GONE);
    }
    wants(stm_try_job(&worker, other) == STM_DONE && stm_bring(&store, &worker).value == 80);
}

/* Nothing is read of more arguments than there are parameters, and nothing changes. */
static void wrong_numbers(void) {
    size_t spare = stm_store_spare(&store);
    for (uint32_t tx = 0; tx < TRANSACTIONS; tx++) {
        for (size_t count = 0; count <= 9; count++) {
            if ((int64_t)count == stm_program_parameters(&program, tx)) continue;
            const int64_t *given = count > 0 ? NINE : NULL;
            wants(stm_submit(&store, tx, given, count) == STM_UNKNOWN);
            wants(is(stm_call(&store, &lender, tx, given, count, STM_WAITS), -1, STM_UNKNOWN, 0, 0));
            wants(is(stm_call(&store, &lender, tx, given, count, STM_TRIES), -1, STM_UNKNOWN, 0, 0));
            wants(stm_observe(&worker, tx, given, count).code == STM_UNKNOWN);
        }
    }
    wants(stm_store_spare(&store) == spare && stm_entered(&store) == 2);
}

static void of_a_store(void) {
    wants(is(stm_call(&store, &lender, SUM, NULL, 0, STM_WAITS), 2, STM_DONE, 120, 3));
    wants(is(stm_call(&store, &lender, DIGITS, NINE, 8, STM_WAITS), 3, STM_DONE, 12345678, 4));
    wants(stm_observe(&worker, DIGITS, NINE + 1, 8).value == 23456789);
    wants(is(calls(SAME, INT64_MIN), 4, STM_DONE, INT64_MIN, 5));
    wants(is(calls(SAME, INT64_MAX), 5, STM_DONE, INT64_MAX, 6));
    wants(is(calls(PAY, 81), 6, STM_THROWN, 81, 7));
    /* What was given is copied. */
    int64_t amount = 45;
    wants(stm_submit(&store, TAKE, &amount, 1) == 7);
    amount = 0;
    wants(is(turns(), 7, STM_RETRIES, 0, 0));
    amount = 41;
    wants(is(stm_call(&store, &lender, TAKE, &amount, 1, STM_TRIES), -1, STM_RETRIES, 0, 0));
    wants(is(calls(PAY, 3), 8, STM_DONE, 77, 8) && is(turns(), 7, STM_RETRIES, 0, 0));
    wants(is(calls(PAY, 3), 9, STM_DONE, 74, 9) && is(turns(), 7, STM_DONE, 45, 10));
    wants(is(calls(TAKE, 1000), 10, STM_RETRIES, 0, 0));
}

static int has(const char *text, const char *part) { return strstr(text, part) != NULL; }

/* The file says what each task was given, and the next chapter's what the waiting one was. */
static void texts(void) {
    static char file[4096], report[4096];
    size_t length = 0, report_length = 0;
    wants(stm_file(&store, file, sizeof file - 1, &length) == STM_DONE);
    wants(stm_report(&store, report, sizeof report, &report_length) == STM_DONE);
    wants(stm_check(file, length, report, report_length) == STM_DONE);
    file[length] = 0;
    wants(has(file, "(stm 3)\n") && has(file, "(tx sum () (skip) (add alice bob))\n") && has(file, "(run pay 2 10)\n"));
    wants(has(file, "(run digits 1 1 2 3 4 5 6 7 8)\n") && has(file, "(run same 1 -9223372036854775808)\n"));
    wants(has(file, "(run take 1 45)\n") && has(file, "(run take 1 1000)\n"));
    wants(stm_begin_chapter(&store) == STM_DONE && stm_store_tasks(&store) == 1);
    wants(stm_file(&store, file, sizeof file - 1, &length) == STM_DONE);
    file[length] = 0;
    wants(has(file, "(var alice 74)\n") && has(file, "(run take 1 1000)\n") && !has(file, "(run pay"));
    wants(is(calls(PAY, -1000), 11, STM_DONE, 1074, 1) && is(calls(PAY, 1074), 12, STM_DONE, 0, 2));
    wants(is(turns(), 10, STM_RETRIES, 0, 0) && is(calls(PAY, -999), 13, STM_DONE, 999, 3));
}

/* Each thread adds numbers of its own, and is answered what it gave; each chapter is judged. */
enum { THREADS = 4, EACH = 2000, WAITERS = 8 };
static const char ADDS[] =
    "(stm 3)(var n 0)(var at 0)(tx add (k m) (set n (add n k)) m)(tx wait (k) (if (lt at k) (retry) (skip)) k)"
    "(tx go (k) (set at k) at)";
enum { ADD, WAIT, GO };
static stm_service *service;

static void *adds(void *own) {
    for (int64_t i = 1; i <= EACH; i++) {
        const int64_t given[] = {i, i * 1000 + (int64_t)(intptr_t)own};
        stm_answer answer = i % 3 ? stm_atomically(service, ADD, given, 2) : stm_try_atomically(service, ADD, given, 2);
        wants(answer.code == STM_DONE && answer.value == given[1]);
    }
    return NULL;
}

static void *waits(void *own) {
    const int64_t given = (int64_t)(intptr_t)own;
    wants(stm_atomically_within(service, WAIT, &given, 1, UINT64_MAX).value == given);
    return NULL;
}

static void of_a_service(void) {
    struct judged judged = {{" add returned ", " wait returned ", NULL}, {0}, 0};
    stm_service_options options = {1000, 0, 0, judges, &judged};
    pthread_t threads[THREADS], waiting[WAITERS];
    service = opens(ADDS, &options);
    wants(stm_service_parameters(service, ADD) == 2 && stm_service_parameters(service, 3) == STM_UNKNOWN);
    for (size_t count = 0; count <= 9; count++) {
        if (count == 1) continue;
        const int64_t *given = count > 0 ? NINE : NULL;
        wants(stm_atomically(service, WAIT, given, count).code == STM_UNKNOWN);
        wants(stm_try_atomically(service, WAIT, given, count).code == STM_UNKNOWN);
        wants(stm_atomically_within(service, WAIT, given, count, 1000).code == STM_UNKNOWN);
        wants(stm_service_observe(service, WAIT, given, count).code == STM_UNKNOWN);
    }
    for (intptr_t i = 0; i < WAITERS; i++) wants(pthread_create(&waiting[i], NULL, waits, (void *)(i + 1)) == 0);
    for (intptr_t i = 0; i < THREADS; i++) wants(pthread_create(&threads[i], NULL, adds, (void *)i) == 0);
    for (int i = 0; i < THREADS; i++) pthread_join(threads[i], NULL);
    for (int64_t i = 1; i <= WAITERS; i++) {
        wants(stm_service_observe(service, WAIT, &i, 1).code == STM_RETRIES);
        wants(stm_atomically(service, GO, &i, 1).value == i);
        pthread_join(waiting[i - 1], NULL);
    }
    wants(value_of(service, "n") == (int64_t)THREADS * EACH * (EACH + 1) / 2);
    stm_service_close(service);
    judges_the_last(service, &judged);
    wants(judged.lines[0] == THREADS * EACH && judged.lines[1] == WAITERS && judged.chapters > 3);
    stm_service_free(service);
}

int main(void) {
    files();
    wants(stm_read(TEXT, strlen(TEXT), &program) == STM_DONE);
    wants(stm_open_with_room(&program, 1, 0, 14, &store) == STM_DONE);
    wants(stm_open_worker(&store, &worker) == STM_DONE && stm_open_lender(&store, &lender) == STM_DONE);
    parameters();
    jobs();
    wrong_numbers();
    of_a_store();
    texts();
    stm_worker_free(&worker);
    stm_lender_free(&lender);
    stm_store_free(&store);
    stm_program_free(&program);
    of_a_service();
    puts("good");
    return 0;
}
