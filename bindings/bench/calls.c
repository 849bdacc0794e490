/* Calls of a service, in C. The harness is this folder's, or another one's with the same eight functions: its folder is
 * what the compiler is told to include.
 *
 *     cc -O2 -pthread -I HARNESS -I LIBRARY calls.c LIBRARY/libstm.a -o calls
 *
 * With -DRUST the calls are made by the crate of Rust: see calls.rs. */
#include <harness.h>

#include "service.h"

static const char TRANSFERS[] =
    "(stm 3)(table acct %d 100)"
    "(tx pay (from to n) (seq (if (lt (at acct from) n) (throw n) (skip))"
    " (put acct from (sub (at acct from) n)) (put acct to (add (at acct to) n))) (at acct from))";
/* More cells can't be summed. */
static const char AUDITS[] = "(tx audit () (skip) (sum acct))";
enum { MOST_SUMMED = 999998 };
/* A buffer: how many were got, how many were put, and its places. */
static const char BUFFERS_TEXT[] =
    "(stm 3)(table acct %d 0)"
    "(tx put (b v) (seq (if (eq (sub (at acct (add (mul b %d) 1)) (at acct (mul b %d))) %d) (retry) (skip))"
    " (put acct (add (add (mul b %d) 2) (rem (at acct (add (mul b %d) 1)) %d)) v)"
    " (put acct (add (mul b %d) 1) (add (at acct (add (mul b %d) 1)) 1))) v)"
    "(tx get (b) (seq (if (eq (at acct (add (mul b %d) 1)) (at acct (mul b %d))) (retry) (skip))"
    " (put acct (mul b %d) (add (at acct (mul b %d)) 1)))"
    " (at acct (add (add (mul b %d) 2) (rem (sub (at acct (mul b %d)) 1) %d))))";

static int offers(const char *workload) { return workload != NULL; }

static void opens(const char *text, size_t length);

static void set_up(int64_t cells, int64_t first, int unused) {
    static char text[2048];
    int all = (int)cells, p = (int)places, each = 2 + p;
    (void)unused;
    if (first) {
        snprintf(text, sizeof text, TRANSFERS, all);
        if (all <= MOST_SUMMED) strcat(text, AUDITS);
    } else {
        snprintf(text, sizeof text, BUFFERS_TEXT, all, each, each, p, each, each, p, each, each, each, each, each, each,
                 each, each, p);
    }
    opens(text, strlen(text));
}

#ifdef RUST
void rust_opens(const char *text, size_t length);
int64_t rust_pays(int64_t from, int64_t to, int64_t amount);
int64_t rust_audits(void);
void rust_puts(int64_t buffer, int64_t value);
int64_t rust_gets(int64_t buffer);
int64_t rust_value(int64_t index);

static void opens(const char *text, size_t length) { rust_opens(text, length); }
static int64_t transfer(int64_t from, int64_t to, int64_t amount) { return rust_pays(from, to, amount); }
static int64_t audit(void) { return rust_audits(); }
static void put(int64_t buffer, int64_t value) { rust_puts(buffer, value); }
static int64_t get(int64_t buffer) { return rust_gets(buffer); }
static int64_t cell(int64_t index) { return rust_value(index); }
static void tear_down(void) {}
#else
static stm_service *service;
static uint32_t tx_pay, tx_audit, tx_put, tx_get;

static uint32_t named(const char *name) {
    return (uint32_t)stm_service_transaction(service, name, strlen(name));
}

static void opens(const char *text, size_t length) {
    int32_t code = stm_service_open(text, length, NULL, &service);
    if (code != STM_DONE) {
        fprintf(stderr, "calls: %s\n", stm_word(code));
        exit(5);
    }
    tx_pay = named("pay");
    tx_audit = named("audit");
    tx_put = named("put");
    tx_get = named("get");
}

static int64_t transfer(int64_t from, int64_t to, int64_t amount) {
    const int64_t given[] = {from, to, amount};
    stm_answer answer = stm_atomically(service, tx_pay, given, 3);
    return answer.code == STM_THROWN ? ~answer.value : answer.code == STM_DONE ? answer.value : INT64_MIN;
}

static int64_t audit(void) { return stm_atomically(service, tx_audit, NULL, 0).value; }

static void put(int64_t buffer, int64_t value) {
    const int64_t given[] = {buffer, value};
    stm_atomically(service, tx_put, given, 2);
}

static int64_t get(int64_t buffer) { return stm_atomically(service, tx_get, &buffer, 1).value; }

static int64_t cell(int64_t index) {
    char name[32];
    int64_t value = -1;
    uint64_t version;
    int length = snprintf(name, sizeof name, "acct[%lld]", (long long)index);
    stm_service_value(service, name, (size_t)length, &value, &version);
    return value;
}

static void tear_down(void) { stm_service_free(service); }
#endif
