/* A bank of 1,000 accounts in a table: four tellers pay amounts from account to account, and meanwhile audits look at all
 * accounts of one moment. In the end the journal is judged. */
#include "service.h"

#include <pthread.h>
#include <stdio.h>
#include <stdlib.h>
#include <string.h>

static const char BANK[] =
    "(stm 3)"
    "(table acct 1000 100)"
    "(tx pay (from to n)"
    "    (if (lt (at acct from) n)"
    "        (throw (sub n (at acct from)))"
    "        (seq (put acct from (sub (at acct from) n)) (put acct to (add (at acct to) n))))"
    "    (at acct from))"
    "(tx audit () (skip) (sum acct))";

enum { ACCOUNTS = 1000, EACH = 100, TELLERS = 4, TRANSFERS = 1000 };

static stm_service *bank;

static uint32_t transaction(const char *name) {
    return (uint32_t)stm_service_transaction(bank, name, strlen(name));
}

static void holds(int so, const char *what) {
    if (so) return;
    fprintf(stderr, "not so: %s\n", what);
    exit(1);
}

/* Each transfer is paid, or throws what is missing. */
static void *teller(void *first) {
    uint32_t pay = transaction("pay");
    for (int64_t turn = *(int64_t *)first, i = 0; i < TRANSFERS; turn++, i++) {
        const int64_t arguments[] = {turn * 7 % ACCOUNTS, turn * 13 % ACCOUNTS, turn % 150};
        stm_answer left = stm_atomically(bank, pay, arguments, 3);
        holds(left.code == STM_DONE || (left.code == STM_THROWN && left.value > 0), "paid or refused");
    }
    return NULL;
}

static int64_t audit(void) { return stm_service_observe(bank, transaction("audit"), NULL, 0).value; }

int main(void) {
    holds(stm_service_open(BANK, strlen(BANK), NULL, &bank) == STM_DONE, "a bank is opened");
    pthread_t tellers[TELLERS];
    int64_t first[TELLERS];
    for (int i = 0; i < TELLERS; i++) {
        first[i] = i * ACCOUNTS / TELLERS;
        holds(pthread_create(&tellers[i], NULL, teller, &first[i]) == 0, "a teller begins");
    }
    while (stm_service_entered(bank) < TELLERS * TRANSFERS) holds(audit() == ACCOUNTS * EACH, "no money is lost");
    for (int i = 0; i < TELLERS; i++) pthread_join(tellers[i], NULL);
    printf("%llu transfers, each paid or refused\n", (unsigned long long)stm_service_entered(bank));
    printf("all accounts have %lld\n", (long long)audit());

    static char file[1 << 20], report[1 << 20];
    size_t file_length, report_length;
    stm_service_close(bank);
    holds(stm_service_file(bank, file, sizeof file, &file_length) == STM_DONE, "the file fits");
    holds(stm_service_report(bank, report, sizeof report, &report_length) == STM_DONE, "the report fits");
    holds(stm_check(file, file_length, report, report_length) == STM_DONE, "the journal is good");
    printf("the journal is good\n");
    stm_service_free(bank);
    return 0;
}
