/* A bank of 1,000 accounts in a table: one pays 60 to another, and then has too little to pay that again. */
#include "service.h"

#include <stdio.h>
#include <string.h>

static const char BANK[] =
    "(stm 3)"
    "(table acct 1000 100)"
    "(tx pay (from to n)"
    "    (seq"
    "        (if (lt (at acct from) n) (throw n) (skip))"
    "        (put acct from (sub (at acct from) n))"
    "        (put acct to (add (at acct to) n)))"
    "    (at acct from))";

int main(void) {
    stm_service *bank;
    int32_t code = stm_service_open(BANK, strlen(BANK), NULL, &bank);
    if (code != STM_DONE) return fprintf(stderr, "%s\n", stm_word(code)), 1;
    uint32_t pay = (uint32_t)stm_service_transaction(bank, "pay", 3);
    const int64_t arguments[] = {3, 5, 60};
    for (int calls = 0; calls < 2; calls++) {
        stm_answer left = stm_atomically(bank, pay, arguments, 3);
        printf("%s %lld\n", stm_word(left.code), (long long)left.value);
    }
    stm_service_free(bank);
    return 0;
}
