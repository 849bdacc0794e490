/* A thousand wages are paid in one call, each as a step of its own: the last one finds too little. */
#include "service.h"

#include <stdio.h>
#include <string.h>

static const char BANK[] =
    "(stm 3)"
    "(var cash 99950)"
    "(table acct 1000 0)"
    "(tx wage (to n)"
    "    (seq"
    "        (if (lt cash n) (throw (sub n cash)) (skip))"
    "        (set cash (sub cash n))"
    "        (put acct to (add (at acct to) n)))"
    "    cash)";

enum { WORKERS = 1000, WAGE = 100 };

int main(void) {
    static int64_t wages[WORKERS][2];
    static stm_answer paid[WORKERS];
    stm_service *bank;
    int32_t code = stm_service_open(BANK, strlen(BANK), NULL, &bank);
    if (code != STM_DONE) return fprintf(stderr, "%s\n", stm_word(code)), 1;
    for (int i = 0; i < WORKERS; i++) wages[i][0] = i, wages[i][1] = WAGE;
    size_t returned = stm_each(bank, 0, wages[0], 2, WORKERS, paid);
    printf("%zu of %d wages are paid\n", returned, WORKERS);
    for (int i = 0; i < WORKERS; i++)
        if (paid[i].code != STM_DONE) printf("%d: %s %lld\n", i, stm_word(paid[i].code), (long long)paid[i].value);
    stm_service_free(bank);
    return 0;
}
