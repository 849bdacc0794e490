/* A bank of 1,000 accounts, by the module that `stm-bind` makes of examples/tellers.stm: one pays 100 to another, and
 * then has too little to pay that again. */
#include "tellers.h"

#include <stdio.h>

int main(void) {
    stm_service *bank;
    int32_t code = tellers_open(NULL, &bank);
    if (code != STM_DONE) return fprintf(stderr, "%s\n", stm_word(code)), 1;
    for (int calls = 0; calls < 2; calls++) {
        stm_answer left = tellers_pay(bank, 3, 5, 100);
        printf("%s %lld\n", stm_word(left.code), (long long)left.value);
    }
    int64_t balance;
    if (tellers_acct(bank, 3, &balance) == STM_DONE) printf("account 3 has %lld\n", (long long)balance);
    stm_service_free(bank);
    return 0;
}
