/* What a host tells whoever wrote a file that is refused: where and why, and the line with its fault. */
#include "service.h"

#include <stdio.h>
#include <string.h>

static const char BANK[] =
    "(var here 100) (var there 0)\n"
    "(tx pay (seq (set heer (sub here 60)) (set there (add there 60))) here)\n";

static void tell_why(void) {
    stm_explained why;
    char words[512];
    size_t length;
    int32_t code = stm_explain(BANK, strlen(BANK), &why, words, sizeof words, &length);
    if (code != STM_DONE) return;
    const char *line = BANK + why.place - (why.column - 1);
    printf("%.*s\n", (int)length, words);
    printf("%.*s\n%*s\n", (int)strcspn(line, "\n"), line, (int)why.column, "^");
}

int main(void) {
    stm_service *bank;
    if (stm_service_open(BANK, strlen(BANK), NULL, &bank) != STM_DONE) return tell_why(), 0;
    printf("good\n");
    stm_service_free(bank);
    return 0;
}
