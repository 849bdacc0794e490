/* Where and why each file is refused, in a line of its own: line, column and words; or `good`.
 *
 *     explained FILE ..
 */
#include "stm.h"
#include "wants.h"

#include <stdint.h>
#include <stdio.h>
#include <stdlib.h>

enum { MOST = 1 << 27 };
static char *file;

static size_t length_of(const char *path) {
    FILE *opened = fopen(path, "rb");
    wants(opened);
    size_t length = fread(file, 1, MOST, opened);
    fclose(opened);
    return length;
}

static void tell(size_t length) {
    stm_explained why;
    char words[512];
    size_t said;
    stm_program program = {0};
    wants(stm_explain(file, length, &why, words, sizeof words, &said) == STM_DONE);
    wants(stm_read(file, length, &program) == why.code && (why.code == STM_DONE) == (said == 0));
    stm_program_free(&program);
    if (why.code == STM_DONE) {
        printf("good\n");
    } else {
        printf("%zu %zu %.*s\n", why.line, why.column, (int)said, words);
    }
}

int main(int count, char **words) {
    file = malloc(MOST);
    wants(file);
    for (int one = 1; one < count; one++) tell(length_of(words[one]));
    free(file);
    return 0;
}
