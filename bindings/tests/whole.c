/* The whole-file calls on files, as the program's: `run FILE`, `check FILE REPORT`, `world FILE SCHEDULE`,
 * `explore FILE STATES`, `to FILE STATES END`. */
#include "stm.h"

#include <stdio.h>
#include <stdlib.h>
#include <string.h>

struct text {
    char *bytes;
    size_t length;
};

static struct text content(const char *path) {
    struct text text = {malloc(1 << 24), 0};
    FILE *file = fopen(path, "rb");
    if (!file || !text.bytes) exit(9);
    text.length = fread(text.bytes, 1, 1 << 24, file);
    fclose(file);
    return text;
}

static char **words;
static struct text file, schedule;

/* The call that the first word names, into a room of this size. */
static int32_t called(char *room, size_t size, size_t *wanted) {
    uint32_t states = words[3] ? (uint32_t)strtoul(words[3], NULL, 10) : 0;
    if (strcmp(words[1], "run") == 0) return stm_run_one(file.bytes, file.length, 0, room, size, wanted);
    if (strcmp(words[1], "world") == 0)
        return stm_world(file.bytes, file.length, schedule.bytes, schedule.length, room, size, wanted);
    if (strcmp(words[1], "explore") == 0) return stm_explore(file.bytes, file.length, states, room, size, wanted);
    return stm_explore_to(file.bytes, file.length, states, strtoul(words[4], NULL, 10), room, size, wanted);
}

static int checked(void) {
    struct text report = content(words[3]);
    int32_t part = stm_check(file.bytes, file.length, report.bytes, report.length);
    if (part == STM_DONE) printf("good\n");
    if (part > 0) printf("bad %d\n", part - STM_BAD_TEXT + 1);
    return part < 0 ? 2 : 0;
}

int main(int count, char **given) {
    static char room[8388608];
    size_t wanted = 0, again = 0;
    words = given;
    if (count < 3) return 9;
    file = content(words[2]);
    if (strcmp(words[1], "check") == 0) return checked();
    if (strcmp(words[1], "world") == 0) schedule = content(words[3]);
    /* Too short a room by one byte first: what was wanted is what is then written. */
    for (size_t size = 0;; size = wanted - 1) {
        int32_t code = called(room, size, &wanted);
        if (code == STM_NO_END || code == STM_STATES) return wanted == 0 ? code : 4;
        if (code != STM_SHORT) return 2;
        if (size > 0) break;
    }
    int32_t code = called(room, wanted, &again);
    if (code < 0 || again != wanted) return 3;
    fwrite(room, 1, wanted, stdout);
    return code;
}
