/* How many tasks a chapter of a service may have. It is a part of service.c. */
#ifndef STM_CHAPTER_ROOM_H
#define STM_CHAPTER_ROOM_H

#include "stm.h"

#include <stdbool.h>

enum {
    MOST_TASKS = 65536,
    /* The longest file, which is of form 3; the line that begins it; an empty list of parameters, with the space before
       it; the longest value; the longest run of one task, `(run NAME 1)`, with its newline; and the longest argument,
       with the space before it. */
    MOST_FILE = 67108864,
    FORM = 8,
    LIST = 3,
    MOST_VALUE = 20,
    MOST_RUN = 41,
    MOST_ARGUMENT = 21
};

/* The longest run of one task that the program can have. */
static size_t most_run(const stm_program *program) {
    size_t transactions = stm_program_transactions(program);
    int64_t most = 0;
    for (size_t i = 0; i < transactions; i++) {
        int64_t parameters = stm_program_parameters(program, (uint32_t)i);
        if (parameters > most) most = parameters;
    }
    return MOST_RUN + (size_t)most * MOST_ARGUMENT;
}

/* How many bytes the values of a chapter's file can take more than as declared; that of a cell has a space before it. */
static size_t most_values(const stm_program *program) {
    size_t most = stm_program_variables(program) * MOST_VALUE, tables = stm_program_tables(program);
    for (size_t i = 0; i < tables; i++) most += (size_t)stm_program_cells(program, (uint32_t)i) * (MOST_VALUE + 1);
    return most;
}

/* How many tasks a chapter may have: where the host keeps the chapters, no more than fit into a file. */
static int32_t most_tasks(const stm_program *program, bool are_kept, size_t *most) {
    *most = MOST_TASKS;
    if (!are_kept) return STM_DONE;
    stm_store as_declared = {0};
    int32_t code = stm_open(program, 0, 0, &as_declared);
    if (code != STM_DONE) return code;
    size_t length = 0;
    code = stm_file(&as_declared, NULL, 0, &length);
    stm_store_free(&as_declared);
    if (code != STM_SHORT) return code;
    /* A file that has become too long for form 1 or 2 is of form 3. */
    length += most_values(program) + FORM + stm_program_transactions(program) * LIST;
    size_t fit = length < MOST_FILE ? (MOST_FILE - length) / most_run(program) : 0;
    if (fit < *most) *most = fit;
    return STM_DONE;
}

#endif
