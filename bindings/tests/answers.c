/* Each code's word; what `wanted` is after each answer; rooms and inputs of no length; each verdict; which transactions
 * are long. Prints `good`. */
#include "stm.h"
#include "wants.h"

#include <stdbool.h>
#include <stdio.h>
#include <stdlib.h>
#include <string.h>

static const struct {
    int32_t code;
    const char *word;
} words[] = {
    {0, "done"},
    {1, "retries"},
    {2, "stale"},
    {3, "not running"},
    {4, "given up"},
    {5, "thrown"},
    {6, "overflow"},
    {7, "divide by zero"},
    {8, "broken condition"},
    {9, "more states are reached"},
    {10, "no such end"},
    {12, "no entry in the journal"},
    {13, "ready"},
    {14, "running"},
    {16, "outside its table"},
    {17, "the chapter is full"},
    {101, "report: text"},
    {102, "report: base"},
    {103, "report: entries"},
    {104, "report: present"},
    {105, "report: tasks"},
    {106, "report: parked"},
    {-1, "file: too long"},
    {-2, "file: bad byte"},
    {-3, "file: shape"},
    {-4, "file: name"},
    {-5, "file: limit"},
    {-6, "out of memory"},
    {-7, "file: broken condition"},
    {-8, "room too short"},
    {-9, "unknown transaction or variable, or a wrong number of arguments"},
    {-10, "no worker"},
    {-11, "no ended attempt"},
    {-12, "empty handle"},
    {-13, "full handle"},
    {-14, "no room for another task"},
    {-15, "work left"},
    {-16, "number of states out of range"},
    {-17, "other program"},
    {-18, "no such task"},
    {-19, "closed"},
    {-20, "timed out"},
    {-21, "schedule: too long"},
    {-22, "schedule: bad byte"},
    {-23, "schedule: shape"},
    {-24, "schedule: name"},
    {-25, "schedule: limit"},
    {-26, "not ready"},
    {-27, "too late"},
};

/* All codes from -200 to 200: those of the table have its word, and no other has one. */
static void each_word(void) {
    for (int32_t code = -200; code <= 200; code++) {
        const char *wanted = "unknown code";
        for (size_t i = 0; i < sizeof words / sizeof *words; i++)
            if (words[i].code == code) wanted = words[i].word;
        if (strcmp(stm_word(code), wanted) != 0) fprintf(stderr, "%d is called %s\n", (int)code, stm_word(code)), exit(1);
    }
    wants(strcmp(stm_word(INT32_MIN), "unknown code") == 0 && strcmp(stm_word(INT32_MAX), "unknown code") == 0);
}

static const char FILE_TEXT[] = "(var x 5)(tx inc (set x (add x 1)) x)(tx wait (retry) x)(run inc 1)(run wait 1)";
static const char REPORT[] = "base 0\nx 5 0\nentry 1 0 inc returned 6\nnow 1\nx 6 1\nparked 1 wait\nend\n";
static stm_store store;
static stm_program program;
static char room[8388608];

/* A call that copies a text: by a number, into this room. */
static int32_t copied(int call, const char *file, char *to, size_t size, size_t *wanted) {
    size_t length = strlen(file);
    switch (call) {
    case 0: return stm_run_one(file, length, 0, to, size, wanted);
    case 1: return stm_world(file, length, "begin 0\n", 8, to, size, wanted);
    case 2: return stm_explore(file, length, 100, to, size, wanted);
    case 3: return stm_explore_to(file, length, 100, 1, to, size, wanted);
    case 4: return stm_report(&store, to, size, wanted);
    case 5: return stm_report_now(&store, to, size, wanted);
    default: return stm_file(&store, to, size, wanted);
    }
}

enum { FILES = 4, TEXTS = 7 };

/* No room at all is asked for by `NULL, 0`; a byte less than is wanted is too little, and stays as it was. */
static void rooms(void) {
    for (int call = 0; call < TEXTS; call++) {
        size_t wanted = 99, again = 99;
        wants(copied(call, FILE_TEXT, NULL, 0, &wanted) == STM_SHORT && wanted > 10 && wanted < 1000);
        memset(room, '?', wanted + 1);
        wants(copied(call, FILE_TEXT, room, wanted - 1, &again) == STM_SHORT && again == wanted && room[0] == '?');
        again = 99;
        wants(copied(call, FILE_TEXT, room, wanted, &again) == STM_DONE && again == wanted);
        wants(room[0] != '?' && room[wanted - 1] == '\n' && room[wanted] == '?');
    }
}

/* Which transactions are long: a byte for each, in their order. */
static void long_ones(void) {
    static const char text[] = "(var x 0)(tx short (repeat 10 (set x 1)) x)(tx long (repeat 100 (repeat 100 (set x 1))) x)(tx none (skip) 0)"
                               "(tx light (repeat 50 (if (lt x 0) (throw 1) (skip))) x)(tx below (repeat 399 (set x 1)) x)(tx from (repeat 400 (set x 1)) x)";
    stm_program six = {0}, none = {0};
    uint8_t flags[7];
    size_t wanted = 99;
    wants(stm_read(text, strlen(text), &six) == STM_DONE);
    wants(stm_program_long(&six, NULL, 0, &wanted) == STM_SHORT && wanted == 6);
    memset(flags, '?', 7), wanted = 99;
    wants(stm_program_long(&six, flags, 5, &wanted) == STM_SHORT && wanted == 6 && flags[0] == '?');
    wants(stm_program_long(&six, flags, 6, &wanted) == STM_DONE && wanted == 6 && memcmp(flags, "\0\1\0\0\0\1?", 7) == 0);
    wants(stm_program_long(&none, flags, 3, &wanted) == STM_EMPTY && wanted == 0 && flags[1] == 1);
    wants(stm_read(NULL, 0, &none) == STM_DONE && stm_program_long(&none, NULL, 0, &wanted) == STM_DONE && wanted == 0);
    stm_program_free(&six);
    stm_program_free(&none);
}

typedef int32_t name_of(const stm_program *program, uint32_t number, char *room, size_t length, size_t *wanted);

/* The name is told where the room is as long as it is, or longer; not where it is a byte shorter. */
static bool is_named(name_of *call, const stm_program *program, uint32_t number, const char *name) {
    size_t length = strlen(name), wanted = 99, again = 99;
    memset(room, '?', length + 1);
    if (call(program, number, room, length - 1, &wanted) != STM_SHORT || wanted != length || room[0] != '?') return false;
    if (call(program, number, room, length, &again) != STM_DONE || again != length) return false;
    return memcmp(room, name, length) == 0 && room[length] == '?';
}

/* There is none of this number: -9, or of an empty handle -12, and the room is as it was. */
static bool is_nameless(name_of *call, const stm_program *program, uint32_t number, int32_t code) {
    size_t wanted = 99;
    memset(room, '?', 9);
    return call(program, number, room, 9, &wanted) == code && wanted == 0 && room[0] == '?';
}

static int32_t parameter_of_pay(const stm_program *program, uint32_t number, char *at, size_t length, size_t *wanted) {
    return stm_program_parameter_name(program, 1, number, at, length, wanted);
}

static int32_t first_parameter(const stm_program *program, uint32_t transaction, char *at, size_t length, size_t *wanted) {
    return stm_program_parameter_name(program, transaction, 0, at, length, wanted);
}

/* What a program declares, by its numbers, and that a condition is found by its name. */
static void names(void) {
    static const char text[] = "(stm 3)(var xy 0)(var here 7)(table acct 4 9)(table rate 2 5 6)(always low (le xy 9))(always all (le 0 here))"
                               "(tx get () (skip) xy)(tx pay (from to) (set xy from) to)";
    static name_of *const calls[] = {stm_program_variable_name, stm_program_table_name, stm_program_condition_name,
                                     stm_program_transaction_name, parameter_of_pay, first_parameter};
    static const char *const wanted[][2] = {{"xy", "here"}, {"acct", "rate"}, {"low", "all"}, {"get", "pay"}, {"from", "to"}, {NULL, "from"}};
    stm_program program = {0}, none = {0};
    wants(stm_read(text, strlen(text), &program) == STM_DONE);
    for (int call = 0; call < 6; call++) {
        for (uint32_t number = 0; number < 2; number++) {
            const char *name = wanted[call][number];
            if (name == NULL) wants(is_nameless(calls[call], &program, number, STM_UNKNOWN));
            else wants(is_named(calls[call], &program, number, name));
        }
        wants(is_nameless(calls[call], &program, 2, STM_UNKNOWN) && is_nameless(calls[call], &program, UINT32_MAX, STM_UNKNOWN));
        wants(is_nameless(calls[call], &none, 0, STM_EMPTY));
    }
    wants(stm_program_parameter_name(&program, 1, UINT32_MAX, room, 9, &(size_t){0}) == STM_UNKNOWN);
    wants(stm_program_conditions(&program) == 2 && stm_program_conditions(&none) == 0);
    wants(stm_program_condition(&program, "all", 3) == 1 && stm_program_condition(&program, "al", 2) == STM_UNKNOWN);
    wants(stm_program_condition(&program, "xy", 2) == STM_UNKNOWN && stm_program_condition(&program, "\377", 1) == STM_UNKNOWN);
    wants(stm_program_condition(&none, "all", 3) == STM_EMPTY);
    stm_program_free(&program);
}

/* Where there is no text, `wanted` is 0, whatever it was. */
static void no_texts(void) {
    size_t wanted;
    room[0] = '?';
    for (int call = 0; call < FILES; call++) {
        wanted = 99;
        wants(copied(call, "(var x", room, sizeof room, &wanted) == STM_FILE_SHAPE && wanted == 0);
    }
    wanted = 99;
    wants(stm_world(FILE_TEXT, strlen(FILE_TEXT), "begin", 5, room, sizeof room, &wanted) == STM_SCHEDULE_SHAPE && wanted == 0);
    wanted = 99;
    wants(stm_explore(FILE_TEXT, strlen(FILE_TEXT), 0, room, sizeof room, &wanted) == STM_STATES && wanted == 0);
    for (size_t end = 0; end < 4; end += 3) {
        wanted = 99;
        wants(stm_explore_to(FILE_TEXT, strlen(FILE_TEXT), 100, end, room, sizeof room, &wanted) == STM_NO_END && wanted == 0);
    }
    wanted = 99;
    wants(stm_explore_to(FILE_TEXT, strlen(FILE_TEXT), 16777217, 1, room, sizeof room, &wanted) == STM_STATES && wanted == 0);
    wanted = 99;
    wants(stm_report_now(&store, room, sizeof room, &wanted) == STM_WORK_LEFT && wanted == 0);
    stm_store none = {0};
    wanted = 99;
    wants(stm_report(&none, room, sizeof room, &wanted) == STM_EMPTY && wanted == 0);
    wanted = 99;
    wants(stm_report_now(&none, room, sizeof room, &wanted) == STM_EMPTY && wanted == 0);
    wanted = 99;
    wants(stm_file(&none, room, sizeof room, &wanted) == STM_EMPTY && wanted == 0);
    wants(room[0] == '?');
}

static int is_there(const stm_explained *out, int32_t code, size_t line, size_t column, size_t place) {
    return out->code == code && out->line == line && out->column == column && out->place == place;
}

/* Where and in which words a file is refused; a room that is a byte too short stays as it was. */
static void explained(void) {
    static const char file[] = "(var x 0)\n(tx t (set y 1) x)", words[] = "line 2, column 12: F4 Name: ";
    stm_explained out = {9, 9, 9, 9};
    size_t wanted = 99, again = 99;
    wants(stm_explain(file, strlen(file), &out, NULL, 0, &wanted) == STM_SHORT && wanted > sizeof words);
    wants(is_there(&out, STM_FILE_NAME, 2, 12, 21));
    memset(room, '?', wanted + 1), memset(&out, 0, sizeof out);
    wants(stm_explain(file, strlen(file), &out, room, wanted - 1, &again) == STM_SHORT && again == wanted);
    wants(is_there(&out, STM_FILE_NAME, 2, 12, 21) && room[0] == '?');
    wants(stm_explain(file, strlen(file), &out, room, wanted, &again) == STM_DONE && again == wanted);
    wants(memcmp(room, words, sizeof words - 1) == 0 && !memchr(room, '\n', wanted) && room[wanted] == '?');
    for (int empty = 0; empty < 2; empty++) {
        memset(&out, 9, sizeof out), wanted = 99;
        size_t length = empty ? 0 : strlen(FILE_TEXT);
        wants(stm_explain(empty ? NULL : FILE_TEXT, length, &out, NULL, 0, &wanted) == STM_DONE && wanted == 0);
        wants(is_there(&out, STM_DONE, 0, 0, 0));
    }
}

/* Inputs of no length: the file that declares nothing, a report that is none, the name of nothing. */
static void nothing(void) {
    stm_program empty = {0};
    int64_t value = 9;
    uint64_t version = 9;
    size_t wanted = 99;
    wants(stm_read(NULL, 0, &empty) == STM_DONE && stm_program_tasks(&empty) == 0);
    wants(stm_program_variables(&empty) == 0);
    wants(stm_run_one(NULL, 0, 0, room, sizeof room, &wanted) == STM_DONE && wanted > 0);
    wants(stm_check(NULL, 0, room, wanted) == STM_DONE && stm_check(NULL, 0, NULL, 0) == STM_BAD_TEXT);
    wants(stm_world(NULL, 0, NULL, 0, room, sizeof room, &wanted) == STM_DONE);
    wants(stm_explore(NULL, 0, 1, room, sizeof room, &wanted) == STM_DONE);
    wants(stm_program_variable(&program, NULL, 0) == STM_UNKNOWN);
    wants(stm_program_transaction(&program, NULL, 0) == STM_UNKNOWN);
    wants(stm_value(&store, NULL, 0, &value, &version) == STM_UNKNOWN && value == 9 && version == 9);
    stm_program_free(&empty);
}

/* The report with one part of it put in another's place. */
static int32_t judged(const char *file, const char *old, const char *new) {
    char text[1000];
    const char *at = strstr(REPORT, old);
    wants(at != NULL);
    snprintf(text, sizeof text, "%.*s%s%s", (int)(at - REPORT), REPORT, new, at + strlen(old));
    return stm_check(file, strlen(file), text, strlen(text));
}

static void verdicts(void) {
    wants(judged(FILE_TEXT, "end", "end") == STM_DONE);
    wants(judged(FILE_TEXT, "end\n", "end") == STM_BAD_TEXT);
    wants(judged(FILE_TEXT, "x 5 0", "x 4 0") == STM_BAD_BASE);
    wants(judged(FILE_TEXT, "returned 6", "returned 7") == STM_BAD_ENTRIES);
    wants(judged(FILE_TEXT, "x 6 1", "x 7 1") == STM_BAD_PRESENT);
    wants(judged(FILE_TEXT, "parked 1 wait\n", "") == STM_BAD_TASKS);
    const char *file = "(var x 5)(tx inc (set x (add x 1)) x)(tx wait (if (eq x 5) (retry) (skip)) x)(run inc 1)(run wait 1)";
    wants(judged(file, "end", "end") == STM_BAD_PARKED);
}

static stm_job job(int64_t ticket, uint64_t chapter, uint32_t task, uint32_t transaction) {
    return (stm_job){ticket, chapter, task, transaction, 0, {0}};
}

/* A job's ticket is from 0 on, its transaction one of the program, and its arguments are as many as that has
   parameters; whether it is a task is judged by the store. */
static void jobs(void) {
    stm_worker worker = {0};
    wants(stm_try_job(&worker, (stm_job){.ticket = 0}) == STM_EMPTY && stm_open_worker(&store, &worker) == STM_DONE);
    wants(stm_try_job(&worker, (stm_job){.ticket = -1, .transaction = 1}) == STM_UNKNOWN);
    wants(stm_try_job(&worker, (stm_job){.ticket = INT64_MIN, .transaction = 1}) == STM_UNKNOWN);
    wants(stm_try_job(&worker, (stm_job){.ticket = 1, .task = 1, .transaction = 2}) == STM_UNKNOWN);
    const stm_job strange[] = {
        job(1, 0, 2, 1), job(1, 0, 0, 1), job(2, 0, 1, 1), job(1, 0, 1, 0), job(1, 0, 65536, 1), job(1, 0, UINT32_MAX, 1),
        job(INT64_MAX, 0, 1, 1), job(1, 1, 1, 1)};
    for (size_t i = 0; i < sizeof strange / sizeof *strange; i++)
        wants(stm_try_job(&worker, strange[i]) == STM_DONE && stm_bring(&store, &worker).code == STM_GONE);
    wants(stm_try_job(&worker, job(1, 0, 1, 1)) == STM_DONE && stm_bring(&store, &worker).code == STM_NOT_RUNNING);
    const size_t counts[] = {1, 8, 9, SIZE_MAX};
    for (size_t i = 0; i < sizeof counts / sizeof *counts; i++)
        wants(stm_try_job(&worker, (stm_job){.ticket = 1, .task = 1, .transaction = 1, .count = counts[i]}) == STM_UNKNOWN);
    stm_worker_free(&worker);
}

int main(void) {
    each_word();
    verdicts();
    wants(stm_read(FILE_TEXT, strlen(FILE_TEXT), &program) == STM_DONE);
    wants(stm_open(&program, 1, 0, &store) == STM_DONE);
    nothing();
    jobs();
    no_texts();
    explained();
    rooms();
    long_ones();
    names();
    stm_store_free(&store);
    stm_program_free(&program);
    printf("good\n");
    return 0;
}
