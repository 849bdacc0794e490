/* What a service says of itself. It is a part of service.c. */
#ifndef STM_LOOKS_H
#define STM_LOOKS_H

#include "waiting.h"

/* A look at the program takes no lock, but the thread is in a call: what it looks at stays until it leaves. */
static stm_service *entered(const stm_service *service) {
    stm_service *s = (stm_service *)service;
    enter(s);
    return s;
}

static int64_t left(stm_service *s, int64_t number) {
    leave(s);
    return number;
}

const stm_program *stm_service_program(const stm_service *service) {
    return &service->program;
}

int64_t stm_service_transaction(const stm_service *service, const char *name, size_t name_length) {
    stm_service *s = entered(service);
    return left(s, stm_program_transaction(&s->program, name, name_length));
}

int64_t stm_service_parameters(const stm_service *service, uint32_t transaction) {
    stm_service *s = entered(service);
    return left(s, stm_program_parameters(&s->program, transaction));
}

int64_t stm_service_table(const stm_service *service, const char *name, size_t name_length) {
    stm_service *s = entered(service);
    return left(s, stm_program_table(&s->program, name, name_length));
}

int64_t stm_service_table_length(const stm_service *service, uint32_t table) {
    stm_service *s = entered(service);
    return left(s, stm_program_cells(&s->program, table));
}

int32_t stm_service_value(stm_service *s, const char *name, size_t name_length, int64_t *value, uint64_t *version) {
    lock(s);
    int32_t code = stm_desk_value(&s->desk, name, name_length, value, version);
    unlock_and_leave(s);
    return code;
}

int32_t stm_service_cell(stm_service *s, uint32_t table, uint32_t index, int64_t *value, uint64_t *version) {
    lock(s);
    int32_t code = stm_desk_cell(&s->desk, table, index, value, version);
    unlock_and_leave(s);
    return code;
}

int64_t stm_service_cells(stm_service *s, uint32_t table, uint32_t from, int64_t *values, size_t count) {
    lock(s);
    int64_t copied = stm_desk_cells(&s->desk, table, from, values, count);
    unlock_and_leave(s);
    return copied;
}

static uint64_t number_of(stm_service *s, uint64_t (*of)(stm_desk *)) {
    lock(s);
    uint64_t number = of(&s->desk);
    unlock_and_leave(s);
    return number;
}

uint64_t stm_service_entered(stm_service *s) { return number_of(s, stm_desk_entered); }
uint64_t stm_service_chapter(stm_service *s) { return number_of(s, stm_desk_chapter); }

void stm_service_get_counts(stm_service *s, stm_service_counts *out) {
    lock(s);
    *out = (stm_service_counts){stm_desk_entered(&s->desk), stm_desk_chapter(&s->desk), s->waiting,
                                s->woken,                   s->stale,                   stm_desk_spare(&s->desk)};
    unlock_and_leave(s);
}

typedef int32_t tells(stm_desk *, char *, size_t, size_t *);

/* What runs has its turn first, so that file and report are of one moment where nothing comes between. */
static int32_t text_of(stm_service *s, tells *by, char *room, size_t room_length, size_t *wanted) {
    lock(s);
    int32_t code = by(&s->desk, room, room_length, wanted);
    hand_on(s);
    unlock_and_leave(s);
    return code;
}

int32_t stm_service_report(stm_service *s, char *room, size_t room_length, size_t *wanted) {
    return text_of(s, stm_desk_report, room, room_length, wanted);
}

int32_t stm_service_file(stm_service *s, char *room, size_t room_length, size_t *wanted) {
    return text_of(s, stm_desk_file, room, room_length, wanted);
}

#endif
