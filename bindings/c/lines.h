/* Lines, in which threads wait for another one. It is a part of service.c. All here stands under the lock. */
#ifndef STM_LINES_H
#define STM_LINES_H

#include "inside.h"

/* Who waits first in the line goes on, and knows why by the code. */
static void wake_first(stm_service *s, struct call **line, int32_t code) {
    struct call *call = *line;
    if (!call) return;
    *line = call->next;
    call->answer = bare(code);
    call->is_told = true;
    owe(&s->lock, call);
}

static void wake_line(stm_service *s, struct call **line, int32_t code) {
    while (*line) wake_first(s, line, code);
}

/* The call waits in its line no longer. */
static void leave_line(struct call *call) {
    struct call **at = call->line;
    while (*at != call) at = &(*at)->next;
    *at = call->next;
}

#endif
