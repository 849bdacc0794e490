/* stm: the desk of a service, for who writes one.
 *
 * What the lock of a service guards: a store, the calls that wait, and what became of each. A service (service.h) is a
 * lock and sleeping threads around it; who hosts stores alone does not need it. All calls on a desk stand under one lock
 * of the host's; those on a chapter that ended need none, for one thread has it. Handles are as in stm.h.
 *
 * No task of a desk is ready once a call has returned: what a call woke has had its turns. For each call that waits the
 * host brings a number of its own, `whose`, which it is told with what became of the call. */
#ifndef STM_DESK_H
#define STM_DESK_H

#include "stm.h"

#ifdef __cplusplus
extern "C" {
#endif

/* ---- Desks and calls on them ---- */

typedef struct stm_desk { void *at; } stm_desk;
/* A chapter that ended, for its host to keep. */
typedef struct stm_ended { void *at; } stm_ended;

/* Whose call waited, and what became of it. */
typedef struct stm_desk_told {
    uint64_t whose;
    stm_answer answer;
} stm_desk_told;

/* Whose call waits, and the job of its task, which is to be evaluated. */
typedef struct stm_desk_due {
    uint64_t whose;
    stm_job job;
} stm_desk_due;

/* Opens the desk of a store, whose ready tasks have their turns: STM_DONE, and the store's handle is empty; its workers
 * were opened before, and go on. Which transactions are long is as `stm_program_long` tells. Else both handles are as
 * they were: STM_WORK_LEFT, where a task of the store is running; STM_MEMORY, STM_FULL. It has 96 KB of stack. */
int32_t stm_open_desk(stm_store *store, stm_desk *out);

/* A call: a task of its own, which has its turn at once, and then all that it woke. `way` is as for `stm_call`.
 *   How the transaction ended, with the ticket, the chapter, and the number and the place of its entry.
 *   STM_RETRIES with a ticket: it waits, and is told by `stm_desk_next_told`.
 *   STM_RETRIES with the ticket -1: it only tries, and retries.
 *   STM_RUNNING with a ticket: it is long and waits, and `job` has its job. Evaluate it by a worker (`stm_try_job`), without
 *     the lock, and bring that (`stm_desk_bring`). With all other answers `job` stays.
 *   STM_CHAPTER_FULL: end the chapter (`stm_desk_end_chapter`), and ask again.
 *   STM_CLOSED, STM_UNKNOWN, STM_NO_ROOM, STM_MEMORY.
 * Nothing was entered but with the first. */
stm_answer stm_desk_ask(stm_desk *desk, uint32_t transaction, const int64_t *arguments, size_t count, uint32_t way,
                        uint64_t whose, stm_job *job);

/* How a call would end on the present values: an outcome with no ticket and no entry, STM_RETRIES; STM_CLOSED,
 * STM_UNKNOWN, STM_MEMORY. Nothing is entered, and nothing changes. */
stm_answer stm_desk_outcome_now(stm_desk *desk, uint32_t transaction, const int64_t *arguments, size_t count);

/* What became of a call that waited, or was long; each is told once. Its outcome, as above; or STM_MEMORY or STM_CLOSED, with
 * its ticket: it was given up. STM_NOT_READY and 0: nothing is to be told. */
stm_desk_told stm_desk_next_told(stm_desk *desk);

/* The next long call that waited and whose task runs again: evaluate its job as above. STM_NOT_READY in the ticket's
 * place, and 0: there is none. */
stm_desk_due stm_desk_next_due(stm_desk *desk);

/* Brings a worker's ended attempt of a long call: STM_DONE, and whoever waits is told, or waits on. The worker has none to
 * bring any more. STM_STALE: try it again, or `stm_desk_run_now`. STM_GONE, STM_NOT_RUNNING: what became of it was told, or
 * is to be, or it waits. STM_NOT_ENDED, STM_OTHER_PROGRAM. */
int32_t stm_desk_bring(stm_desk *desk, stm_worker *worker);

/* The running task of the job has its turn here, whatever came of attempts of it: STM_DONE, and whoever waits is told, or
 * waits on. STM_GONE, STM_NOT_RUNNING, as above; STM_UNKNOWN. */
int32_t stm_desk_run_now(stm_desk *desk, stm_job job);

/* Whoever waits with the ticket does so no longer, and nothing is told: STM_DONE, and its task is given up. STM_GONE: nobody
 * waits so; what became of the call was told, or is to be. */
int32_t stm_desk_leave(stm_desk *desk, int64_t ticket);

/* Each call that waits is given up and told STM_CLOSED, and nothing is entered from now on. */
int32_t stm_desk_close(stm_desk *desk);

/* ---- Chapters of a desk ---- */

/* The present chapter ends: what is long and runs has its turn, `out` has the chapter's file and report, to keep them, and
 * the next chapter begins, in which who waits waits on. Say then how it went (`stm_desk_kept`, `stm_desk_not_kept`).
 * STM_NOT_ENDED: that was not said yet of the one before. STM_MEMORY: the chapter goes on, or is given again. STM_FULL. A
 * chapter that was not kept is given again, and no other one ends. */
int32_t stm_desk_end_chapter(stm_desk *desk, stm_ended *out);

/* The present chapter ends, of which nobody keeps anything, and the next one begins, as above: it takes no memory, and no
 * text is made. STM_NOT_ENDED: a chapter was not kept, or that was not said yet. */
int32_t stm_desk_begin_chapter(stm_desk *desk);

/* The chapter was kept, or it was not: STM_DONE, and its handle is empty. STM_NOT_ENDED: it is not the one that
 * `stm_desk_end_chapter` gave last of this desk, and nothing changed. */
int32_t stm_desk_kept(stm_desk *desk, stm_ended *ended);
int32_t stm_desk_not_kept(stm_desk *desk, stm_ended *ended);

/* The number of a chapter that ended; 0 of an empty handle. */
uint64_t stm_ended_chapter(stm_ended *ended);

/* Copies the chapter's file, or its report, into the room: as `stm_file`. STM_FILE_TOO_LONG. The two are a pair that
 * `stm_check` finds good. */
int32_t stm_ended_file(stm_ended *ended, char *room, size_t room_length, size_t *wanted);
int32_t stm_ended_report(stm_ended *ended, char *room, size_t room_length, size_t *wanted);

/* ---- What is seen of a desk ---- */

/* What is seen of a desk is as of a store. */
int32_t stm_desk_value(stm_desk *desk, const char *name, size_t name_length, int64_t *value, uint64_t *version);
int32_t stm_desk_cell(stm_desk *desk, uint32_t table, uint32_t index, int64_t *value, uint64_t *version);
int64_t stm_desk_cells(stm_desk *desk, uint32_t table, uint32_t from, int64_t *values, size_t count);
int32_t stm_desk_counts(stm_desk *desk, stm_counts *out);
size_t stm_desk_spare(stm_desk *desk);
uint64_t stm_desk_chapter(stm_desk *desk);
uint64_t stm_desk_entered(stm_desk *desk);

/* Report and file of the present chapter, as of a store, once what is long and runs has had its turn. */
int32_t stm_desk_report(stm_desk *desk, char *room, size_t room_length, size_t *wanted);
int32_t stm_desk_file(stm_desk *desk, char *room, size_t room_length, size_t *wanted);

/* ---- Letting a desk go ---- */

/* Let go, and leave the handle empty. An empty one stays so. */
void stm_desk_free(stm_desk *desk);
void stm_ended_free(stm_ended *ended);

#ifdef __cplusplus
}
#endif

#endif
