/* stm: transactions over named variables and tables, for hosts in C and C++.
 *
 * Link with libstm.a or libstm.so, which `./stm --library` builds; heap.c and words.c are inside both.
 *
 * What the host owes, and no call can test:
 *   1. A handle is given to one call at a time, but many that take it `const` may be made at once. The calls
 *      on a store stand under a lock of the host's; those on a worker need none, for one thread has it, while
 *      others use the store and other workers.
 *   2. A new handle is `{0}`. One is copied only to move it: only one copy is used on. What it holds is
 *      never written.
 *   3. No pointer is null (`out`, `wanted`, `value` and `version` neither), but one that goes with a length or
 *      a count of 0: `NULL, 0` for the room asks how much is wanted, for the arguments gives none. A pointer that
 *      goes with a length is to that many bytes, one that goes with a count to that many numbers. A text needs no 0
 *      behind it, and one that is copied into a room gets none.
 *   4. What a call may write (a handle that is not `const`, a room, `out`, `wanted`, `value`, `version`,
 *      `values`) overlaps nothing else that it is given.
 *   5. A call has 64 KB of stack, whatever the file, and one that opens a desk 96 KB: the deepest files that the
 *      limits allow take less than two thirds.
 *   6. No call is made from a signal handler, nor from the forked child of a process with threads.
 *
 * What stays in memory until the process ends: what a program says, once for each `stm_read`. All else goes
 * with its handle, and what a store and its workers share (two words a variable or cell) with the last of them: they
 * may be let go in any order, and a worker may outlive its store.
 */
#ifndef STM_H
#define STM_H

#include <stddef.h>
#include <stdint.h>

#ifdef __cplusplus
extern "C" {
#endif

/* ---- Codes and answers ---- */

/* What the calls answer: 0 or more where they did what they are for, else why not. */
enum stm_code {
    /* Done: the attempt ended, the transaction returned, the task is done, the report is good. */
    STM_DONE = 0,
    /* The program retries, and the task is parked. `observe`, and a call that only tries: it retries, and nothing
       changed. */
    STM_RETRIES = 1,
    /* What was read is no longer so: try again. */
    STM_STALE = 2,
    /* The task was not running, and nothing changed. */
    STM_NOT_RUNNING = 3,
    /* The task was given up: as memory ran out, or (`standing`) by its host. */
    STM_GIVEN_UP = 4,
    /* How a transaction ended that did not return: thrown by the program, with the value; a result outside 64
       bits; a division by 0; a standing condition that would not be true, with its number. The task is done. */
    STM_THROWN = 5,
    STM_OVERFLOW = 6,
    STM_DIVIDE_BY_ZERO = 7,
    STM_BROKEN = 8,
    /* `stm_explore`, `stm_explore_to`: more states are reached than were asked for, and the text says so. */
    STM_MORE = 9,
    /* `stm_explore_to`: there is no end of that number, and no text. */
    STM_NO_END = 10,
    /* `outcome`: the journal has no entry of the task, for it is not done, or a checkpoint was made since. */
    STM_NO_ENTRY = 12,
    /* `standing`: the task can be taken; it was taken. */
    STM_READY = 13,
    STM_RUNNING = 14,
    /* As STM_THROWN .. STM_BROKEN: the transaction named a cell outside its table. The task is done. */
    STM_OUTSIDE = 16,
    /* Of a desk (desk.h): the chapter has no room for the call's task, and is to end first. Nothing changed. */
    STM_CHAPTER_FULL = 17,
    /* `stm_check`: the first part of the report that does not hold. */
    STM_BAD_TEXT = 101,
    STM_BAD_BASE = 102,
    STM_BAD_ENTRIES = 103,
    STM_BAD_PRESENT = 104,
    STM_BAD_TASKS = 105,
    STM_BAD_PARKED = 106,
    /* The file is refused: too long; a byte that is not allowed; not of the grammar; a name; a limit. */
    STM_FILE_TOO_LONG = -1,
    STM_FILE_BAD_BYTE = -2,
    STM_FILE_SHAPE = -3,
    STM_FILE_NAME = -4,
    STM_FILE_LIMIT = -5,
    /* A growth was refused. */
    STM_MEMORY = -6,
    /* The file is refused: a standing condition is not true of the initial values. */
    STM_FILE_BROKEN = -7,
    /* The room is too short; how long it has to be was written. */
    STM_SHORT = -8,
    /* There is no such transaction, variable, table or cell; or the transaction has another number of parameters than it
       is given arguments. */
    STM_UNKNOWN = -9,
    /* `open`: more than 32 workers. `open_worker`: none is left. It and `open_lender`: there is no transaction. */
    STM_NO_WORKER = -10,
    /* The worker has no ended attempt to bring. Of a desk (desk.h): the host did not say yet whether the last chapter was
       kept; or it is another chapter. */
    STM_NOT_ENDED = -11,
    /* The handle is empty; or `out` is not. */
    STM_EMPTY = -12,
    STM_FULL = -13,
    /* The chapter has no room for another task; or it would have more tasks than 65536. */
    STM_NO_ROOM = -14,
    /* A task is ready or running, and the report could not account for it. */
    STM_WORK_LEFT = -15,
    /* The number of states to look at is not from 1 to 16777216. */
    STM_STATES = -16,
    /* `bring`: the worker is of a program that says otherwise of the transaction, of the standing conditions, or
       of how many variables there are. Nothing changed. */
    STM_OTHER_PROGRAM = -17,
    /* The store has no such task in its present chapter: no task has this ticket (any more); `turn`, `bring`: the job was
       taken in another chapter, or the task makes another call; `give_up`: it is over. Nothing changed. */
    STM_GONE = -18,
    /* Of a service (service.h): it was closed before there was an outcome; the time was up before. */
    STM_CLOSED = -19,
    STM_TIMED_OUT = -20,
    /* The schedule is refused, for the reasons of a file. */
    STM_SCHEDULE_TOO_LONG = -21,
    STM_SCHEDULE_BAD_BYTE = -22,
    STM_SCHEDULE_SHAPE = -23,
    STM_SCHEDULE_NAME = -24,
    STM_SCHEDULE_LIMIT = -25,
    /* `take`: no task is ready. `claim`: the task is not. Nothing changed. */
    STM_NOT_READY = -26,
    /* Of a service: what became of the call was told, or will be. */
    STM_TOO_LATE = -27
};

/* What became of a task: its ticket; a code; what was returned (STM_DONE), what was thrown (STM_THROWN) or the number of a
 * condition (STM_BROKEN), else 0; the chapter in which the task had its turn or stands, from 0 on; the number of its
 * entry there, 0 where there is none; and, of a call of a desk (desk.h) or a service (service.h) that was entered, the
 * place of the entry in the history of all, counted from 0, else 0. Where the answer is about no task, as where nothing
 * changed, the ticket is -1 and the chapter 0. */
typedef struct stm_answer {
    int64_t ticket;
    int32_t code;
    int64_t value;
    uint64_t chapter;
    uint64_t entry;
    uint64_t place;
} stm_answer;

/* A task that was taken: its ticket; the chapter in which it was taken, and its number there; and its call: the
 * transaction, and its arguments, of which there are `count`, with 0 behind them. The ticket is STM_NOT_READY, STM_GONE or
 * STM_EMPTY where there is no task. */
typedef struct stm_job {
    int64_t ticket;
    uint64_t chapter;
    uint32_t task;
    uint32_t transaction;
    size_t count;
    int64_t arguments[8];
} stm_job;

/* What a call does where the transaction retries: its task waits; or it only tries, and there is none. */
enum stm_way { STM_WAITS = 0, STM_TRIES = 1 };

/* How many tasks are ready, running, parked, done, and given up. */
typedef struct stm_counts {
    size_t ready, running, parked, done, given_up;
} stm_counts;

/* A code's word, which is ASCII, ends in a 0 and stays: "unknown code" where there is no such code. */
const char *stm_word(int32_t code);

/* ---- Whole files ----
 *
 * `wanted` is how long the text is; with STM_SHORT, how long the room has to be; 0 with any other
 * answer, for there is no text. The room is written only where there is one. No report is longer than 8388608
 * bytes, and 160 more for each cell of the file's tables. */

/* Runs all tasks of the file on the calling thread, and copies the report into the room. A journal of
 * `checkpoint` entries is followed by a checkpoint; 0: never. */
int32_t stm_run_one(const char *file, size_t file_length, uint32_t checkpoint, char *room,
                    size_t room_length, size_t *wanted);

/* Whether the report is lawful for the file: STM_DONE, or STM_BAD_TEXT .. STM_BAD_PARKED, by the first part that
 * does not hold. */
int32_t stm_check(const char *file, size_t file_length, const char *report, size_t report_length);

/* Where and why a file is refused: by its first fault, STM_FILE_TOO_LONG .. STM_FILE_BROKEN; its line and column, both
 * from 1 and in bytes; and how many bytes stand before it. All are 0 of a file that is read. */
typedef struct stm_explained {
    int32_t code;
    size_t line, column, place;
} stm_explained;

/* Says of a file that was refused where its first fault is, and copies the words that tell it into the room, as
 * `stm explain` prints them: `line 3, column 12: F3 Shape: ` and what is wanted there. No newline and no 0 stand behind
 * them. Of a file that is read there are no words. It takes some times as long as reading. With STM_SHORT `out` is
 * written too; STM_MEMORY. */
int32_t stm_explain(const char *file, size_t file_length, stm_explained *out, char *room, size_t room_length,
                    size_t *wanted);

/* Plays the schedule on the stepped world of the file, and copies what is seen into the room. */
int32_t stm_world(const char *file, size_t file_length, const char *schedule, size_t schedule_length,
                  char *room, size_t room_length, size_t *wanted);

/* Sees every order of the file's tasks, and copies what is found into the room: STM_DONE. At most `states`
 * states are looked at: STM_MORE where more are reached. What is found may be long, so call first with
 * `NULL, 0` for the room where there is no good guess. */
int32_t stm_explore(const char *file, size_t file_length, uint32_t states, char *room, size_t room_length,
                    size_t *wanted);

/* Copies the report of a run that comes to the end of this number, counted from 1 as `stm_explore` lists
 * them, by as few turns as any order has to it: STM_DONE, STM_MORE, STM_NO_END. */
int32_t stm_explore_to(const char *file, size_t file_length, uint32_t states, size_t end, char *room,
                       size_t room_length, size_t *wanted);

/* ---- Programs ---- */

/* Handles. Each is one pointer that only the library reads; `{0}` is an empty one. Each call answers
 * STM_EMPTY for an empty one, and what it is given to fill has to be empty: STM_FULL. */
typedef struct stm_program { void *at; } stm_program;
typedef struct stm_store { void *at; } stm_store;
typedef struct stm_worker { void *at; } stm_worker;
typedef struct stm_lender { void *at; } stm_lender;

/* Reads a program. */
int32_t stm_read(const char *file, size_t file_length, stm_program *out);

/* How many tasks, variables, tables, standing conditions and transactions a program has. 0 of an empty handle. */
size_t stm_program_tasks(const stm_program *program);
size_t stm_program_variables(const stm_program *program);
size_t stm_program_tables(const stm_program *program);
size_t stm_program_conditions(const stm_program *program);
size_t stm_program_transactions(const stm_program *program);

/* How many cells a table has, from 1 to 1048576, numbered from 0; STM_UNKNOWN. */
int64_t stm_program_cells(const stm_program *program, uint32_t table);

/* The number of the variable, the table, the standing condition or the transaction of this name, or STM_UNKNOWN. They
 * are numbered from 0, as declared. */
int64_t stm_program_variable(const stm_program *program, const char *name, size_t name_length);
int64_t stm_program_table(const stm_program *program, const char *name, size_t name_length);
int64_t stm_program_condition(const stm_program *program, const char *name, size_t name_length);
int64_t stm_program_transaction(const stm_program *program, const char *name, size_t name_length);

/* The name of the variable, the table, the standing condition or the transaction of this number, or of a parameter of a
 * transaction: copied into the room, with no 0 behind it, and `wanted` is its length. STM_SHORT; STM_UNKNOWN. */
int32_t stm_program_variable_name(const stm_program *program, uint32_t variable, char *room, size_t room_length,
                                  size_t *wanted);
int32_t stm_program_table_name(const stm_program *program, uint32_t table, char *room, size_t room_length,
                               size_t *wanted);
int32_t stm_program_condition_name(const stm_program *program, uint32_t condition, char *room, size_t room_length,
                                   size_t *wanted);
int32_t stm_program_transaction_name(const stm_program *program, uint32_t transaction, char *room,
                                     size_t room_length, size_t *wanted);
int32_t stm_program_parameter_name(const stm_program *program, uint32_t transaction, uint32_t parameter, char *room,
                                   size_t room_length, size_t *wanted);

/* How many parameters the transaction has, at most 8; STM_UNKNOWN. */
int64_t stm_program_parameters(const stm_program *program, uint32_t transaction);

/* Which transactions are long, so that evaluating one costs more than to give the lock back and to come for it again:
 * copies a byte for each into the room, in their order, 1 for a long one and 0 for another. STM_SHORT, STM_MEMORY. */
int32_t stm_program_long(const stm_program *program, uint8_t *room, size_t room_length, size_t *wanted);

/* ---- Stores and their tasks ---- */

/* Opens a store of the program for at most 32 workers. `checkpoint` is as for `stm_run_one`. */
int32_t stm_open(const stm_program *program, size_t workers, uint32_t checkpoint, stm_store *out);

/* As `stm_open`, with room for so many tasks more, which can be submitted. STM_NO_ROOM. */
int32_t stm_open_with_room(const stm_program *program, size_t workers, uint32_t checkpoint, size_t spare,
                           stm_store *out);

/* Tickets. The host knows a task by its ticket, a number from 0 to 2^62 that stays the task's own through all
 * chapters of the store. The tasks of the program have 0, 1, .. in the order of the runs, and each task that is
 * submitted or called has the next one. A task that was done or given up when its chapter ended is gone, and
 * its ticket is no task's any more: STM_GONE. */

/* Arguments. A call gives its transaction a number for each of its parameters, in their order; they are copied. With
 * more or fewer of them it is refused, and nothing changes: STM_UNKNOWN. A transaction without parameters takes
 * `NULL, 0`. A task keeps its arguments for as long as it is there. */

/* A ready task of the call more: its ticket, STM_NO_ROOM or STM_UNKNOWN. It takes no memory. Under the lock. */
int64_t stm_submit(stm_store *store, uint32_t transaction, const int64_t *arguments, size_t count);

/* How many tasks more the chapter has room for, and how many it has. 0 of an empty handle. Under the lock. */
size_t stm_store_spare(stm_store *store);
size_t stm_store_tasks(stm_store *store);

/* How many tasks of the chapter stand how. Under the lock. */
int32_t stm_get_counts(stm_store *store, stm_counts *out);

/* ---- What is seen of a store ---- */

/* The present value of the variable of this name, or of the cell that is written so, as `acct[5]`, and the number of the
 * last entry that changed it, 0 where none did: STM_DONE, and both were written; STM_UNKNOWN. Under the lock. */
int32_t stm_value(stm_store *store, const char *name, size_t name_length, int64_t *value, uint64_t *version);

/* As `stm_value`, of the cell `index` of a table, both counted from 0. Under the lock. */
int32_t stm_cell(stm_store *store, uint32_t table, uint32_t index, int64_t *value, uint64_t *version);

/* Copies the present values of a table's cells from the number `from` on into the room, which is for `count` numbers: as
 * many as there are and it has room for. How many; 0 from the table's end on; STM_UNKNOWN where there is no such table,
 * with nothing written. Under the lock. */
int64_t stm_cells(stm_store *store, uint32_t table, uint32_t from, int64_t *values, size_t count);

/* ---- Jobs and workers ---- */

/* A worker of the store, for one thread; STM_NO_WORKER where all were opened, or there is no transaction.
 * Where it answers STM_MEMORY, the store can make one worker less. Under the lock. */
int32_t stm_open_worker(stm_store *store, stm_worker *out);

/* The lowest ready task, which is then running, with all that a worker has to be told of it: its arguments too.
 * STM_NOT_READY. Under the lock. */
stm_job stm_take(stm_store *store);

/* As `stm_take`, the task with the ticket: STM_NOT_READY, STM_GONE. Under the lock. */
stm_job stm_claim(stm_store *store, int64_t ticket);

/* Evaluates a job that was taken, with its arguments, on one state, with no lock: STM_DONE, STM_STALE, STM_MEMORY,
 * STM_UNKNOWN. */
int32_t stm_try_job(stm_worker *worker, stm_job job);

/* Brings the worker's ended attempt to the store, under the lock: how the transaction ended (STM_DONE,
 * STM_THROWN .. STM_BROKEN, STM_OUTSIDE) with the number of the entry; STM_RETRIES (the task is parked). Nothing
 * changed: STM_STALE, STM_NOT_RUNNING, STM_NOT_ENDED, STM_GONE, STM_OTHER_PROGRAM. The worker may be of any store: where
 * its program says otherwise the attempt is refused. Its time grows with the transaction. */
stm_answer stm_bring(stm_store *store, stm_worker *worker);

/* ---- Turns and calls ---- */

/* An attempt to lend to the calls below: STM_NO_WORKER where there is no transaction. It is no worker of the
 * store, and may be lent to any. Under the lock. */
int32_t stm_open_lender(stm_store *store, stm_lender *out);

/* A turn of a job that was taken, on the present values: as `stm_bring`, never stale; STM_GIVEN_UP. Nothing changed:
 * STM_NOT_RUNNING, STM_GONE. What it woke is ready. Under the lock. */
stm_answer stm_turn(stm_store *store, stm_lender *lender, stm_job job);

/* Gives the lowest ready task a turn, and then the next one, until so many turns were given or none is
 * ready: how many turns were given, or STM_EMPTY. For short tasks: it costs less than to take each, and to try and
 * bring it, but the lock is held meanwhile. What runs out of memory is given up. Under the lock. */
int64_t stm_turns(stm_store *store, stm_lender *lender, uint32_t most);

/* A task of the call more, which has its turn at once, whatever else is ready: as `stm_turn`. `way` is STM_WAITS, or
 * STM_TRIES, as any other: then nothing changes where the transaction retries on the present values, and the answer is
 * STM_RETRIES without a task. Nothing changed: STM_NO_ROOM, STM_UNKNOWN. What it woke is ready. Under the lock. */
stm_answer stm_call(stm_store *store, stm_lender *lender, uint32_t transaction, const int64_t *arguments,
                    size_t count, uint32_t way);

/* A task that is ready, running or parked is given up: STM_DONE, STM_GONE. Under the lock. */
int32_t stm_give_up(stm_store *store, int64_t ticket);

/* How the task stands: STM_READY, STM_RUNNING, STM_RETRIES (it is parked), STM_DONE with the number of its entry,
 * STM_GIVEN_UP; STM_GONE. Under the lock. */
stm_answer stm_standing(stm_store *store, int64_t ticket);

/* What the task's entry records: as `stm_turn`; STM_NO_ENTRY, STM_GONE. A checkpoint takes the entries away,
 * so who wants an outcome asks before. Under the lock. */
stm_answer stm_outcome(stm_store *store, int64_t ticket);

/* ---- Chapters and reports ---- */

/* A new chapter begins where the present one is: the tasks that are ready, running or parked come over with
 * their tickets, in their order, and are numbered anew. One that was running is ready, and a job of it that was
 * taken before is refused (STM_GONE); one that was parked waits as it did. The journal is empty, and
 * each task that is done or given up has left its room. The file and the reports are of the chapter. It takes no
 * memory, and is never refused. Under the lock. */
int32_t stm_begin_chapter(stm_store *store);

/* The number of the chapter, from 0 on, and how many entries there were in all chapters. 0 of an empty handle.
 * Under the lock. */
uint64_t stm_chapter(stm_store *store);
uint64_t stm_entered(stm_store *store);

/* The base becomes the present, and the journal is empty. Under the lock. */
int32_t stm_checkpoint(stm_store *store);

/* Gives each task that is ready or running a turn, and copies the report into the room. Under the
 * lock. Where the answer is STM_SHORT, call again with room for `wanted` bytes. */
int32_t stm_report(stm_store *store, char *room, size_t room_length, size_t *wanted);

/* As `stm_report`, with no turn given: STM_WORK_LEFT exactly where a task is ready or running. Under the lock. */
int32_t stm_report_now(stm_store *store, char *room, size_t room_length, size_t *wanted);

/* Copies the file as it has become, with a run for each task that was submitted, into the room: with the
 * report of the same moment a pair that `stm_check` finds good. STM_FILE_TOO_LONG. Under the lock. */
int32_t stm_file(stm_store *store, char *room, size_t room_length, size_t *wanted);

/* How the call would end on one state, with no lock: STM_DONE with the value that it returns, STM_RETRIES,
 * STM_STALE, STM_THROWN .. STM_BROKEN, STM_OUTSIDE, STM_MEMORY, STM_UNKNOWN. There is no task. */
stm_answer stm_observe(stm_worker *worker, uint32_t transaction, const int64_t *arguments, size_t count);

/* ---- Letting go ---- */

/* Let go, and leave the handle empty. An empty one stays so. */
void stm_program_free(stm_program *program);
void stm_store_free(stm_store *store);
void stm_worker_free(stm_worker *worker);
void stm_lender_free(stm_lender *lender);

#ifdef __cplusplus
}
#endif

#endif
