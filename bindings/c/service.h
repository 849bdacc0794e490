/* stm: transactions that any thread calls and waits for.
 *
 * A service is a store with its lock and its waiting threads in one handle. A thread calls a transaction, which runs as
 * one atomic step, and gets its outcome; where the transaction retries, the thread sleeps until it has run.
 *
 * Short transactions run one at a time, under the lock. A long one (`stm_program_long`) is evaluated by the thread that
 * calls it, beside what others commit, and takes the lock only to be submitted and entered. It runs under the lock if
 * every worker is taken, if others changed what it read in 8 tries, if it only tries, and if a chapter ends, or the
 * report or the file is asked for, before it is entered. What it answers is the same.
 *
 * What the host owes is what C leaves to it: pointers are to what is there; a thread that calls has 64 KB of stack, and
 * one that opens a service 96 KB; no call is made from a signal handler; none is made after `stm_service_free`; and
 * none in a forked child, for another thread may have held the lock, and no child has that thread. There
 * `stm_service_close` and `stm_service_free` do nothing, so a child can let go what it has of its parent; what it wants
 * to call it opens itself. Else all calls may be made by any thread at any time, and none is a point where a thread is
 * cancelled. It is over pthreads: link with -pthread.
 *
 * A thread that has the lock makes the calls of those who ask too, mostly after up to 64 of its own in a row. A thread
 * that waits looks for some microseconds before it sleeps.
 *
 * Chapters begin by themselves: a call that finds the present one full ends it, and tells the host (`ended`), before it
 * has its own turn. Meanwhile others go on in the next chapter. Where that is full too they wait until the host has
 * said how it went; so does a call that only tries. The host is told one chapter at a time, in their order.
 *
 * What a file says stays in memory until the process ends, once for each `stm_service_open`. */
#ifndef STM_SERVICE_H
#define STM_SERVICE_H

#include "desk.h"
#include "stm.h"

#ifdef __cplusplus
extern "C" {
#endif

typedef struct stm_service stm_service;

/* ---- Opening a service ---- */

typedef struct stm_service_options {
    /* How many tasks a chapter has room for beside the file's own; 0: as many as there can be, which are 65536 in all;
     * with `ended` so many that the file of the chapter is never too long. */
    size_t room;
    /* As for `stm_run_one`: a journal of so many entries is followed by a checkpoint; 0: never. */
    uint32_t checkpoint;
    /* How many workers there are, at most 32; 0: 4 where a transaction of the file is long, else none. A thread takes
     * one while it looks by `stm_service_observe`, or evaluates a long transaction, beside what others commit; where
     * none is left it does so under the lock. Where there are workers each commit costs more. */
    uint32_t observers;
    /* Called with file and report of each chapter that ends, by the thread whose call has found it full, and with no
     * lock held, so it may take long. It may make any call of the service but `stm_service_free`; one that would have
     * to wait for itself answers STM_NO_ROOM. Not 0: the chapter was not kept. It is told again, with the same texts,
     * by each call that finds the next chapter full too, until it is kept, and once by each `stm_service_close`: so who
     * has written the chapter down and fails then is told it twice. NULL: none. The last chapter does not end: ask for
     * its file and report when the service is closed. */
    int (*ended)(void *own, const char *file, size_t file_length, const char *report, size_t report_length);
    void *own;
} stm_service_options;

/* As `ended`, where the host takes the chapters that ended (`stm_told_chapter`): nobody calls it. */
int stm_takes_chapters(void *own, const char *file, size_t file_length, const char *report,
                       size_t report_length);

/* For a host in a language whose callback can be stopped before its first line, so that what it answers is not known: a
 * keeper of chapters, with `stm_ask_keeper` as `ended` and the keeper as `own`. It is asked with the texts here, and
 * the chapter was kept where `asked` has set `kept`, which is 0 before, to another number. */
typedef struct stm_keeper {
    void (*asked)(void *own);
    void *own;
    const char *file;
    size_t file_length;
    const char *report;
    size_t report_length;
    int32_t kept;
} stm_keeper;

int stm_ask_keeper(void *own, const char *file, size_t file_length, const char *report, size_t report_length);

/* Opens a service of the file, with these options or, with NULL, with 0 for each; and gives the runs of the file their
 * turns: STM_DONE, and `out` has the service. Else `out` has NULL: STM_FILE_TOO_LONG .. STM_FILE_BROKEN, STM_MEMORY;
 * STM_NO_ROOM: a chapter can't have room for so many tasks; STM_NO_WORKER: more than 32 observers. */
int32_t stm_service_open(const char *file, size_t file_length, const stm_service_options *options,
                         stm_service **out);

/* The program of the service, to be asked what it declares (`stm_program_transaction_name`, ..). It is the service's own,
 * and goes with it. */
const stm_program *stm_service_program(const stm_service *service);

/* The number of the transaction of this name, or STM_UNKNOWN; and how many parameters it has, or STM_UNKNOWN. */
int64_t stm_service_transaction(const stm_service *service, const char *name, size_t name_length);
int64_t stm_service_parameters(const stm_service *service, uint32_t transaction);

/* ---- Calls ---- */

/* Runs the transaction as one atomic step; where it retries, the thread waits until it was entered. It is given a
 * number for each of its parameters, in their order, which the host leaves as they are until the call ends: `NULL, 0`
 * where it has none. The outcome is STM_DONE with what it returned, STM_THROWN with what it threw, STM_OVERFLOW,
 * STM_DIVIDE_BY_ZERO, STM_OUTSIDE, or STM_BROKEN with the condition's number; and the ticket of its task, the chapter
 * in which it was entered, the number of the entry there, and its place in the history of all that became of calls,
 * also where it waited. With any other answer it had no effect, and never will, and there is no ticket: STM_CLOSED;
 * STM_MEMORY; STM_UNKNOWN: no such transaction, or it has another number of parameters; STM_NO_ROOM: every task that a
 * chapter has room for waits, or `ended` failed and the next chapter is full too. */
stm_answer stm_atomically(stm_service *service, uint32_t transaction, const int64_t *arguments, size_t count);

/* As `stm_atomically`, but where it retries the answer is STM_RETRIES, at once, and nothing was entered. It takes no
 * room then, so it may be asked again and again. */
stm_answer stm_try_atomically(stm_service *service, uint32_t transaction, const int64_t *arguments, size_t count);

/* As `stm_atomically`, but a thread that has waited for so long goes on with STM_TIMED_OUT. It is looked at while the
 * transaction waits, and while the thread waits for a host that another thread tells a chapter; not while it waits for
 * the lock, nor while it tells the host itself: so a call may take longer. A long one whose time is up before it is
 * entered is given up; where it is evaluated just then, when that ends. With a time of 0 it tries. */
stm_answer stm_atomically_within(stm_service *service, uint32_t transaction, const int64_t *arguments, size_t count,
                                 uint64_t nanoseconds);

/* Who is asked, each 50 milliseconds, while a thread waits in a call that it has made, for a commit or for the host: it
 * waits no longer where `asked` has set `stopped`, which is 0 before, to another number. It is called by the thread,
 * under no lock. */
typedef struct stm_waiter {
    void (*asked)(void *own);
    void *own;
    int32_t stopped;
} stm_waiter;

/* From now on the waiter is asked while this thread waits; NULL: nobody, as at first: STM_DONE; STM_MEMORY. Where it
 * stops, the answer is STM_TIMED_OUT, but where the transaction was entered before it can be given up. While it is
 * asked nobody is. */
int32_t stm_wait_by(stm_waiter *waiter);

/* ---- Many calls at once ----
 *
 * Calls of one transaction, by a thread that has many to make: the way into the library and its lock are paid for some
 * of them at a time. Each is a step of its own, in their order, and those of other threads may come in between: the lock
 * is held for at most 64 calls, and no longer than some ten microseconds where one alone does not take longer. */

/* Makes so many calls of the transaction. The arguments of all lie one behind the other, `count` for each, and there is
 * room for as many answers as calls. Each is answered as by `stm_try_atomically`, also a long one: where one retries
 * (STM_RETRIES), or there is no memory for it, those behind it are made all the same. From the first one on that is
 * answered STM_NO_ROOM, STM_CLOSED, or STM_TIMED_OUT (`stm_wait_by`), none is made, and each is answered so: a host that
 * does not keep a chapter is told it once. How many returned (STM_DONE). */
size_t stm_each(stm_service *service, uint32_t transaction, const int64_t *arguments, size_t count, size_t calls,
                stm_answer *answers);

/* As `stm_each`, but it waits for nothing but the lock: how many are answered. Where these are fewer, the chapter is
 * full, and the host has not kept the one before it: the next answer is STM_NOT_ENDED, and its value how often the host
 * has said how it went with a chapter. Ask for the others when it has said so once more. */
size_t stm_ask_each(stm_service *service, uint32_t transaction, const int64_t *arguments, size_t count, size_t calls,
                    stm_answer *answers);

/* ---- Calls without a thread ----
 *
 * A call that is started waits, and no thread with it; so there may be as many as a chapter has room for. While one
 * waits it takes 200 bytes at most beside its task's place. What becomes of it is found by a thread that makes a call
 * of the service, whichever that is, and this thread tells it, with no lock held, before it sleeps and before it
 * returns from its own call; so maybe before `stm_start` returns. A long transaction that was started, or whose task
 * runs again, is evaluated by the thread that finds it so, then too: beside what others commit, and after 8 tries under
 * the lock. */

/* Who is called when a call has ended, with its `own` and its answer: the outcome, as of `stm_atomically`; or
 * STM_CLOSED or STM_MEMORY with the ticket, and nothing was entered. It is called once for each call, and may make any
 * call of the service but `stm_service_free`, also start others, in a stack that does not grow: what its thread finds
 * meanwhile is told by that thread when it has returned, one after the other. So one that waits lets those behind it
 * wait, and one that wants what its thread has, as a mutex of the host's, never gets it. It returns, and is not left by
 * an exception or a `longjmp`. The thread is not cancelled meanwhile. */
typedef void stm_done(void *own, stm_answer answer);

/* Starts the call: its ticket, and `done` is called when it has ended; `done` NULL: `stm_told` tells it. Else the code
 * says why not, and nothing follows: STM_CLOSED, STM_MEMORY, STM_UNKNOWN, as of `stm_atomically`; STM_NO_ROOM: so too,
 * or the host takes the chapters and has a whole one to keep first. It waits for `ended` as other calls do where the
 * chapter is full; for a host that takes the chapters it does not wait. */
int64_t stm_start(stm_service *service, uint32_t transaction, const int64_t *arguments, size_t count, stm_done *done,
                  void *own);

/* The started call with the ticket is given up: STM_DONE, and nothing is told of it. STM_TOO_LATE: what became of it
 * was told, or will be; or none was started with this ticket. */
int32_t stm_cancel(stm_service *service, int64_t ticket);

/* What became of a call that was started without `done`: its `own`, and the answer that `done` would have. */
typedef struct stm_call_told {
    void *own;
    stm_answer answer;
} stm_call_told;

/* Waits at most so long until there is such a call, and tells as many as there are and the room is for, each once: how
 * many; 0: there was none. STM_CLOSED: the service is closed, and each was told. */
int64_t stm_told(stm_service *service, stm_call_told *room, size_t count, uint64_t nanoseconds);

/* A call that is asked for: its transaction; its way, one of `enum stm_way`; its arguments, of which there are `count`;
 * what `stm_told` is to give back with its answer, if it tells it; and, from `stm_ask` on, its answer. `told` is room
 * for what became of `told_room` other calls, and `told_count` is, from `stm_ask` on, how many were told there. NULL
 * and 0: there is none. */
typedef struct stm_request {
    uint32_t transaction;
    uint32_t way;
    size_t count;
    int64_t arguments[8];
    void *own;
    stm_answer answer;
    stm_call_told *told;
    size_t told_room;
    size_t told_count;
} stm_request;

/* Asks for the call, and waits for nothing but the lock. STM_RUNNING: it waits, or was long and has been evaluated by
 * now, and its answer has its ticket: `stm_told` tells it, as a call that was started without `done`, and `stm_cancel`
 * gives it up. STM_NOT_ENDED: nothing changed, for the chapter is full, and the host has not kept the one before it:
 * the value is how often it has said how it went with a chapter; ask again when it has said so once more. Else it is
 * over, and the answer, whose code this is, is as of `stm_atomically` or `stm_try_atomically`; more than 8 arguments
 * are STM_UNKNOWN. What the call wakes, and `stm_told` would tell, is told in the request's own room while there is
 * some, each call once: so who asks and is told in one thread need not be woken for it. */
int32_t stm_ask(stm_service *service, stm_request *request);

/* ---- Chapters that the host takes ----
 *
 * With `stm_takes_chapters` as `ended`. A chapter that is full ends, and the next one begins; when that is full too,
 * calls wait until the host has said how it went with the one before, and are answered STM_NO_ROOM if it was not kept.
 * What was not kept is told again as by `ended`: when the next chapter is full too, by each call that finds it so, and
 * once by each `stm_service_close`. The last chapter does not end. */

/* Waits at most so long until a chapter ended: STM_DONE, and `chapter`, which was empty, has it: write down its number,
 * file and report (`stm_ended_chapter`, `stm_ended_file`, `stm_ended_report`), which takes no lock, and then say how it
 * went. STM_TIMED_OUT: there was none; STM_CLOSED: there is none, and the service is closed; STM_MEMORY: ask again;
 * STM_FULL; STM_NOT_ENDED: the host does not take chapters. One chapter at a time is at the host. */
int32_t stm_told_chapter(stm_service *service, stm_ended *chapter, uint64_t nanoseconds);

/* The chapter was kept; or it was not, and is told again as is said above: STM_DONE, and `chapter` is empty.
 * STM_NOT_ENDED: it is not this service's; STM_EMPTY. */
int32_t stm_chapter_kept(stm_service *service, stm_ended *chapter);
int32_t stm_chapter_not_kept(stm_service *service, stm_ended *chapter);

/* ---- What is seen of a service ---- */

/* How the call would end on one state: an outcome with no task and no entry, STM_RETRIES, STM_CLOSED, STM_MEMORY or
 * STM_UNKNOWN. Where a worker is idle (`observers`) it takes no lock, unless others changed what it read in 8 tries. */
stm_answer stm_service_observe(stm_service *service, uint32_t transaction, const int64_t *arguments, size_t count);

/* The present value of a variable, or of the cell that is written so, as `acct[5]`, and the number of the last entry of
 * the chapter that changed it, 0 where none did: STM_DONE; STM_UNKNOWN. */
int32_t stm_service_value(stm_service *service, const char *name, size_t name_length, int64_t *value,
                          uint64_t *version);

/* The number of the table of this name, or STM_UNKNOWN; and how many cells it has, numbered from 0, or STM_UNKNOWN. */
int64_t stm_service_table(const stm_service *service, const char *name, size_t name_length);
int64_t stm_service_table_length(const stm_service *service, uint32_t table);

/* As `stm_service_value`, of the cell `index` of a table. */
int32_t stm_service_cell(stm_service *service, uint32_t table, uint32_t index, int64_t *value, uint64_t *version);

/* Copies the present values of a table's cells from the number `from` on into the room, which is for `count` numbers,
 * as `stm_cells` does: how many, or STM_UNKNOWN. All are of one state. */
int64_t stm_service_cells(stm_service *service, uint32_t table, uint32_t from, int64_t *values, size_t count);

/* How many entries there were in all chapters; and the number of the chapter, from 0 on. */
uint64_t stm_service_entered(stm_service *service);
uint64_t stm_service_chapter(stm_service *service);

/* Counts of one moment: the entries in all chapters; the number of the chapter; the calls that wait for what others
 * commit, or whose long transaction is evaluated; how often one that waited was entered; how often what a long
 * transaction had read was changed meanwhile, so that it was evaluated once more; and how many tasks more the chapter
 * has room for. */
typedef struct stm_service_counts {
    uint64_t entered, chapter, waiting, woken, stale, room;
} stm_service_counts;

void stm_service_get_counts(stm_service *service, stm_service_counts *out);

/* Copies the report, or the file, of the present chapter into the room, as `stm_report_now` and `stm_file` do. Others
 * may commit between two calls, so the text may have grown after STM_SHORT. Once the service is closed the two are a
 * pair, which `stm_check` finds good. */
int32_t stm_service_report(stm_service *service, char *room, size_t room_length, size_t *wanted);
int32_t stm_service_file(stm_service *service, char *room, size_t room_length, size_t *wanted);

/* ---- Closing a service ---- */

/* Each call that waits and each later one answers STM_CLOSED, and no transaction is entered any more: one that is
 * evaluated just then is given up. The calls from `stm_service_value` to `stm_service_file` go on. It comes back when
 * no other thread tells the host a chapter, and tells it once more what was not kept. */
void stm_service_close(stm_service *service);

/* Closes it if it is not closed yet, waits until no thread is in a call or has an answer to tell, and lets it go. NULL
 * is none. In a child of the process that has opened it nothing is let go. */
void stm_service_free(stm_service *service);

#ifdef __cplusplus
}
#endif

#endif
