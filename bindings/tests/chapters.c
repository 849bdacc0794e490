/* Chapters, and workers of other programs: tickets that stay, tasks that wait across chapters, jobs and attempts that are
 * refused. Prints `good`. */
#include "stm.h"
#include "wants.h"

#include <stdio.h>
#include <string.h>

static stm_program program;
static stm_store store;
static stm_lender lender;
static stm_worker worker;

static void opens(const char *file, size_t spare) {
    wants(stm_read(file, strlen(file), &program) == STM_DONE);
    wants(stm_open_with_room(&program, 1, 0, spare, &store) == STM_DONE);
    wants(stm_open_worker(&store, &worker) == STM_DONE && stm_open_lender(&store, &lender) == STM_DONE);
}

static void ends(void) {
    stm_worker_free(&worker);
    stm_lender_free(&lender);
    stm_store_free(&store);
    stm_program_free(&program);
}

/* File and report of the chapter are these, and a pair that a check finds good. */
static void is(const char *file, const char *report) {
    char f[1000], r[1000];
    size_t file_length = 0, report_length = 0;
    wants(stm_file(&store, f, sizeof f, &file_length) == STM_DONE && file_length == strlen(file));
    wants(stm_report_now(&store, r, sizeof r, &report_length) == STM_DONE && report_length == strlen(report));
    wants(memcmp(f, file, file_length) == 0 && memcmp(r, report, report_length) == 0);
    wants(stm_check(f, file_length, r, report_length) == STM_DONE);
}

/* The lowest ready task has its turn. */
static stm_answer turns(void) { return stm_turn(&store, &lender, stm_take(&store)); }

static stm_answer calls(uint32_t transaction) { return stm_call(&store, &lender, transaction, NULL, 0, STM_WAITS); }

static int tells(stm_answer told, int64_t ticket, int32_t code, int64_t value, uint64_t chapter, uint64_t entry) {
    return told.ticket == ticket && told.code == code && told.value == value && told.chapter == chapter && told.entry == entry;
}

/* It is about no task, and this is why. */
static int none(stm_answer told, int32_t code) { return tells(told, -1, code, 0, 0, 0); }

static int stands(size_t ready, size_t running, size_t parked, size_t done, size_t given_up) {
    stm_counts c;
    wants(stm_get_counts(&store, &c) == STM_DONE);
    return c.ready == ready && c.running == running && c.parked == parked && c.done == done && c.given_up == given_up;
}

static const char WAITS[] = "(var n 0)\n(tx inc (set n (add n 7)) n)\n(tx wait (if (eq n 0) (retry) (skip)) n)\n"
                            "(tx hold (if (lt n 100) (retry) (skip)) n)\n(run wait 1)\n(run hold 1)\n(run inc 1)\n";

/* The tasks that are over are gone, the one that waits has its ticket, and its room is given back. */
static void a_chapter_begins(void) {
    opens(WAITS, 0);
    wants(stm_turns(&store, &lender, UINT32_MAX) == 5 && stands(0, 0, 1, 2, 0));
    wants(none(calls(0), STM_NO_ROOM) && stm_chapter(&store) == 0);
    wants(stm_begin_chapter(&store) == STM_DONE && stm_chapter(&store) == 1 && stm_entered(&store) == 2);
    wants(stands(0, 0, 1, 0, 0) && stm_store_spare(&store) == 2 && stm_store_tasks(&store) == 1);
    is("(var n 7)\n(tx inc (set n (add n 7)) n)\n(tx wait (if (eq n 0) (retry) (skip)) n)\n"
       "(tx hold (if (lt n 100) (retry) (skip)) n)\n(run hold 1)\n",
       "base 0\nn 7 0\nnow 0\nn 7 0\nparked 0 hold\nend\n");
    for (int64_t over = 0; over <= 2; over += 2) {
        wants(none(stm_standing(&store, over), STM_GONE) && none(stm_outcome(&store, over), STM_GONE));
        wants(stm_claim(&store, over).ticket == STM_GONE && stm_give_up(&store, over) == STM_GONE);
    }
    wants(tells(stm_standing(&store, 1), 1, STM_RETRIES, 0, 1, 0) && stm_claim(&store, 1).ticket == STM_NOT_READY);
    wants(tells(calls(0), 3, STM_DONE, 14, 1, 1));
    wants(tells(stm_standing(&store, 3), 3, STM_DONE, 0, 1, 1) && tells(stm_outcome(&store, 3), 3, STM_DONE, 14, 1, 1));
    wants(tells(turns(), 1, STM_RETRIES, 0, 1, 0) && stm_entered(&store) == 3);
    ends();
}

/* One task waits through two hundred chapters, in each of which it is woken, and ends in the last. */
static void a_task_waits_for_long(void) {
    opens("(var n 0)(tx get (if (lt n 201) (retry) (set n 0)) n)(tx put (set n (add n 1)) n)(run get 1)", 1);
    wants(turns().code == STM_RETRIES);
    for (uint64_t chapter = 1; chapter <= 200; chapter++) {
        wants(tells(calls(1), (int64_t)chapter, STM_DONE, (int64_t)chapter, chapter - 1, 1));
        wants(tells(turns(), 0, STM_RETRIES, 0, chapter - 1, 0) && stm_take(&store).ticket == STM_NOT_READY);
        wants(stm_begin_chapter(&store) == STM_DONE && stm_chapter(&store) == chapter && stm_entered(&store) == chapter);
    }
    wants(tells(calls(1), 201, STM_DONE, 201, 200, 1) && tells(turns(), 0, STM_DONE, 0, 200, 2));
    ends();
}

/* What was taken before a chapter is refused in it, and its task is ready again: also where another has its number now. */
static void jobs_of_a_chapter(void) {
    opens("(var x 0)(tx inc (set x (add x 1)) x)(run inc 3)", 0);
    stm_job first = stm_take(&store), second = stm_take(&store);
    wants(first.chapter == 0 && tells(stm_turn(&store, &lender, first), 0, STM_DONE, 1, 0, 1));
    wants(second.ticket == 1 && second.task == 1);
    wants(stm_try_job(&worker, second) == STM_DONE && stm_begin_chapter(&store) == STM_DONE);
    wants(none(stm_bring(&store, &worker), STM_GONE));
    wants(none(stm_turn(&store, &lender, first), STM_GONE) && none(stm_turn(&store, &lender, second), STM_GONE));
    wants(stands(2, 0, 0, 0, 0) && tells(stm_standing(&store, 1), 1, STM_READY, 0, 1, 0));
    wants(none(stm_bring(&store, &worker), STM_NOT_ENDED));
    stm_job again = stm_take(&store);
    wants(again.ticket == 1 && again.chapter == 1 && again.task == 0 && again.transaction == 0);
    /* Now the task runs, and its old job would still be of the chapter before. */
    wants(stm_try_job(&worker, second) == STM_DONE && none(stm_bring(&store, &worker), STM_GONE));
    wants(none(stm_turn(&store, &lender, second), STM_GONE));
    wants(tells(stm_standing(&store, 1), 1, STM_RUNNING, 0, 1, 0) && stm_try_job(&worker, again) == STM_DONE);
    wants(tells(stm_bring(&store, &worker), 1, STM_DONE, 2, 1, 1));
    wants(none(stm_turn(&store, &lender, again), STM_NOT_RUNNING));
    wants(tells(turns(), 2, STM_DONE, 3, 1, 2) && none(stm_turn(&store, &lender, second), STM_GONE));
    ends();
}

static char many[65536];

/* A program of so many variables, whose one transaction adds to the last. */
static const char *of_variables(int count) {
    char *at = many;
    for (int i = 0; i < count; i++) at += sprintf(at, "(var v%d 0)", i);
    sprintf(at, "(tx t (set v%d (add v%d 1)) v%d)(run t 2)", count - 1, count - 1, count - 1);
    return many;
}

/* Two stores, of 1 and of 256 variables, by two workers, each of which is brought to the other store. */
static void other_programs(void) {
    stm_program programs[2] = {{0}, {0}};
    stm_store stores[2] = {{0}, {0}};
    stm_worker workers[2] = {{0}, {0}};
    for (int i = 0; i < 2; i++) {
        const char *file = of_variables(i == 0 ? 1 : 256);
        wants(stm_read(file, strlen(file), &programs[i]) == STM_DONE);
        wants(stm_open(&programs[i], 1, 0, &stores[i]) == STM_DONE && stm_open_worker(&stores[i], &workers[i]) == STM_DONE);
    }
    for (int i = 0; i < 2; i++) {
        stm_job job = stm_take(&stores[i]);
        wants(stm_try_job(&workers[1 - i], job) == STM_DONE);
        wants(none(stm_bring(&stores[i], &workers[1 - i]), STM_OTHER_PROGRAM));
        wants(none(stm_bring(&stores[i], &workers[1 - i]), STM_NOT_ENDED) && stm_entered(&stores[i]) == 0);
        wants(stm_standing(&stores[i], 0).code == STM_RUNNING && stm_try_job(&workers[i], job) == STM_DONE);
        wants(tells(stm_bring(&stores[i], &workers[i]), 0, STM_DONE, 1, 0, 1));
    }
    for (int i = 0; i < 2; i++) {
        stm_worker_free(&workers[i]);
        stm_store_free(&stores[i]);
        stm_program_free(&programs[i]);
    }
}

/* Another program that says the same of the transaction: its worker is as good as one of the store. */
static void the_same_program(void) {
    static const char one[] = "(var x 0)(tx inc (set x (add x 1)) x)(run inc 2)";
    static const char same[] = "(var y 9)(tx inc (set y (add y 1)) y)(tx other (skip) 0)(run other 1)";
    static const char strict[] = "(stm 2)(var x 0)(always low (lt x 9))(tx inc (set x (add x 1)) x)(run inc 1)";
    opens(one, 0);
    const char *files[] = {same, strict};
    stm_job jobs[2];
    for (int i = 0; i < 2; i++) {
        stm_program other = {0};
        stm_store second = {0};
        stm_worker hired = {0};
        wants(stm_read(files[i], strlen(files[i]), &other) == STM_DONE && stm_open(&other, 1, 0, &second) == STM_DONE);
        jobs[i] = stm_take(&store);
        wants(stm_open_worker(&second, &hired) == STM_DONE && stm_try_job(&hired, jobs[i]) == STM_DONE);
        /* It has read 9, which is not what the store has; of the stricter one nothing is brought. */
        wants(none(stm_bring(&store, &hired), i == 0 ? STM_STALE : STM_OTHER_PROGRAM));
        stm_worker_free(&hired);
        stm_store_free(&second);
        stm_program_free(&other);
    }
    wants(stm_turn(&store, &lender, jobs[0]).entry == 1 && stm_turn(&store, &lender, jobs[1]).entry == 2);
    ends();
}

int main(void) {
    a_chapter_begins();
    a_task_waits_for_long();
    jobs_of_a_chapter();
    other_programs();
    the_same_program();
    printf("good\n");
    return 0;
}
