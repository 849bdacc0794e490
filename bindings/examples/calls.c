/* Each way in which a call can end, what a commit wakes, and a chapter, of a store that one thread has. */
#include "stm.h"
#include <stdio.h>
#include <string.h>

static const char FILE_TEXT[] =
    "(var here 100) (var there 0) (var out 0)"
    "(tx pay (if (lt here 60) (throw 60) (seq (set here (sub here 60)) (set there (add there 60)))) here)"
    "(tx put (set out (add out 1)) out)"
    "(tx get (if (eq out 0) (retry) (set out (sub out 1))) out)";

/* Each way in which a call can end. */
static void tell(const char *what, stm_answer answer) {
    long long value = answer.value, ticket = answer.ticket, entry = (long long)answer.entry;
    switch (answer.code) {
    case STM_DONE: printf("%s: returned %lld, entry %lld\n", what, value, entry); break;
    case STM_THROWN: printf("%s: threw %lld, entry %lld\n", what, value, entry); break;
    case STM_BROKEN: printf("%s: would break condition %lld, entry %lld\n", what, value, entry); break;
    case STM_OVERFLOW:
    case STM_OUTSIDE:
    case STM_DIVIDE_BY_ZERO: printf("%s: %s, entry %lld\n", what, stm_word(answer.code), entry); break;
    case STM_RETRIES: printf("%s: waits with ticket %lld\n", what, ticket); break;
    case STM_GIVEN_UP: printf("%s: no memory\n", what); break;
    default: printf("%s: %s\n", what, stm_word(answer.code)); break; /* not called: no room, no such transaction */
    }
}

int main(void) {
    stm_program program = {0};
    stm_store store = {0};
    stm_lender lender = {0};
    int32_t code = stm_read(FILE_TEXT, strlen(FILE_TEXT), &program);
    if (code == STM_DONE) code = stm_open_with_room(&program, 0, 0, 5, &store);
    if (code == STM_DONE) code = stm_open_lender(&store, &lender);
    if (code != STM_DONE) return fprintf(stderr, "%s\n", stm_word(code)), 1;
    uint32_t pay = (uint32_t)stm_program_transaction(&program, "pay", 3);
    uint32_t put = (uint32_t)stm_program_transaction(&program, "put", 3);
    uint32_t get = (uint32_t)stm_program_transaction(&program, "get", 3);
    tell("pay", stm_call(&store, &lender, pay, NULL, 0, STM_WAITS));
    tell("pay", stm_call(&store, &lender, pay, NULL, 0, STM_WAITS));
    tell("get", stm_call(&store, &lender, get, NULL, 0, STM_WAITS));
    tell("put", stm_call(&store, &lender, put, NULL, 0, STM_WAITS));
    for (stm_job woken; (woken = stm_take(&store)).ticket >= 0;) {
        printf("ticket %lld was woken\n", (long long)woken.ticket);
        tell("get", stm_turn(&store, &lender, woken));
    }
    tell("get", stm_call(&store, &lender, get, NULL, 0, STM_WAITS));
    tell("put", stm_call(&store, &lender, put, NULL, 0, STM_WAITS));
    char file[1000], report[1000];
    size_t file_length = 0, report_length = 0;
    stm_report_now(&store, report, sizeof report, &report_length);
    stm_file(&store, file, sizeof file, &file_length);
    puts(stm_check(file, file_length, report, report_length) == STM_DONE ? "good" : "bad");
    stm_begin_chapter(&store);
    tell("put", stm_call(&store, &lender, put, NULL, 0, STM_WAITS));
    stm_lender_free(&lender);
    stm_store_free(&store);
    stm_program_free(&program);
    return 0;
}
