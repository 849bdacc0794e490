/* A bounded queue in a table: who puts a letter sleeps while it is full, who gets one sleeps while it is empty.
 *
 * One thread sends a text by it, another prints it. When all is sent the queue is closed, and who waits for a letter gets
 * 0. In the end the journal is judged.
 *
 *     queue TEXT
 */
#include "service.h"

#include <pthread.h>
#include <stdio.h>
#include <stdlib.h>
#include <string.h>

static const char PROGRAM[] =
    "(stm 3)(var taken 0)(var sent 0)(var closed 0)(var got 0)(table place 64 0)"
    "(always bounded (and (le taken sent) (le (sub sent taken) 64)))"
    "(tx put (letter) (seq (if (eq (sub sent taken) 64) (retry) (skip))"
    "                      (put place (rem sent 64) letter) (set sent (add sent 1))) sent)"
    "(tx get () (orelse (seq (if (eq taken sent) (retry) (skip))"
    "                        (set got (at place (rem taken 64))) (set taken (add taken 1)))"
    "                   (if (eq closed 0) (retry) (set got 0))) got)"
    "(tx close () (set closed 1) closed)";

enum { PUT, GET, CLOSE };

static stm_service *service;

static void holds(int so, const char *what) {
    if (so) return;
    fprintf(stderr, "not so: %s\n", what);
    exit(1);
}

static void *sends(void *text) {
    for (const char *at = text; *at; at++) {
        const int64_t letter = (unsigned char)*at;
        holds(stm_atomically(service, PUT, &letter, 1).code == STM_DONE, "a letter is sent");
    }
    holds(stm_atomically(service, CLOSE, NULL, 0).code == STM_DONE, "the queue is closed");
    return NULL;
}

/* The next letter; 0 once all are there. */
static int next(void) {
    stm_answer answer = stm_atomically(service, GET, NULL, 0);
    holds(answer.code == STM_DONE, "a letter comes");
    return (int)answer.value;
}

static void judge(void) {
    static char file[1 << 20], report[1 << 20];
    size_t file_length, report_length;
    stm_service_close(service);
    holds(stm_service_file(service, file, sizeof file, &file_length) == STM_DONE, "the file fits");
    holds(stm_service_report(service, report, sizeof report, &report_length) == STM_DONE, "the report fits");
    holds(stm_check(file, file_length, report, report_length) == STM_DONE, "the journal is good");
}

int main(int count, char **words) {
    char *text = count > 1 ? words[1] : "transaction";
    pthread_t sender;
    holds(stm_service_open(PROGRAM, strlen(PROGRAM), NULL, &service) == STM_DONE, "it is opened");
    holds(pthread_create(&sender, NULL, sends, text) == 0, "a sender begins");
    for (int letter; (letter = next()) != 0;) putchar(letter);
    putchar('\n');
    pthread_join(sender, NULL);
    judge();
    puts("the journal is good");
    stm_service_free(service);
    return 0;
}
