/* Calls of a service: what a call answers, and a thread that sleeps until its transaction can go on. docs/EMBEDDING.md
 * shows what it prints. */
#include "service.h"

#include <pthread.h>
#include <stdio.h>
#include <string.h>

static const char PROGRAM[] =
    "(var here 100)"
    "(tx pay (if (lt here 60) (throw 60) (set here (sub here 60))) here)"
    "(tx pay_later (if (lt here 60) (retry) (set here (sub here 60))) here)"
    "(tx earn (set here (add here 50)) here)";

static stm_service *service;

static uint32_t transaction(const char *name) {
    return (uint32_t)stm_service_transaction(service, name, strlen(name));
}

static void tell(const char *what, stm_answer answer) {
    printf("%s: %s %lld\n", what, stm_word(answer.code), (long long)answer.value);
}

static void *sleeper(void *answer) {
    *(stm_answer *)answer = stm_atomically(service, transaction("pay_later"), NULL, 0);
    return NULL;
}

int main(void) {
    int32_t code = stm_service_open(PROGRAM, strlen(PROGRAM), NULL, &service);
    if (code != STM_DONE) return fprintf(stderr, "%s\n", stm_word(code)), 1;
    tell("pay", stm_atomically(service, transaction("pay"), NULL, 0));
    tell("pay", stm_atomically(service, transaction("pay"), NULL, 0));
    tell("tried", stm_try_atomically(service, transaction("pay_later"), NULL, 0));
    tell("within a millisecond", stm_atomically_within(service, transaction("pay_later"), NULL, 0, 1000000));
    tell("observed", stm_service_observe(service, transaction("earn"), NULL, 0));
    stm_answer later;
    pthread_t thread;
    if (pthread_create(&thread, NULL, sleeper, &later) != 0) return 1;
    tell("earn", stm_atomically(service, transaction("earn"), NULL, 0));
    pthread_join(thread, NULL);
    tell("sleeper", later);
    stm_service_free(service);
    return 0;
}
