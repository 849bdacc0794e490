/* The end of a service: it waits for each thread that is in a call, also for one that only looks up a name, that asks
 * while another has the lock, or that tells the host a chapter or waits until another has; and in a child of its
 * process nothing is closed, nothing is let go, and nothing hangs. Prints `good`. */
#include "judging.h"

#include <fcntl.h>
#include <pthread.h>
#include <signal.h>
#include <stdbool.h>
#include <sys/mman.h>
#include <sys/wait.h>
#include <time.h>
#include <unistd.h>

enum { PAGE_ROOM = 1 << 16, CHILD = 7, MILLISECONDS = 100, MOST_ASKING = 300 };

static const char TEXT[] = "(stm 3)(var n 0)(table inc 5 0)(tx inc () (set n (add n 1)) n)(tx get () (if (lt n 5) (retry) (skip)) n)";
static const char ONE[] = "(var n 0)(tx inc (set n (add n 1)) n)(tx get (if (lt n 5) (retry) (skip)) n)";

static bool is_in, goes_on, is_free;
static char *page;

static void set(bool *flag) { __atomic_store_n(flag, true, __ATOMIC_RELEASE); }
static bool is_set(bool *flag) { return __atomic_load_n(flag, __ATOMIC_ACQUIRE); }
static void sleep_shortly(void) { nanosleep(&(struct timespec){0, 1000000}, NULL); }

static void until(bool *flag) {
    while (!is_set(flag)) sleep_shortly();
}

static void begins(void) { is_in = goes_on = is_free = false; }

static void rests(void) {
    for (int i = 0; i < MILLISECONDS; i++) sleep_shortly();
}

/* ---- A thread that looks for what it cannot read yet ---- */

static void reads(int number) {
    (void)number;
    set(&is_in);
    until(&goes_on);
    mprotect(page, PAGE_ROOM, PROT_READ);
}

/* A page with this text, which is not to be read yet. */
static void begins_with(const char *text) {
    begins();
    int zero = open("/dev/zero", O_RDWR);
    page = mmap(NULL, PAGE_ROOM, PROT_READ | PROT_WRITE, MAP_PRIVATE, zero, 0);
    wants(page != MAP_FAILED && close(zero) == 0);
    strcpy(page, text);
    wants(mprotect(page, PAGE_ROOM, PROT_NONE) == 0);
}

typedef int64_t looks_up(const stm_service *, const char *, size_t);

struct look {
    stm_service *service;
    looks_up *by;
    int64_t found;
};

static void *looks(void *its) {
    struct look *look = its;
    look->found = look->by(look->service, page, 3);
    return NULL;
}

static void *lets_go(void *service) {
    stm_service_free(service);
    set(&is_free);
    return NULL;
}

static void a_look_is_a_call(looks_up *by) {
    begins_with("inc");
    struct look look = {opens(TEXT, NULL), by, -1};
    pthread_t looking, letting;
    wants(pthread_create(&looking, NULL, looks, &look) == 0);
    until(&is_in);
    wants(pthread_create(&letting, NULL, lets_go, look.service) == 0);
    rests();
    wants(!is_set(&is_free));
    set(&goes_on);
    pthread_join(looking, NULL);
    pthread_join(letting, NULL);
    wants(look.found == 0 && is_free);
    munmap(page, PAGE_ROOM);
}

/* ---- Threads that ask ---- */

/* Has the lock while it cannot read the name. */
static void *has_the_lock(void *service) {
    int64_t value = 0;
    uint64_t version = 0;
    wants(stm_service_value(service, page, 1, &value, &version) == STM_DONE && value == 1);
    return NULL;
}

static void *calls(void *service) {
    wants(stm_atomically(service, 0, NULL, 0).code == STM_DONE);
    return NULL;
}

/* It may be closed meanwhile. */
static void *asks(void *service) {
    int32_t code = stm_atomically(service, 0, NULL, 0).code;
    wants(code == STM_DONE || code == STM_CLOSED);
    return NULL;
}

static void *asks_for_the_lock(void *service) {
    wants(stm_service_entered(service) >= 1);
    return NULL;
}

/* While this thread is in a call, so many ask; and it is let go: not before all have their answers. */
static void let_go_while(stm_service *s, pthread_t first, int count) {
    pthread_t asking[MOST_ASKING], letting;
    until(&is_in);
    for (int i = 0; i < count; i++) {
        wants(pthread_create(&asking[i], NULL, i % 4 ? asks : asks_for_the_lock, s) == 0);
    }
    rests();
    wants(pthread_create(&letting, NULL, lets_go, s) == 0);
    rests();
    wants(!is_set(&is_free));
    set(&goes_on);
    pthread_join(first, NULL);
    for (int i = 0; i < count; i++) pthread_join(asking[i], NULL);
    pthread_join(letting, NULL);
    wants(is_free);
}

/* For as many as have a seat or more it waits. */
static void askers_are_in_a_call(int count) {
    begins_with("n");
    stm_service *s = opens(ONE, NULL);
    calls(s);
    pthread_t first;
    wants(pthread_create(&first, NULL, has_the_lock, s) == 0);
    let_go_while(s, first, count);
    munmap(page, PAGE_ROOM);
}

static int waits_in_it(void *own, const char *file, size_t file_length, const char *report, size_t report_length) {
    (void)own, (void)file, (void)file_length, (void)report, (void)report_length;
    set(&is_in);
    until(&goes_on);
    return 0;
}

/* The next chapter has room for one of them; the others wait for the host. */
static void those_who_wait_for_the_host_are_in_a_call(int count) {
    begins();
    stm_service *s = opens(ONE, &(stm_service_options){1, 0, 0, waits_in_it, NULL});
    calls(s);
    pthread_t first;
    wants(pthread_create(&first, NULL, asks, s) == 0);
    let_go_while(s, first, count);
}

/* ---- A child ---- */

static void *get(void *service) {
    wants(stm_atomically(service, 1, NULL, 0).code == STM_CLOSED);
    return NULL;
}

/* The child lets go what it has of its parent, and has a service of its own. */
static void is_child(stm_service *s) {
    stm_service_close(s);
    stm_service_free(s);
    stm_service *own = opens(ONE, NULL);
    wants(stm_atomically(own, 0, NULL, 0).value == 1);
    stm_service_free(own);
    _exit(CHILD);
}

static void child_of(stm_service *s) {
    int status = 0;
    pid_t child = fork(), ended = 0;
    if (child == 0) is_child(s);
    for (int i = 0; i < 10000 && ended == 0; i++) {
        sleep_shortly();
        ended = waitpid(child, &status, WNOHANG);
    }
    if (ended == 0) kill(child, SIGKILL);
    wants(ended == child && WIFEXITED(status) && WEXITSTATUS(status) == CHILD);
}

/* Another thread of the parent has the lock. */
static void a_child_while_another_has_the_lock(void) {
    begins_with("n");
    stm_service *s = opens(ONE, NULL);
    calls(s);
    pthread_t other;
    wants(pthread_create(&other, NULL, has_the_lock, s) == 0);
    until(&is_in);
    child_of(s);
    set(&goes_on);
    pthread_join(other, NULL);
    wants(stm_service_entered(s) == 1);
    stm_service_free(s);
    munmap(page, PAGE_ROOM);
}

/* Another thread of the parent tells the host a chapter. */
static void a_child_while_a_chapter_ends(void) {
    begins();
    stm_service *s = opens(ONE, &(stm_service_options){1, 0, 0, waits_in_it, NULL});
    calls(s);
    pthread_t other;
    wants(pthread_create(&other, NULL, calls, s) == 0);
    until(&is_in);
    child_of(s);
    set(&goes_on);
    pthread_join(other, NULL);
    struct judged judged = {{"\nentry "}, {0}, 0};
    judges_the_last(s, &judged);
    wants(stm_service_entered(s) == 2 && value_of(s, "n") == 2 && judged.lines[0] == 1);
    stm_service_free(s);
}

/* Another thread of the parent is in a call, in which it sleeps. */
static void a_child_while_a_call_waits(void) {
    stm_service *s = opens(ONE, NULL);
    pthread_t other;
    wants(pthread_create(&other, NULL, get, s) == 0);
    char report[1000];
    size_t length;
    do {
        sleep_shortly();
        wants(stm_service_report(s, report, sizeof report - 1, &length) == STM_DONE);
        report[length] = 0;
    } while (!strstr(report, "\nparked "));
    child_of(s);
    wants(stm_atomically(s, 0, NULL, 0).value == 1);
    stm_service_close(s);
    pthread_join(other, NULL);
    stm_service_free(s);
}

int main(void) {
    struct sigaction fault = {.sa_handler = reads}, before;
    wants(sigaction(SIGSEGV, &fault, &before) == 0);
    a_look_is_a_call(stm_service_transaction);
    a_look_is_a_call(stm_service_table);
    askers_are_in_a_call(3);
    askers_are_in_a_call(MOST_ASKING);
    a_child_while_another_has_the_lock();
    wants(sigaction(SIGSEGV, &before, NULL) == 0);
    those_who_wait_for_the_host_are_in_a_call(3);
    those_who_wait_for_the_host_are_in_a_call(MOST_ASKING);
    a_child_while_a_chapter_ends();
    a_child_while_a_call_waits();
    puts("good");
    return 0;
}
