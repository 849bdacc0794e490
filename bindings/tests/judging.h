/* What a test keeps of the chapters of a service: each pair is judged, and lines of the reports are counted. */
#ifndef STM_TESTS_JUDGING_H
#define STM_TESTS_JUDGING_H

#include "service.h"
#include "wants.h"

#include <stdlib.h>
#include <string.h>

enum { MOST_WORDS = 4, MOST_REPORT = 8388608 };

/* Words that stand in lines of reports, and how many lines had each; and how many chapters there were. */
struct judged {
    const char *words[MOST_WORDS];
    long lines[MOST_WORDS];
    long chapters;
};

typedef int hook(void *own, const char *file, size_t file_length, const char *report, size_t report_length);

static long lines_with(const char *text, size_t length, const char *word) {
    long lines = 0;
    size_t size = strlen(word);
    for (size_t at = 0; at + size <= length; at++) lines += memcmp(text + at, word, size) == 0;
    return lines;
}

/* As the hook of a service, whose own is a `struct judged`. */
static int judges(void *own, const char *file, size_t file_length, const char *report, size_t report_length) {
    struct judged *judged = own;
    wants(stm_check(file, file_length, report, report_length) == STM_DONE);
    for (int i = 0; i < MOST_WORDS && judged->words[i]; i++)
        judged->lines[i] += lines_with(report, report_length, judged->words[i]);
    judged->chapters++;
    return 0;
}

/* The last chapter, of a service that is closed or that no thread calls meanwhile. */
static void judges_the_last(stm_service *service, struct judged *judged) {
    static char file[1048576], report[MOST_REPORT];
    size_t file_length, report_length;
    wants(stm_service_file(service, file, sizeof file, &file_length) == STM_DONE);
    wants(stm_service_report(service, report, sizeof report, &report_length) == STM_DONE);
    judges(judged, file, file_length, report, report_length);
}

static stm_service *opens(const char *text, const stm_service_options *options) {
    stm_service *service = NULL;
    wants(stm_service_open(text, strlen(text), options, &service) == STM_DONE && service);
    return service;
}

static int64_t value_of(stm_service *service, const char *name) {
    int64_t value = 0;
    uint64_t version = 0;
    wants(stm_service_value(service, name, strlen(name), &value, &version) == STM_DONE);
    return value;
}

#endif
