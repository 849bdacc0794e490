/* The words of the codes; it is inside libstm.a and libstm.so. */
#include "stm.h"

/* What is wrong with a text. */
static const char *text_word(int32_t code) {
    switch (code) {
    case STM_BAD_TEXT: return "report: text";
    case STM_BAD_BASE: return "report: base";
    case STM_BAD_ENTRIES: return "report: entries";
    case STM_BAD_PRESENT: return "report: present";
    case STM_BAD_TASKS: return "report: tasks";
    case STM_BAD_PARKED: return "report: parked";
    case STM_FILE_TOO_LONG: return "file: too long";
    case STM_FILE_BAD_BYTE: return "file: bad byte";
    case STM_FILE_SHAPE: return "file: shape";
    case STM_FILE_NAME: return "file: name";
    case STM_FILE_LIMIT: return "file: limit";
    case STM_FILE_BROKEN: return "file: broken condition";
    case STM_SCHEDULE_TOO_LONG: return "schedule: too long";
    case STM_SCHEDULE_BAD_BYTE: return "schedule: bad byte";
    case STM_SCHEDULE_SHAPE: return "schedule: shape";
    case STM_SCHEDULE_NAME: return "schedule: name";
    case STM_SCHEDULE_LIMIT: return "schedule: limit";
    default: return "unknown code";
    }
}

const char *stm_word(int32_t code) {
    switch (code) {
    case STM_DONE: return "done";
    case STM_RETRIES: return "retries";
    case STM_STALE: return "stale";
    case STM_NOT_RUNNING: return "not running";
    case STM_GIVEN_UP: return "given up";
    case STM_THROWN: return "thrown";
    case STM_OVERFLOW: return "overflow";
    case STM_DIVIDE_BY_ZERO: return "divide by zero";
    case STM_BROKEN: return "broken condition";
    case STM_OUTSIDE: return "outside its table";
    case STM_CHAPTER_FULL: return "the chapter is full";
    case STM_MORE: return "more states are reached";
    case STM_NO_END: return "no such end";
    case STM_NO_ENTRY: return "no entry in the journal";
    case STM_READY: return "ready";
    case STM_RUNNING: return "running";
    case STM_MEMORY: return "out of memory";
    case STM_SHORT: return "room too short";
    case STM_UNKNOWN: return "unknown transaction or variable, or a wrong number of arguments";
    case STM_NO_WORKER: return "no worker";
    case STM_NOT_ENDED: return "no ended attempt";
    case STM_EMPTY: return "empty handle";
    case STM_FULL: return "full handle";
    case STM_NO_ROOM: return "no room for another task";
    case STM_WORK_LEFT: return "work left";
    case STM_STATES: return "number of states out of range";
    case STM_OTHER_PROGRAM: return "other program";
    case STM_GONE: return "no such task";
    case STM_CLOSED: return "closed";
    case STM_TIMED_OUT: return "timed out";
    case STM_NOT_READY: return "not ready";
    case STM_TOO_LATE: return "too late";
    default: return text_word(code);
    }
}
