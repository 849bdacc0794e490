/* What a test wants to hold: where it does not, the test ends and says which line. */
#ifndef STM_TESTS_WANTS_H
#define STM_TESTS_WANTS_H

#include <stdio.h>
#include <stdlib.h>

#define wants(holds) ((holds) ? (void)0 : fails(#holds, __LINE__))

static void fails(const char *what, int line) {
    fprintf(stderr, "line %d: not so: %s\n", line, what);
    exit(1);
}

#endif
