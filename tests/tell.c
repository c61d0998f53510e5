/* Comparisons: counted, and the first ten that fail are told. */
#include "tell.h"
#include <stdio.h>
#include <stdlib.h>

enum { TOLD = 10 };

static const char *part_now = "";
static uint64_t number_now;
static unsigned long passed, failed;
static int first_ends;

void about(const char *part, uint64_t number) {
    part_now = part;
    number_now = number;
}

/* Counts a comparison, and tells it if it failed; `at` is a place, or empty. */
static int counted(const char *what, const char *at, uint64_t expected, uint64_t got) {
    if (expected == got) {
        passed++;
        return 1;
    }
    failed++;
    if (telling()) {
        printf("%s %llu: %s%s is to be %llu and is %llu\n", part_now, (unsigned long long)number_now, what, at,
               (unsigned long long)expected, (unsigned long long)got);
        fflush(NULL);
    }
    if (first_ends) exit(1);
    return 0;
}

int same(const char *what, uint64_t expected, uint64_t got) {
    return counted(what, "", expected, got);
}

int same_at(const char *what, uint64_t place, uint64_t expected, uint64_t got) {
    char at[24];
    snprintf(at, sizeof at, " %llu", (unsigned long long)place);
    return counted(what, at, expected, got);
}

int holds(const char *what, int held) {
    return same(what, 1, held != 0);
}

int telling(void) {
    return failed <= TOLD;
}

void end_at_first(void) {
    first_ends = 1;
}

int told(void) {
    printf("%lu passed, %lu failed\n", passed, failed);
    return failed != 0 || passed == 0;
}
