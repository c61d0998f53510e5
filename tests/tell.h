/* Comparisons: counted, and the first ten that fail are told. */
#ifndef TELL_H
#define TELL_H

#include <stdint.h>

/* What the next comparisons are about: a part of the tests, and the number of a case in it. */
void about(const char *part, uint64_t number);

/* Whether two numbers are the same, as they have to be; and the same for those at a place of something. */
int same(const char *what, uint64_t expected, uint64_t got);
int same_at(const char *what, uint64_t place, uint64_t expected, uint64_t got);

/* Whether a thing holds, as it has to. */
int holds(const char *what, int held);

/* Whether what fails now is still told. */
int telling(void);

/* From now on the first comparison that fails ends the tests, once it is told. */
void end_at_first(void);

/* Prints the last line, 'N passed, M failed', and answers 0 where nothing failed and something passed, and else 1. */
int told(void);

#endif
