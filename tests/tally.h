/* A tally of jobs: how often each kind, each refusal and a tie came up. A generator that dries up fails by it. */
#ifndef TALLY_H
#define TALLY_H

#include "calls.h"

enum { VERDICTS = LAST_SOLVER_REFUSAL + 1 }; /* answered, and refused with 1 to the last */

/* Row 0 is for bytes that can't be read and for other kinds than the solver's. */
struct tally {
    unsigned long came[LAST_KIND + 1][VERDICTS];
    unsigned long ties[LAST_KIND + 1][RULES]; /* answers where another list is as good; and that each other tie rule would change */
    unsigned long tried;                      /* answers that were also found by trying every selection */
};

void count_in(struct tally *tally, const struct bytes *job, const struct plain_answer *answer);

/* Prints the tally of a part, and holds it: everything came up at least so often. */
void hold_tally(const char *part, const struct tally *tally, const struct tally *least);

/* The same for other things that have to come up. */
struct thing {
    const char *what;
    unsigned long least, came;
};
void hold_things(const char *part, const struct thing *things, int count);

#endif
