/* What document 01 and the requests K1, K3, K4, K6 and K7 say in numbers, each in one place: a request that moves a bound changes it here
 * alone. Written from these and not from include/quabnester.h; header.c holds that to these. Buffers and loops of the tests take their
 * sizes from here. */
#ifndef BOUNDS_H
#define BOUNDS_H

#include <stdint.h>

enum {
    KIND_ONCE = 1,                 /* each label at most once */
    KIND_COPIES,                   /* label i at most copies[i] times */
    KIND_ANY,                      /* any number of each */
    KIND_SUMS,                     /* can some labels weigh exactly C? */
    KIND_FEWEST,                   /* fewest blocks that sum to exactly C */
    KIND_WAYS,                     /* ways to make exactly C */
    KIND_SHARES,                   /* share C by claims */
    KIND_LABELS_BEHIND,            /* which labels weigh exactly C? (K3) */
    KIND_STATED_SHARE,             /* a stated share of the best of kind 1 (K6) */
    LAST_KIND = KIND_STATED_SHARE, /* the solver's kinds are 1 to this one */
    LAST_CHECKED_KIND = KIND_ANY   /* those of the checker and the writer (K1) */
};

/* How many numbers the budgets section has: C and then q in kind 9 (K6), and C alone in every other, numbers of no kind among them. */
#define BUDGETS_OF(kind) ((kind) == KIND_STATED_SHARE ? 2u : 1u)

/* ---- bounds on the numbers; weights, sizes and claims have no greatest one */

enum {
    MOST_LABELS = 4096,  /* n in kinds 1 to 4, 8 and 9 (K7) */
    MOST_SIZES = 64,     /* n in kinds 5 and 6 */
    MOST_CLAIMS = 1024,  /* n in kind 7 */
    MOST_BUDGET = 65535, /* C in kinds 1 to 6, 8 and 9 */
    LEAST_Q = 2,         /* in kind 9 (K6) */
    MOST_Q = 100,
    LEAST_WEIGHT = 1,    /* in kinds 1 to 4, 8 and 9 */
    LEAST_SIZE = 1,      /* in kinds 5 and 6 */
    LEAST_VALUE = 0,     /* in kinds 1, 2 and 9 */
    LEAST_VALUE_ANY = 1, /* in kind 3 */
    MOST_VALUE = 65535,
    LEAST_COPIES = 0,
    MOST_COPIES = 65535,
    MOST_PICK_ANY = 65535 /* in a certificate of kind 3 (K1): another rule, though the number is that of the copies */
};
#define MOST_SHARED UINT32_MAX /* C in kind 7 */

/* ---- the lent table */

enum { WORD_BITS = 64 };       /* in a word of kind 4, and of a label in kind 1 (K4) */
#define NO_WAY UINT32_MAX      /* a cell of kind 5: there is no way */
#define NOT_REACHED UINT32_MAX /* a cell of kind 8 (K3): no labels reach it. Another rule, though the number is that of no way */
#define NO_WEIGHT UINT32_MAX   /* a cell of kind 9 (K6): no selection within C has that total. A rule of its own, too */
#define FULL UINT64_MAX        /* a cell of kind 6: so many ways or more */
#define MOST_WAYS (FULL - 1)   /* that are still exact */

/* Rooms that have to be known when this is compiled: plain_room of plain.c has those of every kind. */
#define ROW(budget) ((budget) + 1)
#define FULL_TABLE(n, budget) (((n) + 1) * ROW(budget))
#define WORDS_OF_BITS(budget) ((budget) / WORD_BITS + 1)          /* with a bit for each number up to the budget */
#define CERTIFICATE(picks, cells) (8 + 4 * (picks) + 4 * (cells)) /* in bytes */

/* ---- refusals */

enum { LAST_SOLVER_REFUSAL = 9, LAST_REFUSAL = 15 };

/* ---- the program's buffers, which stay where a bound moves */

enum { PROGRAM_BYTES = 16384, PROGRAM_CELLS = 8192, PROGRAM_WORDS = 1024, PROGRAM_PICKS = 1024 };

/* ---- what follows: the longest list that any kind may have */

#define GREATER(a, b) ((a) > (b) ? (a) : (b))
enum { MOST_IN_LIST = GREATER(GREATER(MOST_LABELS, MOST_SIZES), MOST_CLAIMS) };

#endif
