/* The quick answer (K5) of labels in many orders: in the right one, the other way round, all alike, in runs that have to be merged, and
 * drawn; of every number of labels up to a few pieces of a sort, and of some more up to the bound. Where each label weighs 1, a budget of k
 * shows which k labels come first, so that budgets from none to all of them show the whole order. */
#include "calls.h"
#include "draw.h"
#include "parts.h"
#include "tell.h"
#include <stdio.h>

enum { EVERY = 150, ALL_BUDGETS = 34 }; /* every n up to one, with all budgets up to another */
enum { MANY = 1025 };                   /* of more labels, which take the second program long, half are asked for, each of weight 1 */

static unsigned long tried, alike;
static struct job job;

/* ---- orders */

/* How dear per weight the labels are: what `rank` gives each of them. */
enum {
    IN_ORDER,
    REVERSED,
    ALL_ALIKE,
    INTERLEAVED,  /* two runs that are in order, label by label in turn: first the one run, then the other */
    TWO_RUNS,     /* two runs that are in order, one after the other, which have to be merged label by label */
    TWO_ALIKE,    /* the same run twice: of each two that are alike the lower number goes first */
    TWO_REVERSED, /* two runs that are in order the other way round */
    SHORT_RUNS,   /* many short runs, all alike */
    LAST_FIRST,   /* in order, but for the last label, which comes first */
    FIRST_LAST,   /* in order, but for the first one, which comes last */
    PIPE,         /* up to the middle, and down again */
    FEW_DRAWN,    /* few different ones */
    DRAWN,
    ORDERS
};

/* The greatest rank among n labels, and the heaviest label that may be worth so much for each unit. */
static uint32_t most_rank(uint32_t n) {
    return 2 * n + 2;
}

static uint32_t heaviest_of(uint32_t n) {
    return MOST_VALUE / most_rank(n);
}

/* From 1 to the most for each label. */
static uint32_t rank(int order, uint32_t n, uint32_t i, struct draw *draw) {
    uint32_t half = n / 2, run = 2 + n % 9, down = n - i;
    switch (order) {
    case REVERSED: return i + 1;
    case ALL_ALIKE: return 3;
    case INTERLEAVED: return i % 2 == 0 ? n + 1 - i / 2 : half + 1 - i / 2;
    case TWO_RUNS: return i < half ? 2 * (half - i) : 2 * down - 1;
    case TWO_ALIKE: return i < half ? half - i : down;
    case TWO_REVERSED: return i < half ? 2 * i + 1 : 2 * (i - half) + 2;
    case SHORT_RUNS: return run - i % run;
    case LAST_FIRST: return i + 1 == n ? n + 1 : down;
    case FIRST_LAST: return i == 0 ? 1 : down + 1;
    case PIPE: return i < half ? i + 1 : down;
    case FEW_DRAWN: return drawn(draw, 1, 4);
    case DRAWN: return drawn(draw, 1, most_rank(n));
    default: return down;
    }
}

/* Labels of these ranks; each weighs 1, or up to so much, and is worth its rank for each unit of weight. */
static void set_order(int order, uint32_t n, uint32_t heaviest) {
    struct draw draw = {(uint64_t)order * MOST_NUMBERS + n};
    uint32_t i;
    job.kind = KIND_ONCE;
    job.weights.count = job.values.count = n;
    job.copies.count = 0;
    for (i = 0; i < n; i++) {
        job.weights.at[i] = drawn(&draw, 1, heaviest);
        job.values.at[i] = job.weights.at[i] * rank(order, n, i, &draw);
    }
}

/* ---- budgets */

/* Where it is plain which k labels of weight 1 come first: the first k, or the last k. */
static void is_by_number(const struct plain_quick *answer, int order, uint32_t k) {
    uint32_t i, n = job.weights.count;
    int well = 1;
    if (order != IN_ORDER && order != REVERSED && order != ALL_ALIKE) return;
    for (i = 0; i < n; i++) well &= answer->first[i] == (order == REVERSED ? i + k >= n : i < k);
    holds("that the second program keeps the labels that come first", well);
    alike++;
}

static void try_budget(int order, uint32_t budget, int of_one) {
    const struct plain_quick *answer;
    size_t n = job.weights.count;
    about("quick orders", tried++);
    job.budget = budget;
    answer = try_quick(&job, n + tried % 2, n + tried % 3, tried);
    same("the second program's refusal", 0, answer->refused);
    if (of_one) is_by_number(answer, order, budget);
}

/* How many budgets are drawn: fewer for many labels, which take longer. */
static uint32_t some_budgets(uint32_t n) {
    return n <= EVERY ? 3 : 1;
}

/* All budgets of a few labels, and else half of the labels; and where there aren't too many, all of them and some others. */
static void try_ones(int order, uint32_t n) {
    struct draw draw = {n};
    uint32_t k;
    set_order(order, n, 1);
    for (k = 0; n <= ALL_BUDGETS && k <= n; k++) try_budget(order, k, 1);
    if (n <= ALL_BUDGETS) return;
    try_budget(order, n / 2, 1);
    if (n > MANY) return;
    try_budget(order, n, 1);
    for (k = 0; k < some_budgets(n); k++) try_budget(order, drawn(&draw, 1, n - 1), 1);
}

/* Labels of other weights: what fits depends on all that came before. */
static void try_others(int order, uint32_t n) {
    struct draw draw = {n};
    uint32_t k, heaviest = heaviest_of(n);
    set_order(order, n, heaviest);
    for (k = 0; k < some_budgets(n); k++) try_budget(order, drawn(&draw, 0, heaviest * n / 2), 0);
}

static void try_size(uint32_t n) {
    int order;
    for (order = 0; order < ORDERS; order++) {
        try_ones(order, n);
        if (n <= MANY) try_others(order, n);
    }
}

void part_quick_orders(void) {
    static const uint32_t more[] = {191, 192, 193, 255, 256, 257, 384, 511, 512, 513, 700, 1023, 1024, MANY, MOST_LABELS};
    uint32_t n, k;
    for (n = 0; n <= EVERY; n++) try_size(n);
    for (k = 0; k < sizeof more / sizeof more[0]; k++) try_size(more[k]);
    printf("quick orders: %lu jobs, %lu of which keep their first labels or their last ones\n", tried, alike);
}
