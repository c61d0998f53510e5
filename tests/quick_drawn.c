/* The quick answer (K5) of drawn jobs, beside the second program: small ones with faults, where every selection is tried too, and large
 * ones, where the best value is that of a table if there is room. The list that is handed back fits, isn't worth more than the best, and
 * twice its value isn't less. */
#include "draw.h"
#include "parts.h"
#include "tally.h"
#include "tell.h"
#include <stdio.h>

enum { SMALL = 40000, LARGE = 300, START = 5000000 }; /* how many, and the number of the first one */
enum { LABELS = 12, BUDGET = 40 };                    /* the most that a small one has; of labels, so many can be tried */
enum { CELLS = 1 << 17 };                             /* a large one's best is asked for by a table of at most so many */

static struct job job;
static struct bytes bytes;
static struct plain_job read;

/* ---- what has to come up */

enum {
    FIRST_LIST,
    SECOND_LIST,
    AS_MUCH,
    ALIKE,
    CUT_ALIKE,
    PASSED_OVER,
    NOTHING,
    TOO_HEAVY,
    TWO_HIGHEST,
    BELOW,
    LENGTHS_WRONG,
    TOO_BIG,
    NUMBERS_WRONG,
    FEW_FIRST,
    FEW_SECOND,
    TRIED,
    MANY,
    MOST,
    TABLE,
    WIDE,
    CLOSE,
    THINGS
};

static struct thing things[THINGS] = {
    [FIRST_LIST] = {"the greedy list, worth more", 17000, 0},
    [SECOND_LIST] = {"the single label", 2200, 0},
    [AS_MUCH] = {"two lists that are worth as much, and differ", 750, 0},
    [ALIKE] = {"of labels with as much value per weight, one kept and one that fits C not", 10000, 0},
    [CUT_ALIKE] = {"the same, as much only if it is cut to whole numbers", 5000, 0},
    [PASSED_OVER] = {"a label that doesn't fit into what is left, and a later one that does", 7500, 0},
    [NOTHING] = {"a label that fits and is worth 0", 12500, 0},
    [TOO_HEAVY] = {"the first label of the order is heavier than C", 2600, 0},
    [TWO_HIGHEST] = {"two labels of the highest value that fits", 5500, 0},
    [BELOW] = {"a value below the best", 4200, 0},
    [LENGTHS_WRONG] = {"refused with 3", 1200, 0},
    [TOO_BIG] = {"refused with 4", 1100, 0},
    [NUMBERS_WRONG] = {"refused with 5", 1800, 0},
    [FEW_FIRST] = {"refused with 6 for its first list alone", 1350, 0},
    [FEW_SECOND] = {"refused with 6 for its second list alone", 1350, 0},
    [TRIED] = {"answered, and every selection tried", 28000, 0},
    [MANY] = {"a fifth of the most labels or more, answered", 70, 0},
    [MOST] = {"the most labels, answered", 5, 0},
    [TABLE] = {"the best value by a table", 140, 0},
    [WIDE] = {"products beyond 32 bits", 10000, 0},
    [CLOSE] = {"value per weight that isn't alike, though it is to 24 bits, one kept and one that fits C not", 380, 0},
};

/* Value for each unit of weight, cut to whole numbers. */
static uint32_t cut_ratio(uint32_t i) {
    return job.values.at[i] / job.weights.at[i];
}

static int fits(uint32_t i) {
    return job.weights.at[i] <= job.budget;
}

/* Whether two labels have as much value per weight. */
static int are_alike(uint32_t i, uint32_t k) {
    return (uint64_t)job.values.at[i] * job.weights.at[k] == (uint64_t)job.values.at[k] * job.weights.at[i];
}

/* Whether the two products that compare them differ by less than one part in 2^24, which is all that a short number with a point holds. */
static int are_close(uint32_t i, uint32_t k) {
    uint64_t one = (uint64_t)job.values.at[i] * job.weights.at[k], other = (uint64_t)job.values.at[k] * job.weights.at[i];
    return (one > other ? one - other : other - one) <= one >> 24;
}

/* What two labels that are worth something and fit C show, one of which is kept and the other isn't. */
static void see_two(uint32_t kept, uint32_t other, int *seen) {
    seen[ALIKE] |= are_alike(kept, other);
    seen[CUT_ALIKE] |= !are_alike(kept, other) && cut_ratio(kept) == cut_ratio(other);
    seen[CLOSE] |= !are_alike(kept, other) && are_close(kept, other);
    seen[PASSED_OVER] |= plain_comes_first(&read, other, kept);
}

static void see_label(const struct plain_quick *answer, uint32_t i, int *seen) {
    uint32_t k;
    if (!fits(i)) return;
    seen[NOTHING] |= job.values.at[i] == 0;
    seen[TWO_HIGHEST] |= !answer->second[i] && job.values.at[i] > 0 && job.values.at[i] == plain_listed(read.values, answer->second);
    for (k = 0; k < job.weights.count && answer->first[i]; k++) {
        if (!answer->first[k] && fits(k) && job.values.at[k] > 0) see_two(i, k, seen);
    }
}

/* The heaviest label that doesn't fit and comes before all others. */
static int first_is_too_heavy(void) {
    uint32_t i, first = 0;
    for (i = 1; i < job.weights.count; i++) first = plain_comes_first(&read, i, first) ? i : first;
    return job.weights.count > 0 && !fits(first);
}

/* Whether a label's weight and some other's value have a product of more than 32 bits. */
static int has_wide(void) {
    uint32_t i, heaviest = 0, dearest = 0;
    for (i = 0; i < job.weights.count; i++) {
        heaviest = GREATER(heaviest, job.weights.at[i]);
        dearest = GREATER(dearest, job.values.at[i]);
    }
    return (uint64_t)heaviest * dearest > UINT32_MAX;
}

static void count_lists(const struct plain_quick *answer) {
    uint64_t greedy = plain_listed(read.values, answer->first), single = plain_listed(read.values, answer->second);
    uint32_t i, n = job.weights.count;
    int seen[THINGS] = {0}, differ = 0, k;
    for (i = 0; i < n; i++) {
        differ |= answer->first[i] != answer->second[i];
        if (n <= LABELS) see_label(answer, i, seen);
    }
    seen[FIRST_LIST] = greedy > single;
    seen[SECOND_LIST] = greedy < single;
    seen[AS_MUCH] = greedy == single && differ;
    seen[TOO_HEAVY] = first_is_too_heavy();
    seen[MANY] = n >= MOST_LABELS / 5;
    seen[MOST] = n == MOST_LABELS;
    seen[WIDE] = has_wide();
    for (k = 0; k < THINGS; k++) things[k].came += (unsigned long)seen[k];
}

static void count_answer(const struct plain_quick *answer, size_t first_len, size_t second_len) {
    int few_first = first_len < job.weights.count, few_second = second_len < job.weights.count;
    things[LENGTHS_WRONG].came += answer->refused == 3;
    things[TOO_BIG].came += answer->refused == 4;
    things[NUMBERS_WRONG].came += answer->refused == 5;
    things[FEW_FIRST].came += answer->refused == 6 && few_first && !few_second;
    things[FEW_SECOND].came += answer->refused == 6 && few_second && !few_first;
    if (answer->refused == 0) count_lists(answer);
}

/* ---- beside the best */

/* The job's best value, by trying every selection or by a table; 0 where it is asked for by neither. */
static int has_best(uint64_t *best) {
    struct plain_room room = plain_room(&read, FULL_WAY);
    int tries = plain_try_best(&read, best);
    things[TRIED].came += (unsigned long)tries;
    if (tries || room.cells > CELLS) return tries;
    *best = expected_of(&bytes, FULL_WAY, &room)->first;
    things[TABLE].came++;
    return 1;
}

static void is_half_or_more(const struct plain_quick *answer) {
    uint64_t best;
    holds("that the list fits", plain_listed(read.weights, answer->which == 1 ? answer->first : answer->second) <= job.budget);
    if (!has_best(&best)) return;
    holds("that twice the value is the best or more", 2 * answer->value >= best);
    holds("that it isn't more than the best", answer->value <= best);
    things[BELOW].came += answer->value < best;
}

static void try_lengths(uint64_t number, size_t first_len, size_t second_len) {
    const struct plain_quick *answer;
    about("quick drawn", number);
    put_job(&bytes, &job);
    read_back(&bytes, &read);
    answer = try_quick(&job, first_len, second_len, number);
    count_answer(answer, first_len, second_len);
    if (answer->refused == 0) is_half_or_more(answer);
}

/* ---- the jobs */

/* In a third of the jobs each label is worth a small number for each unit of weight, so that many are alike though they weigh otherwise. */
static void draw_ratios(struct draw *draw, uint32_t most) {
    uint32_t i, ratio;
    for (i = 0; i < job.weights.count; i++) {
        ratio = drawn(draw, 0, most);
        if (job.weights.at[i] <= MOST_VALUE / most) job.values.at[i] = ratio * job.weights.at[i];
    }
}

/* Any label, of the whole budget or one unit more, that is worth about as much as all others: a single label which greed comes to late, or
 * one that comes first and doesn't fit. */
static void draw_heavy(struct draw *draw) {
    uint32_t i, heavy = drawn(draw, 0, job.weights.count - 1), worth = drawn(draw, 0, 2);
    for (i = 0; i < job.weights.count; i++) worth += i == heavy || !fits(i) ? 0 : job.values.at[i];
    job.weights.at[heavy] = job.budget + (chance(draw, 3) || job.budget == 0);
    job.values.at[heavy] = worth < MOST_VALUE ? worth : MOST_VALUE;
}

/* Labels that are all about as heavy and as dear, and a budget that some of them fit into: what they are worth per weight is told apart by
 * nothing less than products. */
static void draw_close(struct draw *draw) {
    uint32_t i, fit = drawn(draw, 1, 4), about;
    job.budget = MOST_BUDGET - drawn(draw, 0, 99);
    about = job.budget / fit;
    for (i = 0; i < job.weights.count; i++) {
        job.weights.at[i] = about - drawn(draw, 0, 3);
        job.values.at[i] = about - drawn(draw, 0, 3);
    }
}

/* Powers of two, some of which are far above the budget: cut to 32 bits their products with others are 0. */
static void draw_powers(struct draw *draw) {
    uint32_t i;
    for (i = 0; i < job.weights.count; i++) {
        job.weights.at[i] = 1u << (chance(draw, 3) ? drawn(draw, 20, 31) : drawn(draw, 0, 4));
        job.values.at[i] = 1u << drawn(draw, 0, 15);
    }
}

/* Lists of the lengths that the job needs without its faults. */
static void try_small(uint64_t number) {
    struct draw draw = {START + number};
    size_t first_len, second_len;
    draw_job(&draw, KIND_ONCE, LABELS, BUDGET, &job);
    if (chance(&draw, 3)) draw_ratios(&draw, 3);
    if (chance(&draw, 4) && job.weights.count > 0) draw_heavy(&draw);
    if (chance(&draw, 16)) draw_close(&draw);
    if (chance(&draw, 16)) draw_powers(&draw);
    first_len = draw_length(&draw, job.weights.count);
    second_len = draw_length(&draw, job.weights.count);
    while (chance(&draw, 4)) draw_fault(&draw, &job);
    job.kind = KIND_ONCE; /* there are neither kinds nor copies here, nor more than one budget, and so no faults of them */
    job.copies.count = job.budgets = 0;
    try_lengths(number, first_len, second_len);
}

/* Most often some hundreds, and now and then any number or the most: for each next label the second program looks at all that are left. */
static uint32_t draw_count(struct draw *draw) {
    if (chance(draw, 32)) return MOST_LABELS;
    return drawn(draw, LABELS + 1, chance(draw, 16) ? MOST_LABELS : MOST_LABELS / 4);
}

/* Weights and values up to a power of two, so that some jobs have light and cheap ones only, and some any that there are. */
static void draw_large_job(struct draw *draw) {
    uint32_t i, heaviest = 1u << drawn(draw, 0, 16), dearest = (1u << drawn(draw, 1, 16)) - 1;
    job.kind = KIND_ONCE;
    job.weights.count = job.values.count = draw_count(draw);
    job.budget = chance(draw, 3) ? drawn(draw, 0, MOST_BUDGET) : drawn(draw, 0, CELLS / (job.weights.count + 1) - 1);
    for (i = 0; i < job.weights.count; i++) {
        job.weights.at[i] = chance(draw, 60) ? drawn(draw, 1, UINT32_MAX) : drawn(draw, 1, heaviest);
        job.values.at[i] = drawn(draw, 0, dearest);
    }
    if (chance(draw, 3)) draw_ratios(draw, 9);
}

static void try_large(uint64_t number) {
    struct draw draw = {START + number};
    uint32_t more;
    if (chance(&draw, 8)) draw_large(&draw, KIND_ONCE, &job);
    else draw_large_job(&draw);
    more = drawn(&draw, 0, 20);
    try_lengths(number, job.weights.count + more, job.weights.count + drawn(&draw, 0, 20));
}

void part_quick_drawn(void) {
    uint64_t number;
    job.copies.count = 0;
    for (number = 0; number < SMALL; number++) try_small(number);
    for (; number < SMALL + LARGE; number++) try_large(number);
    hold_things("quick drawn", things, THINGS);
    printf("quick drawn: %d small jobs and %d large ones\n", SMALL, LARGE);
}
