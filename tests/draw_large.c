/* Large jobs of every kind, which run the loops that a small one leaves after a turn: stretches of a row, words in bulk, lists in full. */
#include "draw.h"

enum { FEW = 6, CELLS = 1 << 20 }; /* at most so many cells, so that a job takes milliseconds */

/* A multiple of a number, or one less or more. */
static uint32_t about_multiple(struct draw *draw, uint32_t unit, uint32_t least, uint32_t most) {
    uint32_t multiple = unit * drawn(draw, least, most);
    return multiple + 1 - drawn(draw, 0, 2);
}

/* A budget of hundreds, of thousands, at the border of a word, at its bound, or any. */
static uint32_t draw_budget(struct draw *draw) {
    switch (drawn(draw, 0, 5)) {
    case 0:
    case 1: return drawn(draw, 200, 999);
    case 2: return drawn(draw, 1000, 9999);
    case 3: return about_multiple(draw, WORD_BITS, 4, MOST_BUDGET / WORD_BITS);
    case 4: return MOST_BUDGET - (chance(draw, 2) ? drawn(draw, 0, 70) : 0);
    default: return drawn(draw, 100, MOST_BUDGET);
    }
}

enum { SHAPES = 9 };

/* A weight that fits very often or just often, about the border of a word or of a stretch, a few times, just so, or not at all. */
static uint32_t draw_weight(struct draw *draw, uint32_t budget, uint32_t shape) {
    switch (shape) {
    case 0: return drawn(draw, LEAST_WEIGHT, STRETCH - 1);
    case 1: return drawn(draw, STRETCH, 40);
    case 2: return about_multiple(draw, WORD_BITS, 1, budget / WORD_BITS + 1);
    case 3: return WORD_BITS * drawn(draw, 1, 9);
    case 4: return about_multiple(draw, STRETCH, 1, 64);
    case 5: return drawn(draw, LEAST_WEIGHT, budget);
    case 6: return drawn(draw, budget / 9 + 1, budget / 2 + 1);
    case 7: return chance(draw, 3) ? drawn(draw, LEAST_WEIGHT, UINT32_MAX) : budget + 1 - drawn(draw, 0, 2);
    default: return drawn(draw, 41, 400);
    }
}

/* In a third of the jobs all of one shape. */
static void draw_weights(struct draw *draw, struct job *job) {
    uint32_t i, shape = drawn(draw, 0, SHAPES - 1);
    int alike = chance(draw, 3);
    for (i = 0; i < job->weights.count; i++) {
        job->weights.at[i] = draw_weight(draw, job->budget, alike ? shape : drawn(draw, 0, SHAPES - 1));
    }
}

/* ---- kinds 1 to 4 and 8 */

/* About as dear as they are heavy, so that many are worth keeping. */
static void dear_values(struct draw *draw, struct job *job) {
    uint32_t i;
    job->values.count = job->weights.count;
    for (i = 0; i < job->values.count; i++) job->values.at[i] = job->weights.at[i] % (MOST_VALUE / 4) * 3 + drawn(draw, 1, 90);
}

/* Few copies, or about as many as fit. */
static void draw_copies(struct draw *draw, struct job *job) {
    uint32_t i;
    job->copies.count = job->weights.count;
    for (i = 0; i < job->copies.count; i++) {
        uint32_t fits = job->budget / job->weights.at[i];
        job->copies.at[i] = drawn(draw, LEAST_COPIES, chance(draw, 2) ? 9 : 40);
        if (chance(draw, 3) && fits > 2) job->copies.at[i] = fits - 2 + drawn(draw, 0, fits < MOST_COPIES - 2 ? 4 : 2);
    }
}

/* Few labels, or in a fifth of the jobs many, with a budget for which the second program has room. */
static void knapsack(struct draw *draw, struct job *job) {
    job->weights.count = drawn(draw, 1, FEW);
    job->budget = draw_budget(draw);
    if (chance(draw, 5)) {
        job->weights.count = drawn(draw, MOST_LABELS / 5, MOST_LABELS);
        job->budget = drawn(draw, 100, CELLS / (job->weights.count + 1) - 1);
    }
    draw_weights(draw, job);
    if (chance(draw, 2)) draw_values(draw, job);
    else dear_values(draw, job);
    if (plain_kind(job->kind)->copies) draw_copies(draw, job);
}

/* More labels, and most often more words than a stretch has. */
static void sums(struct draw *draw, struct job *job) {
    uint32_t many = STRETCH * WORD_BITS;
    job->weights.count = drawn(draw, 1, chance(draw, 4) ? MOST_LABELS : 14);
    job->budget = chance(draw, 8) ? drawn(draw, 200, many - 1) : drawn(draw, many, chance(draw, 2) ? 9999 : MOST_BUDGET);
    draw_weights(draw, job);
}

/* Few labels, or in some jobs many. Half of the rows are as long as a vector's cells or several, or one less or more; C is often reached.
 */
static void labels_behind(struct draw *draw, struct job *job) {
    static const uint32_t units[] = {4, 8, STRETCH, WORD_BITS};
    uint32_t unit = units[drawn(draw, 0, 3)];
    job->weights.count = drawn(draw, 1, chance(draw, 9) ? MOST_LABELS : 14);
    job->budget = chance(draw, 2) ? about_multiple(draw, unit, STRETCH, MOST_BUDGET / WORD_BITS) - 1 : draw_budget(draw);
    draw_weights(draw, job);
    if (!chance(draw, 4)) reach_budget(draw, job);
}

/* ---- kind 9 */

/* Labels of value 0 or 1, so that many of them still need few cells. */
static void cheap_values(struct draw *draw, struct job *job) {
    uint32_t i;
    for (i = 0; i < job->values.count; i++) job->values.at[i] = drawn(draw, LEAST_VALUE, 1);
}

/* Few labels and any q, or more of them and a lesser one, most often with a budget for which kind 1's table is soon made; or many, worth 0
 * or 1. There are half as many labels until the table isn't too large. */
static void stated_share(struct draw *draw, struct job *job) {
    uint32_t most_total = 1u << drawn(draw, 4, 14);
    job->weights.count = drawn(draw, 1, chance(draw, 2) ? FEW : 80);
    job->budget = draw_budget(draw);
    if (chance(draw, 6)) job->weights.count = drawn(draw, MOST_LABELS / 5, MOST_LABELS);
    if (job->weights.count > FEW && !chance(draw, 8)) job->budget = 20 + drawn(draw, 0, CELLS / 4 / (job->weights.count + 1));
    draw_weights(draw, job);
    dear_values(draw, job);
    draw_stated(draw, job, most_total);
    if (job->weights.count >= MOST_LABELS / 5) cheap_values(draw, job);
    while (room_of(job, LIGHT_WAY).cells > CELLS) job->weights.count = job->values.count = job->weights.count / 2;
}

/* ---- kinds 5 and 6 */

/* Sizes from a factor up, with a common divisor where it isn't 1. */
static void steps(struct draw *draw, struct list *sizes, uint32_t factor) {
    uint32_t i, size = 0;
    for (i = 0; i < sizes->count; i++) {
        size += factor * drawn(draw, 1, 2);
        sizes->at[i] = size;
    }
}

/* Few sizes of any stretch; or many, most often with a common divisor. In half of the jobs the first of them makes C. */
static void fewest(struct draw *draw, struct job *job) {
    job->weights.count = drawn(draw, 1, FEW);
    job->budget = draw_budget(draw);
    draw_weights(draw, job);
    put_in_order(&job->weights);
    if (chance(draw, 3)) {
        job->weights.count = drawn(draw, MOST_SIZES / 2, MOST_SIZES);
        job->budget = drawn(draw, 200, CELLS / (job->weights.count + 1) - 1);
        steps(draw, &job->weights, drawn(draw, 1, 99));
    }
    if (chance(draw, 2)) job->budget -= job->budget % job->weights.at[0];
}

/* Many sizes, so that the ways pass 2^64. In half of the jobs all but one have a common divisor: then amounts before C are full, and C is
 * made with that one and few others. */
static void ways(struct draw *draw, struct job *job) {
    struct list *sizes = &job->weights;
    uint32_t factor = drawn(draw, 2, 4);
    sizes->count = drawn(draw, MOST_SIZES / 2, MOST_SIZES);
    job->budget = drawn(draw, 100, 2000);
    steps(draw, sizes, 1);
    if (chance(draw, 2)) return;
    steps(draw, sizes, factor);
    job->budget = factor * drawn(draw, 1500, MOST_BUDGET / factor - 1) + 1;
    sizes->at[sizes->count - 1] = job->budget - factor * drawn(draw, 0, 300);
}

/* ---- kind 7 */

static void shares(struct draw *draw, struct job *job) {
    job->weights.count = drawn(draw, 1, chance(draw, 2) ? 40 : MOST_CLAIMS);
    job->budget = drawn(draw, chance(draw, 2) ? MOST_SHARED - 99 : 0, MOST_SHARED);
    draw_claims(draw, &job->weights);
}

void draw_large(struct draw *draw, uint32_t kind, struct job *job) {
    job->kind = kind;
    job->q = LEAST_Q;
    job->values.count = job->copies.count = job->budgets = 0;
    switch (kind) {
    case KIND_SUMS: sums(draw, job); break;
    case KIND_FEWEST: fewest(draw, job); break;
    case KIND_WAYS: ways(draw, job); break;
    case KIND_SHARES: shares(draw, job); break;
    case KIND_LABELS_BEHIND: labels_behind(draw, job); break;
    case KIND_STATED_SHARE: stated_share(draw, job); break;
    default: knapsack(draw, job); break;
    }
}
