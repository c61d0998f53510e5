/* Kind 8 by hand: jobs with the cells and picks that they have to leave; rows of every length up to a few stretches and about longer ones,
 * with weights about the same borders, so that every loop over cells has any rest; and as many labels as there may be. */
#include "calls.h"
#include "draw.h"
#include "parts.h"
#include "tell.h"
#include <stdio.h>
#include <string.h>

static unsigned long tried, refused;
static struct job job;
static struct bytes bytes;

/* The job is answered as the second program has it, on slices that are longer than needed, and kind 4 says the same of its totals. */
static const struct plain_answer *try_behind(void) {
    struct plain_room lengths = room_of(&job, LIGHT_WAY);
    const struct plain_answer *answer;
    about("labels behind", tried++);
    lengths.cells += tried % 3;
    lengths.picks += tried % 2;
    put_job(&bytes, &job);
    answer = try_job(&bytes, LIGHT_WAY, &lengths, tried);
    refused += answer->refused != 0;
    agree_on_totals(&bytes);
    return answer;
}

/* ---- cells and picks */

#define NO NOT_REACHED
enum { MOST_N = 4, MOST_C = 10 };

struct behind_case {
    uint32_t budget, n, weights[MOST_N], refused, picks[MOST_N], cells[ROW(MOST_C)];
};

static const struct behind_case cases[] = {
    /* case F's labels */
    {8, 3, {3, 5, 9}, 0, {1, 1, 0}, {0, NO, NO, 1, NO, 2, NO, NO, 2}},
    {7, 3, {3, 5, 9}, 7, {0}, {0, NO, NO, 1, NO, 2, NO, NO}},
    {8, 2, {4, 4}, 0, {1, 1}, {0, NO, NO, NO, 1, NO, NO, NO, 2}},
    /* ties: a label is left out where those before it will do */
    {3, 3, {1, 2, 3}, 0, {1, 1, 0}, {0, 1, 2, 2}},
    {2, 3, {2, 1, 1}, 0, {1, 0, 0}, {0, 2, 1}},
    {3, 3, {2, 1, 3}, 0, {1, 1, 0}, {0, 2, 1, 2}},
    /* a label is used once, and like labels are several */
    {4, 1, {2}, 7, {0}, {0, NO, 1, NO, NO}},
    {6, 2, {3, 3}, 0, {1, 1}, {0, NO, NO, 1, NO, NO, 2}},
    {6, 3, {2, 2, 2}, 0, {1, 1, 1}, {0, NO, 1, NO, 2, NO, 3}},
    {10, 4, {1, 2, 3, 4}, 0, {1, 1, 1, 1}, {0, 1, 2, 2, 3, 3, 3, 4, 4, 4, 4}},
    /* no labels, or none that is needed */
    {0, 0, {0}, 0, {0}, {0}},
    {5, 0, {0}, 7, {0}, {0, NO, NO, NO, NO, NO}},
    {0, 2, {1, 7}, 0, {0, 0}, {0}},
    /* weights above C, of which one fits if it is cut to 16 bits */
    {3, 3, {4, 3, UINT32_MAX}, 0, {0, 1, 0}, {0, NO, NO, 2}},
    {3, 2, {CUT_TO + 3, 4}, 7, {0}, {0, NO, NO, NO}},
    /* the two on which the slip below goes wrong */
    {1, 2, {1, 1}, 0, {1, 0}, {0, 1}},
    {2, 2, {2, 1}, 0, {1, 0}, {0, 2, 1}},
};

static void try_case(const struct behind_case *given) {
    const struct plain_answer *answer;
    uint32_t i;
    set_job(&job, KIND_LABELS_BEHIND, given->budget, given->n, given->weights, NULL, NULL);
    answer = try_behind();
    same("the second program's refusal", given->refused, answer->refused);
    same("its weight", given->refused == 0 ? given->budget : 0, answer->first);
    same("its picks", given->refused == 0 ? given->n : 0, answer->filled.picks);
    for (i = 0; i < answer->filled.picks; i++) same_at("its pick", i, given->picks[i], answer->picks[i]);
    for (i = 0; i <= given->budget; i++) same_at("its cell", i, given->cells[i], answer->cells[i]);
}

/* What is written instead: of the last label first, each is taken that leaves a total which all labels together reach. Who reached a total
 * first isn't asked, so what is left may need a label that was taken. Answers what is left in the end. */
static uint32_t trace_by_bits(const struct behind_case *given, uint32_t *picks) {
    uint32_t i, left = given->budget;
    for (i = given->n; i-- > 0;) {
        uint32_t weight = given->weights[i];
        picks[i] = weight <= left && given->cells[left - weight] != NO;
        if (picks[i]) left -= weight;
    }
    return left;
}

/* The last two jobs tell this from the right way: by picks of the same total, and by some of another. */
static void slip_is_told(void) {
    const struct behind_case *last = cases + sizeof cases / sizeof cases[0] - 1;
    uint32_t picks[MOST_N];
    about("labels behind, slip", tried);
    same("what is left of the last but one", 0, trace_by_bits(last - 1, picks));
    holds("that it has other picks", memcmp(picks, last[-1].picks, last[-1].n * sizeof picks[0]) != 0);
    same("what is left of the last", 1, trace_by_bits(last, picks));
}

/* ---- rows of any length */

/* Some labels reach cells about the weight's multiples, and the weight is there twice; the first label makes C with one of the two. */
static void try_weight(uint32_t budget, uint32_t weight) {
    uint32_t weights[] = {budget > weight ? budget - weight : 1, 2, weight, 3, weight};
    set_job(&job, KIND_LABELS_BEHIND, budget, sizeof weights / sizeof weights[0], weights, NULL, NULL);
    try_behind();
}

/* A number and those beside it. */
static void try_about(uint32_t budget, uint32_t middle) {
    uint32_t weight;
    for (weight = middle - 1; weight <= middle + 1; weight++) {
        if (weight >= LEAST_WEIGHT) try_weight(budget, weight);
    }
}

enum { FEW = 4 * STRETCH + 5 };

static void few_cells(void) {
    uint32_t budget, weight;
    for (budget = 0; budget <= FEW; budget++) {
        for (weight = LEAST_WEIGHT; weight <= budget + 1; weight++) try_weight(budget, weight);
    }
}

/* Weights from less than a vector to half of the row and all of it. */
static void try_row(uint32_t budget) {
    uint32_t unit;
    for (unit = 4; unit <= WORD_BITS; unit *= 4) try_about(budget, unit);
    try_weight(budget, LEAST_WEIGHT);
    try_about(budget, budget / 2);
    try_about(budget, budget - STRETCH);
    try_about(budget, budget);
}

/* Rows of whole words or stretches of cells, one less and one more. */
static void more_cells(void) {
    static const uint32_t lengths[] = {128, 256, 1024};
    size_t k;
    for (k = 0; k < sizeof lengths / sizeof lengths[0]; k++) {
        try_row(lengths[k] - 2);
        try_row(lengths[k] - 1);
        try_row(lengths[k]);
    }
    try_row(60000);
    try_row(MOST_BUDGET);
}

/* ---- many labels, with the greatest budget */

/* So many labels of weights that step up, save for the last one. The second program isn't asked for kind 4 too, since these jobs take long.
 */
static const struct plain_answer *try_many(uint32_t n, uint32_t weight, uint32_t step, uint32_t last) {
    struct plain_room lengths;
    uint32_t i;
    about("labels behind", tried++);
    set_job(&job, KIND_LABELS_BEHIND, MOST_BUDGET, 0, NULL, NULL, NULL);
    for (i = 0; i < n; i++) job.weights.at[i] = weight + i * step;
    job.weights.at[n - 1] = last;
    job.weights.count = n;
    lengths = room_of(&job, LIGHT_WAY);
    put_job(&bytes, &job);
    return try_job(&bytes, LIGHT_WAY, &lengths, tried);
}

/* The most labels, all alike but the last, which is one less: k of them reach the k-th multiple and, with the last, what is one less. */
static void all_alike(void) {
    enum { WEIGHT = ROW(MOST_BUDGET) / MOST_LABELS };
    const struct plain_answer *answer = try_many(MOST_LABELS, WEIGHT, 0, WEIGHT - 1);
    uint32_t t;
    same("the second program's weight", MOST_BUDGET, answer->first);
    for (t = 0; t < MOST_LABELS; t++) same_at("its pick", t, 1, answer->picks[t]);
    for (t = 0; t <= MOST_BUDGET; t++) {
        uint32_t over = t % WEIGHT;
        same_at("its cell", t, over == 0 ? t / WEIGHT : over == WEIGHT - 1 ? MOST_LABELS : NO, answer->cells[t]);
    }
    holds("that C is reached as kind 4 as well", agree_on_totals(&bytes));
}

/* Weights 1, 2, 3 and so on: the first i reach all up to their sum, i(i+1)/2. One of those that make C is left out: what is too much. */
static void one_more_each(void) {
    enum { LABELS = 400 };
    const struct plain_answer *answer = try_many(LABELS, 1, 1, LABELS);
    uint32_t t, i = 0, sum = 0;
    for (t = 0; t <= MOST_BUDGET; t++) {
        if (sum < t) sum += ++i;
        same_at("the second program's cell", t, i, answer->cells[t]);
    }
    for (t = 0; t < LABELS; t++) same_at("its pick", t, t < i && t + 1 != sum - MOST_BUDGET, answer->picks[t]);
}

void part_behind(void) {
    size_t k;
    for (k = 0; k < sizeof cases / sizeof cases[0]; k++) try_case(&cases[k]);
    slip_is_told();
    few_cells();
    more_cells();
    all_alike();
    one_more_each();
    printf("labels behind: %lu jobs, %lu of them refused with 7\n", tried, refused);
}
