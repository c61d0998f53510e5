/* Kind 1 in the light way (K4) by hand: jobs with the row, the bits and the picks that they have to leave; budgets and weights about the
 * borders of a word; one place too few; rows of every length up to a few words with every weight, so that blocks of a word's cells, counted
 * from either end, have any rest; the most labels and the greatest budget. */
#include "calls.h"
#include "draw.h"
#include "parts.h"
#include "tell.h"
#include <stdio.h>
#include <string.h>

static unsigned long tried, refused;
static struct job job;
static struct bytes bytes;

static void set_once(uint32_t budget, uint32_t n, const uint32_t *weights, const uint32_t *values) {
    set_job(&job, KIND_ONCE, budget, n, weights, values, NULL);
    put_job(&bytes, &job);
}

/* The job is answered as the second program has it, on slices that are longer than needed. */
static const struct plain_answer *try_light(void) {
    struct plain_room lengths = room_of(&job, LIGHT_WAY);
    about("light way", tried++);
    lengths.cells += tried % 3;
    lengths.words += tried % 2;
    lengths.picks += tried % 2;
    return try_job(&bytes, LIGHT_WAY, &lengths, tried);
}

/* And the same in the full way. */
static const struct plain_answer *try_both(void) {
    struct plain_room lengths[PLAIN_WAYS];
    about("light way and full", tried++);
    lengths[LIGHT_WAY] = room_of(&job, LIGHT_WAY);
    lengths[FULL_WAY] = room_of(&job, FULL_WAY);
    lengths[LIGHT_WAY].words += tried % 2;
    return try_both_ways(&bytes, lengths, tried).of[LIGHT_WAY];
}

/* ---- rows, bits and picks */

enum { MOST_N = 4, MOST_C = 10 }; /* so few that a label has one word */

struct light_case {
    uint32_t budget, n, weights[MOST_N], values[MOST_N];
    uint32_t value, weight, picks[MOST_N], row[ROW(MOST_C)];
    uint64_t bits[MOST_N];
};

#define BIT(c) ((uint64_t)1 << (c))

static const struct light_case cases[] = {
    /* cases A, B and C; in B label 2 makes 3 as labels 0 and 1 do, so it has no bit */
    {7, 3, {3, 4, 5}, {4, 5, 6}, 9, 7, {1, 1, 0}, {0, 0, 0, 4, 5, 6, 6, 9}, {0xf8, 0xf0, BIT(5) | BIT(6)}},
    {3, 3, {1, 2, 3}, {1, 2, 3}, 3, 3, {1, 1, 0}, {0, 1, 2, 3}, {0xe, 0xc, 0}},
    {10, 3, {6, 5, 5}, {7, 5, 5}, 10, 10, {0, 1, 1}, {0, 0, 0, 0, 0, 5, 7, 7, 7, 7, 10}, {0x7c0, BIT(5), BIT(10)}},
    /* like labels: the second has a bit where both fit */
    {1, 2, {1, 1}, {1, 1}, 1, 1, {1, 0}, {0, 1}, {BIT(1), 0}},
    {3, 2, {2, 2}, {3, 3}, 3, 2, {1, 0}, {0, 0, 3, 3}, {0xc, 0}},
    {4, 2, {2, 2}, {3, 3}, 6, 4, {1, 1}, {0, 0, 3, 3, 6}, {0x1c, BIT(4)}},
    {2, 3, {1, 1, 1}, {5, 5, 5}, 10, 2, {1, 1, 0}, {0, 5, 10}, {6, BIT(2), 0}},
    /* a label that makes no more than the others, and one that makes one more */
    {2, 3, {1, 1, 2}, {2, 1, 3}, 3, 2, {1, 1, 0}, {0, 2, 3}, {6, BIT(2), 0}},
    {2, 3, {1, 1, 2}, {2, 1, 4}, 4, 2, {0, 0, 1}, {0, 2, 4}, {6, BIT(2), BIT(2)}},
    /* a value of 0 has no bits, before others or after them */
    {2, 2, {1, 1}, {0, 7}, 7, 1, {0, 1}, {0, 7, 7}, {0, 6}},
    {2, 2, {1, 1}, {7, 0}, 7, 1, {1, 0}, {0, 7, 7}, {6, 0}},
    /* no labels, no budget, both */
    {7, 0, {0}, {0}, 0, 0, {0}, {0, 0, 0, 0, 0, 0, 0, 0}, {0}},
    {0, 0, {0}, {0}, 0, 0, {0}, {0}, {0}},
    {0, 2, {1, 2}, {5, 6}, 0, 0, {0, 0}, {0}, {0, 0}},
    /* weights above C, of which one fits if it is cut to 16 bits, and one is as great as there is */
    {3, 4, {4, CUT_TO + 1, 3, UINT32_MAX}, {9, 9, 2, 9}, 2, 3, {0, 0, 1, 0}, {0, 0, 0, 2}, {0, 0, BIT(3), 0}},
    /* a label is used once */
    {2, 1, {1}, {1}, 1, 1, {1}, {0, 1, 1}, {6}},
    /* the row of all labels isn't that of the first: label 1's value and the cell before don't make the last one */
    {2, 2, {1, 1}, {1, 2}, 3, 2, {1, 1}, {0, 2, 3}, {6, 6}},
    {3, 2, {1, 1}, {1, 2}, 3, 2, {1, 1}, {0, 2, 3, 3}, {0xe, 0xe}},
};

static void try_case(const struct light_case *given) {
    const struct plain_answer *answer;
    uint32_t i;
    set_once(given->budget, given->n, given->weights, given->values);
    answer = try_both();
    same("the second program's refusal", 0, answer->refused);
    same("its value", given->value, answer->first);
    same("its weight", given->weight, answer->second);
    same("its cells", ROW(given->budget), answer->filled.cells);
    same("its words", given->n, answer->filled.words);
    for (i = 0; i <= given->budget; i++) same_at("its cell", i, given->row[i], answer->cells[i]);
    for (i = 0; i < given->n; i++) {
        same_at("its word", i, given->bits[i], answer->words[i]);
        same_at("its pick", i, given->picks[i], answer->picks[i]);
    }
}

/* ---- about the borders of a word */

/* The bits from one number to another, as word m of a label has them. */
static uint64_t bits_between(uint32_t from, uint32_t to, uint32_t m) {
    uint64_t bits = 0;
    uint32_t b;
    for (b = 0; b < WORD_BITS; b++) bits |= (uint64_t)(from <= m * WORD_BITS + b && m * WORD_BITS + b <= to) << b;
    return bits;
}

/* A label's words have the bits from its weight to C, or none, and no others, though they held some. */
static void has_bits(const struct plain_answer *answer, uint32_t label, uint32_t from) {
    uint32_t m, each = WORDS_OF_BITS(job.budget);
    for (m = 0; m < each; m++) {
        uint64_t bits = from > job.budget ? 0 : bits_between(from, job.budget, m);
        same_at("the second program's word", label * each + m, bits, answer->words[label * each + m]);
    }
}

/* A label by itself; between one that is worth nothing and one that is too heavy; and before its like, which rises where both fit. */
static void try_border(uint32_t budget, uint32_t weight) {
    const uint32_t alone[] = {weight}, none = budget + 1, between[] = {1, weight, none}, twice[] = {weight, weight};
    static const uint32_t values[] = {0, 5, 9}, alike[] = {5, 5};
    const struct plain_answer *answer;
    set_once(budget, 1, alone, alike);
    has_bits(try_both(), 0, weight);
    set_once(budget, 3, between, values);
    answer = try_both();
    has_bits(answer, 0, none);
    has_bits(answer, 1, weight);
    has_bits(answer, 2, none);
    set_once(budget, 2, twice, alike);
    answer = try_both();
    has_bits(answer, 0, weight);
    has_bits(answer, 1, weight > budget ? none : 2 * weight);
}

static const uint32_t budgets[] = {0, 1, 62, 63, 64, 65, 126, 127, 128, 129, 191, 192, 193};
enum { BUDGETS = sizeof budgets / sizeof budgets[0] };

static void borders(void) {
    uint32_t k, i;
    for (k = 0; k < BUDGETS; k++) {
        uint32_t C = budgets[k], weights[] = {1, 63, 64, 65, C - 1, C, C + 1};
        for (i = 0; i < sizeof weights / sizeof weights[0]; i++) {
            if (weights[i] - 1 <= C) try_border(C, weights[i]); /* no 0, and none that is below it */
        }
    }
}

/* ---- one place too few: refused, and nothing is written */

static void is_short(uint64_t *length, struct plain_room *lengths) {
    if (*length == 0) return;
    --*length;
    about("light way, short", tried++);
    refused++;
    same("the second program's refusal", 6, try_job(&bytes, LIGHT_WAY, lengths, tried)->refused);
    ++*length;
}

/* So it is of each slice; and of the full way, where the light one's cells are enough for no table. */
static void too_few(void) {
    static const uint32_t weights[] = {1, 64, 65, 200}, values[] = {3, 1, 2, 9};
    uint32_t k, n;
    for (k = 0; k < BUDGETS; k++) {
        for (n = 0; n <= 4; n++) {
            struct plain_room lengths;
            set_once(budgets[k], n, weights, values);
            lengths = room_of(&job, LIGHT_WAY);
            is_short(&lengths.cells, &lengths);
            is_short(&lengths.words, &lengths);
            is_short(&lengths.picks, &lengths);
            same("what is enough for the light way isn't for the full one", n == 0 ? 0 : 6,
                 try_job(&bytes, FULL_WAY, &lengths, tried)->refused);
        }
    }
}

/* ---- rows of any length */

enum { MOST_ROW = 3 * WORD_BITS + 7, STEPS = 8, LABELS = STEPS + 5 };

/* Labels of 1, 2, 4 and so on, by which a row goes up with every cell; some others; and the weight twice. All are about as dear as they are
 * heavy, so that some cells go up and some don't. */
static void try_weight(struct draw *draw, uint32_t budget, uint32_t weight) {
    uint32_t weights[LABELS], values[LABELS], i;
    for (i = 0; i < LABELS; i++) {
        weights[i] = i < STEPS ? 1u << i : i < LABELS - 2 ? drawn(draw, 1, budget + 1) : weight;
        values[i] = 3 * weights[i] + drawn(draw, 0, 4);
    }
    set_once(budget, LABELS, weights, values);
    try_light();
}

/* Each row with every weight. */
static void every_row(void) {
    uint32_t budget, weight;
    for (budget = 0; budget < MOST_ROW; budget++) {
        struct draw draw = {budget};
        for (weight = 1; weight <= budget + 1; weight++) try_weight(&draw, budget, weight);
    }
}

/* ---- many labels, and the greatest budget */

/* So many labels of weights that go round, each worth about as much as it weighs. */
static void try_many(uint32_t n, uint32_t budget, uint32_t heaviest) {
    uint32_t weights[MOST_LABELS], values[MOST_LABELS], i;
    struct draw draw = {n + budget};
    for (i = 0; i < n; i++) {
        weights[i] = drawn(&draw, 1, heaviest);
        values[i] = weights[i] + drawn(&draw, 0, 9);
    }
    set_once(budget, n, weights, values);
    try_light();
}

static void many(void) {
    try_many(MOST_LABELS, 0, 3);
    try_many(MOST_LABELS, WORD_BITS - 1, 20);
    try_many(MOST_LABELS, WORD_BITS, 20);
    try_many(MOST_LABELS, 1000, 300);
    try_many(9, 60000, 20000);
    try_many(30, MOST_BUDGET, 6000);
}

/* The greatest budget: weights about it, and about a word. */
static void greatest(void) {
    static const uint32_t weights[] = {1, 64, 65, MOST_BUDGET / 2, MOST_BUDGET - 1, MOST_BUDGET, MOST_BUDGET + 1, UINT32_MAX};
    static const uint32_t values[] = {1, 60, 70, 30000, 40000, 65000, MOST_VALUE, MOST_VALUE};
    uint32_t i, each = sizeof weights / sizeof weights[0];
    set_once(MOST_BUDGET, each, weights, values);
    try_both();
    for (i = 0; i < each; i++) {
        set_once(MOST_BUDGET, 1, weights + i, values + i);
        has_bits(try_light(), 0, weights[i]);
    }
}

void part_light(void) {
    size_t k;
    for (k = 0; k < sizeof cases / sizeof cases[0]; k++) try_case(&cases[k]);
    borders();
    too_few();
    every_row();
    many();
    greatest();
    printf("light way: %lu jobs, %lu of them refused with 6\n", tried, refused);
}
