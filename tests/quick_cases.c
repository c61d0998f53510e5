/* The quick answer (K5) by hand: jobs with both lists, the one that is handed back and what it is worth; its refusals, each alone, at each
 * label, and all that can come together; each bound, and one past it. */
#include "calls.h"
#include "draw.h"
#include "parts.h"
#include "tell.h"
#include <stdio.h>

static unsigned long tried, by_number[LAST_SOLVER_REFUSAL + 1];
static struct job job;

static void set_once(uint32_t budget, uint32_t n, const uint32_t *weights, const uint32_t *values) {
    set_job(&job, KIND_ONCE, budget, n, weights, values, NULL);
}

/* The job is refused with this number on lists of these lengths, or with 0 it isn't, and all is as the second program has it. */
static const struct plain_quick *is_refused(size_t first_len, size_t second_len, uint32_t number) {
    const struct plain_quick *answer;
    about("quick", tried++);
    by_number[number]++;
    answer = try_quick(&job, first_len, second_len, tried);
    same("the second program's refusal", number, answer->refused);
    return answer;
}

/* So it is on lists that have a place for each label, or some more. */
static const struct plain_quick *is_answered(void) {
    return is_refused(job.weights.count + tried % 3, job.weights.count + tried % 2 * 5, 0);
}

/* ---- lists */

enum { MOST_N = 6 };

struct quick_case {
    uint32_t budget, n, weights[MOST_N], values[MOST_N];
    uint32_t first[MOST_N], second[MOST_N], which, value;
};

static const struct quick_case cases[] = {
    /* document 01's cases A, B and C: in B both lists are worth as much, in C neither is the best, which is 10 */
    {7, 3, {3, 4, 5}, {4, 5, 6}, {1, 1, 0}, {0, 0, 1}, 1, 9},
    {3, 3, {1, 2, 3}, {1, 2, 3}, {1, 1, 0}, {0, 0, 1}, 1, 3},
    {10, 3, {6, 5, 5}, {7, 5, 5}, {1, 0, 0}, {1, 0, 0}, 1, 7},
    /* 4 for 2 and 6 for 3 is as much per weight: the lower number goes first, whatever it weighs */
    {4, 3, {2, 3, 2}, {4, 6, 3}, {1, 0, 1}, {0, 1, 0}, 1, 7},
    {4, 3, {3, 2, 2}, {6, 4, 3}, {1, 0, 0}, {1, 0, 0}, 1, 6},
    {3, 2, {2, 3}, {4, 6}, {1, 0}, {0, 1}, 2, 6},
    {3, 2, {3, 2}, {6, 4}, {1, 0}, {1, 0}, 1, 6},
    /* like labels: the lower numbers; and the same where a worse one stands among them */
    {2, 3, {1, 1, 1}, {5, 5, 5}, {1, 1, 0}, {1, 0, 0}, 1, 10},
    {2, 4, {1, 1, 1, 1}, {5, 4, 5, 5}, {1, 0, 1, 0}, {1, 0, 0, 0}, 1, 10},
    /* labels in order, and the other way round */
    {5, 4, {1, 2, 2, 4}, {9, 8, 6, 4}, {1, 1, 1, 0}, {1, 0, 0, 0}, 1, 23},
    {5, 4, {4, 2, 2, 1}, {4, 6, 8, 9}, {0, 1, 1, 1}, {0, 0, 0, 1}, 1, 23},
    /* one that doesn't fit is passed over, and greed goes on: after one, after two, and to one that has room left twice */
    {3, 3, {2, 2, 1}, {4, 3, 1}, {1, 0, 1}, {1, 0, 0}, 1, 5},
    {10, 4, {6, 5, 5, 4}, {12, 9, 8, 4}, {1, 0, 0, 1}, {1, 0, 0, 0}, 1, 16},
    {9, 5, {5, 5, 2, 3, 2}, {25, 20, 6, 6, 2}, {1, 0, 1, 0, 1}, {1, 0, 0, 0, 0}, 1, 33},
    /* one that is heavier than C comes first in the order, in the middle, and is as heavy as there is */
    {4, 2, {5, 2}, {100, 1}, {0, 1}, {0, 1}, 1, 1},
    {4, 3, {2, 5, 2}, {6, 10, 2}, {1, 0, 1}, {1, 0, 0}, 1, 8},
    {4, 3, {UINT32_MAX, 3, 1}, {MOST_VALUE, 3, 1}, {0, 1, 1}, {0, 1, 0}, 1, 4},
    {3, 3, {4, CUT_TO + 1, 3}, {9, 9, 2}, {0, 0, 1}, {0, 0, 1}, 1, 2},
    /* labels worth 0: before others, after them, and nothing else, where there is no single label either */
    {3, 3, {1, 1, 1}, {0, 3, 2}, {0, 1, 1}, {0, 1, 0}, 1, 5},
    {3, 3, {1, 2, 3}, {2, 0, 0}, {1, 0, 0}, {1, 0, 0}, 1, 2},
    {3, 2, {1, 2}, {0, 0}, {0, 0}, {0, 0}, 1, 0},
    {3, 2, {1, 9}, {0, 8}, {0, 0}, {0, 0}, 1, 0},
    /* the single label is worth more: a light one that pays well keeps a heavy one out */
    {100, 2, {1, 100}, {2, 100}, {1, 0}, {0, 1}, 2, 100},
    {100, 2, {100, 1}, {100, 2}, {0, 1}, {1, 0}, 2, 100},
    {8, 3, {1, 1, 8}, {2, 2, 5}, {1, 1, 0}, {0, 0, 1}, 2, 5},
    /* they are worth as much: the greedy one is handed back */
    {8, 3, {1, 1, 8}, {2, 2, 4}, {1, 1, 0}, {0, 0, 1}, 1, 4},
    {3, 2, {3, 1}, {2, 2}, {0, 1}, {1, 0}, 1, 2},
    /* two and three of the highest value, of which the first is too heavy; and all that are dearer are */
    {4, 2, {4, 2}, {5, 5}, {0, 1}, {1, 0}, 1, 5},
    {4, 3, {9, 4, 2}, {5, 5, 5}, {0, 0, 1}, {0, 1, 0}, 1, 5},
    {4, 4, {5, 4, 3, 6}, {9, 3, 1, 7}, {0, 1, 0, 0}, {0, 1, 0, 0}, 1, 3},
    /* no labels, no budget, both */
    {7, 0, {0}, {0}, {0}, {0}, 1, 0},
    {0, 0, {0}, {0}, {0}, {0}, 1, 0},
    {0, 2, {1, 2}, {3, 4}, {0, 0}, {0, 0}, 1, 0},
    /* more per weight, though not if it is cut to whole numbers: 3 for 2 and 2 for 2; 7 for 3 and 2 for 1; 1 for 3 and 1 for 2 */
    {3, 3, {2, 2, 1}, {2, 3, 1}, {0, 1, 1}, {0, 1, 0}, 1, 4},
    {4, 3, {1, 3, 1}, {2, 7, 2}, {1, 1, 0}, {0, 1, 0}, 1, 9},
    {3, 2, {1, 3}, {2, 7}, {0, 1}, {0, 1}, 1, 7},
    {4, 3, {3, 2, 2}, {1, 1, 1}, {0, 1, 1}, {1, 0, 0}, 1, 2},
    /* more by one part in four thousand million: no number of 24 or 32 bits for it tells them apart */
    {MOST_BUDGET, 2, {MOST_BUDGET - 1, MOST_BUDGET}, {MOST_VALUE - 2, MOST_VALUE - 1}, {0, 1}, {0, 1}, 1, MOST_VALUE - 1},
    {MOST_BUDGET, 2, {MOST_BUDGET, MOST_BUDGET - 1}, {MOST_VALUE - 1, MOST_VALUE - 2}, {1, 0}, {1, 0}, 1, MOST_VALUE - 1},
    /* the greatest numbers, and a sum of values beyond 16 bits */
    {MOST_BUDGET, 2, {MOST_BUDGET, MOST_BUDGET}, {MOST_VALUE, MOST_VALUE}, {1, 0}, {1, 0}, 1, MOST_VALUE},
    {MOST_BUDGET,
     4,
     {1, 2, UINT32_MAX, 3},
     {MOST_VALUE, MOST_VALUE, MOST_VALUE, MOST_VALUE},
     {1, 1, 0, 1},
     {1, 0, 0, 0},
     1,
     3 * MOST_VALUE},
};

static void try_case(const struct quick_case *given) {
    const struct plain_quick *answer;
    uint32_t i;
    set_once(given->budget, given->n, given->weights, given->values);
    answer = is_answered();
    same("the list of the second program", given->which, answer->which);
    same("its value", given->value, answer->value);
    same("its places", given->n, answer->filled);
    for (i = 0; i < given->n; i++) {
        same_at("its first list's pick", i, given->first[i], answer->first[i]);
        same_at("its second list's pick", i, given->second[i], answer->second[i]);
    }
}

/* Slices that are only read may be one and the same: labels that are as dear as they are heavy. */
static void try_one_slice(void) {
    static const uint32_t both[] = {2, 3, 1}, kept[] = {1, 0, 1}, dearest[] = {0, 1, 0};
    uint32_t first[3], second[3], which = 77, i;
    uint64_t value = 77;
    about("quick", tried++);
    same("the refusal", 0, quabnester_quick(4, both, 3, both, 3, first, 3, second, 3, &which, &value));
    same("which list", 1, which);
    same("its value", 3, value);
    for (i = 0; i < 3; i++) {
        same_at("the first list's pick", i, kept[i], first[i]);
        same_at("the second list's pick", i, dearest[i], second[i]);
    }
}

/* ---- half of the best, and barely more */

/* One label of a little more than half of C and two of half: the best is these two, which weigh C and are worth as much. */
static void try_tight(uint32_t half) {
    const uint32_t weights[] = {half + 1, half, half}, values[] = {half + 2, half, half};
    const struct plain_quick *answer;
    struct plain_job read;
    static struct bytes bytes;
    uint64_t best = 0;
    set_once(2 * half, 3, weights, values);
    answer = is_answered();
    same("the greedy list", 1, answer->which);
    same("its value", half + 2, answer->value);
    put_job(&bytes, &job);
    read_back(&bytes, &read);
    holds("that every selection is tried", plain_try_best(&read, &best));
    same("the best value", 2 * half, best);
    holds("that it is half of it or more, and less than 51 in 100", 2 * answer->value >= best && 100 * answer->value < 51 * best);
}

/* ---- products beyond 32 bits */

/* Two labels that fit, the second of which pays better, and one that is too heavy, whose products with either leave 32 bits and are another
 * number if they are cut to these: in every order, so that it stands between the two in any way of sorting them. */
static void try_wide(uint32_t heavy, uint32_t value) {
    static const uint32_t orders[][3] = {{0, 1, 2}, {0, 2, 1}, {1, 0, 2}, {1, 2, 0}, {2, 0, 1}, {2, 1, 0}};
    const uint32_t weights[] = {3, 3, heavy}, values[] = {1, 2, value};
    const struct plain_quick *answer;
    uint32_t k, i, weight_of[3], value_of[3];
    for (k = 0; k < sizeof orders / sizeof orders[0]; k++) {
        for (i = 0; i < 3; i++) {
            weight_of[i] = weights[orders[k][i]];
            value_of[i] = values[orders[k][i]];
        }
        set_once(4, 3, weight_of, value_of);
        answer = is_answered();
        for (i = 0; i < 3; i++) same_at("the second program's pick", i, orders[k][i] == 1, answer->first[i]);
    }
}

static void wide(void) {
    uint32_t bit;
    for (bit = 16; bit < 32; bit++) {
        try_wide(1u << bit, 1);
        try_wide(1u << bit, MOST_VALUE);
        try_wide(UINT32_MAX - (1u << bit), 3);
    }
    try_wide(UINT32_MAX, 1);
    try_wide(UINT32_MAX, MOST_VALUE);
}

/* ---- refusals */

/* What can be wrong, in the order of the numbers for it. Two of them aren't wrong together. */
enum { FEWER_VALUES, MORE_VALUES, LABELS, BUDGET, WEIGHT, VALUE, FIRST, SECOND, FAULTS };
static const uint32_t number_of[FAULTS] = {3, 3, 4, 4, 5, 5, 6, 6};

static void base_job(uint32_t n) {
    uint32_t i;
    job.kind = KIND_ONCE;
    job.budget = 7;
    job.weights.count = job.values.count = n;
    job.copies.count = 0;
    for (i = 0; i < n; i++) {
        job.weights.at[i] = i % 5 + 1;
        job.values.at[i] = 1 + i % 3;
    }
}

/* The job with the faults of a mask; none of its lists is longer than there is room for. */
static void try_faults(unsigned mask) {
    uint32_t n = mask >> LABELS & 1 ? MOST_LABELS + 1 : 3, fault = 0;
    if ((mask >> MORE_VALUES & 1) && (n == MOST_NUMBERS || (mask >> FEWER_VALUES & 1))) return;
    base_job(n);
    if (mask >> FEWER_VALUES & 1) job.values.count--;
    if (mask >> MORE_VALUES & 1) job.values.at[job.values.count++] = 1;
    if (mask >> BUDGET & 1) job.budget = MOST_BUDGET + 1;
    if (mask >> WEIGHT & 1) job.weights.at[1] = LEAST_WEIGHT - 1;
    if (mask >> VALUE & 1) job.values.at[0] = MOST_VALUE + 1;
    while (fault < FAULTS && !(mask >> fault & 1)) fault++;
    is_refused(n - (mask >> FIRST & 1), n - (mask >> SECOND & 1), fault < FAULTS ? number_of[fault] : 0);
}

/* A number outside its rule is refused wherever it stands, and what stands there else isn't. */
static void try_place(uint32_t n, uint32_t i) {
    base_job(n);
    job.weights.at[i] = LEAST_WEIGHT - 1;
    is_refused(n, n, 5);
    job.weights.at[i] = UINT32_MAX;
    is_refused(n, n, 0);
    job.values.at[i] = MOST_VALUE + 1;
    is_refused(n, n, 5);
    job.values.at[i] = UINT32_MAX;
    is_refused(n, n, 5);
    job.values.at[i] = MOST_VALUE;
    is_refused(n, n, 0);
}

/* ---- bounds */

/* The job is answered on as many places as it has labels, and on one less in either list, or on none, it is refused. */
static void try_room(void) {
    size_t n = job.weights.count;
    is_refused(n, n, 0);
    is_refused(n + 1, n, 0);
    is_refused(n, n + 1, 0);
    is_refused(n + 17, n + 40, 0);
    if (n == 0) return;
    is_refused(n - 1, n, 6);
    is_refused(n, n - 1, 6);
    is_refused(n - 1, n - 1, 6);
    is_refused(0, n + 1, 6);
    is_refused(n + 1, 0, 6);
}

/* Values that are too many or too few, without n's own being wrong. */
static void try_lengths(uint32_t n) {
    base_job(n);
    for (job.values.count = 0; job.values.count < n + 3; job.values.count++) {
        job.values.at[job.values.count] = 1;
        is_refused(n, n, job.values.count == n ? 0 : 3);
    }
}

static void bounds(void) {
    static const uint32_t sizes[] = {0, 1, 2, 3, 10, 100, MOST_LABELS - 1, MOST_LABELS};
    uint32_t k;
    for (k = 0; k < sizeof sizes / sizeof sizes[0]; k++) {
        base_job(sizes[k]);
        try_room();
    }
    base_job(MOST_LABELS + 1);
    is_refused(MOST_LABELS + 1, MOST_LABELS + 1, 4);
    is_refused(0, 0, 4);
    base_job(9);
    job.budget = MOST_BUDGET;
    try_room();
    job.budget = MOST_BUDGET + 1;
    is_refused(9, 9, 4);
    job.budget = UINT32_MAX;
    is_refused(9, 9, 4);
    base_job(0);
    job.budget = MOST_BUDGET + 1;
    is_refused(0, 0, 4);
    for (k = 0; k <= 4; k++) try_lengths(k);
}

void part_quick(void) {
    unsigned mask;
    uint32_t k, n, number;
    for (k = 0; k < sizeof cases / sizeof cases[0]; k++) try_case(&cases[k]);
    try_one_slice();
    try_tight(1000);
    try_tight(MOST_BUDGET / 2);
    wide();
    for (mask = 0; mask < 1u << FAULTS; mask++) try_faults(mask);
    for (n = 1; n <= 20; n++) {
        for (k = 0; k < n; k++) try_place(n, k);
    }
    try_place(MOST_LABELS, 0);
    try_place(MOST_LABELS, MOST_LABELS - 1);
    bounds();
    printf("quick: %lu jobs; refused with 0 to %d:", tried, LAST_SOLVER_REFUSAL);
    for (number = 0; number <= LAST_SOLVER_REFUSAL; number++) printf(" %lu", by_number[number]);
    printf("\n");
}
