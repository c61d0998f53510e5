/* What can be wrong with a job: numbers outside their rules, damaged bytes, slices that are too short. */
#include "draw.h"
#include <string.h>

/* ---- a job's numbers */

static uint32_t any_label(struct draw *draw, const struct list *list) {
    return list->count == 0 ? 0 : drawn(draw, 0, list->count - 1);
}

static void set_any(struct draw *draw, struct list *list, uint32_t number) {
    list->at[any_label(draw, list)] = number;
}

/* At the bound, just past it, or any. */
static uint32_t about_bound(struct draw *draw, uint32_t bound) {
    return chance(draw, 4) ? drawn(draw, 0, UINT32_MAX) : bound + drawn(draw, 0, bound < UINT32_MAX);
}

/* Just below the least number that is allowed, where there is such a one. */
static uint32_t below(uint32_t least) {
    return least - (least > 0);
}

/* Kind 9: q at a bound, just past it, or any. */
static uint32_t other_q(struct draw *draw) {
    return chance(draw, 2) ? LEAST_Q - drawn(draw, 0, 1) : about_bound(draw, MOST_Q);
}

/* One budget where there have to be two, and two where there has to be one; or three. */
static uint32_t other_budgets(struct draw *draw, uint32_t kind) {
    return chance(draw, 4) ? 3 : 3 - BUDGETS_OF(kind);
}

static void other_kind(struct draw *draw, struct job *job) {
    job->kind = chance(draw, 3) ? drawn(draw, 0, UINT32_MAX) : drawn(draw, 0, LAST_KIND + 2);
}

/* One number more or fewer, or the list is left out. */
static void other_length(struct draw *draw, struct list *list) {
    uint32_t count = list->count;
    list->count = chance(draw, 4) || count == 0 ? 0 : count - 1;
    if (count < MOST_NUMBERS && (count == 0 || chance(draw, 3))) {
        list->at[count] = drawn(draw, 0, 5);
        list->count = count + 1;
    }
}

/* As many labels as the kind may have, or one too many, in the lists that it uses. */
static void many_labels(struct draw *draw, struct job *job) {
    const struct plain_kind *kind = plain_kind(job->kind);
    uint32_t n = kind->most_labels + drawn(draw, 0, 1), start = job->weights.count, i;
    for (i = start; i < n; i++) {
        job->weights.at[i] = (i > 0 ? job->weights.at[i - 1] : 0) + 1;
        job->values.at[i] = job->copies.at[i] = 1;
    }
    job->weights.count = n;
    if (job->values.count == start && kind->values) job->values.count = n;
    if (job->copies.count == start && kind->copies) job->copies.count = n;
}

/* A weight of 0, or one that is as great as the one before it, or greater than the one after it. */
static void other_weight(struct draw *draw, struct list *weights) {
    uint32_t i = any_label(draw, weights);
    if (i == 0 || chance(draw, 3)) weights->at[i] = below(LEAST_WEIGHT);
    else weights->at[i] = chance(draw, 2) ? weights->at[i - 1] : weights->at[weights->count - 1] + 1;
}

/* Nobody claims anything, or just one does. */
static void no_claims(struct draw *draw, struct list *claims) {
    uint32_t i;
    for (i = 0; i < claims->count; i++) claims->at[i] = 0;
    if (chance(draw, 6)) set_any(draw, claims, 1);
}

void draw_fault(struct draw *draw, struct job *job) {
    if (job->kind == KIND_STATED_SHARE && chance(draw, 8)) job->q = other_q(draw);
    switch (drawn(draw, 0, 12)) {
    case 0: other_kind(draw, job); break;
    case 1:
    case 2: other_length(draw, chance(draw, 3) ? &job->weights : chance(draw, 2) ? &job->values : &job->copies); break;
    case 3:
    case 4: job->budget = about_bound(draw, plain_kind(job->kind)->most_budget); break;
    case 5:
        if (chance(draw, 4)) many_labels(draw, job);
        break;
    case 6:
    case 7: other_weight(draw, &job->weights); break;
    case 8: set_any(draw, &job->values, about_bound(draw, MOST_VALUE)); break;
    case 9: set_any(draw, &job->values, below(plain_kind(job->kind)->least_value)); break;
    case 10: set_any(draw, &job->copies, chance(draw, 3) ? below(LEAST_COPIES) : about_bound(draw, MOST_COPIES)); break;
    case 11:
        if (chance(draw, 3)) job->budgets = other_budgets(draw, job->kind);
        break;
    default: no_claims(draw, &job->weights); break;
    }
}

/* ---- its bytes */

/* Where the count of a section stands: kinds, budgets, weights, values, copies. */
static size_t count_place(const struct job *job, uint32_t section) {
    const uint32_t counts[] = {1, job->budgets != 0 ? job->budgets : BUDGETS_OF(job->kind), job->weights.count, job->values.count};
    size_t place = 0;
    uint32_t k;
    for (k = 0; k < section; k++) place += 4 + 4 * (size_t)counts[k];
    return place;
}

static void swap_counts(struct bytes *bytes, size_t a, size_t b) {
    uint8_t count[4];
    memcpy(count, bytes->at + a, 4);
    memcpy(bytes->at + a, bytes->at + b, 4);
    memcpy(bytes->at + b, count, 4);
}

/* Answers whether they are other bytes now; counts that are swapped may be equal. */
static int damaged(struct draw *draw, const struct job *job, struct bytes *bytes) {
    size_t place = count_place(job, drawn(draw, 0, 4)), other = count_place(job, drawn(draw, 0, 4)), k;
    size_t any = drawn(draw, 0, (uint32_t)bytes->length - 1), more = bytes->length + drawn(draw, 1, 9);
    switch (drawn(draw, 0, 8)) {
    case 0: bytes->length = any; return 1;
    case 1:
        for (k = bytes->length; k < more; k++) bytes->at[k] = (uint8_t)drawn(draw, 0, chance(draw, 2) ? 0 : 255);
        bytes->length = more;
        return 1;
    case 2: swap_counts(bytes, place, other); return plain_number(bytes->at + place) != plain_number(bytes->at + other);
    case 3: bytes->at[place] ^= (uint8_t)drawn(draw, 1, 7); return 1;
    case 4: bytes->at[place + 3] ^= (uint8_t)(64 * drawn(draw, 1, 3)); return 1; /* four times as much is the same, cut to 32 bits */
    default: bytes->at[any] ^= (uint8_t)drawn(draw, 1, 255); return 1;
    }
}

void draw_damage(struct draw *draw, const struct job *job, struct bytes *bytes) {
    while (!damaged(draw, job, bytes)) continue;
}

/* ---- the slices */

uint64_t draw_length(struct draw *draw, uint64_t needed) {
    if (needed > 0 && chance(draw, 30)) return needed - 1;
    if (chance(draw, 60)) return 0;
    return needed + (chance(draw, 4) ? drawn(draw, 0, 20) : drawn(draw, 0, 3) / 2);
}

struct plain_room draw_lengths(struct draw *draw, const struct plain_room *needed) {
    struct plain_room lengths;
    lengths.cells = draw_length(draw, needed->cells);
    lengths.words = draw_length(draw, needed->words);
    lengths.picks = draw_length(draw, needed->picks);
    return lengths;
}
