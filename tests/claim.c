/* Tables of claims that nobody solved: at what rule 14 asks for, above it, or spoiled. */
#include "claim.h"

static uint32_t greater(uint32_t a, uint32_t b) {
    return a < b ? b : a;
}

/* Kinds 1 and 2: over the counts of row i's label. */
static uint32_t least_by_counts(const struct job *job, const uint32_t *before, uint32_t label, uint32_t c) {
    uint32_t k, from = c, least = before[c], weight = job->weights.at[label];
    for (k = 1; k <= most_picked(job, label) && weight <= from; k++) {
        from -= weight;
        least = greater(least, before[from] + k * job->values.at[label]);
    }
    return least;
}

/* Kind 3: over the labels. */
static uint32_t least_by_labels(const struct job *job, const uint32_t *cells, uint32_t c) {
    uint32_t i, least = 0;
    for (i = 0; i < job->weights.count; i++) {
        if (job->weights.at[i] <= c) least = greater(least, cells[c - job->weights.at[i]] + job->values.at[i]);
    }
    return least;
}

uint32_t least_claim(const struct job *job, const uint32_t *cells, uint32_t m) {
    uint32_t width = ROW(job->budget), i = m / width;
    if (job->kind == KIND_ANY) return least_by_labels(job, cells, m);
    return i == 0 ? 0 : least_by_counts(job, cells + (i - 1) * width, i - 1, m % width);
}

int draw_table(struct draw *draw, const struct job *job, uint32_t in, uint32_t most, uint32_t *cells) {
    uint32_t m, count = claims_of(job);
    int any = 0;
    for (m = 0; m < count; m++) {
        cells[m] = least_claim(job, cells, m);
        if (m % ROW(job->budget) != job->budget && chance(draw, in)) {
            cells[m] += drawn(draw, 1, most);
            any = 1;
        }
    }
    return any;
}

void spoil_claim(struct draw *draw, uint32_t *cells, uint32_t count) {
    uint32_t *cell = cells + drawn(draw, 0, count - 1);
    if (chance(draw, 8)) *cell = UINT32_MAX - drawn(draw, 0, 3);
    else if (chance(draw, 3)) *cell += 1;
    else if (*cell > 0) *cell -= 1;
}

void draw_any_picks(struct draw *draw, const struct job *job, uint32_t *picks) {
    uint32_t i;
    for (i = 0; i < job->weights.count; i++) {
        uint32_t fits = greater(job->budget / job->weights.at[i], 1), allowed = most_picked(job, i);
        picks[i] = drawn(draw, 0, fits < allowed ? fits : allowed);
    }
}

uint32_t value_of_picks(const struct job *job, const uint32_t *picks) {
    uint32_t i, value = 0;
    for (i = 0; i < job->weights.count; i++) value += picks[i] * job->values.at[i];
    return value;
}
