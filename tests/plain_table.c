/* Document 01's second program: all kinds but 7 by plain tables, for jobs with too many selections to try. Where a small job is answered
 * both ways the tests compare the two, so that trying holds these tables. See the head of plain.c. */
#include "plain.h"

/* Row i of a table by budget, and a table for rows that aren't handed over. */
static uint32_t rows[PLAIN_CELLS];

static uint32_t *row_of(uint32_t *table, const struct plain_job *job, uint32_t i) {
    return table + (size_t)i * ROW(job->budget);
}

/* Kinds 1, 2, 3 and 5 have a row for each number of labels, handed over or not, and kind 9 has rows of its own; the others have one or
 * none. */
int plain_has_room(const struct plain_job *job) {
    uint64_t n = job->weights.count, C = job->budget;
    switch (job->kind) {
    case KIND_SUMS:
    case KIND_WAYS:
    case KIND_SHARES:
    case KIND_LABELS_BEHIND: return 1;
    case KIND_STATED_SHARE: return plain_room(job, FULL_WAY).cells <= PLAIN_CELLS;
    default: return FULL_TABLE(n, C) <= PLAIN_CELLS;
    }
}

static void fill(uint32_t *row, uint32_t budget, uint32_t number) {
    uint32_t c;
    for (c = 0; c <= budget; c++) row[c] = number;
}

/* ---- kinds 1 and 2: row i is of the first i labels */

/* What budget c is worth, if `from` of it goes to the labels before and the rest to copies of one label. */
static uint32_t worth(const uint32_t *before, uint32_t from, uint32_t c, uint32_t weight, uint32_t value) {
    return before[from] + (c - from) / weight * value;
}

/* The best place to start from for c, of those that are 1 to `most` copies before it. */
static uint32_t best_start(const uint32_t *before, uint32_t c, uint32_t weight, uint32_t value, uint64_t most) {
    uint32_t from = c, best = c - weight;
    uint64_t k;
    for (k = 1; k <= most && weight <= from; k++) {
        from -= weight;
        if (worth(before, from, c, weight, value) > worth(before, best, c, weight, value)) best = from;
    }
    return best;
}

/* One label more, at most `most` times: the greatest of before[c - k * weight] + k * value. What was the best start one copy earlier still
 * is, among those before c, unless it is too many copies before c; only then all are looked at again. */
void plain_next_row(const struct plain_job *job, uint32_t k, const uint32_t *before, uint32_t *row) {
    static uint32_t start[ROW(MOST_BUDGET)];
    uint32_t c, weight = plain_item(job->weights, k), value = plain_item(job->values, k);
    uint64_t most = plain_most(job, k);
    for (c = 0; c <= job->budget; c++) {
        start[c] = c;
        if (most > 0 && weight <= c) {
            uint32_t from = start[c - weight];
            if ((c - from) / weight > most) from = best_start(before, c, weight, value, most);
            if (worth(before, from, c, weight, value) > before[c]) start[c] = from;
        }
        row[c] = worth(before, start[c], c, weight, value);
    }
}

/* Each count, from the last label to the first, is the smallest with which the rest of the budget still makes the best. */
static void least_counts(const struct plain_job *job, struct plain_answer *answer) {
    uint32_t i, left = job->budget;
    for (i = job->weights.count; i-- > 0;) {
        const uint32_t *before = row_of(answer->cells, job, i), *row = row_of(answer->cells, job, i + 1);
        uint32_t from = left, weight = plain_item(job->weights, i), value = plain_item(job->values, i);
        while (worth(before, from, left, weight, value) != row[left]) from -= weight;
        answer->picks[i] = (left - from) / weight;
        left = from;
    }
    answer->second = job->budget - left;
}

static void limited(const struct plain_job *job, struct plain_answer *answer) {
    uint32_t i, n = job->weights.count;
    fill(answer->cells, job->budget, 0);
    for (i = 0; i < n; i++) plain_next_row(job, i, row_of(answer->cells, job, i), row_of(answer->cells, job, i + 1));
    answer->first = row_of(answer->cells, job, n)[job->budget];
    least_counts(job, answer);
}

/* ---- kind 3: row i is of the labels from i on, and the row of all of them is handed over */

static void any_number_from(const struct plain_job *job, uint32_t i) {
    const uint32_t *after = row_of(rows, job, i + 1);
    uint32_t *row = row_of(rows, job, i), c, weight = plain_item(job->weights, i), value = plain_item(job->values, i);
    for (c = 0; c <= job->budget; c++) {
        row[c] = after[c];
        if (weight <= c && row[c - weight] + value > row[c]) row[c] = row[c - weight] + value;
    }
}

/* Each count, from the first label on, is the greatest with which the rest of the budget still makes the best. */
static void any_number(const struct plain_job *job, struct plain_answer *answer) {
    uint32_t i, c, n = job->weights.count, left = job->budget;
    fill(row_of(rows, job, n), job->budget, 0);
    for (i = n; i-- > 0;) any_number_from(job, i);
    for (c = 0; c <= job->budget; c++) answer->cells[c] = rows[c];
    answer->first = rows[job->budget];
    for (i = 0; i < n; i++) {
        const uint32_t *row = row_of(rows, job, i), *after = row_of(rows, job, i + 1);
        uint32_t weight = plain_item(job->weights, i), value = plain_item(job->values, i), from = left % weight;
        while (worth(after, from, left, weight, value) != row[left]) from += weight;
        answer->picks[i] = (left - from) / weight;
        left = from;
    }
    answer->second = job->budget - left;
}

/* ---- kind 4 */

static void sums(const struct plain_job *job, struct plain_answer *answer) {
    static uint8_t reached[ROW(MOST_BUDGET)];
    uint32_t i, t, C = job->budget;
    for (t = 0; t <= C; t++) reached[t] = t == 0;
    for (i = 0; i < job->weights.count; i++) {
        uint32_t weight = plain_item(job->weights, i);
        for (t = C; t >= weight; t--) reached[t] |= reached[t - weight]; /* from above, so that no label is used twice */
    }
    for (t = 0; t < answer->filled.words; t++) answer->words[t] = 0;
    for (t = 0; t <= C; t++) {
        answer->words[t / WORD_BITS] |= (uint64_t)reached[t] << t % WORD_BITS;
        answer->second += reached[t];
    }
    answer->first = reached[C];
}

/* ---- kind 5: row i is of the first i sizes, and the row of all of them is handed over */

static void add_size(const struct plain_job *job, uint32_t i) {
    const uint32_t *before = row_of(rows, job, i);
    uint32_t *row = row_of(rows, job, i + 1), a, size = plain_item(job->weights, i);
    for (a = 0; a <= job->budget; a++) {
        row[a] = before[a];
        if (size <= a && row[a - size] != NO_WAY && row[a - size] + 1 < row[a]) row[a] = row[a - size] + 1;
    }
}

/* Each count, from the last size to the first, is the greatest with which the rest can still be made of the fewest. */
static void greatest_counts(const struct plain_job *job, struct plain_answer *answer) {
    uint32_t i, left = job->budget;
    for (i = job->weights.count; i-- > 0;) {
        const uint32_t *before = row_of(rows, job, i), *row = row_of(rows, job, i + 1);
        uint32_t size = plain_item(job->weights, i), from = left % size;
        while (before[from] == NO_WAY || before[from] + (left - from) / size != row[left]) from += size;
        answer->picks[i] = (left - from) / size;
        left = from;
    }
}

static void blocks(const struct plain_job *job, struct plain_answer *answer) {
    uint32_t i, a, n = job->weights.count;
    const uint32_t *fewest = row_of(rows, job, n);
    fill(rows, job->budget, NO_WAY);
    rows[0] = 0;
    for (i = 0; i < n; i++) add_size(job, i);
    for (a = 0; a <= job->budget; a++) answer->cells[a] = fewest[a];
    if (fewest[job->budget] == NO_WAY) {
        answer->refused = 7;
        answer->filled.picks = 0;
        return;
    }
    answer->first = fewest[job->budget];
    greatest_counts(job, answer);
}

/* ---- kind 6 */

/* The sum, or 2^64 - 1 where it is more. */
static uint64_t at_most_full(uint64_t a, uint64_t b) {
    return a > FULL - b ? FULL : a + b;
}

static void ways(const struct plain_job *job, struct plain_answer *answer) {
    uint32_t i, a;
    for (a = 0; a <= job->budget; a++) answer->words[a] = a == 0;
    for (i = 0; i < job->weights.count; i++) {
        uint32_t size = plain_item(job->weights, i);
        for (a = 0; a <= job->budget; a++) {
            if (size <= a) answer->words[a] = at_most_full(answer->words[a], answer->words[a - size]);
        }
    }
    answer->first = answer->words[job->budget];
    if (answer->first != FULL) return;
    answer->refused = 8;
    answer->first = 0;
}

/* ---- kind 8 */

/* Each total gets the number of labels with which it is reached for the first time. */
static void first_labels(const struct plain_job *job, uint32_t *cells) {
    uint32_t i, t;
    fill(cells, job->budget, NOT_REACHED);
    cells[0] = 0;
    for (i = 0; i < job->weights.count; i++) {
        uint32_t weight = plain_item(job->weights, i);
        for (t = job->budget; t >= weight; t--) { /* from above, so that no label is used twice */
            if (cells[t] == NOT_REACHED && cells[t - weight] != NOT_REACHED) cells[t] = i + 1;
        }
    }
}

/* Label i, from the last to the first, is taken where the i labels before it don't reach what is left. */
static void labels_behind(const struct plain_job *job, struct plain_answer *answer) {
    uint32_t i, left = job->budget;
    first_labels(job, answer->cells);
    if (answer->cells[left] == NOT_REACHED) {
        answer->refused = 7;
        answer->filled.picks = 0;
        return;
    }
    for (i = job->weights.count; i-- > 0;) {
        answer->picks[i] = answer->cells[left] > i;
        if (answer->picks[i]) left -= plain_item(job->weights, i);
    }
    answer->first = job->budget - left;
}

/* ---- kind 9: row j is of the first j labels that aren't left aside */

/* One label more: a total has the weight that it had, or with the label a lesser one within C. */
static void add_stated(const struct plain_job *job, const struct plain_stated *stated, uint32_t j, const uint32_t *before, uint32_t *row) {
    uint64_t t, with, cut = stated->cut[j];
    for (t = 0; t <= stated->total; t++) {
        row[t] = before[t];
        if (t < cut || before[t - cut] == NO_WEIGHT) continue;
        with = (uint64_t)before[t - cut] + stated->weight[j];
        if (with <= job->budget && with < row[t]) row[t] = (uint32_t)with;
    }
}

/* Label j, from the last to the first, is taken where the j before it don't have the total at that weight. */
static void stated_picks(const struct plain_job *job, const struct plain_stated *stated, uint64_t t, struct plain_answer *answer) {
    uint64_t width = stated->total + 1;
    uint32_t j;
    for (j = 0; j < job->weights.count; j++) answer->picks[j] = 0;
    for (j = stated->m; j-- > 0;) {
        if (answer->cells[j * width + t] == answer->cells[(j + 1) * width + t]) continue;
        answer->picks[stated->label[j]] = 1;
        answer->first += plain_item(job->values, stated->label[j]);
        t -= stated->cut[j];
    }
}

/* The greatest total that some selection within C has is asked for. Total 0 is always one. */
static void stated_share(const struct plain_job *job, struct plain_answer *answer) {
    static struct plain_stated stated;
    uint64_t t, width;
    uint32_t j;
    plain_state(job, &stated);
    width = stated.total + 1;
    for (t = 0; t < width; t++) answer->cells[t] = t == 0 ? 0 : NO_WEIGHT;
    for (j = 0; j < stated.m; j++) add_stated(job, &stated, j, answer->cells + j * width, answer->cells + (j + 1) * width);
    t = stated.total;
    while (answer->cells[stated.m * width + t] == NO_WEIGHT) t--;
    answer->second = answer->cells[stated.m * width + t];
    stated_picks(job, &stated, t, answer);
}

void plain_table(const struct plain_job *job, struct plain_answer *answer) {
    plain_start(answer, job, 0, FULL_WAY);
    switch (job->kind) {
    case KIND_ANY: any_number(job, answer); break;
    case KIND_SUMS: sums(job, answer); break;
    case KIND_FEWEST: blocks(job, answer); break;
    case KIND_WAYS: ways(job, answer); break;
    case KIND_LABELS_BEHIND: labels_behind(job, answer); break;
    case KIND_STATED_SHARE: stated_share(job, answer); break;
    default: limited(job, answer); break;
    }
}
