/* Long rows of claims: kind 2 with many copies, and kind 3 with thousands of cells. A checker may look at a row in blocks of as many
 * budgets as the copies weigh, or in stretches of some hundred or thousand cells; so each count is at fault by itself, from every budget,
 * and the cells about every border are. */
#include "calls.h"
#include "claim.h"
#include "parts.h"
#include "tally.h"
#include "tell.h"
#include <stdio.h>

enum {
    MOST_N = 3,
    MOST_C = 700,        /* of kind 2 */
    BORDER = 256,        /* stretches are of so many cells, or of a multiple: no number of document 01 */
    LAST_BORDER = 12288, /* of kind 3: three times 4,096 */
    MOST_ROW = LAST_BORDER + 7,
    MOST_CELLS = GREATER(FULL_TABLE(MOST_N, MOST_C), ROW(MOST_ROW)),
    HIGH = 1 << 20 /* more than any list of the rows of kind 3 is worth, save the drawn ones */
};

static struct job job;
static struct bytes bytes;
static uint32_t picks[MOST_N], cells[MOST_CELLS];
static uint8_t certificate[CERTIFICATE(MOST_N, MOST_CELLS)];
static size_t length;

/* ---- what came up */

enum { KEPT, COUNTED, BY_ONE, BORDERED, WRAPPED, FITTING, ONE_LABEL, LATER, BOTH, KEPT_2, LOW_2, KEPT_3, LOW_3, THINGS };

static struct thing things[THINGS] = {
    [KEPT] = {"kind 2, tables that keep the rule", 1600, 0},
    [COUNTED] = {"kind 2, a count at fault by itself", 50000, 0},
    [BY_ONE] = {"kind 2, with so few counts that they may be asked one by one", 10000, 0},
    [BORDERED] = {"kind 2, across the border of a block", 18000, 0},
    [WRAPPED] = {"kind 2, a sum that is beyond 32 bits", 180, 0},
    [FITTING] = {"kind 2, sums that just aren't", 60, 0},
    [ONE_LABEL] = {"kind 3, a label at fault by itself", 700, 0},
    [LATER] = {"kind 3, a later label at fault in an earlier cell", 150, 0},
    [BOTH] = {"kind 3, labels at fault in one cell", 350, 0},
    [KEPT_2] = {"kind 2, drawn, and no cell is low", 180, 0},
    [LOW_2] = {"kind 2, drawn and refused with 14", 80, 0},
    [KEPT_3] = {"kind 3, drawn, and no cell is low", 120, 0},
    [LOW_3] = {"kind 3, drawn and refused with 14", 100, 0},
};

/* ---- a certificate of the job, the picks and the cells */

static void lay(void) {
    put_job(&bytes, &job);
    length = lay_certificate(certificate, &job, picks, cells);
}

static uint8_t *laid_cell(uint32_t m) {
    return certificate + CERTIFICATE(job.weights.count, m);
}

/* It is refused for this cell. The tables are made so that nothing else can be the verdict. */
static void is_low_at(uint32_t m) {
    same("the verdict", 14, quabnester_check(bytes.at, bytes.length, certificate, length));
    same("the place", m, quabnester_check_detail(bytes.at, bytes.length, certificate, length));
}

/* One that claims the least it may is lowered, which is told, and put back. */
static void lower(uint32_t m) {
    put_at(laid_cell(m), cells[m] - 1);
    is_low_at(m);
    put_at(laid_cell(m), cells[m]);
}

/* The rule is kept; what the last cell claims may be another value than the picks'. */
static void is_kept(void) {
    uint32_t verdict = judged(&bytes, certificate, length);
    holds("that no cell is low", verdict == 0 || verdict == 15);
}

/* ---- kind 2: one budget of row 0 from which every count asks for more than from all others */

static void one_label(uint32_t weight, uint32_t value, uint32_t copies, uint32_t budget) {
    set_job(&job, KIND_COPIES, budget, 1, &weight, &value, &copies);
    picks[0] = 0;
}

/* What row 1 has to claim at least, if row 0 claims nothing but at one budget. */
static uint32_t least_after(uint32_t from, uint32_t c) {
    uint32_t weight = job.weights.at[0], value = job.values.at[0], most = job.copies.at[0], fits = c / weight, k = (c - from) / weight;
    if (c >= from && (c - from) % weight == 0 && k <= most) return cells[from] + k * value;
    return (fits < most ? fits : most) * value;
}

/* It claims no more than that, for a budget of row 0 from which all sums are greater than others. */
static void claim_from(uint32_t from) {
    uint32_t c, width = ROW(job.budget);
    for (c = 0; c < width; c++) cells[c] = c == from ? (job.copies.at[0] + 1) * MOST_VALUE : 0;
    for (c = 0; c < width; c++) cells[width + c] = least_after(from, c);
    lay();
}

/* The cell that a count from there asks for is lowered: no other count is at fault. */
static void lower_count(uint32_t from, uint32_t k) {
    uint32_t block = (job.copies.at[0] + 1) * job.weights.at[0], c = from + k * job.weights.at[0];
    lower(ROW(job.budget) + c);
    things[COUNTED].came++;
    things[BY_ONE].came += job.copies.at[0] <= STRETCH;
    things[BORDERED].came += from / block != c / block;
}

/* Each count from there, or one in `every`, and the last one. */
static void lower_counts(uint32_t from, uint32_t every) {
    uint32_t fits = (job.budget - from) / job.weights.at[0], most = job.copies.at[0], last = fits < most ? fits : most, k;
    for (k = from % every; k < last; k += every) lower_count(from, k);
    lower_count(from, last);
}

static void every_start(uint32_t every) {
    uint32_t from;
    about("many copies, budget", job.budget);
    for (from = 0; from <= job.budget; from++) {
        claim_from(from);
        if (from % every == 0) is_kept();
        things[KEPT].came += from % every == 0;
        lower_counts(from, every);
    }
}

/* Two blocks, one budget fewer or more, the second or third cut short, or all in one. */
static void blocks_of(uint32_t weight, uint32_t copies, uint32_t value) {
    uint32_t block = (copies + 1) * weight, every = 1 + block / 8, k;
    const uint32_t widths[] = {2 * block, 2 * block - 1, 2 * block + 1, block + block / 2, 2 * block + weight + 1, block};
    for (k = 0; k < sizeof widths / sizeof widths[0]; k++) {
        one_label(weight, value, copies, widths[k] - 1);
        every_start(every);
    }
}

static void many_copies(void) {
    static const uint32_t weights[] = {1, 2, 3, 7}, copies[] = {0, 1, STRETCH - 1, STRETCH, STRETCH + 1, 40};
    static const uint32_t values[] = {0, 1, 5, MOST_VALUE};
    uint32_t w, k;
    for (w = 0; w < 4; w++) {
        for (k = 0; k < 6; k++) blocks_of(weights[w], copies[k], values[(w + k) % 4]);
    }
    blocks_of(1, 300, 3);
    one_label(1, 2, MOST_COPIES, 60); /* more copies than fit */
    every_start(1);
    one_label(61, 2, 30, 60); /* a weight that doesn't fit */
    every_start(1);
}

/* ---- kind 2: sums about the greatest cell */

/* Row 1 claims as much as a cell can. From one budget `fits` values are just that much, and one more is beyond it: a fault where so many
 * copies are allowed and fit. */
static void beyond(uint32_t from, uint32_t fits) {
    uint32_t m, width = ROW(job.budget), next = from + (fits + 1) * job.weights.at[0];
    for (m = 0; m < 2 * width; m++) cells[m] = m < width ? 0 : UINT32_MAX;
    cells[from] = UINT32_MAX - fits * job.values.at[0];
    lay();
    if (fits < job.copies.at[0] && next <= job.budget) {
        is_low_at(width + next);
        things[WRAPPED].came++;
        return;
    }
    is_kept();
    things[FITTING].came++;
}

static void sums_beyond(void) {
    uint32_t from, fits, copies;
    about("sums beyond 32 bits", 0);
    for (copies = 3; copies <= 2 * STRETCH; copies += STRETCH - 3) {
        one_label(2, MOST_VALUE, copies, 4 * copies + 9);
        for (from = 0; from <= 4 * copies; from += copies) {
            for (fits = 0; fits <= copies; fits++) beyond(from, fits);
        }
    }
}

/* ---- kind 3: a cell from which every label asks for more than from all others, and those that follow from it */

static void any_number_of(uint32_t n, const uint32_t *weights, const uint32_t *values, uint32_t budget) {
    uint32_t i;
    set_job(&job, KIND_ANY, budget, n, weights, values, NULL);
    for (i = 0; i < n; i++) picks[i] = 0;
}

static void claim_row(uint32_t from) {
    uint32_t c;
    for (c = 0; c <= job.budget; c++) cells[c] = c == from ? HIGH : least_claim(&job, cells, c);
    lay();
}

/* All cells claim the least they may. Those about every border are lowered, the first that can be, and the last one. */
static void lower_borders(uint32_t lightest) {
    uint32_t border, c;
    about("a row of cells", ROW(job.budget));
    claim_row(0);
    is_kept();
    lower(lightest);
    lower(job.budget);
    for (border = BORDER; border <= job.budget; border += BORDER) {
        for (c = border - 2; c <= border + 2 && c <= job.budget; c++) {
            if (c >= lightest) lower(c);
        }
    }
}

/* Two labels, none of which is so many of the other, from some cell: each by itself, both in two cells, both in one. */
static void lower_labels(uint32_t from) {
    uint32_t first = from + job.weights.at[0], second = from + job.weights.at[1], both = first + job.weights.at[1];
    if (both > job.budget) return;
    claim_row(from);
    lower(first);
    lower(second);
    lower(both);
    things[ONE_LABEL].came += 2;
    things[BOTH].came++;
    put_at(laid_cell(first), cells[first] - 1);
    put_at(laid_cell(second), cells[second] - 1);
    is_low_at(second < first ? second : first);
    things[LATER].came += second < first;
}

/* About every fourth border one of the labels' cells is. */
static void labels_at_borders(void) {
    uint32_t border, i, d;
    about("labels, the first of weight", job.weights.at[0]);
    for (border = 4 * BORDER; border <= job.budget; border += 4 * BORDER) {
        for (i = 0; i < 2; i++) {
            for (d = 0; d < 3; d++) {
                if (border + d - 1 >= job.weights.at[i]) lower_labels(border + d - 1 - job.weights.at[i]);
            }
        }
    }
}

static void long_rows(void) {
    static const uint32_t lights[] = {1, 2, 7, BORDER - 1, BORDER, BORDER + 1, 4 * BORDER, 16 * BORDER + 1}, worth[] = {1, 5, 7};
    static const uint32_t pairs[][2] = {{3, 5}, {1000, 3}, {3, 1000}, {4097, 1023}, {1025, 4095}, {2047, 256}};
    uint32_t k;
    for (k = 0; k < sizeof lights / sizeof lights[0]; k++) {
        const uint32_t weights[MOST_N] = {lights[k], 3 * lights[k] + 1, MOST_ROW + 1}; /* the last never fits */
        any_number_of(1 + k % MOST_N, weights, worth, MOST_ROW - k);
        lower_borders(lights[k]);
    }
    for (k = 0; k < sizeof pairs / sizeof pairs[0]; k++) {
        any_number_of(2, pairs[k], worth, MOST_ROW);
        labels_at_borders();
    }
}

/* ---- drawn tables of both kinds */

enum { EACH = 300, START = 4000000 }; /* tables of each kind, and the number of the first one */

/* Few labels, most of them light; as many copies as fit, about, or fewer. */
static void draw_long(struct draw *draw, uint32_t kind) {
    uint32_t weights[MOST_N], values[MOST_N], copies[MOST_N], i, n = drawn(draw, 1, MOST_N);
    uint32_t budget = kind == KIND_ANY ? drawn(draw, 4 * BORDER, MOST_ROW) : drawn(draw, 50, MOST_C / MOST_N);
    for (i = 0; i < n; i++) {
        weights[i] = drawn(draw, LEAST_WEIGHT, chance(draw, 4) ? budget + 1 : 9);
        values[i] = drawn(draw, plain_kind(kind)->least_value, chance(draw, 4) ? MOST_VALUE : 9);
        copies[i] = drawn(draw, 0, chance(draw, 3) ? budget / weights[i] + 2 : 3 * STRETCH);
    }
    set_job(&job, kind, budget, n, weights, values, copies);
    put_job(&bytes, &job);
}

/* Claims that keep the rule, of which none is spoiled or some are; and no picks, or any. */
static void try_drawn(uint32_t kind, uint64_t number) {
    struct draw draw = {START + EACH * (kind - 1) + number};
    uint32_t verdict, i;
    about("long claims", draw.state);
    draw_long(&draw, kind);
    draw_table(&draw, &job, drawn(&draw, 5, 500), chance(&draw, 2) ? 4 : 999, cells);
    for (i = 0; i < MOST_N; i++) picks[i] = 0;
    if (chance(&draw, 3)) draw_any_picks(&draw, &job, picks);
    while (chance(&draw, 2)) spoil_claim(&draw, cells, claims_of(&job));
    lay();
    verdict = judged(&bytes, certificate, length);
    things[kind == KIND_ANY ? KEPT_3 : KEPT_2].came += verdict == 0 || verdict == 15;
    things[kind == KIND_ANY ? LOW_3 : LOW_2].came += verdict == 14;
}

void part_claims_long(void) {
    uint64_t number;
    many_copies();
    sums_beyond();
    long_rows();
    for (number = 0; number < EACH; number++) try_drawn(KIND_COPIES, number);
    for (number = 0; number < EACH; number++) try_drawn(KIND_ANY, number);
    hold_things("long claims", things, THINGS);
}
