/* The column that K7 is about, of 3,700 labels: in each kind that may have so many it is answered as the second program's tables have it,
 * whole slices, and in both ways. Its labels are light, so that many are kept, but in kind 3, where one is kept many times; or any, so that
 * most aren't. In kind 9 all of them remain, worth 0 or 1, or most are left aside and the others' values are cut; it has its share. */
#include "calls.h"
#include "draw.h"
#include "parts.h"
#include "tell.h"
#include <stdio.h>

enum { COLUMN = 3700 };

/* The greatest budget for which the second program has room for a row for each number of labels. */
enum { TABLE_BUDGET = PLAIN_CELLS / (COLUMN + 1) - 1 };

static const struct column {
    uint32_t kind, budget, q;
    uint32_t lightest, heaviest, dearest; /* weights from the one to the other, values up to the last */
    uint32_t worth_in;                    /* of so many labels one may be worth more than the least */
    uint32_t kept;                        /* so many are kept at least, in a kind that tells which */
} columns[] = {
    {KIND_ONCE, TABLE_BUDGET, LEAST_Q, 1, 3, MOST_VALUE, 1, 500},
    {KIND_ONCE, TABLE_BUDGET, LEAST_Q, 1, 2 * TABLE_BUDGET, 999, 3, 20},
    {KIND_COPIES, TABLE_BUDGET, LEAST_Q, 1, 3, 999, 1, 100},
    {KIND_COPIES, TABLE_BUDGET, LEAST_Q, 1, 2 * TABLE_BUDGET, MOST_VALUE, 3, 9},
    {KIND_ANY, TABLE_BUDGET, LEAST_Q, 200, 600, 3, 1, 2},
    {KIND_ANY, TABLE_BUDGET, LEAST_Q, 1, 9, 1, 1, 1},
    {KIND_SUMS, MOST_BUDGET, LEAST_Q, 1, 40, 0, 1, 0},
    {KIND_SUMS, 9999, LEAST_Q, 1, MOST_BUDGET, 0, 1, 0},
    {KIND_LABELS_BEHIND, MOST_BUDGET, LEAST_Q, 1, 40, 0, 1, 3000},
    {KIND_LABELS_BEHIND, 9999, LEAST_Q, 1, MOST_BUDGET, 0, 1, 2},
    {KIND_STATED_SHARE, 900, LEAST_Q, 1, 3, 1, 2, 300},
    {KIND_STATED_SHARE, 999, 10, 1, 60 * 999, MOST_VALUE, 1, 2},
};

static struct job job;
static struct bytes bytes;
static unsigned long all_kept;

static void draw_column(const struct column *column, struct draw *draw) {
    uint32_t i, least = plain_kind(column->kind)->least_value;
    uint32_t weights[COLUMN], values[COLUMN], copies[COLUMN];
    for (i = 0; i < COLUMN; i++) {
        weights[i] = drawn(draw, column->lightest, column->heaviest);
        values[i] = i % column->worth_in == 0 ? drawn(draw, least, GREATER(least, column->dearest)) : least;
        copies[i] = drawn(draw, LEAST_COPIES, 9);
    }
    set_job(&job, column->kind, column->budget, COLUMN, weights, values, copies);
    job.q = column->q;
}

/* Kind 9 has its share of the best, which a table of kind 1 tells. What is expected is gone after it. */
static void has_its_share(const struct plain_answer *answer) {
    enum best_by by;
    is_below_best(&bytes, answer, &by);
    same("how the best was found", BY_TABLE, by);
}

static void try_column(const struct column *column, uint64_t number) {
    struct draw draw = {COLUMN + number};
    struct plain_room lengths[PLAIN_WAYS];
    const struct plain_answer *answer;
    about("column", number);
    draw_column(column, &draw);
    lengths[LIGHT_WAY] = room_of(&job, LIGHT_WAY);
    lengths[FULL_WAY] = room_of(&job, FULL_WAY);
    put_job(&bytes, &job);
    answer = try_both_ways(&bytes, lengths, number).of[LIGHT_WAY];
    same("the second program's refusal", 0, answer->refused);
    if (plain_kind(job.kind)->picks) holds("that so many labels are kept", labels_kept(answer) >= column->kept);
    all_kept += labels_kept(answer);
    if (job.kind == KIND_STATED_SHARE) has_its_share(answer);
}

void part_column(void) {
    size_t k;
    for (k = 0; k < sizeof columns / sizeof columns[0]; k++) try_column(&columns[k], k);
    printf("column: %d jobs of %d labels, of which %lu are kept in all\n", (int)k, COLUMN, all_kept);
}
