/* The writer, for each kind: its refusals in order, each slice one too short, and what it writes, of slices that are long enough or
 * longer. */
#include "calls.h"
#include "draw.h"
#include "parts.h"
#include "tell.h"
#include <stdio.h>
#include <string.h>

enum { N = CASE_A_LABELS, MOST_CELLS = CASE_A_CELLS };

/* any numbers: the writer doesn't judge */
static uint32_t picks[N + 2], cells[MOST_CELLS + 2];
static struct job job;
static struct bytes bytes, expected;
static unsigned long tried, refused;

static void any_numbers(void) {
    struct draw draw = {3};
    uint32_t i;
    for (i = 0; i < N + 2; i++) picks[i] = drawn(&draw, 0, UINT32_MAX);
    for (i = 0; i < MOST_CELLS + 2; i++) cells[i] = drawn(&draw, 0, UINT32_MAX);
}

/* Case A as a job of a kind, and how many cells and bytes its certificate has; kind 3 has a row in place of the table. */
static uint32_t needed_cells;
static size_t needed_bytes;

static void fresh(uint32_t kind) {
    case_a(&job, kind);
    put_job(&bytes, &job);
    put_certificate(&expected, &job, picks, cells);
    needed_cells = kind == KIND_ANY ? ROW(CASE_A_BUDGET) : MOST_CELLS;
    needed_bytes = CERTIFICATE(N, needed_cells);
}

static void is_turned_down(size_t picks_len, size_t cells_len, size_t out_len, uint32_t number) {
    struct written written;
    about("write", tried++);
    refused++;
    write_out(&written, &bytes, picks, picks_len, cells, cells_len, out_len);
    same("the second program", number, plain_write_refusal(bytes.at, bytes.length, picks_len, cells_len, out_len));
    same("the refusal", number, written.refused);
    same("the bytes written", 0, written.bytes);
    holds("what stood in the slice", kept_from(&written.out, 0));
    give_back(&written.out);
}

static void is_written(size_t picks_len, size_t cells_len, size_t out_len) {
    struct written written;
    about("write", tried++);
    write_out(&written, &bytes, picks, picks_len, cells, cells_len, out_len);
    same("the second program", 0, plain_write_refusal(bytes.at, bytes.length, picks_len, cells_len, out_len));
    same("the refusal", 0, written.refused);
    same("the bytes written", needed_bytes, written.bytes);
    same("the second program's bytes", needed_bytes, expected.length);
    holds("the certificate", memcmp(written.out.slice, expected.at, needed_bytes) == 0);
    holds("what the slice held past it", kept_from(&written.out, needed_bytes));
    give_back(&written.out);
}

/* Bits of a mask, in the order of refusals: the job's faults, and slices that are one too short. */
enum { BAD_BYTES, BAD_KIND, BAD_LENGTHS, BAD_BUDGET, BAD_VALUE, FEW_PICKS, FEW_CELLS, FEW_BYTES, BITS };
static const uint32_t refusals[BITS] = {
    [BAD_BYTES] = 1, [BAD_KIND] = 2,  [BAD_LENGTHS] = 3, [BAD_BUDGET] = 4,
    [BAD_VALUE] = 5, [FEW_PICKS] = 6, [FEW_CELLS] = 6,   [FEW_BYTES] = 6,
};

static unsigned has(unsigned mask, int bit) {
    return mask >> bit & 1;
}

/* Case A with the faults of a mask. */
static void try_faults(uint32_t kind, unsigned mask) {
    int lowest = 0;
    fresh(kind);
    if (has(mask, BAD_KIND)) job.kind = has(mask, BAD_LENGTHS) ? 0 : LAST_CHECKED_KIND + 1;
    if (has(mask, BAD_LENGTHS)) set_list(&job.copies, 1, picks);
    if (has(mask, BAD_BUDGET)) job.budget = MOST_BUDGET + 1;
    if (has(mask, BAD_VALUE)) job.values.at[2] = MOST_VALUE + 1;
    put_job(&bytes, &job);
    if (has(mask, BAD_BYTES)) bytes.length--;
    if (mask == 0) {
        is_written(N, needed_cells, needed_bytes);
        return;
    }
    while (!has(mask, lowest)) lowest++;
    is_turned_down(N - has(mask, FEW_PICKS), needed_cells - has(mask, FEW_CELLS), needed_bytes - has(mask, FEW_BYTES), refusals[lowest]);
}

/* Slices that are longer; the cells as long as the table, where a row is read, and longer than that. */
static void try_longer(uint32_t kind) {
    uint32_t more;
    fresh(kind);
    for (more = 0; more < 8; more++) is_written(N + (more & 1), needed_cells + (more >> 1 & 1), needed_bytes + 5 * (more >> 2));
    for (more = 0; more <= 2; more++) is_written(N, MOST_CELLS + more, CASE_A_CERTIFICATE);
}

/* The most labels, for which these slices are too short, and one more. */
static void most_labels(uint32_t kind) {
    uint32_t n;
    for (n = MOST_LABELS; n <= MOST_LABELS + 1; n++) {
        alike_labels(&job, kind, n, CASE_A_BUDGET);
        put_job(&bytes, &job);
        is_turned_down(N, MOST_CELLS, CASE_A_CERTIFICATE, n <= MOST_LABELS ? 6 : 4);
    }
}

/* One budget where the kind has two, or two where it has one: the bytes can't be read, and the kind isn't asked for. */
static void other_budgets(uint32_t kind) {
    fresh(kind);
    job.budgets = 3 - BUDGETS_OF(kind);
    put_job(&bytes, &job);
    is_turned_down(N, MOST_CELLS, CASE_A_CERTIFICATE, 1);
}

void part_write(void) {
    unsigned mask;
    uint32_t kind;
    any_numbers();
    for (kind = 1; kind <= LAST_CHECKED_KIND; kind++) {
        for (mask = 0; mask < 1u << BITS; mask++) try_faults(kind, mask);
        try_longer(kind);
        most_labels(kind);
    }
    for (kind = LAST_CHECKED_KIND + 1; kind <= LAST_KIND + 1; kind++) {
        fresh(kind);
        is_turned_down(N, MOST_CELLS, CASE_A_CERTIFICATE, 2);
    }
    for (kind = 0; kind <= LAST_KIND + 1; kind++) other_budgets(kind);
    printf("write: %lu calls, %lu refused\n", tried, refused);
}
