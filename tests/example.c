/* A worked call: three labels that weigh 3, 4 and 5 and are worth 4, 5 and 6, with a budget of 7 (document 01's case A). Solves the job,
 * writes the certificate of the answer, and has it checked. A certificate of kind 1 is written from the full table, so it is solved in the
 * full way. Then the quick answer, for the same labels. tests/example.out is what it prints. */
#include "quabnester.h"
#include <stdio.h>
#include <stdlib.h>

enum { KIND = QUABNESTER_KIND_ONCE, LABELS = 3, BUDGET = 7 };

/* each section is a count and its numbers, four bytes each, lowest first */
static const uint8_t job[] = {
    1,      0, 0, 0, KIND,   0, 0, 0,                         /* kinds: 1 */
    1,      0, 0, 0, BUDGET, 0, 0, 0,                         /* budgets: 7 */
    LABELS, 0, 0, 0, 3,      0, 0, 0, 4, 0, 0, 0, 5, 0, 0, 0, /* weights */
    LABELS, 0, 0, 0, 4,      0, 0, 0, 5, 0, 0, 0, 6, 0, 0, 0, /* values */
    0,      0, 0, 0                                           /* copies: none */
};

/* What the job needs, as the header has it. */
static size_t cells_len, picks_len, certificate_len;
static uint32_t *cells, *picks;
static uint8_t *certificate;

static int has_room(void) {
    cells_len = (size_t)quabnester_full_cells_needed(KIND, LABELS, BUDGET);
    picks_len = (size_t)quabnester_picks_needed(KIND, LABELS, BUDGET);
    certificate_len = (size_t)quabnester_certificate_bytes(KIND, LABELS, BUDGET);
    cells = malloc(cells_len * sizeof *cells);
    picks = malloc(picks_len * sizeof *picks);
    certificate = malloc(certificate_len);
    return cells != NULL && picks != NULL && certificate != NULL && sizeof job == quabnester_job_bytes(LABELS, LABELS, 0);
}

/* Solves the job, and writes the certificate of the answer: 0 or a refusal number. */
static uint32_t solve_and_write(void) {
    uint64_t value, weight, written;
    uint32_t refused = quabnester_solve_full(job, sizeof job, cells, cells_len, NULL, 0, picks, picks_len, &value, &weight);
    if (refused != QUABNESTER_NOT_REFUSED) return refused;
    printf("value %d, weight %d, picks %d %d %d\n", (int)value, (int)weight, (int)picks[0], (int)picks[1], (int)picks[2]);

    refused = quabnester_write(job, sizeof job, picks, picks_len, cells, cells_len, certificate, certificate_len, &written);
    if (refused != QUABNESTER_NOT_REFUSED) return refused;
    printf("certificate of %d bytes\n", (int)written);
    return refused;
}

/* Has it checked, and then with label 0 no longer kept: what is left is worth 5, and the table claims 9. */
static int is_checked(void) {
    uint32_t refused = quabnester_check(job, sizeof job, certificate, certificate_len), other;
    uint64_t detail = quabnester_check_detail(job, sizeof job, certificate, certificate_len);
    printf("refusal %d, value %d\n", (int)refused, (int)detail);

    certificate[4] = 0;
    other = quabnester_check(job, sizeof job, certificate, certificate_len);
    printf("another list: refusal %d\n", (int)other);
    return refused == QUABNESTER_NOT_REFUSED && other == QUABNESTER_REFUSED_VALUE;
}

/* The same labels as lists, where half of the best is enough: two keep lists, and no table. */
static uint32_t answer_quickly(void) {
    static const uint32_t weights[LABELS] = {3, 4, 5}, values[LABELS] = {4, 5, 6};
    uint32_t greedy[LABELS], single[LABELS], which;
    uint64_t value;
    uint32_t refused = quabnester_quick(BUDGET, weights, LABELS, values, LABELS, greedy, LABELS, single, LABELS, &which, &value);
    if (refused != QUABNESTER_NOT_REFUSED) return refused;
    printf("quick: list %d, value %d\n", (int)which, (int)value);
    return refused;
}

int main(void) {
    int well = has_room() && solve_and_write() == QUABNESTER_NOT_REFUSED && is_checked() && answer_quickly() == QUABNESTER_NOT_REFUSED;
    if (!well) printf("not as it has to be\n");
    free(certificate);
    free(picks);
    free(cells);
    return well ? 0 : 1;
}
