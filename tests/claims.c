/* Small tables of claims that nobody solved: drawn near what rule 14 asks for, with claims too high and too low, and with lists that break
 * the rules now and then. The checker says what the second program says, and each verdict comes up for each kind. */
#include "calls.h"
#include "claim.h"
#include "parts.h"
#include "tell.h"
#include <stdio.h>
#include <string.h>

enum { EACH = 20000, START = 1000000 };                                    /* tables of each kind, and the number of the first one */
enum { MOST_N = 4, MOST_C = 10, MOST_CELLS = FULL_TABLE(MOST_N, MOST_C) }; /* small, so that each verdict comes up */

static struct job job;
static struct bytes bytes, certificate;
static uint32_t picks[MOST_N], cells[MOST_CELLS];

/* By kind: the verdicts, those on claims above the truth that are accepted, and picks of a label that has no copies. */
static struct { unsigned long verdicts[LAST_REFUSAL + 1], above, no_copies; } came[LAST_CHECKED_KIND + 1];

/* The list that the second program finds best, or any; now and then with one pick more than is allowed, or many more. */
static void draw_picks(struct draw *draw) {
    struct plain_room room = room_of(&job, FULL_WAY);
    uint32_t n = job.weights.count, label, most;
    memcpy(picks, expected_of(&bytes, FULL_WAY, &room)->picks, n * sizeof picks[0]);
    if (chance(draw, 4)) draw_any_picks(draw, &job, picks);
    if (n == 0 || !chance(draw, 12)) return;
    label = drawn(draw, 0, n - 1);
    most = most_picked(&job, label);
    picks[label] = chance(draw, 2) ? most + 1 : drawn(draw, most + 1, UINT32_MAX);
    came[job.kind].no_copies += most == 0;
}

static void try_table(uint32_t kind, uint64_t number) {
    struct draw draw = {START + EACH * (kind - 1) + number};
    uint32_t verdict;
    int higher;
    about("claims", draw.state);
    draw_job(&draw, kind, MOST_N, MOST_C, &job);
    put_job(&bytes, &job);
    higher = draw_table(&draw, &job, chance(&draw, 2) ? 1000 : drawn(&draw, 2, 30), 4, cells);
    draw_picks(&draw);
    while (chance(&draw, 3)) spoil_claim(&draw, cells, claims_of(&job));
    if (chance(&draw, 3)) cells[claims_of(&job) - 1] = value_of_picks(&job, picks);
    put_certificate(&certificate, &job, picks, cells);
    verdict = judged(&bytes, certificate.at, certificate.length);
    came[kind].verdicts[verdict <= LAST_REFUSAL ? verdict : 1]++;
    came[kind].above += verdict == 0 && higher;
}

static void came_up(uint32_t kind) {
    static const int numbers[] = {0, 12, 13, 14, 15};
    const unsigned long *verdicts = came[kind].verdicts;
    size_t k;
    for (k = 0; k < sizeof numbers / sizeof numbers[0]; k++) {
        about("claims with verdict", (uint64_t)numbers[k]);
        holds("that it came up", verdicts[numbers[k]] > 0);
    }
    about("claims, kind", kind);
    holds("that claims above the truth were accepted", came[kind].above > 0);
    holds("that labels without copies were picked", kind != KIND_COPIES || came[kind].no_copies > 0);
    printf("claims, kind %d: %d tables; accepted %lu, with claims above the truth %lu; refused with 12 to 15: %lu %lu %lu %lu\n", (int)kind,
           EACH, verdicts[0], came[kind].above, verdicts[12], verdicts[13], verdicts[14], verdicts[15]);
}

void part_claims(void) {
    uint32_t kind;
    uint64_t number;
    for (kind = 1; kind <= LAST_CHECKED_KIND; kind++) {
        for (number = 0; number < EACH; number++) try_table(kind, number);
        came_up(kind);
    }
}
