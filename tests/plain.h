/* Document 01's second program: what the entries have to answer and to leave in the lent slices, for every kind, as simple as can be.
 * It was written from the documents and include/quabnester.h, and not from the planner's sources. */
#ifndef PLAIN_H
#define PLAIN_H

#include "bounds.h"
#include <stddef.h>
#include <stdint.h>

/* ---- job bytes (plain.c) */

struct plain_list {
    const uint8_t *bytes;
    uint32_t count;
};

struct plain_job {
    uint32_t kind, budget, q; /* q is 0 in a kind that has none */
    struct plain_list weights, values, copies;
};

/* The four bytes at a place as a number, lowest byte first; and number i of a list. */
uint32_t plain_number(const uint8_t *bytes);
uint32_t plain_item(struct plain_list list, uint32_t i);

/* What a list's numbers sum to; 64 bits hold the sum of any list. */
uint64_t plain_sum(struct plain_list list);

/* Reads a count and its section at `*at` and moves on behind them; 0 if either runs past the end. */
int plain_section(const uint8_t *bytes, size_t length, size_t *at, struct plain_list *list);

/* Whether job bytes can be read. How many budgets there have to be goes by the kind number, whatever that is. */
int plain_read(const uint8_t *bytes, size_t length, struct plain_job *job);

/* ---- what a kind is (plain.c) */

/* The lists that it uses beside the weights, whether it has picks, and the rules of its numbers: a kind more is a line more of this table.
 */
struct plain_kind {
    int values, copies, picks;
    uint32_t most_labels, most_budget, least_weight, least_value;
    int ascending; /* the weights are sizes */
};

/* What is said of a kind; of one that there isn't, that it has the labels of kind 1 and no lists but weights. */
const struct plain_kind *plain_kind(uint32_t kind);

struct plain_room {
    uint64_t cells, words, picks;
};

/* The two ways of kind 1 (K4). The light one is lent a row, and a bit for each label and budget; the full one the whole table. All else is
 * the same, and in all other kinds everything is. */
enum plain_way { LIGHT_WAY, FULL_WAY, PLAIN_WAYS };

/* What a job needs in a way if it isn't refused with 2 to 5: by its kind, n and C, and in kind 9 by q and its lists, too. */
struct plain_room plain_room(const struct plain_job *job, enum plain_way way);

/* The picks and cells of its certificate, and the bytes; of a kind that has none, as if it were kind 1. */
struct plain_room plain_certificate_room(const struct plain_job *job);
uint64_t plain_certificate_bytes(const struct plain_job *job);

/* ---- refusals (plain.c) */

/* The lowest of 2 to 5 that applies, or 0. `last_kind` is the last kind there is for the entry. */
uint32_t plain_job_refusal(const struct plain_job *job, uint32_t last_kind);

/* The lowest of 1 to 6 and 9 that applies to the solver in a way, or 0; 7 and 8 aren't asked. */
uint32_t plain_solve_refusal(const uint8_t *job, size_t job_len, const struct plain_room *lent, enum plain_way way);

/* The lowest of 1 to 6 that applies to the writer, or 0. */
uint32_t plain_write_refusal(const uint8_t *job, size_t job_len, size_t picks, size_t cells, size_t out);

/* ---- kind 9, of K6: labels that weigh more than C are left aside, and values are cut (plain_stated.c) */

/* The job's other labels, m of them, in their order, with their cut values, and what these sum to. */
struct plain_stated {
    uint32_t m, divisor, label[MOST_LABELS], weight[MOST_LABELS], cut[MOST_LABELS];
    uint64_t total;
};

/* Of a job of kind 9 that isn't refused with 3 to 5. */
void plain_state(const struct plain_job *job, struct plain_stated *stated);

/* ---- answers, of jobs that aren't refused with 1 to 6 or 9 */

enum {
    PLAIN_CELLS = FULL_TABLE(MOST_SIZES, MOST_BUDGET), /* of a table that is compared whole, or made on the way to a row */
    PLAIN_WORDS = GREATER(ROW(MOST_BUDGET), PLAIN_CELLS / WORD_BITS + MOST_LABELS), /* those of kind 6, or with a bit for each such cell */
    PLAIN_PICKS = MOST_IN_LIST
};

struct plain_answer {
    uint32_t refused; /* 0, 7 or 8; the caller sets the others */
    uint64_t first, second;
    struct plain_room filled; /* so many places of each slice are written, with what stands here */
    uint32_t cells[PLAIN_CELLS], picks[PLAIN_PICKS];
    uint64_t words[PLAIN_WORDS];
    uint64_t as_good; /* how many lists are as good as the picks, they among them; 0 where that wasn't counted */
    int tried;        /* whether every selection was tried */
};

/* An answer of nothing, for a refusal with this number; or for 0, with the places that the job fills in a way. */
void plain_start(struct plain_answer *answer, const struct plain_job *job, uint32_t refused, enum plain_way way);

/* What kind 1 answers in the light way, by what K4 says of each bit: of the answer in the full way, of which each cell is a small job. The
 * answers below are all in the full way. */
void plain_light(const struct plain_job *job, const struct plain_answer *full, struct plain_answer *light);

/* How often label k may be taken. */
uint64_t plain_most(const struct plain_job *job, uint32_t k);

/* All kinds but 7 by trying every selection (plain_try.c), each place of the table as a small job of its own. Answers 0 where there are too
 * many selections, and then the answer says nothing. */
int plain_try(const struct plain_job *job, struct plain_answer *answer);

/* Kind 1's best value alone, by one look at every selection. Answers 0 where there are too many labels. */
int plain_try_best(const struct plain_job *job, uint64_t *best);

/* A tie rule: labels are read from the last to the first, or from the first on; each count is as small, or as great, as it can be. */
struct plain_rule {
    int from_last, small;
};

/* The rule of a kind, and the picks that any rule names among the best, of a job that was tried. */
struct plain_rule plain_rule(uint32_t kind);
void plain_picks(const struct plain_job *job, struct plain_rule rule, uint32_t *picks);

/* All kinds but 7 by plain tables (plain_table.c), and whether there is room for them. */
int plain_has_room(const struct plain_job *job);
void plain_table(const struct plain_job *job, struct plain_answer *answer);

/* The row of one label more than the row before it has, label k, in kinds 1 and 2. */
void plain_next_row(const struct plain_job *job, uint32_t k, const uint32_t *before, uint32_t *row);

/* Kind 7 by a sort (plain_share.c). */
void plain_share(const struct plain_job *job, struct plain_answer *answer);

/* ---- the quick answer for kind 1, of K5 (plain_quick.c) */

struct plain_quick {
    uint32_t refused;                                 /* 0, or the lowest of 3 to 6 that applies */
    uint32_t which;                                   /* the list that is handed back: 1 or 2, or 0 on a refusal */
    uint64_t value;                                   /* what that list is worth */
    size_t filled;                                    /* so many places of each list are written, with what stands here */
    uint32_t first[PLAIN_PICKS], second[PLAIN_PICKS]; /* the greedy list, and the single label */
};

/* The answer on two lists of these lengths. The job is one of kind 1, whatever number it has for its kind. */
void plain_quick(const struct plain_job *job, size_t first, size_t second, struct plain_quick *answer);

/* Whether label a comes before label b: it has more value per weight, or as much and the lower number. */
int plain_comes_first(const struct plain_job *job, uint32_t a, uint32_t b);

/* What the numbers of the labels on a list sum to: their weights or values. */
uint64_t plain_listed(struct plain_list numbers, const uint32_t *list);

/* ---- certificates (plain_check.c) */

struct plain_verdict {
    uint32_t number;
    uint64_t detail;
};

/* Whether cell m is too low by rule 14, which is asked count by count and label by label. */
int plain_low(const struct plain_job *job, const uint8_t *cells, uint64_t m);

/* The verdict. In kinds 1 and 2 a row's greatest sums are moved along, so that many copies take no longer than few. */
struct plain_verdict plain_check(const uint8_t *job, size_t job_len, const uint8_t *certificate, size_t length);

/* The same with each cell asked by `plain_low`. Answers 0 where there are too many counts, and then the verdict says nothing. */
int plain_check_counts(const uint8_t *job, size_t job_len, const uint8_t *certificate, size_t length, struct plain_verdict *verdict);

#endif
