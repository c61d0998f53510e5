/* The entries, called on lent slices or beside document 01's second program. */
#ifndef CALLS_H
#define CALLS_H

#include "jobs.h"
#include "lent.h"
#include "plain.h"
#include "quabnester.h"

/* Whether two slices hold the same elements of a size, as far as they are filled; the first that differs is told. */
int same_content(const char *what, const void *expected, const void *got, size_t count, size_t size);

/* What the second program reads in job bytes that were put together here. Ends the tests where it can't read them. */
void read_back(const struct bytes *bytes, struct plain_job *job);

/* ---- the solver */

/* The entry of a way, on slices as long as these lengths: quabnester_solve is the light one, quabnester_solve_full the full one. */
uint32_t solve_in(enum plain_way way, const uint8_t *job, size_t job_len, const struct plain_room *lengths, uint32_t *cells,
                  uint64_t *words, uint32_t *picks, uint64_t *first, uint64_t *second);

struct solved {
    enum plain_way way;
    struct lent job, cells, words, picks;
    uint64_t first, second;
    uint32_t refused;
};

/* Solves a job in a way, at an odd address, with dirty slices of these lengths, which `give_back_solved` frees. */
void solve(struct solved *solved, const struct bytes *job, enum plain_way way, const struct plain_room *lengths, uint64_t salt);
void give_back_solved(struct solved *solved);

/* The slices past the needed places, and all round them, are as they were. */
void kept_the_rest(const struct solved *solved, const struct plain_room *needed);

/* What the second program answers in a way: by its tables, or its sort, and where the job is small enough by trying every selection as
 * well; then the two have to say the same. The answer is there until the next call. Ends the tests where its tables have no room. */
const struct plain_answer *expected_of(const struct bytes *job, enum plain_way way, const struct plain_room *lengths);

/* The answer is the expected one, and the slices are, whole: what is filled of them, then what was there. Where it isn't so, the job is
 * told too, as crates/trials/stdin would list it. */
void answers(const struct solved *solved, const struct bytes *job, const struct plain_answer *expected);

/* All of that: what is expected is answered. */
const struct plain_answer *try_job(const struct bytes *job, enum plain_way way, const struct plain_room *lengths, uint64_t salt);

/* So it is in both ways, each on slices of its own lengths; and where neither is refused with 6, they give the same refusal, numbers and
 * picks. Answers what is expected of each. */
struct both_ways {
    const struct plain_answer *of[PLAIN_WAYS];
};
struct both_ways try_both_ways(const struct bytes *job, const struct plain_room lengths[PLAIN_WAYS], uint64_t salt);

/* How many labels are kept, however often. */
uint32_t labels_kept(const struct plain_answer *answer);

/* Whether another tie rule than the kind's names other picks than these, of a job that was tried. Rule 1 reads the labels the other way
 * round, rule 2 wants the other counts, rule 3 does both. */
enum { RULES = 4 };
int other_rule_tells(const struct plain_job *job, int other, const uint32_t *picks);

/* ---- kinds 4 and 8, asked the same */

/* Whether the bytes are a job of kind 4 or 8 that isn't refused with 3 to 5, and so can be asked as both. */
int asks_for_a_total(const struct bytes *job);

/* Asked as both it is answered alike: of each total up to C, of how many are reached, and of C. Answers whether C is reached. */
int agree_on_totals(const struct bytes *job);

/* ---- kind 9, beside the best of kind 1 */

/* How the best value was found: by trying every selection, by a table, or not, where there are too many selections and no room. */
enum best_by { NO_BEST, BY_TRYING, BY_TABLE };

/* Whether what kind 9 answered is below the best value of the same job of kind 1; and q times the answer has to be q-1 times that value or
 * more. The answer is one of kind 9, and what it points at may be gone after the call. */
int is_below_best(const struct bytes *job, const struct plain_answer *answer, enum best_by *by);

/* ---- the quick answer (calls_quick.c) */

struct quick {
    struct lent weights, values, first, second;
    uint64_t value;
    uint32_t refused, which;
};

/* Asks for it, with dirty lists of these lengths, and weights and values that end where the job's do. `give_back_quick` frees them. */
void ask_quick(struct quick *quick, const struct job *job, size_t first_len, size_t second_len, uint64_t salt);
void give_back_quick(struct quick *quick);

/* What is asked is answered as the second program has it, both lists whole; and what is only read is as it was. Where it isn't so, the job
 * is told too, as crates/trials/stdin would list it. Answers what is expected, which is there until the next call. */
const struct plain_quick *try_quick(const struct job *job, size_t first_len, size_t second_len, uint64_t salt);

/* ---- the writer */

struct written {
    struct lent out;
    uint64_t bytes;
    uint32_t refused;
};

void write_out(struct written *written, const struct bytes *job, const uint32_t *picks, size_t picks_len, const uint32_t *cells,
               size_t cells_len, size_t out_len);

/* ---- the checker */

/* Both entries say what the second program says, and where it can it says so in two ways. Answers the number. */
uint32_t judged(const struct bytes *job, const uint8_t *certificate, size_t length);

/* So they do, and that is this verdict; and they do so at odd addresses too, and leave the bytes as they are. */
void verdict_is(const struct bytes *job, const struct bytes *certificate, uint32_t number, uint64_t detail);

#endif
