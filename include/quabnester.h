/* Quabnester from C: solve a job, write a certificate of a keep list, check one; and a quick answer that needs no table.
 * C99, and usable from C++.
 *
 * What is said below of an entry's numbers and of the slices that it is lent is proved of the code that is called
 * (crates/host, docs/STATEMENTS.md), for a caller who keeps the duties. What is said of C itself is not, since no proof
 * sees C: null pointers are tried by tests/empty.c, and threads rest on there being nothing that calls share. Nor are this
 * header's own constants and functions: tests/header.c holds them to the library. 'Document 01' has the words behind each
 * promise. tests/example.c is a worked call: it solves a job, writes its certificate and has that checked.
 *
 * THE CALLER'S DUTIES. Nothing is assumed of what the slices hold: any bytes, any numbers. C itself asks this much:
 * - A slice is a pointer and a length in elements. It points at so many elements, aligned for their type, and
 *   writable where the pointer isn't to const. A length of 0 may come with any pointer, null too.
 * - A pointer that comes without a length is to one number that the call gives: *first and *second of what solves,
 *   *written, *which, *value. It isn't null; it is aligned and writable.
 * - What a call writes (slices that aren't const, and these numbers) overlaps nothing else that it is given. So the two
 *   lists of quabnester_quick lie apart from each other. Slices that are only read may overlap each other.
 * - While a call runs, nobody else writes what it was given, and nobody else reads what it writes.
 * Calls allocate nothing and keep nothing between them, so they may run in several threads at once.
 *
 * JOB BYTES. Five sections in this order, each after its count: kinds, budgets, weights, values, copies. A count and
 * every number is 32 bits, lowest byte first, on any machine and at any address. The first count is 1. The second is 1,
 * for C, the budget; where the number of the kind is 9 it is 2, for C and then q. A list that the kind doesn't use has
 * count 0. Labels are numbered from 0; n is the count of weights. quabnester_job_bytes_of says how many bytes that are.
 *
 * CERTIFICATE BYTES, for kinds 1 to 3. Two sections in the same form: the picks, then the cells.
 *     a count                              n
 *     n numbers                            the picks: how often each label is kept; in kind 1 that is 0 or 1
 *     a count                              as many as quabnester_full_cells_needed says: (n+1)(C+1), or C+1 in kind 3
 *     so many numbers                      the cells: cell i(C+1)+c claims a value that the first i labels can't beat
 *                                          with budget c; in kind 3 cell c claims one that no labels can beat with it
 * quabnester_certificate_bytes says how many bytes that are: up to 1,074,020,360 in kinds 1 and 2, with the most labels
 * and the greatest budget.
 */
#ifndef QUABNESTER_H
#define QUABNESTER_H

#include <stddef.h>
#include <stdint.h>

#ifdef __cplusplus
extern "C" {
#endif

/* ---- VERSION, of this header and of the library that it comes with. The first number goes up where a call that was
 * answered is refused or gets another answer, the second where one is answered that was refused, or an entry is added, and
 * the third where no promise has changed. */

#define QUABNESTER_VERSION_MAJOR 2
#define QUABNESTER_VERSION_MINOR 3
#define QUABNESTER_VERSION_PATCH 0

/* As one number, which grows with each version, and as text: "2.3.0" and the like. */
#define QUABNESTER_VERSION_NUMBER                                                                                          \
    (QUABNESTER_VERSION_MAJOR * 1000000 + QUABNESTER_VERSION_MINOR * 1000 + QUABNESTER_VERSION_PATCH)
#define QUABNESTER_VERSION_STRING                                                                                          \
    QUABNESTER_TEXT_(QUABNESTER_VERSION_MAJOR)                                                                             \
    "." QUABNESTER_TEXT_(QUABNESTER_VERSION_MINOR) "." QUABNESTER_TEXT_(QUABNESTER_VERSION_PATCH)
#define QUABNESTER_TEXT_(number) QUABNESTER_AS_IT_STANDS_(number)
#define QUABNESTER_AS_IT_STANDS_(words) #words

/* ---- KINDS of job. What each answers is said at quabnester_solve. Kind 1 has two ways: quabnester_solve leaves a
 * light table, quabnester_solve_full the full one, which a certificate is written from. Other kinds have one way. Where
 * half of the best value is enough, quabnester_quick answers kind 1 without a table. Where q-1 parts of q are, with a q
 * from 2 to 100, kind 9 answers it with a table that has a row of totals of values in place of budgets. */

#define QUABNESTER_KIND_ONCE 1          /* each label at most once */
#define QUABNESTER_KIND_COPIES 2        /* label i at most copies[i] times */
#define QUABNESTER_KIND_ANY 3           /* any number of each */
#define QUABNESTER_KIND_SUMS 4          /* can some labels weigh exactly C? */
#define QUABNESTER_KIND_FEWEST 5        /* fewest blocks that sum to C */
#define QUABNESTER_KIND_WAYS 6          /* ways to sum to C */
#define QUABNESTER_KIND_SHARES 7        /* C shared by claims */
#define QUABNESTER_KIND_LABELS_BEHIND 8 /* which labels weigh exactly C? */
#define QUABNESTER_KIND_STATED_SHARE 9  /* each label at most once, for a stated share of the best value */

#define QUABNESTER_LAST_KIND QUABNESTER_KIND_STATED_SHARE    /* the kinds to solve are 1 to this one */
#define QUABNESTER_LAST_CERTIFICATE_KIND QUABNESTER_KIND_ANY /* those with certificates are 1 to this one */

/* ---- BOUNDS. n and C may be 0, save that the claims of kind 7 have to sum to more. A weight, a size or a claim may be as
 * great as 32 bits allow, and a claim may be 0. Two bounds that are equal today are still two rules. */

#define QUABNESTER_MOST_LABELS 4096        /* n in kinds 1 to 4, 8 and 9 */
#define QUABNESTER_MOST_SIZES 64           /* n in kinds 5 and 6 */
#define QUABNESTER_MOST_CLAIMS 1024        /* n in kind 7 */
#define QUABNESTER_MOST_BUDGET 65535       /* C in kinds 1 to 6, 8 and 9 */
#define QUABNESTER_MOST_SHARED 4294967295u /* C in kind 7: any 32-bit number */
#define QUABNESTER_LEAST_Q 2               /* in kind 9 */
#define QUABNESTER_MOST_Q 100              /* in kind 9 */
#define QUABNESTER_LEAST_WEIGHT 1          /* in kinds 1 to 4, 8 and 9 */
#define QUABNESTER_LEAST_SIZE 1            /* in kinds 5 and 6; each size is greater than the one before it */
#define QUABNESTER_LEAST_VALUE 0           /* in kinds 1, 2 and 9 */
#define QUABNESTER_LEAST_VALUE_ANY 1       /* in kind 3 */
#define QUABNESTER_MOST_VALUE 65535
#define QUABNESTER_LEAST_COPIES 0
#define QUABNESTER_MOST_COPIES 65535
#define QUABNESTER_MOST_PICK_ANY 65535 /* a pick in a certificate of kind 3 */

/* ---- MARKS in a table that was left. */

#define QUABNESTER_NO_WAY 4294967295u           /* a cell of kinds 5, 8 and 9: there is no way */
#define QUABNESTER_TOO_MANY_WAYS (~(uint64_t)0) /* a word of kind 6: so many ways, 2^64 - 1, or more */

/* ---- REFUSAL NUMBERS. An entry returns 0, or the lowest number that applies. 0 is returned exactly where none does. */

#define QUABNESTER_NOT_REFUSED 0

/* the job bytes can't be read: a count or section runs past the end, the first count isn't 1, the second isn't 1, or
 * where the number of the kind is 9 it isn't 2, or bytes are left over */
#define QUABNESTER_REFUSED_BYTES 1
/* the kind isn't one of 1 to the last (to solve), or to the last that has certificates (to write and to check) */
#define QUABNESTER_REFUSED_KIND 2
/* a list that the kind uses hasn't n numbers, or one that it doesn't use isn't empty; in a quick answer the lists are the
 * weights and values of kind 1 */
#define QUABNESTER_REFUSED_LENGTHS 3
/* n or C is above its bound */
#define QUABNESTER_REFUSED_BOUND 4
/* a number is outside its rule: a weight, value or copies number, or in kind 9 q, is below its least or above its most;
 * or block sizes aren't strictly ascending from the least one or more */
#define QUABNESTER_REFUSED_RULE 5
/* a slice that is needed is too short */
#define QUABNESTER_REFUSED_ROOM 6
/* kind 5: no list of blocks sums to C; kind 8: no labels weigh exactly C */
#define QUABNESTER_REFUSED_NO_SUM 7
/* kind 6: there are 2^64 - 1 ways or more */
#define QUABNESTER_REFUSED_TOO_MANY 8
/* kind 7: the claims sum to 0 */
#define QUABNESTER_REFUSED_NO_CLAIMS 9

/* Those of the certificate, in this order, with K(i,c) for cell i(C+1)+c of kinds 1 and 2: */

/* the certificate's bytes are cut short or left over, or a count isn't the needed one */
#define QUABNESTER_REFUSED_SECTIONS 11
/* a pick is neither 0 nor 1 (kind 1), above the label's copies (kind 2) or above QUABNESTER_MOST_PICK_ANY (kind 3). Place:
 * the first such label */
#define QUABNESTER_REFUSED_PICK 12
/* the picks weigh more than C */
#define QUABNESTER_REFUSED_WEIGHT 13
/* Kinds 1, 2: for some i from 1 to n, c from 0 to C and k from 0 to 1, or in kind 2 to the copies of label i-1, that label
 * weighs w, kw is at most c, and K(i,c) is below K(i-1,c-kw) plus k times its value. Kind 3: for some c from 0 to C and
 * some label, which weighs w, at most c, cell c is below cell c-w plus its value. Place: the number of the first such
 * cell */
#define QUABNESTER_REFUSED_CELL 14
/* the last cell, which is K(n,C) or in kind 3 cell C, isn't the picks' value */
#define QUABNESTER_REFUSED_VALUE 15

/* ---- ROOM: how much a job needs, by its kind, n and C, so that no host writes a formula. Each gives 0 where there is
 * no such kind, or n or C is above its bound: such a job is refused with 2 or 4, whatever it is lent. The cells of kind
 * 9 go by its lists and q, too: quabnester_stated_cells_needed has them. No number that is made on the way leaves 64
 * bits. */

/* The most labels, sizes or claims of a kind, and its greatest budget. */
static inline uint32_t quabnester_most_labels(uint32_t kind) {
    switch (kind) {
    case QUABNESTER_KIND_ONCE:
    case QUABNESTER_KIND_COPIES:
    case QUABNESTER_KIND_ANY:
    case QUABNESTER_KIND_SUMS:
    case QUABNESTER_KIND_LABELS_BEHIND:
    case QUABNESTER_KIND_STATED_SHARE: return QUABNESTER_MOST_LABELS;
    case QUABNESTER_KIND_FEWEST:
    case QUABNESTER_KIND_WAYS: return QUABNESTER_MOST_SIZES;
    case QUABNESTER_KIND_SHARES: return QUABNESTER_MOST_CLAIMS;
    default: return 0;
    }
}

static inline uint32_t quabnester_most_budget(uint32_t kind) {
    if (kind < 1 || kind > QUABNESTER_LAST_KIND) return 0;
    if (kind == QUABNESTER_KIND_SHARES) return QUABNESTER_MOST_SHARED;
    return QUABNESTER_MOST_BUDGET;
}

/* Whether there is such a kind, and n and C are within its bounds: 1 or 0. */
static inline int quabnester_within_bounds(uint32_t kind, uint64_t n, uint64_t budget) {
    if (kind < 1 || kind > QUABNESTER_LAST_KIND) return 0;
    return n <= quabnester_most_labels(kind) && budget <= quabnester_most_budget(kind);
}

/* The places that quabnester_solve needs of cells, of words and of picks. For the cells of kind 9, which go by more
 * than n and C, it gives 0. quabnester_quick needs the picks of kind 1, which are n, in each of its two lists. */
static inline uint64_t quabnester_cells_needed(uint32_t kind, uint64_t n, uint64_t budget) {
    if (!quabnester_within_bounds(kind, n, budget)) return 0;
    switch (kind) {
    case QUABNESTER_KIND_COPIES: return (n + 1) * (budget + 1);
    case QUABNESTER_KIND_ONCE:
    case QUABNESTER_KIND_ANY:
    case QUABNESTER_KIND_FEWEST:
    case QUABNESTER_KIND_LABELS_BEHIND: return budget + 1;
    default: return 0;
    }
}

static inline uint64_t quabnester_words_needed(uint32_t kind, uint64_t n, uint64_t budget) {
    if (!quabnester_within_bounds(kind, n, budget)) return 0;
    switch (kind) {
    case QUABNESTER_KIND_ONCE: return n * (budget / 64 + 1);
    case QUABNESTER_KIND_SUMS: return budget / 64 + 1;
    case QUABNESTER_KIND_WAYS: return budget + 1;
    default: return 0;
    }
}

static inline uint64_t quabnester_picks_needed(uint32_t kind, uint64_t n, uint64_t budget) {
    if (!quabnester_within_bounds(kind, n, budget)) return 0;
    return kind == QUABNESTER_KIND_SUMS || kind == QUABNESTER_KIND_WAYS ? 0 : n;
}

/* The cells that quabnester_solve needs in kind 9, and quabnester_solve_full as well, for n weights and n values:
 * (m+1)(T+1), with m and T as they are said there. 0 where n or C is above its bound, or q outside its own. Where a
 * weight or value breaks its rule it gives some number, and the job is refused with 5, whatever it is lent. */
static inline uint64_t quabnester_stated_cells_needed(uint32_t budget, uint32_t q, const uint32_t *weights,
                                                      const uint32_t *values, uint64_t n) {
    uint64_t i, m = 0, greatest = 0, divisor, sum = 0;
    if (!quabnester_within_bounds(QUABNESTER_KIND_STATED_SHARE, n, budget)) return 0;
    if (q < QUABNESTER_LEAST_Q || q > QUABNESTER_MOST_Q) return 0;
    for (i = 0; i < n; i++) {
        if (weights[i] > budget) continue;
        if (values[i] > greatest) greatest = values[i];
        m++;
    }
    divisor = m == 0 || greatest < m * q ? 1 : greatest / (m * q);
    for (i = 0; i < n; i++) sum += weights[i] > budget ? 0 : values[i] / divisor;
    return (m + 1) * (sum + 1);
}

/* The places that quabnester_solve_full needs of cells and of words; of picks it needs as many. quabnester_write needs so
 * many cells and picks, and a certificate has so many. */
static inline uint64_t quabnester_full_cells_needed(uint32_t kind, uint64_t n, uint64_t budget) {
    if (kind != QUABNESTER_KIND_ONCE) return quabnester_cells_needed(kind, n, budget);
    return quabnester_within_bounds(kind, n, budget) ? (n + 1) * (budget + 1) : 0;
}

static inline uint64_t quabnester_full_words_needed(uint32_t kind, uint64_t n, uint64_t budget) {
    return kind == QUABNESTER_KIND_ONCE ? 0 : quabnester_words_needed(kind, n, budget);
}

/* The bytes of a certificate: two counts, n picks and the cells. 0 for a kind that has none, too. */
static inline uint64_t quabnester_certificate_bytes(uint32_t kind, uint64_t n, uint64_t budget) {
    if (kind > QUABNESTER_LAST_CERTIFICATE_KIND || !quabnester_within_bounds(kind, n, budget)) return 0;
    return 4 * (2 + quabnester_picks_needed(kind, n, budget) + quabnester_full_cells_needed(kind, n, budget));
}

/* The bytes of a job with so many weights, values and copies numbers: five counts, a kind, a budget and the lists. 0 where
 * a list is longer than its count could say. A job of kind 9 has four bytes more, of q. */
static inline uint64_t quabnester_job_bytes(uint64_t weights, uint64_t values, uint64_t copies) {
    if (weights >> 32 || values >> 32 || copies >> 32) return 0;
    return 4 * (5 + 1 + 1 + weights + values + copies);
}

/* How many budgets a job has, by the number of its kind: 2 for kind 9, C and q, and 1 for any other number. */
static inline uint32_t quabnester_budgets_of(uint32_t kind) {
    return kind == QUABNESTER_KIND_STATED_SHARE ? 2 : 1;
}

/* The bytes of a job of any kind, with as many budgets as it has. 0 where a list is longer than its count could say. */
static inline uint64_t quabnester_job_bytes_of(uint32_t kind, uint64_t weights, uint64_t values, uint64_t copies) {
    uint64_t bytes = quabnester_job_bytes(weights, values, copies);
    return bytes == 0 ? 0 : bytes + 4 * (quabnester_budgets_of(kind) - 1);
}

/* ---- ENTRIES */

/* Solves a job. Returns 0 or a refusal number, 1 to 9.
 *
 *   kind                                        uses               *first   *second  picks
 *   1  each label at most once                  weights, values    value    weight   n
 *   2  label i at most copies[i] times          .. and copies      value    weight   n
 *   3  any number of each                       weights, values    value    weight   n
 *   4  can some labels weigh exactly C?         weights            1 or 0   totals   none
 *   5  fewest blocks that sum to C              weights as sizes   blocks   0        n
 *   6  ways to sum to C                         weights as sizes   ways     0        none
 *   7  C shared by claims                       weights as claims  spare    0        n, the shares
 *   8  which labels weigh exactly C?            weights            weight   0        n
 *   9  kind 1's job, for a share of its best    weights, values    value    weight   n
 *
 * value is the greatest of all selections that weigh at most C, save in kind 9, and weight is what the picks weigh,
 * which in kind 8 is C. totals is how many totals from 0 to C some labels weigh; in kinds 4, 8 and 9 each label is used
 * at most once. spare is what is left of C after each share is rounded down; the shares, with the spare units given
 * out, sum to C. The picks are the one list that the tie rule names among the best, and in kind 8 among those that
 * weigh exactly C. Kinds 1, 2, 8, 9: label n-1's count is as small as it can be, then n-2's given that, and so on. Kind
 * 3: label 0's count is as great as it can be, then label 1's. Kind 5: the last size's count is as great as it can be,
 * then the one before it. Kind 7: spare units go one each to the largest remainders, of equal ones to the lower label
 * first.
 *
 * Kind 9 leaves labels aside that weigh more than C. m others remain, p is the greatest of their values, and the
 * divisor is the whole part of p divided by mq, but at least 1. The remaining values are divided by it and cut to whole
 * numbers; T is the sum of these. Best are the picks that weigh at most C and have the greatest sum of cut values, and
 * among those the ones that weigh least. value is what the picks are worth in values that aren't cut, and q times it is
 * at least q-1 times the value that kind 1 gives for the same lists and C. Where m is 0, every pick is 0, and so are
 * value and weight.
 *
 *   kind  what the table holds after the call, in as many places as are needed (ROOM)
 *   1     cell c: the best value with budget c. Label i has C/64+1 words of its own, from word i(C/64+1) on: bit c % 64 of
 *         word c/64 of them is set where the best value of labels 0 to i with budget c is above that of labels 0 to i-1,
 *         and c is at most C; other bits are 0
 *   2     cell i(C+1)+c: the best value of the first i labels with budget c
 *   3     cell c: the best value with budget c
 *   4     bit t % 64 of word t/64 is set where total t is reached and at most C, other bits are 0
 *   5     cell a: the fewest blocks for a, or QUABNESTER_NO_WAY
 *   6     word a: the ways for a, but at most QUABNESTER_TOO_MANY_WAYS
 *   7     there is none
 *   8     cell t: the least i such that the first i labels reach total t, or QUABNESTER_NO_WAY. So it isn't that mark
 *         exactly where kind 4 sets the bit of t, for the same weights and C
 *   9     cell j(T+1)+t, for j from 0 to m and t from 0 to T: the least weight, within C, of a selection of the first j
 *         remaining labels whose cut values sum to t, or QUABNESTER_NO_WAY if there is none. With m = 0 there is one
 *         cell, which is 0
 *
 * What stood in the slices before has no influence. Slices may be longer; places past the needed ones, and slices that
 * the kind doesn't use, keep what they held. On a refusal *first and *second are 0, and no slice is written; save that 7
 * and 8 leave the table complete and the picks as they were. */
uint32_t quabnester_solve(const uint8_t *job, size_t job_len, uint32_t *cells, size_t cells_len, uint64_t *words,
                          size_t words_len, uint32_t *picks, size_t picks_len, uint64_t *first, uint64_t *second);

/* The same, kind 1 with the full table: its cells are those of kind 2, it needs as many (quabnester_full_cells_needed) and
 * no words. In all else, and for every other kind, it is quabnester_solve: wherever neither returns 6, the two return the
 * same number, give the same *first and *second, and write the same picks. */
uint32_t quabnester_solve_full(const uint8_t *job, size_t job_len, uint32_t *cells, size_t cells_len, uint64_t *words,
                               size_t words_len, uint32_t *picks, size_t picks_len, uint64_t *first, uint64_t *second);

/* A quick answer for kind 1, where half of the best value is enough: two keep lists, and which of them is the worthier.
 * Returns 0 or a refusal number, 3 to 6.
 *
 * It takes the job as lists and not as job bytes: n is weights_len, C is the budget, and label i weighs weights[i] and is
 * worth values[i]. It needs no table, and n places in each of the lists that it is lent. After the call the first n places
 * of each are 1 for a label that it keeps and 0 for another:
 *   first    the greedy list. Labels are looked at by value per weight, the higher first and of equal ones the lower
 *            number; each is kept if it still fits into what is left of C. One that doesn't fit is passed over, and so is
 *            one that is worth 0
 *   second   the single label of highest value among those that weigh at most C, of equal ones the lower number; no label
 *            where none fits, or the highest value is 0
 * *which is 1 where the first list is worth as much as the second or more, and else 2; *value is what that list is worth.
 * Each list weighs at most C. Twice *value is at least the best value, which quabnester_solve gives for the same job.
 *
 * Refuses with 3 where values_len isn't n; with 4 where n is above QUABNESTER_MOST_LABELS, or C above
 * QUABNESTER_MOST_BUDGET; with 5 where a weight is below QUABNESTER_LEAST_WEIGHT, or a value above QUABNESTER_MOST_VALUE;
 * and with 6 where first_len or second_len is below n. What stood in the lists before has no influence. They may be longer;
 * places past the first n keep what they held. On a refusal *which and *value are 0, and neither list is written. */
uint32_t quabnester_quick(uint32_t budget, const uint32_t *weights, size_t weights_len, const uint32_t *values,
                          size_t values_len, uint32_t *first, size_t first_len, uint32_t *second, size_t second_len,
                          uint32_t *which, uint64_t *value);

/* Writes a certificate of a job of kind 1, 2 or 3 from picks and cells. Returns 0 or a refusal number, 1 to 6.
 *
 * Refuses with 6 where picks_len is below quabnester_picks_needed, cells_len is below quabnester_full_cells_needed or
 * out_len is below quabnester_certificate_bytes. Otherwise so many of the first picks and of the first cells are copied to
 * out in the form above, *written is how many bytes that are, and bytes past them keep what they held. It copies and
 * doesn't judge. Given picks and cells as quabnester_solve_full left them for this job, or quabnester_solve where its kind
 * is 2 or 3, what it writes is accepted by quabnester_check. On a refusal *written is 0 and out keeps what it held. */
uint32_t quabnester_write(const uint8_t *job, size_t job_len, const uint32_t *picks, size_t picks_len,
                          const uint32_t *cells, size_t cells_len, uint8_t *out, size_t out_len, uint64_t *written);

/* Judges a certificate of a job of kind 1, 2 or 3, whoever made it. Returns 0 for accepted or a refusal number: 1 to 5 for
 * the job, then, in this order, 11 to 15 for the certificate.
 *
 * Cells may be any 32-bit numbers, sums are not cut, and neither row 0 nor cell 0 need be 0. Accepted means that the picks
 * are allowed and fit, and that no selection within the budget is worth more. For a valid job and any picks there is a
 * certificate with them that is accepted exactly where they are allowed, fit and are best. Nothing is written. */
uint32_t quabnester_check(const uint8_t *job, size_t job_len, const uint8_t *certificate, size_t certificate_len);

/* What quabnester_check leaves out: the value where it accepts, the place where it refuses with 12 or 14, and else 0. */
uint64_t quabnester_check_detail(const uint8_t *job, size_t job_len, const uint8_t *certificate, size_t certificate_len);

#ifdef __cplusplus
}
#endif

#endif
