/* The checker's verdicts, for each kind: document 01's case J, cells that a hasty checker gets wrong, each refusal with its place, other
 * counts, certificates of other kinds, and all faults that can come together, in order. */
#include "calls.h"
#include "parts.h"
#include "tell.h"
#include <stdio.h>
#include <string.h>

#define U UINT32_MAX

static unsigned long tried;
static struct job job;
static struct bytes bytes, certificate;

/* The verdict on picks and cells for the job. */
static void gives(const uint32_t *picks, const uint32_t *cells, uint32_t number, uint64_t detail) {
    about("check", tried++);
    put_job(&bytes, &job);
    put_certificate(&certificate, &job, picks, cells);
    verdict_is(&bytes, &certificate, number, detail);
}

/* One label. */
static void one_label(uint32_t kind, uint32_t weight, uint32_t value, uint32_t copies, uint32_t budget) {
    set_job(&job, kind, budget, 1, &weight, &value, &copies);
}

struct one_case {
    uint32_t cells[12], number, detail;
};

/* Its verdicts for one pick. */
static void all_give(uint32_t pick, const struct one_case *cases, size_t count) {
    size_t k;
    for (k = 0; k < count; k++) gives(&pick, cases[k].cells, cases[k].number, cases[k].detail);
}

#define ALL_GIVE(pick, cases) all_give(pick, cases, sizeof cases / sizeof cases[0])

static void case_j(void) {
    static const struct one_case cases[] = {
        {{0, 0, 0, 9, 9, 3}, 0, 3},  {{0, 0, 0, 0, 0, 2}, 14, 5}, {{0, 0, 0, 0, 0, 3}, 0, 3},  {{0, 0, 0, 0, 0, 4}, 15, 0},
        {{U, 0, 0, U, 0, 3}, 14, 5}, /* U + 3 cut to 32 bits is 2 */
        {{U, U, U, U, U, U}, 14, 5}, {{0, U, 0, 0, U, 3}, 0, 3},  {{0, 0, 0, U, U, 3}, 0, 3},  {{0, 0, 0, 0, 0, U}, 15, 0},
        {{1, 0, 0, 0, 0, 3}, 14, 3}, {{0, 1, 0, 0, 0, 3}, 14, 4}, {{0, 0, 4, 0, 0, 3}, 14, 5}, {{1, 1, 1, 0, 0, 0}, 14, 3},
    };
    static const struct one_case rows[] = {{{5, 0, 0, 3, 5, 0, 8, 3}, 0, 3}}, greatest[] = {{{U, U, U, U, U, U}, 15, 0}};
    one_label(KIND_ONCE, 2, 3, 0, 2);
    ALL_GIVE(1, cases);
    one_label(KIND_COPIES, 2, 3, 1, 2); /* one copy is kind 1 */
    ALL_GIVE(1, cases);
    one_label(KIND_COPIES, 2, 3, MOST_COPIES, 2); /* and so are many, where one fits */
    ALL_GIVE(1, cases);
    one_label(KIND_ONCE, 2, 3, 0, 3); /* a row 0 of claims that aren't 0 */
    ALL_GIVE(1, rows);
    one_label(KIND_ONCE, 2, 0, 0, 2); /* sums that are just a cell's greatest number */
    ALL_GIVE(1, greatest);
}

/* ---- kind 2 */

/* Two copies of weight 2 and value 3, and both kept. */
static void two_copies(void) {
    static const struct one_case cases[] = {
        {{0, 0, 0, 0, 0, 0, 0, 0, 3, 3, 6, 6}, 0, 6},
        {{0, 0, 0, 0, 0, 0, 9, 9, 9, 9, 9, 6}, 0, 6},
        {{0, 0, 0, 0, 0, 0, 0, 0, 2, 3, 6, 6}, 14, 8},  /* one copy is worth more */
        {{0, 0, 0, 0, 0, 0, 0, 0, 3, 3, 5, 6}, 14, 10}, /* two are */
        {{0, 0, 0, 0, 0, 0, 0, 0, 3, 3, 6, 5}, 14, 11},
        {{1, 0, 0, 0, 0, 0, 0, 0, 4, 3, 7, 6}, 14, 6}, /* none is */
        {{1, 0, 0, 0, 0, 0, 1, 0, 4, 3, 6, 6}, 14, 10},
        {{1, 0, 0, 0, 0, 0, 1, 0, 4, 3, 7, 6}, 0, 6},
        {{0, 0, 0, 0, 0, 0, 0, 0, 3, 3, 6, 7}, 15, 0},
        {{0, 0, 0, 0, 0, 7, 0, 0, 3, 3, 6, 6}, 14, 11},
        {{U - 6, 0, 0, 0, 0, 0, U - 6, 0, U - 3, 3, U, 6}, 0, 6},
        {{U - 5, 0, 0, 0, 0, 0, U - 5, 0, U - 2, 3, U, 6}, 14, 10}, /* U + 1 cut to 32 bits is 0 */
        {{U - 2, 0, 0, 0, 0, 0, U - 2, 0, U, 3, U, 6}, 14, 8},
    };
    one_label(KIND_COPIES, 2, 3, 2, 5);
    ALL_GIVE(2, cases);
}

/* A third copy is asked for only where there is one, and a copy of none isn't. */
static void copies_and_cells(void) {
    static const struct one_case two[] = {{{0, 0, 0, 0, 0, 3, 6, 6}, 0, 6}}, three[] = {{{0, 0, 0, 0, 0, 3, 6, 6}, 14, 7}};
    static const struct one_case none[] = {{{0, 0, 0, 0, 0, 0}, 0, 0}, {{0, 0, 4, 0, 0, 3}, 14, 5}, {{U, 9, 0, U, 9, 0}, 0, 0}};
    static const struct one_case most[] = {{{0, 0, 0, 0, 1, 2}, 0, 2}, {{0, 0, 0, 0, 1, 1}, 14, 5}};
    one_label(KIND_COPIES, 1, 3, 2, 3);
    ALL_GIVE(2, two);
    one_label(KIND_COPIES, 1, 3, 3, 3);
    ALL_GIVE(2, three);
    one_label(KIND_COPIES, 1, 3, LEAST_COPIES, 2);
    ALL_GIVE(0, none);
    one_label(KIND_COPIES, 1, 1, MOST_COPIES, 2);
    ALL_GIVE(2, most);
}

/* ---- kind 3 */

/* Weight 2 and value 3, kept twice. A cell may be below the one before it, and the first two are never at fault. */
static void any_number(void) {
    static const struct one_case cases[] = {
        {{0, 0, 3, 3, 6, 6}, 0, 6},         {{9, 0, 12, 3, 15, 6}, 0, 6},        {{0, 0, 3, 3, 6, 5}, 14, 5}, {{0, 0, 2, 3, 6, 6}, 14, 2},
        {{0, 0, 3, 2, 6, 6}, 14, 3},        {{0, 0, 3, 3, 6, 7}, 15, 0},         {{1, 0, 3, 3, 6, 6}, 14, 2}, {{0, 1, 3, 4, 6, 7}, 15, 0},
        {{U, 0, U, U, U, 6}, 14, 2}, /* U + 3 cut to 32 bits is 2 */
        {{U - 6, 0, U - 3, 3, U, 6}, 0, 6}, {{U - 5, 0, U - 2, 3, U, 6}, 14, 4}, {{U, U, U, U, U, U}, 14, 2}, {{0, 0, 0, 0, 0, 0}, 14, 2},
    };
    one_label(KIND_ANY, 2, 3, 0, 5);
    ALL_GIVE(2, cases);
}

/* Weights 2 and 3, values 3 and 5, one of each kept: cell 4 is the first label's, cell 3 the second's, and cell 5 both's. */
static void two_labels(void) {
    static const uint32_t weights[] = {2, 3}, values[] = {3, 5}, picks[] = {1, 1};
    static const struct one_case cases[] = {
        {{0, 0, 3, 5, 6, 8}, 0, 8},  {{0, 0, 3, 5, 6, 7}, 14, 5}, {{0, 0, 3, 5, 5, 8}, 14, 4},
        {{0, 0, 3, 4, 6, 8}, 14, 3}, {{0, 0, 3, 4, 5, 8}, 14, 3}, {{0, 0, 2, 4, 5, 8}, 14, 2},
    };
    size_t k;
    set_job(&job, KIND_ANY, 5, 2, weights, values, NULL);
    for (k = 0; k < sizeof cases / sizeof cases[0]; k++) gives(picks, cases[k].cells, cases[k].number, cases[k].detail);
}

/* ---- places of 12, and weights whose sum is beyond 32 bits */

struct list_case {
    uint32_t picks[3], number, detail;
};

static void all_lists_give(const uint32_t *cells, const struct list_case *cases, size_t count) {
    size_t k;
    for (k = 0; k < count; k++) gives(cases[k].picks, cells, cases[k].number, cases[k].detail);
}

#define ALL_LISTS_GIVE(cells, cases) all_lists_give(cells, cases, sizeof cases / sizeof cases[0])

static const uint32_t heavy[] = {2147483648u, 2147483648u, 1}, ones[] = {1, 1, 1};

static void picks_and_weights(void) {
    static const struct list_case cases[] = {
        {{0, 0, 2}, 12, 2},        {{1, 2, U}, 12, 1}, {{256, 1, 1}, 12, 0}, {{1, 65536, 0}, 12, 1}, /* cut to 8 or 16 bits they are 0 */
        {{16777216, 2, 2}, 12, 0}, {{1, 1, 0}, 13, 0}, {{0, 0, 1}, 0, 1},    {{0, 0, 0}, 15, 0},
    };
    static const uint32_t cells[FULL_TABLE(3, 1)] = {0, 0, 0, 0, 0, 0, 0, 1};
    set_job(&job, KIND_ONCE, 1, 3, heavy, ones, NULL);
    ALL_LISTS_GIVE(cells, cases);
}

static void picks_and_copies(void) {
    static const uint32_t copies[] = {2, LEAST_COPIES, MOST_COPIES}, cells[FULL_TABLE(3, 1)] = {0, 0, 0, 0, 0, 0, 0, 1};
    static const struct list_case cases[] = {
        {{2, 0, 0}, 13, 0}, /* 2^32 cut to 32 bits is 0 */
        {{3, 0, 0}, 12, 0},
        {{0, 1, 0}, 12, 1},
        {{0, 0, MOST_COPIES}, 13, 0},
        {{0, 0, MOST_COPIES + 1}, 12, 2},
        {{3, 1, U}, 12, 0},
        {{2, 1, MOST_COPIES}, 12, 1},
        {{0, 0, 1}, 0, 1},
        {{0, 0, 0}, 15, 0},
        {{U, 0, 0}, 12, 0},
        {{258, 0, 0}, 12, 0}, /* cut to 8 bits it is 2 */
    };
    set_job(&job, KIND_COPIES, 1, 3, heavy, ones, copies);
    ALL_LISTS_GIVE(cells, cases);
}

static void picks_of_any_number(void) {
    static const uint32_t weights[] = {65537, 1, 2147483648u}, cells[ROW(1)] = {0, 1};
    static const struct list_case cases[] = {
        {{MOST_PICK_ANY, 0, 0}, 13, 0},
        {{MOST_PICK_ANY, 1, 0}, 13, 0}, /* 2^32 cut to 32 bits is 0 */
        {{MOST_PICK_ANY + 1, 0, 0}, 12, 0},
        {{0, MOST_PICK_ANY, 0}, 13, 0},
        {{0, 1, MOST_PICK_ANY + 1}, 12, 2},
        {{0, U, U}, 12, 1},
        {{0, 0, 2}, 13, 0},
        {{0, 1, 0}, 0, 1},
        {{0, 0, 0}, 15, 0},
    };
    set_job(&job, KIND_ANY, 1, 3, weights, ones, NULL);
    ALL_LISTS_GIVE(cells, cases);
}

/* ---- nothing to keep, or nothing that fits */

static void no_labels(uint32_t kind) {
    static const uint32_t right[ROW(2)] = {7, U, 0}, wrong[ROW(2)] = {U, 0, 1}, one_right = 0, one_wrong = U;
    set_job(&job, kind, 2, 0, NULL, NULL, NULL);
    gives(NULL, right, 0, 0);
    gives(NULL, wrong, 15, 0);
    set_job(&job, kind, 0, 0, NULL, NULL, NULL);
    gives(NULL, &one_right, 0, 0);
    gives(NULL, &one_wrong, 15, 0);
}

static void no_budget(void) {
    static const struct one_case full[] = {{{0, 0}, 0, 0}, {{1, 0}, 14, 1}, {{0, 1}, 15, 0}, {{U, U}, 15, 0}};
    static const struct one_case row[] = {{{0}, 0, 0}, {{1}, 15, 0}, {{U}, 15, 0}}, heavy_pick[] = {{{0, 0}, 13, 0}};
    one_label(KIND_COPIES, 1, 3, 2, 0);
    ALL_GIVE(0, full);
    ALL_GIVE(1, heavy_pick);
    one_label(KIND_ANY, 1, 3, 0, 0);
    ALL_GIVE(0, row);
    ALL_GIVE(1, heavy_pick);
}

/* A weight of one more than C, or of as much as there is, asks for nothing but count 0. */
static void too_heavy(void) {
    static const struct one_case full[] = {{{9, 8, 0, 9, 8, 0}, 0, 0}, {{9, 8, 0, 9, 7, 0}, 14, 4}}, row[] = {{{9, 8, 0}, 0, 0}};
    static const uint32_t weights[] = {3, U};
    size_t k;
    for (k = 0; k < 2; k++) {
        one_label(KIND_COPIES, weights[k], 3, MOST_COPIES, 2);
        ALL_GIVE(0, full);
        one_label(KIND_ANY, weights[k], 3, 0, 2);
        ALL_GIVE(0, row);
    }
}

/* ---- one label of weight 1 and the greatest value, kept as often as can be: the most counts that a cell may have */

static uint32_t long_cells[FULL_TABLE(1, MOST_BUDGET)];
static uint8_t long_certificate[CERTIFICATE(1, FULL_TABLE(1, MOST_BUDGET))];

/* With the last cell lowered by so much. */
static void long_gives(uint32_t kind, uint32_t pick, uint32_t lowered, uint32_t number, uint64_t detail) {
    uint32_t m, count;
    size_t length;
    about("the most copies, kind", kind);
    one_label(kind, 1, MOST_VALUE, MOST_COPIES, MOST_BUDGET);
    count = claims_of(&job);
    for (m = 0; m < count; m++) long_cells[m] = m < count - ROW(MOST_BUDGET) ? 0 : m % ROW(MOST_BUDGET) * MOST_VALUE;
    long_cells[count - 1] -= lowered;
    put_job(&bytes, &job);
    length = lay_certificate(long_certificate, &job, &pick, long_cells);
    same("the verdict", number, judged(&bytes, long_certificate, length));
    same("the value or place", detail, quabnester_check_detail(bytes.at, bytes.length, long_certificate, length));
    tried++;
}

static void most_counts(void) {
    uint64_t value = (uint64_t)MOST_BUDGET * MOST_VALUE;
    long_gives(KIND_COPIES, MOST_COPIES, 0, 0, value);
    long_gives(KIND_COPIES, MOST_COPIES, 1, 14, FULL_TABLE(1, MOST_BUDGET) - 1);
    long_gives(KIND_COPIES, MOST_COPIES + 1, 0, 12, 0);
    long_gives(KIND_COPIES, MOST_COPIES - 1, 0, 15, 0);
    long_gives(KIND_ANY, MOST_PICK_ANY, 0, 0, value);
    long_gives(KIND_ANY, MOST_PICK_ANY, 1, 14, MOST_BUDGET);
    long_gives(KIND_ANY, MOST_PICK_ANY + 1, 0, 12, 0);
    long_gives(KIND_ANY, MOST_PICK_ANY - 1, 0, 15, 0);
}

/* ---- 11, and kinds that have no certificates */

/* case A's, and one of each too many */
enum { N = CASE_A_LABELS, CELLS = CASE_A_CELLS };
static const uint32_t best_picks[N + 1] = {1, 1, 0, 0};
static uint32_t best_cells[CELLS + 1];

/* Where the two counts stand in its certificate. */
enum { PICKS_COUNT = 0, CELLS_COUNT = 4 + 4 * N };

/* Case A, solved, and its certificate. */
static void fresh(uint32_t kind) {
    struct plain_room room;
    case_a(&job, kind);
    put_job(&bytes, &job);
    room = room_of(&job, FULL_WAY);
    memcpy(best_cells, expected_of(&bytes, FULL_WAY, &room)->cells, room.cells * sizeof best_cells[0]);
    put_certificate(&certificate, &job, best_picks, best_cells);
}

/* Whole sections, of so many picks and cells. */
static void sections_of(uint32_t kind, uint32_t picks, uint32_t cells) {
    int needed;
    about("counts", tried++);
    fresh(kind);
    needed = picks == N && cells == claims_of(&job);
    certificate.length = 0;
    put_section(&certificate, best_picks, picks);
    put_section(&certificate, best_cells, cells);
    verdict_is(&bytes, &certificate, needed ? 0 : 11, needed ? CASE_A_VALUE : 0);
}

/* One or both have another count than the needed one: about that of a row, and about that of the table. */
static void other_counts(uint32_t kind) {
    static const uint32_t about_these[] = {ROW(CASE_A_BUDGET), CELLS};
    uint32_t picks, cells, k;
    for (k = 0; k < 2; k++) {
        for (picks = 0; picks <= N + 1; picks++) {
            for (cells = about_these[k] - 3; cells <= about_these[k] + 1; cells++) sections_of(kind, picks, cells);
        }
    }
}

/* Counts that don't fit the bytes, some of which times 4 are the right lengths if they are cut to 32 bits. */
static void wrong_counts(uint32_t kind) {
    static const uint32_t counts[] = {
        0, 1, 2, N + 1, CELLS - 1, CELLS + 1, 256 + N, 0x40000000 + N, 0x40000000 + ROW(CASE_A_BUDGET), 0x40000000 + CELLS, 0x80000000 + N,
        U};
    size_t k;
    for (k = 0; k < sizeof counts / sizeof counts[0]; k++) {
        about("counts", tried++);
        fresh(kind);
        put_at(certificate.at, counts[k]);
        verdict_is(&bytes, &certificate, 11, 0);
        fresh(kind);
        put_at(certificate.at + CELLS_COUNT, counts[k]);
        verdict_is(&bytes, &certificate, 11, 0);
    }
}

/* Case A's certificate of each kind for its job of each: one copy of each label is kind 1, and a row is no table. */
static void certificates_of_others(void) {
    uint32_t kind, other;
    for (kind = 0; kind <= LAST_KIND + 2; kind++) {
        for (other = 1; other <= LAST_CHECKED_KIND; other++) {
            int known = 1 <= kind && kind <= LAST_CHECKED_KIND, alike = (kind == KIND_ANY) == (other == KIND_ANY);
            about("kinds", tried++);
            fresh(other);
            case_a(&job, kind == LAST_KIND + 2 ? U : kind);
            put_job(&bytes, &job);
            verdict_is(&bytes, &certificate, !known ? 2 : alike ? 0 : 11, known && alike ? CASE_A_VALUE : 0);
        }
    }
}

/* One budget where the kind has two, or two where it has one, with case A's certificate: the bytes can't be read. */
static void other_budgets(void) {
    uint32_t kind;
    for (kind = 0; kind <= LAST_KIND + 1; kind++) {
        about("budgets", tried++);
        fresh(KIND_ONCE);
        case_a(&job, kind);
        job.budgets = 3 - BUDGETS_OF(kind);
        put_job(&bytes, &job);
        verdict_is(&bytes, &certificate, 1, 0);
    }
}

/* The most labels, of which case A's certificate has too few, and one more. */
static void most_labels(uint32_t kind) {
    uint32_t n;
    fresh(kind);
    for (n = MOST_LABELS; n <= MOST_LABELS + 1; n++) {
        about("labels", tried++);
        alike_labels(&job, kind, n, CASE_A_BUDGET);
        put_job(&bytes, &job);
        verdict_is(&bytes, &certificate, n <= MOST_LABELS ? 11 : 4, 0);
    }
}

/* Two copies that are kept, claimed for one; and claims for one, where there are two. */
static void copies_of_others(void) {
    static const uint32_t cells[] = {0, 0, 0, 0, 3, 6}, fewer[] = {0, 0, 0, 0, 3, 3}, twice = 2, once = 1;
    one_label(KIND_COPIES, 1, 3, 2, 2);
    gives(&twice, cells, 0, 6);
    gives(&once, fewer, 14, 5);
    one_label(KIND_ONCE, 1, 3, 0, 2);
    gives(&twice, cells, 12, 0);
    gives(&once, cells, 15, 0);
    gives(&once, fewer, 0, 3);
}

/* ---- faults that come together */

/* Where the counts of case A's sections stand in its bytes. */
enum { KINDS = 0, BUDGETS = KINDS + 8, WEIGHTS = BUDGETS + 8, VALUES = WEIGHTS + 4 + 4 * N, COPIES = VALUES + 4 + 4 * N };

/* A label that isn't kept. */
enum { OTHER_LABEL = 2 };

enum { FAULTS = 10 };
static const uint32_t fault_numbers[FAULTS] = {1, 2, 3, 4, 5, 11, 12, 13, 14, 15};

/* The cell for label 0 and as much as it weighs, where its value, 4, is claimed. */
static uint32_t low_cell(void) {
    return job.weights.at[0] + (job.kind == KIND_ANY ? 0 : ROW(CASE_A_BUDGET));
}

static void spoil(int fault) {
    uint8_t *picks = certificate.at + PICKS_COUNT + 4, *cells = certificate.at + CELLS_COUNT + 4;
    switch (fault_numbers[fault]) {
    case 1: bytes.at[bytes.length++] = 0; break;
    case 2: put_at(bytes.at + KINDS + 4, LAST_CHECKED_KIND + 1); break;
    case 3: /* one copies number, or one more than there are labels */
        put_at(bytes.at + COPIES, job.copies.count + 1);
        put_number(&bytes, 1);
        break;
    case 4: put_at(bytes.at + BUDGETS + 4, MOST_BUDGET + 1); break;
    case 5: put_at(bytes.at + WEIGHTS + 4 + 4, LEAST_WEIGHT - 1); break; /* label 1 */
    case 11: certificate.length++; break;
    case 12: put_at(picks + 4 * OTHER_LABEL, most_picked(&job, OTHER_LABEL) + 1); break;
    case 13: put_at(picks + 4 * OTHER_LABEL, 1); break; /* 12 after it makes that more */
    case 14: cells[4 * low_cell()] = 3; break;
    case 15: cells[4 * (claims_of(&job) - 1)] = CASE_A_VALUE + 1; break;
    default: break;
    }
}

static void faults_together(uint32_t kind) {
    unsigned mask;
    int fault;
    for (mask = 1; mask < 1u << FAULTS; mask++) {
        uint32_t lowest = 0;
        about("faults", mask);
        fresh(kind);
        for (fault = FAULTS - 1; fault >= 0; fault--) {
            if (mask >> fault & 1) {
                lowest = fault_numbers[fault];
                spoil(fault);
            }
        }
        verdict_is(&bytes, &certificate, lowest, lowest == 12 ? OTHER_LABEL : lowest == 14 ? low_cell() : 0);
        tried++;
    }
}

void part_check(void) {
    uint32_t kind;
    case_j();
    two_copies();
    copies_and_cells();
    any_number();
    two_labels();
    picks_and_weights();
    picks_and_copies();
    picks_of_any_number();
    no_budget();
    too_heavy();
    most_counts();
    certificates_of_others();
    other_budgets();
    copies_of_others();
    for (kind = 1; kind <= LAST_CHECKED_KIND; kind++) {
        no_labels(kind);
        other_counts(kind);
        wrong_counts(kind);
        most_labels(kind);
        faults_together(kind);
    }
    printf("check: %lu certificates by hand\n", tried);
}
