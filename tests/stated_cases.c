/* Kind 9 by hand: jobs with the whole table, picks and best value that they have to have, on just the room and on a place less; other
 * divisors, which these jobs tell from the right one; q at its bounds and past them; the number of budgets; faults that come together;
 * tables that more than 32 bits count; rows of any length; many labels. */
#include "calls.h"
#include "draw.h"
#include "parts.h"
#include "tell.h"
#include <stdio.h>
#include <string.h>

static unsigned long tried, refused;
static struct job job;
static struct bytes bytes;

/* In both ways, on slices of these lengths, the job is refused with this number, or with 0 it isn't, and all is as the second program has
 * it. */
static const struct plain_answer *gives(const struct plain_room *room, uint32_t number) {
    const struct plain_room lengths[PLAIN_WAYS] = {*room, *room};
    const struct plain_answer *answer;
    about("stated share", tried++);
    refused += number != 0;
    put_job(&bytes, &job);
    answer = try_both_ways(&bytes, lengths, tried).of[LIGHT_WAY];
    same("the second program's refusal", number, answer->refused);
    return answer;
}

static void set_stated(uint32_t budget, uint32_t q, uint32_t n, const uint32_t *weights, const uint32_t *values) {
    set_job(&job, KIND_STATED_SHARE, budget, n, weights, values, NULL);
    job.q = q;
}

/* ---- tables and picks */

enum { MOST_N = 5, MOST_STEPS = 6, MOST_CELLS = 400, TOP = MOST_BUDGET };

/* A step of a table: from row j on, total t has this weight, till another step says otherwise. Total 0 weighs 0 in each row, and what no
 * step names is the mark. Row 0 has no steps, so that one of it ends them. */
struct step {
    uint32_t j, t, weight;
};

struct stated_case {
    uint32_t budget, q, n, weights[MOST_N], values[MOST_N];
    uint32_t divisor, m, total; /* m labels, whose cut values sum to this */
    struct step steps[MOST_STEPS + 1];
    uint32_t value, weight, picks[MOST_N], best; /* the answer, and the best value of kind 1 */
};

static const struct stated_case cases[] = {
    /* case A: the greatest value is just m times q, and far below it */
    {7, 2, 3, {3, 4, 5}, {4, 5, 6}, 1, 3, 15, {{1, 4, 3}, {2, 5, 4}, {2, 9, 7}, {3, 6, 5}}, 9, 7, {1, 1, 0}, 9},
    {7, 100, 3, {3, 4, 5}, {4, 5, 6}, 1, 3, 15, {{1, 4, 3}, {2, 5, 4}, {2, 9, 7}, {3, 6, 5}}, 9, 7, {1, 1, 0}, 9},
    /* 7 divided by 6, and 11 by 6, are 1; 12 is 2 */
    {7, 2, 3, {3, 4, 5}, {4, 5, 7}, 1, 3, 16, {{1, 4, 3}, {2, 5, 4}, {2, 9, 7}, {3, 7, 5}}, 9, 7, {1, 1, 0}, 9},
    {7, 2, 3, {3, 4, 5}, {4, 6, 11}, 1, 3, 21, {{1, 4, 3}, {2, 6, 4}, {2, 10, 7}, {3, 11, 5}}, 11, 5, {0, 0, 1}, 11},
    {7, 2, 3, {3, 4, 5}, {7, 9, 12}, 2, 3, 13, {{1, 3, 3}, {2, 4, 4}, {2, 7, 7}, {3, 6, 5}}, 16, 7, {1, 1, 0}, 16},
    /* a divisor of 2: cut values are alike, and the lighter label is worth less than the best, whichever comes first */
    {3, 2, 2, {2, 3}, {8, 9}, 2, 2, 8, {{1, 4, 2}}, 8, 2, {1, 0}, 9},
    {3, 2, 2, {3, 2}, {9, 8}, 2, 2, 8, {{1, 4, 3}, {2, 4, 2}}, 8, 2, {0, 1}, 9},
    /* the value is neither that of the cut values nor the divisor times it */
    {5, 2, 2, {2, 3}, {9, 11}, 2, 2, 9, {{1, 4, 2}, {2, 5, 3}, {2, 9, 5}}, 20, 5, {1, 1}, 20},
    /* many: by 116, by 10,922, and of one label by 32,767 and 655 */
    {10, 2, 3, {6, 5, 5}, {700, 500, 599}, 116, 3, 15, {{1, 6, 6}, {2, 4, 5}, {3, 5, 5}, {3, 9, 10}}, 1099, 10, {0, 1, 1}, 1099},
    {3, 2, 3, {1, 2, 3}, {65535, 65534, 1}, 10922, 3, 12, {{1, 6, 1}, {2, 12, 3}}, 131069, 3, {1, 1, 0}, 131069},
    {1, 2, 1, {1}, {65535}, 32767, 1, 2, {{1, 2, 1}}, 65535, 1, {1}, 65535},
    {1, 100, 1, {1}, {65535}, 655, 1, 100, {{1, 100, 1}}, 65535, 1, {1}, 65535},
    /* a label whose value is cut to 0 isn't picked, though it fits */
    {3, 2, 2, {1, 2}, {3, 800}, 200, 2, 4, {{2, 4, 2}}, 800, 2, {0, 1}, 803},
    /* three labels lose so much that another is picked; with a greater q it isn't */
    {3, 2, 4, {1, 1, 1, 3}, {299, 299, 299, 800}, 100, 4, 14, {{1, 2, 1}, {2, 4, 2}, {3, 6, 3}, {4, 8, 3}}, 800, 3, {0, 0, 0, 1}, 897},
    {3, 9, 4, {1, 1, 1, 3}, {299, 299, 299, 800}, 22, 4, 75, {{1, 13, 1}, {2, 26, 2}, {3, 39, 3}, {4, 36, 3}}, 897, 3, {1, 1, 1}, 897},
    /* labels that are left aside, first, between and last; their values and they themselves would give other divisors */
    {5, 2, 3, {9, 2, 3}, {65535, 8, 9}, 2, 2, 8, {{1, 4, 2}, {2, 8, 5}}, 17, 5, {0, 1, 1}, 17},
    {5, 2, 3, {2, 9, 3}, {8, 65535, 9}, 2, 2, 8, {{1, 4, 2}, {2, 8, 5}}, 17, 5, {1, 0, 1}, 17},
    {5, 2, 3, {2, 3, 6}, {8, 9, 12}, 2, 2, 8, {{1, 4, 2}, {2, 8, 5}}, 17, 5, {1, 1, 0}, 17},
    {5, 2, 5, {6, 2, 7, 3, 8}, {12, 8, 0, 9, 1}, 2, 2, 8, {{1, 4, 2}, {2, 8, 5}}, 17, 5, {0, 1, 0, 1, 0}, 17},
    /* such as fit if they are cut to 16 bits, one of just C and one of a unit more, and the greatest weight */
    {5, 2, 2, {CUT_TO + 2, 3}, {9, 5}, 2, 1, 2, {{1, 2, 3}}, 5, 3, {0, 1}, 5},
    {5, 2, 2, {5, 6}, {3, 9}, 1, 1, 3, {{1, 3, 5}}, 3, 5, {1, 0}, 3},
    {5, 2, 2, {UINT32_MAX, 5}, {1, 2}, 1, 1, 2, {{1, 2, 5}}, 2, 5, {0, 1}, 2},
    /* ties: two labels that weigh less than one go first, though they come after it */
    {4, 2, 3, {4, 1, 2}, {6, 3, 3}, 1, 3, 12, {{1, 6, 4}, {2, 3, 1}, {3, 6, 3}}, 6, 3, {0, 1, 1}, 6},
    /* of as much weight, the last label isn't taken where those before it will do: case B, two alike, and one that is worth more uncut */
    {3, 2, 3, {1, 2, 3}, {1, 2, 3}, 1, 3, 6, {{1, 1, 1}, {2, 2, 2}, {2, 3, 3}}, 3, 3, {1, 1, 0}, 3},
    {2, 2, 2, {2, 2}, {5, 5}, 1, 2, 10, {{1, 5, 2}}, 5, 2, {1, 0}, 5},
    {2, 2, 2, {2, 2}, {8, 9}, 2, 2, 8, {{1, 4, 2}}, 8, 2, {1, 0}, 9},
    /* the greatest budget, and what two labels weigh is one more, or just that */
    {TOP, 2, 2, {TOP, 1}, {3, 2}, 1, 2, 5, {{1, 3, TOP}, {2, 2, 1}}, 3, TOP, {1, 0}, 3},
    {TOP, 2, 2, {TOP - 1, 1}, {3, 2}, 1, 2, 5, {{1, 3, TOP - 1}, {2, 2, 1}, {2, 5, TOP}}, 5, TOP, {1, 1}, 5},
    /* no label is left, of none or of some; and none is worth anything */
    {7, 2, 0, {0}, {0}, 1, 0, 0, {{0}}, 0, 0, {0}, 0},
    {0, 100, 0, {0}, {0}, 1, 0, 0, {{0}}, 0, 0, {0}, 0},
    {2, 2, 2, {3, 4}, {5, 65535}, 1, 0, 0, {{0}}, 0, 0, {0, 0}, 0},
    {0, 2, 2, {1, 2}, {3, 4}, 1, 0, 0, {{0}}, 0, 0, {0, 0}, 0},
    {3, 2, 2, {1, 2}, {0, 0}, 1, 2, 0, {{0}}, 0, 0, {0, 0}, 0},
};

enum { CASES = sizeof cases / sizeof cases[0] };

/* The table as the steps say it. */
static void lay_table(const struct stated_case *given, uint32_t *table) {
    uint32_t width = given->total + 1, m;
    const struct step *step;
    for (m = 0; m < (given->m + 1) * width; m++) table[m] = m % width == 0 ? 0 : NO_WEIGHT;
    for (step = given->steps; step->j > 0; step++) {
        for (m = step->j; m <= given->m; m++) table[m * width + step->t] = step->weight;
    }
}

static void set_case(const struct stated_case *given) {
    set_stated(given->budget, given->q, given->n, given->weights, given->values);
}

/* On as many places as it needs, on more, with words that it doesn't need, and on one too few of either. */
static void on_any_room(const struct plain_room *room) {
    struct plain_room other = *room;
    other.cells += 1 + tried % 5;
    other.words += tried % 3;
    other.picks += 1 + tried % 2;
    gives(&other, 0);
    other = *room;
    other.cells--;
    gives(&other, 6);
    other = *room;
    if (other.picks-- > 0) gives(&other, 6);
}

static void try_case(const struct stated_case *given) {
    static uint32_t table[MOST_CELLS];
    struct plain_room room = {(given->m + 1) * (given->total + 1), 0, given->n};
    const struct plain_answer *answer;
    enum best_by by;
    uint32_t i;
    set_case(given);
    lay_table(given, table);
    on_any_room(&room);
    answer = gives(&room, 0);
    same("the second program's value", given->value, answer->first);
    same("its weight", given->weight, answer->second);
    same("its cells", room.cells, answer->filled.cells);
    same("its picks", given->n, answer->filled.picks);
    for (i = 0; i < room.cells; i++) same_at("its cell", i, table[i], answer->cells[i]);
    for (i = 0; i < given->n; i++) same_at("its pick", i, given->picks[i], answer->picks[i]);
    same("whether it is below the best", given->value < given->best, (uint64_t)is_below_best(&bytes, answer, &by));
    holds("that q times the value is q-1 times the best or more", given->q * given->value >= (given->q - 1) * given->best);
}

/* ---- other divisors */

/* What is written instead: rounded up; less than 1; with all labels in place of those that are left; with the values of all of them; and
 * with q-1, of which the share would be q-2 parts. */
enum { ROUNDED_UP, NO_LEAST, ALL_LABELS, ALL_VALUES, LESS_Q, WRONG_DIVISORS };

static uint32_t wrong_divisor(const struct stated_case *given, int wrong) {
    uint32_t i, greatest = 0, count = wrong == ALL_LABELS ? given->n : given->m, by, divisor;
    for (i = 0; i < given->n; i++) {
        if (wrong == ALL_VALUES || given->weights[i] <= given->budget) greatest = GREATER(greatest, given->values[i]);
    }
    by = count * (wrong == LESS_Q ? given->q - 1 : given->q);
    if (by == 0) return 1;
    divisor = wrong == ROUNDED_UP ? (greatest + by - 1) / by : greatest / by;
    return divisor == 0 && wrong != NO_LEAST ? 1 : divisor;
}

/* The right one is the second program's, and each of the others is told from it by several jobs. */
static void divisors(void) {
    static struct plain_stated stated;
    struct plain_job read;
    uint32_t told[WRONG_DIVISORS] = {0}, k;
    int wrong;
    for (k = 0; k < CASES; k++) {
        about("stated share, divisor of case", k);
        set_case(&cases[k]);
        put_job(&bytes, &job);
        read_back(&bytes, &read);
        plain_state(&read, &stated);
        same("the second program's divisor", cases[k].divisor, stated.divisor);
        same("its labels", cases[k].m, stated.m);
        same("its total", cases[k].total, stated.total);
        for (wrong = 0; wrong < WRONG_DIVISORS; wrong++) told[wrong] += wrong_divisor(&cases[k], wrong) != cases[k].divisor;
    }
    for (wrong = 0; wrong < WRONG_DIVISORS; wrong++) holds("that another divisor is told from it", told[wrong] >= 3);
}

/* ---- q, and the number of budgets */

static const struct plain_room case_a_room = {CASE_A_STATED_CELLS, 0, CASE_A_LABELS};

/* Case A with any q that may be mistaken for one that is allowed. Its table has the same cells with every q. */
static void any_q(void) {
    static const uint32_t outside[] = {0, LEAST_Q - 1, MOST_Q + 1, MOST_Q + 2, 256 + LEAST_Q, CUT_TO + MOST_Q, UINT32_MAX};
    size_t k;
    case_a(&job, KIND_STATED_SHARE);
    for (job.q = LEAST_Q; job.q <= MOST_Q; job.q++) gives(&case_a_room, 0);
    for (k = 0; k < sizeof outside / sizeof outside[0]; k++) {
        job.q = outside[k];
        gives(&case_a_room, 5);
    }
    set_stated(CASE_A_BUDGET, LEAST_Q - 1, 0, NULL, NULL); /* though it has no labels */
    gives(&case_a_room, 5);
}

/* Case A as a job of any kind number, with so many budgets: it is refused with 1 exactly where these aren't as many as there have to be. */
static void try_budgets(uint32_t kind, uint32_t count) {
    static const struct plain_room enough = {CASE_A_STATED_CELLS, CASE_A_STATED_CELLS, CASE_A_LABELS};
    static const uint32_t budgets[] = {CASE_A_BUDGET, LEAST_Q, LEAST_Q};
    int way, as_many = count == BUDGETS_OF(kind);
    about("stated share, budgets", tried++);
    case_a(&job, kind);
    bytes.length = 0;
    put_section(&bytes, &kind, 1);
    put_section(&bytes, budgets, count);
    put_section(&bytes, job.weights.at, job.weights.count);
    put_section(&bytes, job.values.at, job.values.count);
    put_section(&bytes, job.copies.at, job.copies.count);
    for (way = 0; way < PLAIN_WAYS; way++) {
        holds("that it is refused with 1, or not", as_many == (try_job(&bytes, way, &enough, tried)->refused != 1));
    }
    refused += !as_many;
}

static void any_budgets(void) {
    static const uint32_t others[] = {256 + KIND_STATED_SHARE, CUT_TO + KIND_STATED_SHARE, UINT32_MAX};
    uint32_t kind, count;
    for (count = 0; count <= 3; count++) {
        for (kind = 0; kind <= LAST_KIND + 1; kind++) try_budgets(kind, count);
        for (kind = 0; kind < sizeof others / sizeof others[0]; kind++) try_budgets(others[kind], count);
    }
}

/* ---- faults that come together */

/* Bits of a mask, in the order of refusals. */
enum { BAD_BYTES, BAD_KIND, BAD_VALUES, BAD_COPIES, BAD_BUDGET, BAD_Q, BAD_WEIGHT, BAD_VALUE, FEW_CELLS, FEW_PICKS, BITS };
static const uint32_t refusals[BITS] = {1, 2, 3, 3, 4, 5, 5, 5, 6, 6};

static unsigned has(unsigned mask, int bit) {
    return mask >> bit & 1;
}

/* Case A with the faults of a mask. The number of a kind that there isn't goes with one budget. */
static void try_faults(unsigned mask) {
    struct plain_room room = case_a_room;
    int lowest = 0;
    case_a(&job, KIND_STATED_SHARE);
    if (has(mask, BAD_KIND)) job.kind = LAST_KIND + 1;
    if (has(mask, BAD_VALUES)) job.values.count--;
    if (has(mask, BAD_COPIES)) job.copies.at[job.copies.count++] = 1;
    if (has(mask, BAD_BUDGET)) job.budget = MOST_BUDGET + 1;
    if (has(mask, BAD_Q)) job.q = has(mask, BAD_WEIGHT) ? LEAST_Q - 1 : MOST_Q + 1;
    if (has(mask, BAD_WEIGHT)) job.weights.at[1] = LEAST_WEIGHT - 1;
    if (has(mask, BAD_VALUE)) job.values.at[0] = MOST_VALUE + 1;
    if (has(mask, BAD_BYTES)) job.budgets = 3 - BUDGETS_OF(job.kind);
    room.cells -= has(mask, FEW_CELLS);
    room.picks -= has(mask, FEW_PICKS);
    while (lowest < BITS && !has(mask, lowest)) lowest++;
    gives(&room, lowest < BITS ? refusals[lowest] : 0);
}

/* ---- tables that more than 32 bits count */

enum { MANY = 1024 }; /* labels, whatever the most are: by this number cells and divisors are worked out */

/* m labels that weigh 1 and are worth this, the first one so much more. */
static void many_alike(uint32_t m, uint32_t value, uint32_t more, uint32_t q) {
    uint32_t i;
    set_stated(MOST_BUDGET, q, 0, NULL, NULL);
    for (i = 0; i < m; i++) {
        job.weights.at[i] = 1;
        job.values.at[i] = value + (i == 0 ? more : 0);
    }
    job.weights.count = job.values.count = m;
}

/* It needs so many cells, and is refused on no more of them than are left of these in 32 bits, and on some. */
static void is_too_large(uint64_t cells) {
    struct plain_room room = {(uint32_t)cells, 0, job.weights.count};
    same("the cells that are needed", cells, room_of(&job, LIGHT_WAY).cells);
    if (room.cells > PLAIN_CELLS) room.cells = PLAIN_CELLS; /* so many are lent for a moment, and no more */
    gives(&room, 6);
    room.cells++;
    gives(&room, 6);
    room.cells = 0;
    gives(&room, 6);
}

static void too_large(void) {
    const uint64_t two_to_32 = (uint64_t)UINT32_MAX + 1, most = MOST_LABELS;
    many_alike(1023, 4100, 3, MOST_Q); /* 1,024 rows of 2^22 totals: in 32 bits that is none */
    is_too_large(two_to_32);
    many_alike(1023, 4100, 4, MOST_Q); /* and with a total more it is a cell for each row */
    is_too_large(two_to_32 + 1024);
    many_alike(511, 16416, 31, MOST_Q); /* 512 rows of 2^23 totals, and one more */
    is_too_large(two_to_32);
    many_alike(511, 16416, 32, MOST_Q);
    is_too_large(two_to_32 + 512);
    many_alike(MANY, MOST_VALUE, 0, LEAST_Q); /* with a divisor of 31, and 2,114 of each cut value */
    is_too_large((MANY + 1) * (MANY * 2114u + 1));
    many_alike(MOST_LABELS, MOST_VALUE, 0, MOST_Q); /* the greatest: with 4,096 labels 4,097 rows of 268,431,361 totals */
    is_too_large((most + 1) * (most * MOST_VALUE + 1));
}

/* ---- rows of any length */

/* Two labels whose values, v and the rest, stay uncut; together they weigh just C, or one more. */
static void try_pass(uint32_t total, uint32_t v) {
    uint32_t weights[] = {3, 4}, values[] = {v, total - v};
    struct plain_room room = {3 * (total + 1), 0, 2};
    set_stated(6 + (v & 1), MOST_Q, 2, weights, values);
    about("stated share", tried++);
    put_job(&bytes, &job);
    same("the second program's refusal", 0, try_job(&bytes, LIGHT_WAY, &room, tried)->refused);
}

/* Four labels, of which the first has the value and three share the rest. */
static void try_long_pass(uint32_t total, uint32_t v) {
    uint32_t part = (total - v) / 3, weights[] = {5, 4, 3, 2}, values[] = {v, part, part, total - v - 2 * part};
    struct plain_room room = {5 * (total + 1), 0, 4};
    set_stated(9 + v % 6, MOST_Q, 4, weights, values);
    about("stated share", tried++);
    put_job(&bytes, &job);
    same("the second program's refusal", 0, try_job(&bytes, LIGHT_WAY, &room, tried)->refused);
}

/* Every row up to a few stretches with every value; and longer ones about whole stretches, with values about such. */
static void any_row(void) {
    static const uint32_t lengths[] = {128, 256, 1024}, about_these[] = {1, 4, STRETCH, WORD_BITS, 100};
    uint32_t total, v;
    size_t k, i;
    for (total = 0; total <= 4 * STRETCH + 5; total++) {
        for (v = 0; v <= total; v++) try_pass(total, v);
    }
    for (k = 0; k < sizeof lengths / sizeof lengths[0]; k++) {
        for (i = 0; i < sizeof about_these / sizeof about_these[0]; i++) {
            for (total = lengths[k] - 2; total <= lengths[k]; total++) try_long_pass(total, about_these[i] - 1 + total % 3);
        }
    }
}

/* ---- many labels */

/* Each weighs 1 and is worth 1: total t weighs t in each row that has so many labels, as far as that is within C, and the first C labels
 * are picked. With this q, m times q is 65,536. */
static void all_alike(uint32_t budget) {
    const struct plain_answer *answer;
    struct plain_room room = {(MANY + 1) * (MANY + 1), 0, MANY};
    uint32_t m, width = MANY + 1;
    many_alike(MANY, 1, 0, 64);
    job.budget = budget;
    answer = gives(&room, 0);
    same("the second program's value", budget, answer->first);
    same("its weight", budget, answer->second);
    for (m = 0; m < MANY; m++) same_at("its pick", m, m < budget, answer->picks[m]);
    for (m = 0; m < width * width; m++) {
        uint32_t t = m % width;
        same_at("its cell", m, t <= m / width && t <= budget ? t : NO_WEIGHT, answer->cells[m]);
    }
}

/* Of n labels the last is worth this and each of the others that. Its value is cut to so much, and theirs to nothing, so that it is picked
 * alone. */
static void one_of_many(uint32_t n, uint32_t greatest, uint32_t each, uint32_t q, uint32_t cut) {
    const struct plain_answer *answer;
    struct plain_room room = {(n + 1) * (cut + 1), 0, n};
    uint32_t i;
    many_alike(n, each, 0, q);
    job.values.at[n - 1] = greatest;
    answer = gives(&room, 0);
    same("the second program's value", greatest, answer->first);
    same("its weight", 1, answer->second);
    for (i = 0; i < n; i++) same_at("its pick", i, i == n - 1, answer->picks[i]);
    holds("its share of the best", q * greatest >= (q - 1) * (greatest + (n - 1) * each));
}

/* With 65 for q, m times q is 1,024 in 16 bits, by which the divisor would be 2. */
static void many_labels(void) {
    all_alike(1000);
    all_alike(1);
    one_of_many(MANY, 2048, 0, 65, 2048);
    one_of_many(MANY, MOST_VALUE, 30, LEAST_Q, 2114);
    one_of_many(MOST_LABELS, 3, 0, MOST_Q, 3);
}

void part_stated(void) {
    unsigned mask;
    size_t k;
    for (k = 0; k < CASES; k++) try_case(&cases[k]);
    divisors();
    any_q();
    any_budgets();
    for (mask = 0; mask < 1u << BITS; mask++) try_faults(mask);
    too_large();
    any_row();
    many_labels();
    printf("stated share: %lu jobs, %lu of them refused\n", tried, refused);
}
