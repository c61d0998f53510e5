/* Large jobs of every kind, drawn: few labels with large weights and budgets, many labels, more than 2^64 ways, products beyond 32 bits.
 * Each is answered as document 01's second program has it, by its tables and, where they aren't too many, by trying every selection; those
 * of kind 1 in both ways, and one in eight of the others. */
#include "draw.h"
#include "parts.h"
#include "tally.h"
#include "tell.h"
#include <stdio.h>

enum { EACH = 200, START = 3000000, BOTH_IN = 8 }; /* jobs of each kind, the number of the first one, and who is asked in both ways */

/* At least so often, as in drawn.c. */
static const struct tally least = {.came = {[KIND_ONCE] = {[0] = EACH},
                                            [KIND_COPIES] = {[0] = EACH},
                                            [KIND_ANY] = {[0] = EACH},
                                            [KIND_SUMS] = {[0] = EACH},
                                            [KIND_FEWEST] = {[0] = 110, [7] = 40},
                                            [KIND_WAYS] = {[0] = 100, [8] = 60},
                                            [KIND_SHARES] = {[0] = EACH},
                                            [KIND_LABELS_BEHIND] = {[0] = 130, [7] = 22},
                                            [KIND_STATED_SHARE] = {[0] = EACH}},
                                   .ties = {[KIND_ONCE] = {9},
                                            [KIND_COPIES] = {5},
                                            [KIND_ANY] = {1},
                                            [KIND_FEWEST] = {1},
                                            [KIND_SHARES] = {70},
                                            [KIND_LABELS_BEHIND] = {8},
                                            [KIND_STATED_SHARE] = {1}},
                                   .tried = 430};

static struct tally tally;
static struct job job;
static struct bytes bytes;
static struct plain_job read;
static struct plain_stated stated; /* of a job of kind 9 */

/* ---- which loops they ran */

enum {
    BITS_NEAR,
    BITS_FAR,
    BITS_EVEN,
    BITS_FULL,
    BITS_MIXED,
    LIGHT,
    HEAVY,
    BITS,
    CROSSING,
    WHOLE,
    EVERY,
    SMALL,
    BLOCKS,
    COUNTED,
    PASSED,
    PRODUCT,
    SUM,
    NEAR,
    FAR,
    EVEN,
    TAKEN,
    LATE,
    REACHED,
    MISSED,
    TOTALS_NEAR,
    TOTALS_FAR,
    TOTALS_EVEN,
    ANY_Q,
    BY_ONE,
    BY_TWO,
    BY_MORE,
    WIDE_ROW,
    MANY_LEFT,
    MANY_ASIDE,
    SEVERAL,
    BEST_TRIED,
    BEST_IN_TABLE,
    SHORT_OF_BEST,
    MANY,
    BOUND,
    LOOPS
};

static struct thing loops[LOOPS] = {
    [BITS_NEAR] = {"kind 1, bits of 4 words or more above a weight below a word", 90, 0},
    [BITS_FAR] = {"kind 1, bits of 4 words or more above a weight of a word or more", 120, 0},
    [BITS_EVEN] = {"kind 1, bits of whole words above a weight", 35, 0},
    [BITS_FULL] = {"kind 1, a row of whole words of bits", 24, 0},
    [BITS_MIXED] = {"kind 1, ten words or more with bits set among others that aren't", 60, 0},
    [LIGHT] = {"kind 3, a weight below a stretch that fits so many times", 50, 0},
    [HEAVY] = {"kind 3, a weight of a stretch or more that fits 4 times", 120, 0},
    [BITS] = {"kind 4, more words than a stretch above a weight of bits", 90, 0},
    [CROSSING] = {"kind 4, more words than a stretch above a weight of words and bits", 110, 0},
    [WHOLE] = {"kind 4, more words than a stretch above a weight of whole words", 80, 0},
    [EVERY] = {"kind 4, a total in each of more words than a stretch", 30, 0},
    [SMALL] = {"kind 5, a size below a stretch that fits so many times", 25, 0},
    [BLOCKS] = {"kind 5, a size of a stretch or more that fits 4 times", 90, 0},
    [COUNTED] = {"kind 6, 2^62 ways or more, counted", 15, 0},
    [PASSED] = {"kind 6, counted, though an amount before it is full", 40, 0},
    [PRODUCT] = {"kind 7, a product beyond 32 bits", 120, 0},
    [SUM] = {"kind 7, claims that sum beyond 32 bits", 25, 0},
    [NEAR] = {"kind 8, cells of 4 stretches or more above a weight below a stretch", 65, 0},
    [FAR] = {"kind 8, cells of 4 stretches or more above a weight of a stretch or more", 130, 0},
    [EVEN] = {"kind 8, cells of whole stretches above a weight", 70, 0},
    [TAKEN] = {"kind 8, six labels or more behind C", 20, 0},
    [LATE] = {"kind 8, C reached with the last of three labels or more", 20, 0},
    [REACHED] = {"kinds 4 and 8, asked the same: C is reached", 170, 0},
    [MISSED] = {"kinds 4 and 8, asked the same: C isn't reached", 130, 0},
    [TOTALS_NEAR] = {"kind 9, totals of 4 stretches or more above a cut value below a stretch", 80, 0},
    [TOTALS_FAR] = {"kind 9, totals of 4 stretches or more above a cut value of a stretch or more", 100, 0},
    [TOTALS_EVEN] = {"kind 9, totals of whole stretches above a cut value", 55, 0},
    [ANY_Q] = {"kind 9, a q of 50 or more", 20, 0},
    [BY_ONE] = {"kind 9, a divisor of 1", 55, 0},
    [BY_TWO] = {"kind 9, a divisor of 2", 25, 0},
    [BY_MORE] = {"kind 9, a divisor of 3 or more", 80, 0},
    [WIDE_ROW] = {"kind 9, a row of 4,096 totals or more", 22, 0},
    [MANY_LEFT] = {"kind 9, a fifth of the most labels or more, none of them left aside", 3, 0},
    [MANY_ASIDE] = {"kind 9, ten labels or more left aside, and as many not", 22, 0},
    [SEVERAL] = {"kind 9, six labels or more picked", 50, 0},
    [BEST_TRIED] = {"kind 9, beside the best value by trying", 75, 0},
    [BEST_IN_TABLE] = {"kind 9, beside the best value by a table", 85, 0},
    [SHORT_OF_BEST] = {"kind 9, a value below the best", 40, 0},
    [MANY] = {"labels, a fifth of the most or more", 110, 0},
    [BOUND] = {"the greatest budget, in all kinds but 7", 35, 0},
};

/* Whether a weight from one number to another fits so many times. */
static int has_weight(uint32_t from, uint32_t to, uint32_t times) {
    uint32_t i;
    for (i = 0; i < job.weights.count; i++) {
        if (from <= job.weights.at[i] && job.weights.at[i] <= to && times <= job.budget / job.weights.at[i]) return 1;
    }
    return 0;
}

/* Whether a weight is one of less than a word, of words and bits, or of whole words, and the words that it moves are more than a stretch.
 */
static int has_move(int which) {
    uint32_t i;
    for (i = 0; i < job.weights.count; i++) {
        uint32_t weight = job.weights.at[i];
        if (weight > job.budget || job.budget / WORD_BITS - weight / WORD_BITS < STRETCH) continue;
        if (which == (weight < WORD_BITS ? BITS : weight % WORD_BITS != 0 ? CROSSING : WHOLE)) return 1;
    }
    return 0;
}

/* Whether the words are more than a stretch, and each of them has a total. */
static int has_every(const struct plain_answer *answer) {
    uint32_t m = 0;
    while (m < answer->filled.words && answer->words[m] != 0) m++;
    return m > STRETCH && m == answer->filled.words;
}

/* Kind 6: the first amount that is full, or C. */
static uint32_t first_full(const struct plain_answer *answer) {
    uint32_t a = 0;
    while (a < job.budget && answer->words[a] != FULL) a++;
    return a;
}

static int has_product(void) {
    uint32_t i = 0;
    while (i < job.weights.count && (uint64_t)job.budget * job.weights.at[i] <= UINT32_MAX) i++;
    return i < job.weights.count;
}

/* Kinds 8 and 1: whether the cells above a weight, which its pass goes over, are several times the unit, for NEAR and FAR, or a multiple of
 * it, for EVEN. */
static int has_pass(int which, uint32_t unit) {
    uint32_t i;
    for (i = 0; i < job.weights.count; i++) {
        uint32_t weight = job.weights.at[i], above = ROW(job.budget) - weight;
        if (weight > job.budget) continue;
        if (which == EVEN && above % unit == 0) return 1;
        if (above >= 4 * unit && which == (weight < unit ? NEAR : FAR)) return 1;
    }
    return 0;
}

/* Kind 1, in the light way: whether ten words have some bits set, and some not. */
static int has_mixed(const struct plain_answer *answer) {
    uint32_t m, count = 0;
    for (m = 0; m < answer->filled.words; m++) count += answer->words[m] != 0 && answer->words[m] != UINT64_MAX;
    return count >= 10;
}

/* Kind 9: the same of a cut value and the totals that its pass goes over. */
static int has_totals(int which) {
    uint32_t k;
    for (k = 0; k < stated.m; k++) {
        uint64_t cut = stated.cut[k], above = stated.total + 1 - cut;
        if (which == TOTALS_EVEN && above % STRETCH == 0) return 1;
        if (above >= 4 * STRETCH && which == (cut < STRETCH ? TOTALS_NEAR : TOTALS_FAR)) return 1;
    }
    return 0;
}

static void count_stated(const struct plain_answer *answer) {
    uint32_t aside;
    int which;
    if (job.kind != KIND_STATED_SHARE || answer->refused != 0) return;
    plain_state(&read, &stated);
    aside = job.weights.count - stated.m;
    for (which = TOTALS_NEAR; which <= TOTALS_EVEN; which++) loops[which].came += has_totals(which);
    loops[ANY_Q].came += job.q >= 50;
    loops[stated.divisor == 1 ? BY_ONE : stated.divisor == 2 ? BY_TWO : BY_MORE].came += stated.m > 0;
    loops[WIDE_ROW].came += stated.total >= 4096;
    loops[MANY_LEFT].came += stated.m >= MOST_LABELS / 5 && aside == 0;
    loops[MANY_ASIDE].came += stated.m >= 10 && aside >= 10;
    loops[SEVERAL].came += labels_kept(answer) >= 6;
}

/* Kind 9 beside the best; what is expected is gone after it. */
static void count_share(const struct plain_answer *answer) {
    enum best_by by;
    if (job.kind != KIND_STATED_SHARE || answer->refused != 0) return;
    loops[SHORT_OF_BEST].came += (unsigned long)is_below_best(&bytes, answer, &by);
    loops[BEST_TRIED].came += by == BY_TRYING;
    loops[BEST_IN_TABLE].came += by == BY_TABLE;
}

static void count_loops(const struct plain_answer *answer) {
    uint32_t kind = answer->refused == 0 ? job.kind : 0;
    int which;
    for (which = NEAR; which <= EVEN; which++) loops[BITS_NEAR + which - NEAR].came += kind == KIND_ONCE && has_pass(which, WORD_BITS);
    loops[BITS_FULL].came += kind == KIND_ONCE && ROW(job.budget) % WORD_BITS == 0;
    loops[BITS_MIXED].came += kind == KIND_ONCE && has_mixed(answer);
    loops[LIGHT].came += kind == KIND_ANY && has_weight(1, STRETCH - 1, STRETCH);
    loops[HEAVY].came += kind == KIND_ANY && has_weight(STRETCH, UINT32_MAX, 4);
    for (which = BITS; which <= WHOLE; which++) loops[which].came += kind == KIND_SUMS && has_move(which);
    loops[EVERY].came += kind == KIND_SUMS && has_every(answer);
    loops[SMALL].came += kind == KIND_FEWEST && has_weight(1, STRETCH - 1, STRETCH);
    loops[BLOCKS].came += kind == KIND_FEWEST && has_weight(STRETCH, UINT32_MAX, 4);
    loops[COUNTED].came += kind == KIND_WAYS && answer->first >> 62 != 0;
    loops[PASSED].came += kind == KIND_WAYS && first_full(answer) < job.budget;
    loops[PRODUCT].came += kind == KIND_SHARES && has_product();
    loops[SUM].came += kind == KIND_SHARES && plain_sum(read.weights) > UINT32_MAX;
    for (which = NEAR; which <= EVEN; which++) loops[which].came += job.kind == KIND_LABELS_BEHIND && has_pass(which, STRETCH);
    loops[TAKEN].came += kind == KIND_LABELS_BEHIND && labels_kept(answer) >= 6;
    loops[LATE].came += kind == KIND_LABELS_BEHIND && job.weights.count >= 3 && answer->cells[job.budget] == job.weights.count;
    loops[MANY].came += kind != 0 && has_labels(kind) && job.weights.count >= MOST_LABELS / 5;
    loops[BOUND].came += kind != 0 && kind != KIND_SHARES && job.budget == MOST_BUDGET;
}

/* ---- the jobs */

static struct plain_room put_and_read(enum plain_way way) {
    put_job(&bytes, &job);
    read_back(&bytes, &read);
    return plain_room(&read, way);
}

/* Kind 6: moves C to the first amount that has too many ways, or to the one before it. */
static void to_the_border(struct draw *draw) {
    struct plain_room room = put_and_read(LIGHT_WAY);
    job.budget = first_full(expected_of(&bytes, LIGHT_WAY, &room)) - drawn(draw, 0, 1);
}

/* Slices of some places more than are needed. */
static struct plain_room lengths_in(enum plain_way way, struct draw *draw) {
    struct plain_room lengths = put_and_read(way);
    lengths.cells += drawn(draw, 0, 20);
    lengths.words += drawn(draw, 0, 20);
    lengths.picks += drawn(draw, 0, 20);
    return lengths;
}

static void try_number(uint64_t number) {
    struct draw draw = {START + number};
    struct plain_room lengths[PLAIN_WAYS];
    const struct plain_answer *answer;
    about("large", number);
    draw_large(&draw, 1 + (uint32_t)(number % LAST_KIND), &job);
    if (job.kind == KIND_WAYS && chance(&draw, 2)) to_the_border(&draw);
    lengths[LIGHT_WAY] = lengths_in(LIGHT_WAY, &draw);
    lengths[FULL_WAY] = lengths_in(FULL_WAY, &draw);
    if (job.kind == KIND_ONCE || number / LAST_KIND % BOTH_IN == 0) answer = try_both_ways(&bytes, lengths, number).of[LIGHT_WAY];
    else answer = try_job(&bytes, LIGHT_WAY, &lengths[LIGHT_WAY], number);
    count_in(&tally, &bytes, answer);
    count_loops(answer);
    count_stated(answer);
    count_share(answer);
    if (asks_for_a_total(&bytes)) loops[agree_on_totals(&bytes) ? REACHED : MISSED].came++;
}

void part_large(void) {
    uint64_t number;
    for (number = 0; number < EACH * LAST_KIND; number++) try_number(number);
    hold_tally("large", &tally, &least);
    hold_things("large", loops, LOOPS);
    printf("large: %d jobs; %lu answers by trying every selection too\n", EACH * LAST_KIND, tally.tried);
}
