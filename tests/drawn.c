/* Small jobs of every kind, drawn: with ties, with faults, a third with damaged bytes, with slices too short or longer than needed. Each is
 * answered as document 01's second program has it: what is drawn as kind 1, or reads so, in both ways, and of the rest one in eight. */
#include "draw.h"
#include "parts.h"
#include "tally.h"
#include "tell.h"
#include <stdio.h>
#include <string.h>

enum { JOBS = 243000, DAMAGED_IN = 3, BOTH_IN = 8, WIDE_IN = 3 }; /* one in so many is damaged, asked in both ways, or of a wide row */

/* How large a small job is, by kind, so that all its selections can be tried for each place of its table. */
static const struct {
    uint32_t labels, budget;
} most[LAST_KIND + 1] = {
    [KIND_ONCE] = {6, 20}, [KIND_COPIES] = {4, 16}, [KIND_ANY] = {5, 18},           [KIND_SUMS] = {5, 140},       [KIND_FEWEST] = {5, 50},
    [KIND_WAYS] = {5, 36}, [KIND_SHARES] = {9, 99}, [KIND_LABELS_BEHIND] = {5, 40}, [KIND_STATED_SHARE] = {5, 20}};

/* Some of kind 1 have fewer labels and a row of more than two words of bits. */
enum { WIDE_LABELS = 3, WIDE_BUDGET = 2 * WORD_BITS + 20 };

/* At least so often, by kind: answered, [0], and refused with 1 to 9; ties, and those that tell the rule from another; by trying. */
static const struct tally least = {.came = {[0] = {[1] = 40000, [2] = 5000},
                                            [KIND_ONCE] = {[0] = 12000, [3] = 1500, [4] = 800, [5] = 1500, [6] = 1800},
                                            [KIND_COPIES] = {[0] = 12000, [3] = 1500, [4] = 800, [5] = 1800, [6] = 1600},
                                            [KIND_ANY] = {[0] = 12000, [3] = 1500, [4] = 800, [5] = 1800, [6] = 1600},
                                            [KIND_SUMS] = {[0] = 13000, [3] = 1000, [4] = 900, [5] = 1000, [6] = 1100},
                                            [KIND_FEWEST] = {[0] = 8000, [3] = 1000, [4] = 900, [5] = 2000, [6] = 1700, [7] = 3000},
                                            [KIND_WAYS] = {[0] = 12000, [3] = 1000, [4] = 900, [5] = 2000, [6] = 1000},
                                            [KIND_SHARES] = {[0] = 15000, [3] = 1000, [4] = 80, [6] = 900, [9] = 500},
                                            [KIND_LABELS_BEHIND] = {[0] = 7000, [3] = 900, [4] = 850, [5] = 900, [6] = 1700, [7] = 4200},
                                            [KIND_STATED_SHARE] = {[0] = 11500, [3] = 1350, [4] = 800, [5] = 1700, [6] = 1300}},
                                   .ties = {[KIND_ONCE] = {4000, 1500, 4000, 2300},
                                            [KIND_COPIES] = {3500, 2000, 3500, 1800},
                                            [KIND_ANY] = {4000, 4000, 4000, 250},
                                            [KIND_FEWEST] = {2500, 50, 2500, 2400},
                                            [KIND_SHARES] = {3500},
                                            [KIND_LABELS_BEHIND] = {2600, 2300, 2600, 430},
                                            [KIND_STATED_SHARE] = {1050, 1000, 1050, 40}},
                                   .tried = 90000};

static struct tally tally;
static struct job job;
static struct bytes bytes, whole;

/* ---- what else has to come up */

enum {
    DAMAGED,
    JUDGED,
    ANSWERED,
    BEHIND,
    NO_LABELS,
    NO_BUDGET,
    CUT,
    FEW_CELLS,
    FEW_WORDS,
    FEW_PICKS,
    REACHED,
    MISSED,
    BOTH_ONCE,
    BOTH_DAMAGED,
    BOTH_OTHERS,
    LIGHT_ONLY,
    FULL_ONLY,
    FEW_BITS,
    WIDE,
    BY_ONE,
    BY_TWO,
    BY_MORE,
    ASIDE,
    NONE_LEFT,
    OTHER_MOST,
    OTHER_COUNT,
    LIGHTER,
    SHORT_OF_BEST,
    LESSER_Q,
    GREATER_Q,
    AT_LEAST_Q,
    AT_MOST_Q,
    ONE_BUDGET,
    TWO_BUDGETS,
    THINGS
};

static struct thing things[THINGS] = {
    [DAMAGED] = {"damaged", JOBS / DAMAGED_IN, 0},
    [JUDGED] = {"damaged, and refused with 2 or more", 9000, 0},
    [ANSWERED] = {"damaged, and answered", 5500, 0},
    [BEHIND] = {"damaged, and answered as kind 8, or refused with 7", 750, 0},
    [NO_LABELS] = {"no labels, and answered", 5000, 0},
    [NO_BUDGET] = {"budget 0, and answered", 2500, 0},
    [CUT] = {"labels, answered, with a weight that fits if it is cut to 16 bits", 4500, 0},
    [FEW_CELLS] = {"refused with 6 for its cells alone", 4000, 0},
    [FEW_WORDS] = {"refused with 6 for its words alone", 2000, 0},
    [FEW_PICKS] = {"refused with 6 for its picks alone", 3000, 0},
    [REACHED] = {"kinds 4 and 8, asked the same: C is reached", 9500, 0},
    [MISSED] = {"kinds 4 and 8, asked the same: C isn't reached", 15000, 0},
    [BOTH_ONCE] = {"kind 1, answered in both ways", 10000, 0},
    [BOTH_DAMAGED] = {"kind 1, damaged, and answered in both ways", 650, 0},
    [BOTH_OTHERS] = {"other kinds, answered in both ways", 8500, 0},
    [LIGHT_ONLY] = {"kind 1, refused with 6 in the full way alone", 950, 0},
    [FULL_ONLY] = {"kind 1, refused with 6 in the light way alone", 1400, 0},
    [FEW_BITS] = {"kind 1, refused with 6 for the words of the light way alone", 450, 0},
    [WIDE] = {"kind 1, answered in the light way, with three words for each of two labels or more", 370, 0},
    [BY_ONE] = {"kind 9, a divisor of 1", 4500, 0},
    [BY_TWO] = {"kind 9, a divisor of 2", 2200, 0},
    [BY_MORE] = {"kind 9, a divisor of 3 or more", 3000, 0},
    [ASIDE] = {"kind 9, labels left aside, and others", 5000, 0},
    [NONE_LEFT] = {"kind 9, labels, all of them left aside", 700, 0},
    [OTHER_MOST] = {"kind 9, another divisor if the values that are left aside counted", 3400, 0},
    [OTHER_COUNT] = {"kind 9, another divisor if the labels that are left aside were counted", 2400, 0},
    [LIGHTER] = {"kind 9, other picks if the heavier of equal ones would do", 340, 0},
    [SHORT_OF_BEST] = {"kind 9, a value below the best", 700, 0},
    [LESSER_Q] = {"kind 9, refused with 5 for a q of one less than the least", 130, 0},
    [GREATER_Q] = {"kind 9, refused with 5 for a q of one more than the greatest", 110, 0},
    [AT_LEAST_Q] = {"kind 9, the least q, answered", 6300, 0},
    [AT_MOST_Q] = {"kind 9, the greatest q, answered", 40, 0},
    [ONE_BUDGET] = {"kind 9, refused with 1 for its one budget", 130, 0},
    [TWO_BUDGETS] = {"other kinds, refused with 1 for two budgets", 1150, 0},
};

static int has_cut_weight(const struct plain_job *read) {
    uint32_t i;
    for (i = 0; i < read->weights.count; i++) {
        uint32_t weight = plain_item(read->weights, i), cut = weight % CUT_TO;
        if (cut != weight && 0 < cut && cut <= read->budget) return 1;
    }
    return 0;
}

static void count_damage(const struct plain_answer *answer) {
    struct plain_job read;
    put_job(&whole, &job);
    if (bytes.length == whole.length && memcmp(bytes.at, whole.at, bytes.length) == 0) return;
    things[DAMAGED].came++;
    things[JUDGED].came += answer->refused >= 2;
    things[ANSWERED].came += answer->refused == 0;
    things[BEHIND].came += answer->filled.cells > 0 && plain_read(bytes.at, bytes.length, &read) && read.kind == KIND_LABELS_BEHIND;
}

static void count_things(const struct plain_answer *answer, const struct plain_room *lengths) {
    struct plain_job read;
    struct plain_room room;
    int cells, words, picks;
    if ((answer->refused != 0 && answer->refused != 6) || !plain_read(bytes.at, bytes.length, &read)) return;
    room = plain_room(&read, LIGHT_WAY);
    cells = lengths->cells < room.cells, words = lengths->words < room.words, picks = lengths->picks < room.picks;
    things[FEW_CELLS].came += cells && !words && !picks;
    things[FEW_WORDS].came += !cells && words && !picks;
    things[FEW_PICKS].came += !cells && !words && picks;
    things[FEW_BITS].came += !cells && words && !picks && read.kind == KIND_ONCE;
    if (answer->refused != 0) return;
    things[NO_LABELS].came += read.weights.count == 0;
    things[NO_BUDGET].came += read.budget == 0;
    things[CUT].came += has_labels(read.kind) && has_cut_weight(&read);
    things[WIDE].came += read.kind == KIND_ONCE && read.weights.count >= 2 && WORDS_OF_BITS(read.budget) >= 3;
}

/* The divisor with another greatest value, or another number of labels. */
static uint32_t divisor_by(const struct plain_job *read, uint32_t greatest, uint32_t m) {
    return GREATER(greatest / (m * read->q), 1);
}

/* Whether the picks are others where a label isn't taken if those before it have the same cut values, whatever they weigh: as in kind 1. */
static int weight_tells(const struct plain_job *read, const struct plain_stated *stated, const uint32_t *picks) {
    static struct job cut;
    static struct bytes cut_bytes;
    struct plain_job once;
    uint32_t others[PLAIN_PICKS], k;
    set_job(&cut, KIND_ONCE, read->budget, stated->m, stated->weight, stated->cut, NULL);
    put_job(&cut_bytes, &cut);
    read_back(&cut_bytes, &once);
    plain_picks(&once, plain_rule(KIND_ONCE), others);
    for (k = 0; k < stated->m && others[k] == picks[stated->label[k]]; k++) continue;
    return k < stated->m;
}

/* Of a job of kind 9 that is answered. */
static void count_stated(const struct plain_job *read, const struct plain_answer *answer) {
    struct plain_stated stated;
    uint32_t k, n = read->weights.count, greatest = 0, of_all = 0;
    plain_state(read, &stated);
    for (k = 0; k < n; k++) of_all = GREATER(of_all, plain_item(read->values, k));
    for (k = 0; k < stated.m; k++) greatest = GREATER(greatest, plain_item(read->values, stated.label[k]));
    things[AT_LEAST_Q].came += read->q == LEAST_Q;
    things[AT_MOST_Q].came += read->q == MOST_Q;
    things[NONE_LEFT].came += n > 0 && stated.m == 0;
    if (stated.m == 0) return;
    things[ASIDE].came += stated.m < n;
    things[stated.divisor == 1 ? BY_ONE : stated.divisor == 2 ? BY_TWO : BY_MORE].came++;
    things[OTHER_MOST].came += divisor_by(read, of_all, stated.m) != stated.divisor;
    things[OTHER_COUNT].came += divisor_by(read, greatest, n) != stated.divisor;
    things[LIGHTER].came += answer->tried && weight_tells(read, &stated, answer->picks);
}

/* What K6 asks of bytes and of q. Bytes that weren't damaged are refused with 1 for the number of their budgets alone. */
static void count_budgets(const struct plain_answer *answer, uint64_t number) {
    struct plain_job read;
    int alone = answer->refused == 1 && number % DAMAGED_IN != 0;
    things[ONE_BUDGET].came += alone && job.kind == KIND_STATED_SHARE && job.budgets == 1;
    things[TWO_BUDGETS].came += alone && job.kind != KIND_STATED_SHARE && job.budgets == 2;
    if (!plain_read(bytes.at, bytes.length, &read) || read.kind != KIND_STATED_SHARE) return;
    things[LESSER_Q].came += answer->refused == 5 && read.q == LEAST_Q - 1;
    things[GREATER_Q].came += answer->refused == 5 && read.q == MOST_Q + 1;
    if (answer->refused == 0) count_stated(&read, answer);
}

/* Whether the job is one of kind 9 that is answered below the best; and it has its share of that. */
static int falls_short(const struct plain_answer *answer) {
    struct plain_job read;
    enum best_by by;
    if (answer->refused != 0 || !plain_read(bytes.at, bytes.length, &read) || read.kind != KIND_STATED_SHARE) return 0;
    return is_below_best(&bytes, answer, &by);
}

/* Of a job that was asked in both ways. */
static void count_ways(struct both_ways expected, uint64_t number) {
    struct plain_job read;
    uint32_t light = expected.of[LIGHT_WAY]->refused, full = expected.of[FULL_WAY]->refused;
    if (!plain_read(bytes.at, bytes.length, &read)) return;
    if (read.kind != KIND_ONCE) {
        things[BOTH_OTHERS].came += light == 0 && full == 0;
        return;
    }
    things[BOTH_ONCE].came += light == 0 && full == 0;
    things[BOTH_DAMAGED].came += light == 0 && full == 0 && number % DAMAGED_IN == 0;
    things[LIGHT_ONLY].came += light == 0 && full == 6;
    things[FULL_ONLY].came += light == 6 && full == 0;
}

/* ---- the jobs */

/* A job as its number has it, and lengths of slices in both ways, which are those of the job without its faults. Answers whether it was
 * drawn as kind 1. */
static int draw_number(uint64_t number, struct plain_room lengths[PLAIN_WAYS]) {
    struct draw draw = {number};
    uint32_t kind = drawn(&draw, 1, LAST_KIND);
    int way, wide = kind == KIND_ONCE && chance(&draw, WIDE_IN);
    draw_job(&draw, kind, wide ? WIDE_LABELS : most[kind].labels, wide ? WIDE_BUDGET : most[kind].budget, &job);
    for (way = 0; way < PLAIN_WAYS; way++) {
        struct plain_room room = room_of(&job, way);
        lengths[way] = draw_lengths(&draw, &room);
    }
    while (chance(&draw, 3)) draw_fault(&draw, &job);
    put_job(&bytes, &job);
    if (number % DAMAGED_IN == 0) draw_damage(&draw, &job, &bytes);
    return kind == KIND_ONCE;
}

/* All of what was drawn as kind 1, or reads as such, and some of the rest. */
static int in_both_ways(uint64_t number, int is_once) {
    struct plain_job read;
    return is_once || number % BOTH_IN == 0 || (plain_read(bytes.at, bytes.length, &read) && read.kind == KIND_ONCE);
}

static const struct plain_answer *try_ways(uint64_t number, int is_once, const struct plain_room lengths[PLAIN_WAYS]) {
    struct both_ways expected;
    if (!in_both_ways(number, is_once)) return try_job(&bytes, LIGHT_WAY, &lengths[LIGHT_WAY], number);
    expected = try_both_ways(&bytes, lengths, number);
    count_ways(expected, number);
    return expected.of[LIGHT_WAY];
}

static void try_number(uint64_t number) {
    struct plain_room lengths[PLAIN_WAYS];
    const struct plain_answer *answer;
    int is_once = draw_number(number, lengths);
    about("drawn", number);
    answer = try_ways(number, is_once, lengths);
    count_in(&tally, &bytes, answer);
    count_damage(answer);
    count_things(answer, &lengths[LIGHT_WAY]);
    count_budgets(answer, number);
    things[SHORT_OF_BEST].came += (unsigned long)falls_short(answer);
    if (asks_for_a_total(&bytes)) things[agree_on_totals(&bytes) ? REACHED : MISSED].came++;
}

void part_drawn(void) {
    uint64_t number;
    for (number = 0; number < JOBS; number++) try_number(number);
    hold_tally("drawn", &tally, &least);
    hold_things("drawn", things, THINGS);
    printf("drawn: %d jobs; %lu answers by trying every selection too\n", JOBS, tally.tried);
}
