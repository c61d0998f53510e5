/* The most labels, from solving to checking, for each kind that has certificates; then one cell or one pick changed. With the greatest
 * budget as well, a table of kinds 1 and 2 would take a gigabyte, and its certificate another: so their budget is a quarter of it. The two
 * kinds share both slices. Kind 1 is solved in both ways: the full one leaves what a certificate is written from, and the light one is held
 * to that. At both bounds are kind 3, from solving to checking, and kind 1 in the light way. */
#include "calls.h"
#include "draw.h"
#include "parts.h"
#include "tell.h"
#include <stdio.h>
#include <string.h>

enum { N = MOST_LABELS, TABLE_BUDGET = ROW(MOST_BUDGET) / 4 - 1 }; /* with which tables and certificates are made */

static struct job job;
static struct bytes bytes;
static struct plain_job read;
static struct plain_room room;
static struct solved solved;
static struct written written;
static unsigned long tried;

/* ---- the jobs */

enum { MANY_IN = 16 };

/* Most labels have one copy, since counts take time. One in so many is light and has hundreds, the last one too. */
static void draw_copies(struct draw *draw, uint32_t label, uint32_t *weight, uint32_t *copies) {
    *copies = 1;
    if ((label + 1) % MANY_IN != 0) return;
    *weight = drawn(draw, 1, 9);
    *copies = drawn(draw, 100, 999);
}

static void draw_full(uint32_t kind, uint32_t budget) {
    struct draw draw = {1024}; /* any number */
    uint32_t weights[N], values[N], copies[N], i;
    for (i = 0; i < N; i++) {
        weights[i] = drawn(&draw, 1, 2000);
        values[i] = drawn(&draw, plain_kind(kind)->least_value, MOST_VALUE);
        if (kind == KIND_COPIES) draw_copies(&draw, i, &weights[i], &copies[i]);
    }
    if (kind == KIND_ANY) weights[0] = values[0] = 1; /* then each cell is worth more than the one before it */
    set_job(&job, kind, budget, N, weights, values, copies);
    put_job(&bytes, &job);
    read_back(&bytes, &read);
    room = plain_certificate_room(&read);
}

/* ---- solving */

static uint32_t *pick_of(uint32_t label) {
    return (uint32_t *)solved.picks.slice + label;
}

/* What the list weighs or is worth. */
static uint64_t picked(const struct list *each) {
    uint64_t sum = 0;
    uint32_t i;
    for (i = 0; i < N; i++) sum += *pick_of(i) * (uint64_t)each->at[i];
    return sum;
}

/* Row i of the table that was left. */
static const uint32_t *row_of(uint32_t i) {
    return (uint32_t *)solved.cells.slice + (size_t)i * ROW(job.budget);
}

/* Row 0, and each row, or one in `every`, is what the second program makes of the one before it. */
static void rows_are_best(uint32_t every) {
    static uint32_t row[ROW(TABLE_BUDGET)];
    uint32_t i;
    for (i = 0; i <= job.budget; i++) row[i] = 0;
    holds("row 0", memcmp(row_of(0), row, sizeof row) == 0);
    for (i = every - 1; i < N; i += every) {
        about("full, row", i + 1);
        plain_next_row(&read, i, row_of(i), row);
        holds("the row", memcmp(row_of(i + 1), row, sizeof row) == 0);
    }
}

/* From the last label to the first, each count is the smallest with which the best is made. */
static void picks_are_least(void) {
    uint32_t i, left = job.budget;
    for (i = N; i-- > 0;) {
        uint32_t pick = 0, weight = job.weights.at[i], value = job.values.at[i];
        while (pick * weight <= left && row_of(i)[left - pick * weight] + pick * value != row_of(i + 1)[left]) pick++;
        about("full, label", i);
        if (same("the pick", pick, *pick_of(i))) left -= pick * weight;
    }
}

static void is_solved(void) {
    same("the refusal", 0, solved.refused);
    same("the value", picked(&job.values), solved.first);
    same("the weight", picked(&job.weights), solved.second);
    holds("that the picks fit", solved.second <= job.budget);
    same("the last cell", solved.first, ((uint32_t *)solved.cells.slice)[room.cells - 1]);
    kept_the_rest(&solved, &room);
}

/* On slices that hold what the kind before it left. */
static void solve_again(void) {
    solved.refused = quabnester_solve(bytes.at, bytes.length, solved.cells.slice, room.cells, NULL, 0, solved.picks.slice, room.picks,
                                      &solved.first, &solved.second);
}

/* ---- kind 1 in the light way */

/* Word m of a label, by its row and the row without it. */
static uint64_t bits_of(const uint32_t *with, const uint32_t *without, uint32_t m) {
    uint64_t bits = 0;
    uint32_t c, from = m * WORD_BITS;
    for (c = from; c < from + WORD_BITS && c <= job.budget; c++) bits |= (uint64_t)(with[c] > without[c]) << (c - from);
    return bits;
}

/* The words of label i. */
static const uint64_t *words_of(const struct solved *light, uint32_t i) {
    return (uint64_t *)light->words.slice + (size_t)i * WORDS_OF_BITS(job.budget);
}

static void bits_are_right(const struct solved *light, uint32_t i, const uint32_t *with, const uint32_t *without) {
    uint32_t m = 0;
    while (m < WORDS_OF_BITS(job.budget) && words_of(light, i)[m] == bits_of(with, without, m)) m++;
    about("full, the light way, label", i);
    same("the words that are right", WORDS_OF_BITS(job.budget), m);
}

/* Beside the table that was left in the full way: the last label's bits, and those of one in so many before it. */
static void beside_the_table(void) {
    enum { EVERY = 9 };
    struct plain_room needed = plain_room(&read, LIGHT_WAY);
    struct solved light;
    uint32_t i;
    about("full, the light way", job.budget);
    solve(&light, &bytes, LIGHT_WAY, &needed, 9);
    same("the refusal", 0, light.refused);
    same("the value", solved.first, light.first);
    same("the weight", solved.second, light.second);
    holds("the picks", memcmp(light.picks.slice, solved.picks.slice, N * 4) == 0);
    holds("the row", memcmp(light.cells.slice, row_of(N), ROW(job.budget) * 4) == 0);
    kept_the_rest(&light, &needed);
    for (i = N; i > EVERY; i -= EVERY) bits_are_right(&light, i - 1, row_of(i), row_of(i - 1));
    give_back_solved(&light);
}

/* The second program's rows one after the other, since there is no room for all: each label's bits, and the last row. */
static void rows_are_passed(void) {
    static uint32_t rows[2][ROW(MOST_BUDGET)];
    uint32_t i;
    for (i = 0; i <= job.budget; i++) rows[0][i] = 0;
    for (i = 0; i < N; i++) {
        plain_next_row(&read, i, rows[i % 2], rows[(i + 1) % 2]);
        bits_are_right(&solved, i, rows[(i + 1) % 2], rows[i % 2]);
    }
    holds("the row", memcmp(solved.cells.slice, rows[N % 2], ROW(job.budget) * 4) == 0);
}

/* From the last label to the first, each is kept where its bit for what is left is set: without it less is made of that. */
static void picks_are_by_bits(void) {
    uint32_t i, left = job.budget;
    for (i = N; i-- > 0;) {
        uint32_t pick = words_of(&solved, i)[left / WORD_BITS] >> left % WORD_BITS & 1;
        about("full, the light way, label", i);
        if (same("the pick", pick, *pick_of(i))) left -= pick * job.weights.at[i];
    }
}

static void at_both_bounds(void) {
    draw_full(KIND_ONCE, MOST_BUDGET);
    room = plain_room(&read, LIGHT_WAY);
    about("full, the light way", job.budget);
    same("the words needed", (uint64_t)N * WORDS_OF_BITS(job.budget), room.words);
    solve(&solved, &bytes, LIGHT_WAY, &room, 9);
    is_solved();
    rows_are_passed();
    picks_are_by_bits();
    give_back_solved(&solved);
    printf("full, the light way: %llu words, value %llu\n", (unsigned long long)room.words, (unsigned long long)solved.first);
}

/* ---- writing */

/* The writer on so many bytes of a slice. */
static uint32_t written_on(uint64_t length) {
    return quabnester_write(bytes.at, bytes.length, solved.picks.slice, room.picks, solved.cells.slice, room.cells, written.out.slice,
                            length, &written.bytes);
}

static void write_full(void) {
    uint64_t length = plain_certificate_bytes(&read);
    about("full, write", job.kind);
    same("the refusal of one byte too few", 6, written_on(length - 1));
    same("the bytes written then", 0, written.bytes);
    same("the refusal", 0, written_on(length));
    same("the bytes written", length, written.bytes);
    holds("what stands beside it", kept_outside(&written.out));
}

/* ---- checking */

static void verdict_now(uint32_t number, uint64_t detail) {
    about("full, check", tried++);
    same("the verdict", number, quabnester_check(bytes.at, bytes.length, written.out.slice, written.bytes));
    same("the value or place", detail, quabnester_check_detail(bytes.at, bytes.length, written.out.slice, written.bytes));
}

/* A cell lowered by one: 14 at that place, where the rule is then broken. */
static void lower(uint64_t place) {
    uint8_t *cells = (uint8_t *)written.out.slice + CERTIFICATE(N, 0);
    uint32_t claim = plain_number(cells + 4 * place);
    put_at(cells + 4 * place, claim - 1);
    about("full, lowered", place);
    holds("that the rule is broken", plain_low(&read, cells, place));
    verdict_now(14, place);
    put_at(cells + 4 * place, claim);
}

/* The number of K(i,c). */
static uint64_t place_of(uint32_t i, uint32_t c) {
    return (uint64_t)i * ROW(job.budget) + c;
}

/* Another pick for a label: it isn't allowed, or the list is too heavy, or worth another value than the table claims. */
static void turn(uint32_t label, uint32_t pick) {
    uint32_t kept = *pick_of(label);
    uint8_t *at = (uint8_t *)written.out.slice + 4 + 4 * label;
    *pick_of(label) = pick;
    put_at(at, pick);
    if (pick > most_picked(&job, label)) verdict_now(12, label);
    else verdict_now(picked(&job.weights) > job.budget ? 13 : picked(&job.values) != solved.first ? 15 : 0, 0);
    *pick_of(label) = kept;
    put_at(at, kept);
}

/* The first label that is kept and worth something, or that could be kept more often and is too heavy for it; n where there is none. */
static uint32_t first_kept(void) {
    uint32_t i = 0;
    while (i < N && (*pick_of(i) == 0 || job.values.at[i] == 0)) i++;
    return i;
}

static uint32_t first_left(void) {
    uint32_t i = 0;
    while (i < N && (*pick_of(i) == most_picked(&job, i) || job.weights.at[i] + solved.second <= job.budget)) i++;
    return i;
}

/* Picks that are refused before the cells are asked: one too many for a label, and a list that is too heavy. */
static void other_picks(void) {
    if (holds("that a label is kept", first_kept() < N)) turn(first_kept(), most_picked(&job, first_kept()) + 1);
    if (holds("that a label is left", first_left() < N)) turn(first_left(), *pick_of(first_left()) + 1);
}

/* ---- the kinds */

static void print_kind(void) {
    printf("full, kind %d: %llu cells, value %llu, %lu certificates\n", (int)job.kind, (unsigned long long)room.cells,
           (unsigned long long)solved.first, tried);
    tried = 0;
}

static void once(void) {
    draw_full(KIND_ONCE, TABLE_BUDGET);
    about("full, solve", KIND_ONCE);
    same("the cells needed", FULL_TABLE((uint64_t)N, job.budget), room.cells);
    solve(&solved, &bytes, FULL_WAY, &room, 9);
    is_solved();
    rows_are_best(1);
    picks_are_least();
    beside_the_table();
    lend(&written.out, plain_certificate_bytes(&read), 1, 9);
    write_full();
    verdict_now(0, solved.first);
    lower(place_of(1, job.weights.at[0]));
    lower(place_of(N, job.budget / 2));
    lower(place_of(N, job.budget));
    if (holds("that a label is kept", first_kept() < N)) turn(first_kept(), 0);
    other_picks();
    print_kind();
}

/* Its table is as large as that of kind 1, and each look at it takes longer: so fewer of them. */
static void copies(void) {
    draw_full(KIND_COPIES, TABLE_BUDGET);
    about("full, solve", KIND_COPIES);
    solve_again();
    is_solved();
    rows_are_best(61);
    picks_are_least();
    write_full();
    verdict_now(0, solved.first);
    lower(place_of(MANY_IN, job.budget / 2));
    lower(place_of(N, job.budget));
    other_picks();
    print_kind();
}

/* One row, for all labels; the second program looks at all of it. */
static void any_number(void) {
    draw_full(KIND_ANY, MOST_BUDGET);
    about("full, solve", KIND_ANY);
    solve(&solved, &bytes, LIGHT_WAY, &room, 9);
    is_solved();
    lend(&written.out, plain_certificate_bytes(&read), 1, 9);
    write_full();
    same("the verdict", 0, judged(&bytes, written.out.slice, written.bytes));
    lower(1);
    lower(job.budget);
    other_picks();
    print_kind();
}

static void give_all_back(void) {
    give_back(&written.out);
    give_back_solved(&solved);
}

void part_full(void) {
    once();
    copies();
    give_all_back();
    any_number();
    give_all_back();
    at_both_bounds();
}
