/* The entries, called on lent slices or beside document 01's second program. */
#include "calls.h"
#include "tell.h"
#include <stdio.h>
#include <stdlib.h>
#include <string.h>

void read_back(const struct bytes *bytes, struct plain_job *job) {
    if (!plain_read(bytes->at, bytes->length, job)) {
        printf("the second program can't read a job of the tests\n");
        exit(1);
    }
}

/* The bytes at an odd address. */
static void lend_copy(struct lent *lent, const struct bytes *bytes) {
    lend(lent, bytes->length, 1, 0);
    memcpy(lent->slice, bytes->at, bytes->length);
}

static void is_a_copy(const struct lent *lent, const struct bytes *bytes) {
    holds("bytes that are only read", kept_outside(lent) && memcmp(lent->slice, bytes->at, bytes->length) == 0);
}

/* ---- the solver */

uint32_t solve_in(enum plain_way way, const uint8_t *job, size_t job_len, const struct plain_room *lengths, uint32_t *cells,
                  uint64_t *words, uint32_t *picks, uint64_t *first, uint64_t *second) {
    if (way == FULL_WAY) {
        return quabnester_solve_full(job, job_len, cells, lengths->cells, words, lengths->words, picks, lengths->picks, first, second);
    }
    return quabnester_solve(job, job_len, cells, lengths->cells, words, lengths->words, picks, lengths->picks, first, second);
}

void solve(struct solved *solved, const struct bytes *job, enum plain_way way, const struct plain_room *lengths, uint64_t salt) {
    solved->way = way;
    lend_copy(&solved->job, job);
    lend(&solved->cells, lengths->cells, 4, salt);
    lend(&solved->words, lengths->words, 8, salt + 1);
    lend(&solved->picks, lengths->picks, 4, salt + 2);
    solved->first = solved->second = salt + 3;
    solved->refused = solve_in(way, solved->job.slice, job->length, lengths, solved->cells.slice, solved->words.slice, solved->picks.slice,
                               &solved->first, &solved->second);
}

void give_back_solved(struct solved *solved) {
    give_back(&solved->job);
    give_back(&solved->cells);
    give_back(&solved->words);
    give_back(&solved->picks);
}

void kept_the_rest(const struct solved *solved, const struct plain_room *needed) {
    holds("what the cells held past the needed ones", kept_from(&solved->cells, 4 * needed->cells));
    holds("what the words held past the needed ones", kept_from(&solved->words, 8 * needed->words));
    holds("what the picks held past the needed ones", kept_from(&solved->picks, 4 * needed->picks));
}

/* ---- the solver beside the second program */

static uint64_t element(const void *slice, size_t size, size_t k) {
    return size == 4 ? ((const uint32_t *)slice)[k] : ((const uint64_t *)slice)[k];
}

int same_content(const char *what, const void *expected, const void *got, size_t count, size_t size) {
    size_t k = 0;
    if (memcmp(expected, got, count * size) == 0) return holds(what, 1);
    while (element(expected, size, k) == element(got, size, k)) k++;
    return same_at(what, k, element(expected, size, k), element(got, size, k));
}

/* The table and the trying of every selection say the same. */
static void agree(const struct plain_answer *table, const struct plain_answer *tried) {
    same("the second program's refusal, by trying", table->refused, tried->refused);
    same("its first", table->first, tried->first);
    same("its second", table->second, tried->second);
    if (!holds("what it fills", memcmp(&table->filled, &tried->filled, sizeof table->filled) == 0)) return;
    same_content("its cell", table->cells, tried->cells, table->filled.cells, 4);
    same_content("its word", table->words, tried->words, table->filled.words, 8);
    same_content("its pick", table->picks, tried->picks, table->filled.picks, 4);
}

/* The job's answer in the full way, by a table, or a sort, and by trying; it isn't refused with 1 to 6 or 9. */
static const struct plain_answer *answered_in_full(const struct plain_job *read) {
    static struct plain_answer answer, tried;
    if (!plain_has_room(read)) {
        printf("a job of the tests needs more than %d cells of the second program\n", PLAIN_CELLS);
        exit(1);
    }
    if (read->kind == KIND_SHARES) plain_share(read, &answer);
    if (read->kind != KIND_SHARES) plain_table(read, &answer);
    if (!plain_try(read, &tried)) return &answer;
    agree(&answer, &tried);
    answer.as_good = tried.as_good;
    answer.tried = 1;
    return &answer;
}

/* What is expected in both ways, or in those that have lengths, with one look at all selections for both. */
static struct both_ways expected_in(const struct bytes *job, const struct plain_room *const lengths[PLAIN_WAYS]) {
    static struct plain_answer refusals[PLAIN_WAYS], light;
    struct plain_job read = {0, 0, 0, {NULL, 0}, {NULL, 0}, {NULL, 0}};
    const struct plain_answer *full = NULL;
    struct both_ways expected;
    int way;
    for (way = 0; way < PLAIN_WAYS; way++) {
        uint32_t refused = lengths[way] == NULL ? 0 : plain_solve_refusal(job->at, job->length, lengths[way], way);
        expected.of[way] = &refusals[way];
        plain_start(&refusals[way], &read, refused, way);
        if (refused != 0 || lengths[way] == NULL) continue;
        if (full == NULL) {
            read_back(job, &read);
            full = answered_in_full(&read);
        }
        expected.of[way] = full;
        if (way == FULL_WAY || read.kind != KIND_ONCE) continue;
        plain_light(&read, full, &light);
        expected.of[way] = &light;
    }
    return expected;
}

const struct plain_answer *expected_of(const struct bytes *job, enum plain_way way, const struct plain_room *lengths) {
    const struct plain_room *asked[PLAIN_WAYS] = {NULL, NULL};
    asked[way] = lengths;
    return expected_in(job, asked).of[way];
}

static void say_list(struct plain_list list) {
    uint32_t i;
    for (i = 0; i < list.count; i++) printf(" %lu", (unsigned long)plain_item(list, i));
    printf(";");
}

static void say_job(const struct bytes *job, const struct solved *solved) {
    struct plain_job read;
    if (!plain_read(job->at, job->length, &read)) return;
    printf("-the job: %lu; %lu", (unsigned long)read.kind, (unsigned long)read.budget);
    if (BUDGETS_OF(read.kind) > 1) printf(" %lu", (unsigned long)read.q);
    printf(";");
    say_list(read.weights);
    say_list(read.values);
    say_list(read.copies);
    printf(" %lu %lu %lu%s\n", (unsigned long)solved->cells.bytes / 4, (unsigned long)solved->words.bytes / 8,
           (unsigned long)solved->picks.bytes / 4, solved->way == FULL_WAY ? ", in the full way" : "");
}

void answers(const struct solved *solved, const struct bytes *job, const struct plain_answer *expected) {
    int well = same("the refusal", expected->refused, solved->refused);
    well &= same("first", expected->first, solved->first);
    well &= same("second", expected->second, solved->second);
    well &= same_content("cell", expected->cells, solved->cells.slice, expected->filled.cells, 4);
    well &= same_content("word", expected->words, solved->words.slice, expected->filled.words, 8);
    well &= same_content("pick", expected->picks, solved->picks.slice, expected->filled.picks, 4);
    if (!well && telling()) say_job(job, solved);
    kept_the_rest(solved, &expected->filled);
    is_a_copy(&solved->job, job);
}

const struct plain_answer *try_job(const struct bytes *job, enum plain_way way, const struct plain_room *lengths, uint64_t salt) {
    const struct plain_answer *expected = expected_of(job, way, lengths);
    struct solved solved;
    solve(&solved, job, way, lengths, salt);
    answers(&solved, job, expected);
    give_back_solved(&solved);
    return expected;
}

/* Whether what was answered in the one way is what was in the other; n picks are filled. */
static void ways_agree(const struct solved *light, const struct solved *full, const struct bytes *job, size_t n) {
    int well;
    if (light->refused == 6 || full->refused == 6) return;
    well = same("the refusal, of the full way and the light one", full->refused, light->refused);
    well &= same("first, of the full way and the light one", full->first, light->first);
    well &= same("second, of the full way and the light one", full->second, light->second);
    well &= same_content("the full way's pick and the light one's", full->picks.slice, light->picks.slice, n, 4);
    if (!well && telling()) say_job(job, light);
}

struct both_ways try_both_ways(const struct bytes *job, const struct plain_room lengths[PLAIN_WAYS], uint64_t salt) {
    const struct plain_room *const asked[PLAIN_WAYS] = {[LIGHT_WAY] = &lengths[LIGHT_WAY], [FULL_WAY] = &lengths[FULL_WAY]};
    struct both_ways expected = expected_in(job, asked);
    struct solved solved[PLAIN_WAYS];
    int way;
    for (way = 0; way < PLAIN_WAYS; way++) {
        solve(&solved[way], job, way, &lengths[way], salt + 5 * (uint64_t)way); /* other dirt in each */
        answers(&solved[way], job, expected.of[way]);
    }
    ways_agree(&solved[LIGHT_WAY], &solved[FULL_WAY], job, expected.of[FULL_WAY]->filled.picks);
    for (way = 0; way < PLAIN_WAYS; way++) give_back_solved(&solved[way]);
    return expected;
}

uint32_t labels_kept(const struct plain_answer *answer) {
    uint32_t i, count = 0;
    for (i = 0; i < answer->filled.picks; i++) count += answer->picks[i] > 0;
    return count;
}

int other_rule_tells(const struct plain_job *job, int other, const uint32_t *picks) {
    uint32_t others[PLAIN_PICKS];
    struct plain_rule rule = plain_rule(job->kind);
    rule.from_last ^= other & 1;
    rule.small ^= other >> 1;
    plain_picks(job, rule, others);
    return memcmp(others, picks, job->weights.count * sizeof picks[0]) != 0;
}

/* ---- kinds 4 and 8, asked the same */

int asks_for_a_total(const struct bytes *job) {
    struct plain_job read;
    if (!plain_read(job->at, job->length, &read) || plain_job_refusal(&read, LAST_KIND) != 0) return 0;
    return read.kind == KIND_SUMS || read.kind == KIND_LABELS_BEHIND;
}

/* Long enough for any job of both kinds; they hold what the job before left there. */
static struct {
    uint32_t cells[ROW(MOST_BUDGET)], picks[MOST_LABELS], refused;
    uint64_t words[MOST_BUDGET / WORD_BITS + 1], first, second;
} both;

/* The job with another number for its kind, which stands after the first count. */
static void solve_as(uint32_t kind, const struct bytes *job) {
    static struct bytes other;
    other.length = job->length;
    memcpy(other.at, job->at, job->length);
    put_at(other.at + 4, kind);
    both.refused = quabnester_solve(other.at, other.length, both.cells, ROW(MOST_BUDGET), both.words, MOST_BUDGET / WORD_BITS + 1,
                                    both.picks, MOST_LABELS, &both.first, &both.second);
}

/* Up to which total the bits and the cells say the same, and how many of these are reached. */
static uint32_t alike_up_to(uint32_t budget, uint32_t *reached) {
    uint32_t t, is_reached;
    *reached = 0;
    for (t = 0; t <= budget; t++) {
        is_reached = both.cells[t] != NOT_REACHED;
        if (is_reached != (both.words[t / WORD_BITS] >> t % WORD_BITS & 1)) break;
        *reached += is_reached;
    }
    return t;
}

int agree_on_totals(const struct bytes *job) {
    struct plain_job read;
    uint32_t reached, yes;
    uint64_t totals;
    read_back(job, &read);
    solve_as(KIND_SUMS, job);
    same("kind 4's refusal", 0, both.refused);
    yes = both.first != 0;
    totals = both.second;
    solve_as(KIND_LABELS_BEHIND, job);
    same("kind 8's refusal, where kind 4 says yes or no", yes ? 0 : 7, both.refused);
    same("the totals of which kinds 4 and 8 say the same", ROW(read.budget), alike_up_to(read.budget, &reached));
    same("those that are reached", totals, reached);
    return yes != 0;
}

/* ---- kind 9, beside the best of kind 1 */

int is_below_best(const struct bytes *job, const struct plain_answer *answer, enum best_by *by) {
    uint64_t best, value = answer->first;
    struct plain_job once;
    read_back(job, &once);
    once.kind = KIND_ONCE;
    *by = plain_try_best(&once, &best) ? BY_TRYING : plain_has_room(&once) ? BY_TABLE : NO_BEST;
    if (*by == NO_BEST) return 0;
    if (*by == BY_TABLE) best = answered_in_full(&once)->first;
    holds("that it isn't more than the best", value <= best);
    holds("that q times the value is q-1 times the best or more", once.q * value >= (once.q - 1) * best);
    return value < best;
}

/* ---- the writer */

void write_out(struct written *written, const struct bytes *job, const uint32_t *picks, size_t picks_len, const uint32_t *cells,
               size_t cells_len, size_t out_len) {
    lend(&written->out, out_len, 1, job->length);
    written->bytes = job->length + 1;
    written->refused =
        quabnester_write(job->at, job->length, picks, picks_len, cells, cells_len, written->out.slice, out_len, &written->bytes);
}

/* ---- the checker */

/* The second program says the same by asking for each count, where they aren't too many. */
static void agree_by_counts(const struct bytes *job, const uint8_t *certificate, size_t length, struct plain_verdict plain) {
    struct plain_verdict counted;
    if (!plain_check_counts(job->at, job->length, certificate, length, &counted)) return;
    same("the second program's verdict, count by count", plain.number, counted.number);
    same("its value or place", plain.detail, counted.detail);
}

uint32_t judged(const struct bytes *job, const uint8_t *certificate, size_t length) {
    struct plain_verdict plain = plain_check(job->at, job->length, certificate, length);
    uint32_t number = quabnester_check(job->at, job->length, certificate, length);
    agree_by_counts(job, certificate, length, plain);
    same("the verdict", plain.number, number);
    same("the value or place", plain.detail, quabnester_check_detail(job->at, job->length, certificate, length));
    return number;
}

void verdict_is(const struct bytes *job, const struct bytes *certificate, uint32_t number, uint64_t detail) {
    struct lent job_copy, copy;
    same("the verdict", number, judged(job, certificate->at, certificate->length));
    lend_copy(&job_copy, job);
    lend_copy(&copy, certificate);
    same("the verdict at odd addresses", number, quabnester_check(job_copy.slice, job->length, copy.slice, certificate->length));
    same("the value or place", detail, quabnester_check_detail(job_copy.slice, job->length, copy.slice, certificate->length));
    is_a_copy(&job_copy, job);
    is_a_copy(&copy, certificate);
    give_back(&job_copy);
    give_back(&copy);
}
