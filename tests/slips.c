/* The calls of docs/SLIPS.md that the program can't show, with the right answers that stand there: on tables that held something, on slices
 * that are too short, the checker's, quick answers, and claims of which there are too many. The jobs of the other slips are
 * examples/slip-*.job. */
#include "calls.h"
#include "parts.h"
#include "tell.h"
#include <stdio.h>
#include <string.h>

enum { CELLS = 6 }; /* as many as any of them needs, or more */

/* A job of one label of weight 1, in a way, on these cells, a word that holds 77 and one pick, of which so many are lent; and what comes of
 * it. */
struct call {
    uint32_t slip, kind, value, budget;
    enum plain_way way;
    uint32_t cells[CELLS], cells_lent, words_lent, pick, picks_lent;
    uint32_t refused, first, second, cells_after[CELLS], word_after, pick_after;
};

static const struct call calls[] = {
    {.slip = 2, .kind = KIND_ONCE, .value = 3, .budget = 2, .way = FULL_WAY,
     .cells = {0, 9, 18, 0, 0, 0}, .cells_lent = CELLS, .words_lent = 1, .pick = 77, .picks_lent = 1,
     .first = 3, .second = 1, .cells_after = {0, 0, 0, 0, 3, 3}, .word_after = 77, .pick_after = 1},
    {.slip = 2, .kind = KIND_ONCE, .value = 3, .budget = 2, .way = LIGHT_WAY, /* bits 1 and 2 are set */
     .cells = {0, 9, 18, 0, 0, 0}, .cells_lent = CELLS, .words_lent = 1, .pick = 77, .picks_lent = 1,
     .first = 3, .second = 1, .cells_after = {0, 3, 3, 0, 0, 0}, .word_after = 6, .pick_after = 1},
    {.slip = 3, .kind = KIND_ONCE, .value = 3, .budget = 1, .way = FULL_WAY,
     .cells = {0, 0, 0, 9, 0, 9}, .cells_lent = CELLS, .words_lent = 1, .pick = 77, .picks_lent = 1,
     .first = 3, .second = 1, .cells_after = {0, 0, 0, 3, 0, 9}, .word_after = 77, .pick_after = 1},
    {.slip = 3, .kind = KIND_ONCE, .value = 3, .budget = 1, .way = LIGHT_WAY,
     .cells = {0, 0, 0, 9, 0, 9}, .cells_lent = CELLS, .words_lent = 1, .pick = 77, .picks_lent = 1,
     .first = 3, .second = 1, .cells_after = {0, 3, 0, 9, 0, 9}, .word_after = 2, .pick_after = 1},
    {.slip = 16, .kind = KIND_SHARES, .budget = 2,
     .cells = {7, 7, 7, 7, 7, 7}, .cells_lent = CELLS, .words_lent = 1, .pick = 77, .picks_lent = 1,
     .cells_after = {7, 7, 7, 7, 7, 7}, .word_after = 77, .pick_after = 2},
    {.slip = 17, .kind = KIND_ONCE, .value = 3, .budget = 1, .way = FULL_WAY,
     .cells = {7, 7, 7, 77, 7, 7}, .cells_lent = 3, .words_lent = 1, .pick = 77, .picks_lent = 1,
     .refused = 6, .cells_after = {7, 7, 7, 77, 7, 7}, .word_after = 77, .pick_after = 77},
    {.slip = 17, .kind = KIND_ONCE, .value = 3, .budget = 1, .way = FULL_WAY,
     .cells = {7, 7, 7, 7, 7, 7}, .cells_lent = 4, .words_lent = 1, .pick = 77, .picks_lent = 0,
     .refused = 6, .cells_after = {7, 7, 7, 7, 7, 7}, .word_after = 77, .pick_after = 77},
    {.slip = 17, .kind = KIND_ONCE, .value = 3, .budget = 1, .way = LIGHT_WAY,
     .cells = {7, 77, 7, 7, 7, 7}, .cells_lent = 1, .words_lent = 1, .pick = 77, .picks_lent = 1,
     .refused = 6, .cells_after = {7, 77, 7, 7, 7, 7}, .word_after = 77, .pick_after = 77},
    {.slip = 17, .kind = KIND_ONCE, .value = 3, .budget = 1, .way = LIGHT_WAY,
     .cells = {7, 7, 7, 7, 7, 7}, .cells_lent = 2, .words_lent = 0, .pick = 77, .picks_lent = 1,
     .refused = 6, .cells_after = {7, 7, 7, 7, 7, 7}, .word_after = 77, .pick_after = 77},
    {.slip = 17, .kind = KIND_ONCE, .value = 3, .budget = 1, .way = LIGHT_WAY,
     .cells = {7, 7, 7, 7, 7, 7}, .cells_lent = 2, .words_lent = 1, .pick = 77, .picks_lent = 0,
     .refused = 6, .cells_after = {7, 7, 7, 7, 7, 7}, .word_after = 77, .pick_after = 77},
};

/* A certificate for a job of one label worth 3, and what is said of it. */
struct claim {
    uint32_t slip, kind, weight, copies, budget, pick, cells[CELLS], cells_count, number, detail;
};

static const struct claim claims[] = {
    {.slip = 14, .kind = KIND_ONCE, .weight = 1, .budget = 1, .pick = 1, .cells = {0, 0, 9, 3}, .cells_count = 4,
     .number = 0, .detail = 3},
    {.slip = 15, .kind = KIND_ONCE, .weight = 1, .budget = 1, .pick = 0, .cells = {4294967293u, 0, 4294967293u, 0},
     .cells_count = 4, .number = 14, .detail = 3},
    {.slip = 19, .kind = KIND_COPIES, .weight = 1, .copies = 2, .budget = 2, .pick = 1, .cells = {0, 0, 0, 0, 3, 3},
     .cells_count = 6, .number = 14, .detail = 5},
    {.slip = 20, .kind = KIND_ANY, .weight = 2, .budget = 4, .pick = 2, .cells = {0, 0, 3, 3, 6}, .cells_count = 5,
     .number = 0, .detail = 6},
};

/* A quick answer of three labels, on lists that held 77, and what comes of it. */
enum { LABELS = 3 };
struct quick_call {
    uint32_t slip, budget, weights[LABELS], values[LABELS];
    uint32_t first[LABELS], second[LABELS], which, value;
};

static const struct quick_call quick_calls[] = {
    {.slip = 28, .budget = 3, .weights = {2, 2, 1}, .values = {2, 3, 1},
     .first = {0, 1, 1}, .second = {0, 1, 0}, .which = 1, .value = 4},
    {.slip = 29, .budget = 3, .weights = {2, 2, 1}, .values = {4, 3, 1},
     .first = {1, 0, 1}, .second = {1, 0, 0}, .which = 1, .value = 5},
};

static void one_label(struct bytes *bytes, uint32_t kind, uint32_t value, uint32_t budget) {
    static const uint32_t weight = 1;
    static struct job job;
    set_job(&job, kind, budget, 1, &weight, &value, NULL);
    put_job(bytes, &job);
}

static void try_call(const struct call *call) {
    static struct bytes bytes;
    struct plain_room lengths = {call->cells_lent, call->words_lent, call->picks_lent};
    uint32_t cells[CELLS], pick = call->pick, i;
    uint64_t word = 77, first = 77, second = 77;
    about("slip", call->slip);
    memcpy(cells, call->cells, sizeof cells);
    one_label(&bytes, call->kind, call->value, call->budget);
    same("the refusal", call->refused, solve_in(call->way, bytes.at, bytes.length, &lengths, cells, &word, &pick, &first, &second));
    same("first", call->first, first);
    same("second", call->second, second);
    same("the pick", call->pick_after, pick);
    same("the word", call->word_after, word);
    for (i = 0; i < CELLS; i++) same_at("cell", i, call->cells_after[i], cells[i]);
}

static void try_claim(const struct claim *claim) {
    static const uint32_t value = 3;
    static struct bytes bytes, certificate;
    static struct job job;
    about("slip", claim->slip);
    set_job(&job, claim->kind, claim->budget, 1, &claim->weight, &value, claim->kind == KIND_COPIES ? &claim->copies : NULL);
    put_job(&bytes, &job);
    certificate.length = 0;
    put_section(&certificate, &claim->pick, 1);
    put_section(&certificate, claim->cells, claim->cells_count);
    verdict_is(&bytes, &certificate, claim->number, claim->detail);
}

static void try_quick_call(const struct quick_call *call) {
    uint32_t first[LABELS] = {77, 77, 77}, second[LABELS] = {77, 77, 77}, which = 77, i;
    uint64_t value = 77;
    about("slip", call->slip);
    same("the refusal", 0,
         quabnester_quick(call->budget, call->weights, LABELS, call->values, LABELS, first, LABELS, second, LABELS, &which, &value));
    same("which list", call->which, which);
    same("its value", call->value, value);
    for (i = 0; i < LABELS; i++) {
        same_at("the first list's pick", i, call->first[i], first[i]);
        same_at("the second list's pick", i, call->second[i], second[i]);
    }
}

/* Slip 33: one claim too many, each of 1, on as many picks, which held 77. */
static void too_many_claims(void) {
    enum { N = MOST_CLAIMS + 1 };
    static const struct plain_room lengths = {0, 0, N};
    static struct bytes bytes;
    static struct job job;
    uint32_t picks[N], i;
    uint64_t first = 77, second = 77;
    for (i = 0; i < N; i++) picks[i] = 77;
    about("slip", 33);
    alike_labels(&job, KIND_SHARES, N, N);
    put_job(&bytes, &job);
    same("the refusal", 4, solve_in(LIGHT_WAY, bytes.at, bytes.length, &lengths, NULL, NULL, picks, &first, &second));
    same("first", 0, first);
    same("second", 0, second);
    for (i = 0; i < N; i++) same_at("the pick", i, 77, picks[i]);
}

void part_slips(void) {
    size_t k, others = sizeof claims / sizeof claims[0] + sizeof quick_calls / sizeof quick_calls[0] + 1;
    for (k = 0; k < sizeof calls / sizeof calls[0]; k++) try_call(&calls[k]);
    for (k = 0; k < sizeof claims / sizeof claims[0]; k++) try_claim(&claims[k]);
    for (k = 0; k < sizeof quick_calls / sizeof quick_calls[0]; k++) try_quick_call(&quick_calls[k]);
    too_many_claims();
    printf("slips: %d calls\n", (int)(sizeof calls / sizeof calls[0] + others));
}
