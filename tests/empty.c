/* Slices of length 0, with a null pointer and with a good one, for every slice of every entry and all that can be empty together. */
#include "calls.h"
#include "parts.h"
#include "tell.h"
#include <stdio.h>

enum { CELLS = GREATER(CASE_A_CELLS, CASE_A_STATED_CELLS), WORDS = ROW(CASE_A_BUDGET), PICKS = CASE_A_LABELS, BYTES = CASE_A_CERTIFICATE };

static unsigned long tried, quick;
static struct job job;
static struct bytes bytes, certificate;
static uint32_t cells[CELLS], picks[PICKS];
static uint64_t words[WORDS];
static uint8_t out[BYTES];

/* Which slices are empty, by the bits of a mask, and what an empty one's pointer is; those of the quick answer are others. */
enum slice {
    JOB_SLICE,
    CELLS_SLICE,
    WORDS_SLICE,
    PICKS_SLICE,
    BYTES_SLICE,
    SLICES,
    WEIGHTS_SLICE = 0,
    VALUES_SLICE,
    FIRST_SLICE,
    SECOND_SLICE,
    QUICK_SLICES
};
static unsigned mask;
static int null;

static size_t length_of(enum slice slice, size_t length) {
    return mask >> slice & 1 ? 0 : length;
}

static void *pointer_of(enum slice slice, void *good) {
    return null && (mask >> slice & 1) ? NULL : good;
}

/* Case A as a job of any kind; kind 0 stands for kind 1 with no labels. */
static void small_job(uint32_t kind) {
    case_a(&job, kind);
    if (kind == 0) set_job(&job, KIND_ONCE, CASE_A_BUDGET, 0, NULL, NULL, NULL);
    put_job(&bytes, &job);
}

static void try_solve(enum plain_way way) {
    static struct bytes given;
    uint64_t first = 5, second = 5;
    struct plain_room lengths;
    const struct plain_answer *expected;
    lengths.cells = length_of(CELLS_SLICE, CELLS);
    lengths.words = length_of(WORDS_SLICE, WORDS);
    lengths.picks = length_of(PICKS_SLICE, PICKS);
    given = bytes;
    given.length = length_of(JOB_SLICE, bytes.length);
    expected = expected_of(&given, way, &lengths);
    same("the refusal", expected->refused,
         solve_in(way, pointer_of(JOB_SLICE, given.at), given.length, &lengths, pointer_of(CELLS_SLICE, cells),
                  pointer_of(WORDS_SLICE, words), pointer_of(PICKS_SLICE, picks), &first, &second));
    same("first", expected->first, first);
    same("second", expected->second, second);
}

static void try_write(void) {
    uint64_t written = 5;
    size_t job_len = length_of(JOB_SLICE, bytes.length), picks_len = length_of(PICKS_SLICE, PICKS),
           cells_len = length_of(CELLS_SLICE, CELLS), out_len = length_of(BYTES_SLICE, BYTES);
    uint32_t expected = plain_write_refusal(bytes.at, job_len, picks_len, cells_len, out_len);
    same("the refusal", expected,
         quabnester_write(pointer_of(JOB_SLICE, bytes.at), job_len, pointer_of(PICKS_SLICE, picks), picks_len,
                          pointer_of(CELLS_SLICE, cells), cells_len, pointer_of(BYTES_SLICE, out), out_len, &written));
    holds("no bytes of a refusal", (expected == 0) == (written != 0));
}

static void try_check(void) {
    const uint8_t *job_at = pointer_of(JOB_SLICE, bytes.at), *at = pointer_of(BYTES_SLICE, certificate.at);
    size_t job_len = length_of(JOB_SLICE, bytes.length), length;
    struct plain_verdict expected;
    put_certificate(&certificate, &job, picks, cells);
    length = length_of(BYTES_SLICE, certificate.length);
    expected = plain_check(bytes.at, job_len, certificate.at, length);
    same("the verdict", expected.number, quabnester_check(job_at, job_len, at, length));
    same("the value or place", expected.detail, quabnester_check_detail(job_at, job_len, at, length));
}

/* Case A for the quick answer, of which the weights, the values or a list may be empty; without both weights and values it has no labels.
 */
static void try_quick_slices(void) {
    static struct job once;
    static struct bytes given;
    static struct plain_quick expected;
    uint32_t first[PICKS], second[PICKS], which = 5;
    uint64_t value = 5;
    size_t first_len = length_of(FIRST_SLICE, PICKS), second_len = length_of(SECOND_SLICE, PICKS);
    struct plain_job read;
    case_a(&once, KIND_ONCE);
    once.weights.count = (uint32_t)length_of(WEIGHTS_SLICE, PICKS);
    once.values.count = (uint32_t)length_of(VALUES_SLICE, PICKS);
    put_job(&given, &once);
    read_back(&given, &read);
    plain_quick(&read, first_len, second_len, &expected);
    same("the refusal", expected.refused,
         quabnester_quick(once.budget, pointer_of(WEIGHTS_SLICE, once.weights.at), once.weights.count,
                          pointer_of(VALUES_SLICE, once.values.at), once.values.count, pointer_of(FIRST_SLICE, first), first_len,
                          pointer_of(SECOND_SLICE, second), second_len, &which, &value));
    same("which list", expected.which, which);
    same("its value", expected.value, value);
}

static void try_quick_answers(void) {
    for (null = 0; null <= 1; null++) {
        for (mask = 0; mask < 1u << QUICK_SLICES; mask++) {
            about("empty slices, quick", quick++);
            try_quick_slices();
        }
    }
}

void part_empty(void) {
    uint32_t kind;
    for (kind = 0; kind <= LAST_KIND; kind++) {
        small_job(kind);
        for (null = 0; null <= 1; null++) {
            for (mask = 0; mask < 1u << SLICES; mask++) {
                about("empty slices", tried++);
                try_solve(LIGHT_WAY);
                try_solve(FULL_WAY);
                try_write();
                try_check();
            }
        }
    }
    try_quick_answers();
    printf("empty: %lu calls of each entry, %lu of the quick answer\n", tried, quick);
}
