/* A ring over thousands of small jobs of each kind that has certificates: solve, write, check; then check another list in its place, which
 * is accepted only if it is as good. */
#include "calls.h"
#include "draw.h"
#include "parts.h"
#include "tell.h"
#include <stdio.h>
#include <string.h>

enum { EACH = 20000, OTHERS = 3, MOST_N = 8 }; /* jobs of each kind, and lists in place of ours for each */

/* How large a small job is, by kind, so that every selection can be tried. */
static const struct {
    uint32_t labels, budget;
} most[LAST_CHECKED_KIND + 1] = {[KIND_ONCE] = {MOST_N, 40}, [KIND_COPIES] = {4, 16}, [KIND_ANY] = {4, 16}};

static struct job job;
static struct bytes bytes, certificate;
static struct solved solved;
static const struct plain_answer *best;

/* By kind: lists in place of ours, those that are as good, and those of them that aren't ours. */
static struct { unsigned long others, as_good, ties; } came[LAST_CHECKED_KIND + 1];

static uint64_t sum_over(const struct list *list, const uint32_t *picks) {
    uint64_t sum = 0;
    uint32_t i;
    for (i = 0; i < list->count; i++) sum += picks[i] * (uint64_t)list->at[i];
    return sum;
}

/* Solves the job with slices that are some places longer than needed: in kind 1 in the full way, which leaves what a certificate is written
 * from, and in other kinds in either. */
static void try_solve(struct draw *draw, uint64_t number) {
    enum plain_way way = job.kind == KIND_ONCE || number % 2 == 0 ? FULL_WAY : LIGHT_WAY;
    struct plain_room lengths = room_of(&job, way);
    lengths.cells += drawn(draw, 0, 5);
    lengths.words += drawn(draw, 0, 2);
    lengths.picks += drawn(draw, 0, 3);
    best = expected_of(&bytes, way, &lengths);
    solve(&solved, &bytes, way, &lengths, number);
    answers(&solved, &bytes, best);
}

/* Writes the certificate from the slices as they were left. */
static void try_write(struct draw *draw) {
    struct written written;
    put_certificate(&certificate, &job, solved.picks.slice, solved.cells.slice);
    write_out(&written, &bytes, solved.picks.slice, solved.picks.bytes / 4, solved.cells.slice, solved.cells.bytes / 4,
              certificate.length + drawn(draw, 0, 9));
    same("the writer's refusal", 0, written.refused);
    same("the bytes written", certificate.length, written.bytes);
    holds("the certificate", memcmp(written.out.slice, certificate.at, certificate.length) == 0);
    holds("what the slice held past it", kept_from(&written.out, certificate.length));
    give_back(&written.out);
}

/* A count that fits by itself, whether it is allowed or not; most often there are few, and most of them are allowed. */
static uint32_t draw_count(struct draw *draw, uint32_t i) {
    uint32_t fits = job.budget / job.weights.at[i], allowed = most_picked(&job, i);
    return drawn(draw, 0, fits <= allowed ? GREATER(fits, 1) : allowed + chance(draw, 9));
}

static int is_allowed(const uint32_t *picks) {
    uint32_t i = 0;
    while (i < job.weights.count && picks[i] <= most_picked(&job, i)) i++;
    return i == job.weights.count;
}

/* Another list in place of ours; it may be ours again. */
static void try_another(struct draw *draw) {
    uint32_t i, n = job.weights.count, number, picks[MOST_N];
    int is_best;
    for (i = 0; i < n; i++) {
        picks[i] = draw_count(draw, i);
        put_at(certificate.at + 4 + 4 * i, picks[i]);
    }
    is_best = is_allowed(picks) && sum_over(&job.weights, picks) <= job.budget && sum_over(&job.values, picks) == best->first;
    number = judged(&bytes, certificate.at, certificate.length);
    holds("accepted only if it is best", (number == 0) == is_best);
    came[job.kind].others++;
    came[job.kind].as_good += is_best;
    came[job.kind].ties += is_best && memcmp(picks, best->picks, n * sizeof picks[0]) != 0;
}

static void try_number(uint32_t kind, uint64_t number) {
    struct draw draw = {EACH * (kind - 1) + number};
    uint32_t i;
    about("ring", draw.state);
    draw_job(&draw, kind, most[kind].labels, most[kind].budget, &job);
    put_job(&bytes, &job);
    try_solve(&draw, number);
    try_write(&draw);
    same("the verdict on our own", 0, judged(&bytes, certificate.at, certificate.length));
    same("its value", best->first, quabnester_check_detail(bytes.at, bytes.length, certificate.at, certificate.length));
    for (i = 0; i < OTHERS; i++) try_another(&draw);
    give_back_solved(&solved);
}

void part_ring(void) {
    uint32_t kind;
    uint64_t number;
    for (kind = 1; kind <= LAST_CHECKED_KIND; kind++) {
        for (number = 0; number < EACH; number++) try_number(kind, number);
        about("ring, kind", kind);
        holds("that some other lists were as good", came[kind].ties > 0);
        holds("that some other lists weren't", came[kind].as_good < came[kind].others);
        printf("ring, kind %d: %d jobs; %lu lists in place of ours, %lu accepted, %lu of them others than ours\n", (int)kind, EACH,
               came[kind].others, came[kind].as_good, came[kind].ties);
    }
}
