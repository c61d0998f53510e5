/* The solver's refusals, in both ways: each alone, all that can come together, in order; each bound; and 7 and 8, which leave the table
 * complete. */
#include "calls.h"
#include "parts.h"
#include "tell.h"
#include <stdio.h>

static unsigned long tried, by_number[LAST_SOLVER_REFUSAL + 1];

/* In a way, a job with slices of these lengths is refused with this number, or with 0 it isn't, and all is as the second program has it. */
static const struct plain_answer *is_refused(const struct bytes *job, enum plain_way way, const struct plain_room *lengths,
                                             uint32_t number) {
    const struct plain_answer *answer;
    about("solve", tried++);
    by_number[number]++;
    answer = try_job(job, way, lengths, tried);
    same("the second program", number, answer->refused);
    return answer;
}

/* ---- one job of each kind, with any of its faults */

static void base_job(uint32_t kind, struct job *job) {
    static const uint32_t weights[] = {2, 3, 5}, values[] = {3, 5, 7}, copies[] = {2, 1, 1};
    set_job(job, kind, 7, 3, weights, values, copies);
}

/* Faults are the bits of a mask, each at its refusal number. */
static int has(unsigned mask, uint32_t number) {
    return mask >> number & 1;
}

/* Kind 7 has no rule for its numbers, and no other kind has a sum that may be 0; 7 and 8 are below. */
static int are_faults_of(uint32_t kind, unsigned mask) {
    if (has(mask, 0) || has(mask, 7) || has(mask, 8)) return 0;
    return !has(mask, kind == KIND_SHARES ? 5 : 9);
}

static void too_many(struct list *list, uint32_t count) {
    while (list->count < count) {
        list->at[list->count] = 1;
        list->count++;
    }
}

static void spoil(struct job *job, uint32_t number) {
    const struct plain_kind *kind = plain_kind(job->kind);
    uint32_t i;
    switch (number) {
    case 3: job->copies.at[job->copies.count++] = 1; break;
    case 4:
        if (kind->most_budget == UINT32_MAX) too_many(&job->weights, kind->most_labels + 1);
        if (kind->most_budget < UINT32_MAX) job->budget = kind->most_budget + 1;
        break;
    case 5: job->weights.at[1] = 0; break;
    case 9:
        for (i = 0; i < job->weights.count; i++) job->weights.at[i] = 0;
        break;
    default: break;
    }
}

/* The job with the faults of a mask; its slices are as long as it needs in a way or, by 6, the last that it needs is one too short. */
static void try_faults(uint32_t kind, enum plain_way way, unsigned mask) {
    static struct job job;
    static struct bytes bytes;
    struct plain_room lengths;
    uint32_t number, lowest = 0;
    base_job(kind, &job);
    lengths = room_of(&job, way);
    for (number = LAST_SOLVER_REFUSAL; number > 0; number--) {
        if (!has(mask, number)) continue;
        lowest = number;
        spoil(&job, number);
    }
    if (has(mask, 6)) --*(lengths.picks ? &lengths.picks : lengths.words ? &lengths.words : &lengths.cells);
    if (has(mask, 2)) job.kind = has(mask, 3) ? 0 : LAST_KIND + 1;
    put_job(&bytes, &job);
    if (has(mask, 1)) bytes.at[bytes.length++] = 0;
    is_refused(&bytes, way, &lengths, lowest);
}

/* ---- each bound */

/* A job with as many slices' places as it needs in a way, and then with one too few of each that it needs: 6 goes before 7. */
static void try_room(const struct bytes *bytes, enum plain_way way, const struct plain_room *room, uint32_t number) {
    struct plain_room less;
    is_refused(bytes, way, room, number);
    if (number != 0 && number != 7) return;
    less = *room;
    if (less.cells-- > 0) is_refused(bytes, way, &less, 6);
    less = *room;
    if (less.words-- > 0) is_refused(bytes, way, &less, 6);
    less = *room;
    if (less.picks-- > 0) is_refused(bytes, way, &less, 6);
}

static void try_bound(const struct job *job, uint32_t number) {
    static struct bytes bytes;
    int way;
    put_job(&bytes, job);
    for (way = 0; way < PLAIN_WAYS; way++) {
        struct plain_room room = room_of(job, way);
        try_room(&bytes, way, &room, number);
    }
}

/* n labels of kind K and budget C, all numbers as they have to be. */
static void job_of(struct job *job, uint32_t kind, uint32_t n, uint32_t budget) {
    uint32_t i;
    job->kind = kind;
    job->budget = budget;
    job->q = LEAST_Q;
    job->weights.count = n;
    job->values.count = plain_kind(kind)->values ? n : 0;
    job->copies.count = plain_kind(kind)->copies ? n : 0;
    for (i = 0; i < n; i++) {
        job->weights.at[i] = i + 1;
        job->values.at[i] = MOST_VALUE - i;
        job->copies.at[i] = MOST_COPIES - i;
    }
}

/* Kind 8 is refused with 7 where two or three labels, each used once, don't reach so great a budget. */
static void try_sizes(uint32_t kind) {
    static struct job job;
    uint32_t most = plain_kind(kind)->most_labels, most_budget = plain_kind(kind)->most_budget, great = kind == KIND_LABELS_BEHIND ? 7 : 0;
    job_of(&job, kind, most, kind == KIND_FEWEST || kind == KIND_LABELS_BEHIND ? 3 : 0);
    try_bound(&job, 0);
    job_of(&job, kind, most + 1, 0);
    try_bound(&job, 4);
    job_of(&job, kind, 2, MOST_BUDGET);
    try_bound(&job, great);
    job_of(&job, kind, 3, most_budget);
    try_bound(&job, great);
    job_of(&job, kind, 2, MOST_BUDGET + 1);
    try_bound(&job, most_budget == MOST_BUDGET ? 4 : 0);
    job_of(&job, kind, 0, 0);
    try_bound(&job, kind == KIND_SHARES ? 9 : 0);
}

/* A number of the job one past its bound, where there is such a one, and then at it. */
static void try_least(struct job *job, uint32_t *number, uint32_t least) {
    *number = least - 1;
    if (least > 0) try_bound(job, 5);
    *number = least;
    try_bound(job, 0);
}

static void try_most(struct job *job, uint32_t *number, uint32_t most) {
    *number = most + 1;
    try_bound(job, 5);
    *number = most;
    try_bound(job, 0);
}

/* The budget is one that the first two labels reach, where each is used once. */
static void try_numbers(uint32_t kind) {
    static struct job job;
    const struct plain_kind *rules = plain_kind(kind);
    uint32_t budget = kind == KIND_LABELS_BEHIND ? 3 : 8;
    job_of(&job, kind, 3, budget);
    job.weights.at[2] = UINT32_MAX;
    try_bound(&job, 0);
    job_of(&job, kind, 3, budget);
    try_least(&job, &job.weights.at[0], rules->least_weight);
    job_of(&job, kind, 3, budget);
    job.weights.at[1] = job.weights.at[0];
    try_bound(&job, rules->ascending ? 5 : 0);
    job_of(&job, kind, 3, budget);
    if (rules->values) try_least(&job, &job.values.at[2], rules->least_value);
    if (rules->values) try_most(&job, &job.values.at[2], MOST_VALUE);
    job_of(&job, kind, 3, budget);
    if (rules->copies) try_least(&job, &job.copies.at[2], LEAST_COPIES);
    if (rules->copies) try_most(&job, &job.copies.at[2], MOST_COPIES);
    job_of(&job, kind, 3, budget);
    if (kind == KIND_STATED_SHARE) try_least(&job, &job.q, LEAST_Q);
    if (kind == KIND_STATED_SHARE) try_most(&job, &job.q, MOST_Q);
}

/* ---- 7 and 8, and what is just counted */

/* Blocks, with slices that are longer than needed: refused with this number or answered with this first. */
static void try_blocks(uint32_t kind, uint32_t budget, uint32_t n, const uint32_t *sizes, uint32_t number, uint64_t first) {
    static const struct plain_room lengths = {ROW(MOST_BUDGET) + 1, ROW(MOST_BUDGET) + 1, MOST_SIZES + 1};
    static struct job job;
    static struct bytes bytes;
    set_job(&job, kind, budget, n, sizes, NULL, NULL);
    put_job(&bytes, &job);
    same("what is counted", first, is_refused(&bytes, LIGHT_WAY, &lengths, number)->first);
}

/* Eleven even sizes, and ten odd ones of which each way to an odd C takes one: 2^64 - 2 ways, and 2^64 - 1 with another last size. */
static void ways_at_the_border(void) {
    enum { SIZES = 21, BUDGET = 8001 };
    static uint32_t sizes[SIZES] = {2, 4, 6, 8, 10, 12, 14, 16, 18, 20, 22, 3665, 5719, 7089, 7435, 7635, 7753, 7843, 7903, 7951, 7997};
    uint32_t *last = &sizes[SIZES - 1];
    try_blocks(KIND_WAYS, BUDGET, SIZES, sizes, 0, MOST_WAYS);
    *last -= 2;
    try_blocks(KIND_WAYS, BUDGET, SIZES, sizes, 8, 0);
}

static void blocks(void) {
    uint32_t sizes[MOST_SIZES], i;
    for (i = 0; i < MOST_SIZES; i++) sizes[i] = 5 * (i + 1);
    try_blocks(KIND_FEWEST, 7, 2, sizes, 7, 0);
    try_blocks(KIND_FEWEST, 9999, MOST_SIZES, sizes, 7, 0);
    try_blocks(KIND_WAYS, MOST_BUDGET - 1, MOST_SIZES, sizes, 0, 0); /* which 5 doesn't divide */
    try_blocks(KIND_WAYS, MOST_BUDGET, MOST_SIZES, sizes, 8, 0);
    ways_at_the_border();
}

void part_solve(void) {
    uint32_t kind, number;
    unsigned mask;
    for (kind = 1; kind <= LAST_KIND; kind++) {
        for (mask = 0; mask < 1u << (LAST_SOLVER_REFUSAL + 1); mask++) {
            if (!are_faults_of(kind, mask)) continue;
            try_faults(kind, LIGHT_WAY, mask);
            try_faults(kind, FULL_WAY, mask);
        }
        try_sizes(kind);
        try_numbers(kind);
    }
    blocks();
    printf("solve: %lu jobs; refused with 0 to %d:", tried, LAST_SOLVER_REFUSAL);
    for (number = 0; number <= LAST_SOLVER_REFUSAL; number++) printf(" %lu", by_number[number]);
    printf("\n");
}
