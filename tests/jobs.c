/* Jobs and certificates as bytes, and jobs that are made by hand. */
#include "jobs.h"
#include <stdio.h>
#include <stdlib.h>
#include <string.h>

void put_at(uint8_t *bytes, uint32_t number) {
    int k;
    for (k = 0; k < 4; k++) bytes[k] = (uint8_t)(number >> (8 * k));
}

void put_number(struct bytes *bytes, uint32_t number) {
    if (bytes->length + 4 > MOST_BYTES) {
        printf("a test needs more than %d bytes\n", MOST_BYTES);
        exit(1);
    }
    put_at(bytes->at + bytes->length, number);
    bytes->length += 4;
}

void put_section(struct bytes *bytes, const uint32_t *numbers, uint32_t count) {
    uint32_t i;
    put_number(bytes, count);
    for (i = 0; i < count; i++) put_number(bytes, numbers[i]);
}

static void put_budgets(struct bytes *bytes, const struct job *job, uint32_t count) {
    uint32_t i;
    put_number(bytes, count);
    for (i = 0; i < count; i++) put_number(bytes, i == 0 ? job->budget : job->q);
}

static void put_with(struct bytes *bytes, const struct job *job, uint32_t budgets) {
    bytes->length = 0;
    put_section(bytes, &job->kind, 1);
    put_budgets(bytes, job, budgets);
    put_section(bytes, job->weights.at, job->weights.count);
    put_section(bytes, job->values.at, job->values.count);
    put_section(bytes, job->copies.at, job->copies.count);
}

void put_job(struct bytes *bytes, const struct job *job) {
    put_with(bytes, job, job->budgets != 0 ? job->budgets : BUDGETS_OF(job->kind));
}

void put_certificate(struct bytes *bytes, const struct job *job, const uint32_t *picks, const uint32_t *cells) {
    bytes->length = 0;
    put_section(bytes, picks, job->weights.count);
    put_section(bytes, cells, claims_of(job));
}

/* A count and its numbers; answers the bytes. */
static size_t lay_section(uint8_t *at, const uint32_t *numbers, uint32_t count) {
    size_t i;
    put_at(at, count);
    for (i = 0; i < count; i++) put_at(at + 4 + 4 * i, numbers[i]);
    return 4 + 4 * (size_t)count;
}

size_t lay_certificate(uint8_t *at, const struct job *job, const uint32_t *picks, const uint32_t *cells) {
    size_t first = lay_section(at, picks, job->weights.count);
    return first + lay_section(at + first, cells, claims_of(job));
}

void set_list(struct list *list, uint32_t count, const uint32_t *numbers) {
    list->count = count;
    if (count > 0) memcpy(list->at, numbers, count * sizeof list->at[0]);
}

void set_job(struct job *job, uint32_t kind, uint32_t budget, uint32_t n, const uint32_t *weights, const uint32_t *values,
             const uint32_t *copies) {
    job->kind = kind;
    job->budget = budget;
    job->q = LEAST_Q;
    job->budgets = 0;
    set_list(&job->weights, n, weights);
    set_list(&job->values, plain_kind(kind)->values ? n : 0, values);
    set_list(&job->copies, plain_kind(kind)->copies ? n : 0, copies);
}

void alike_labels(struct job *job, uint32_t kind, uint32_t n, uint32_t budget) {
    uint32_t ones[MOST_NUMBERS], i;
    for (i = 0; i < n; i++) ones[i] = 1;
    set_job(job, kind, budget, n, ones, ones, ones);
}

void case_a(struct job *job, uint32_t kind) {
    static const uint32_t weights[CASE_A_LABELS] = {3, 4, 5}, values[CASE_A_LABELS] = {4, 5, 6}, copies[CASE_A_LABELS] = {1, 1, 1};
    set_job(job, kind, CASE_A_BUDGET, CASE_A_LABELS, weights, values, copies);
}

/* As the second program reads the job where it has as many budgets as it has to have. It is there until the next call. */
static const struct plain_job *known(const struct job *job) {
    static struct bytes bytes;
    static struct plain_job read;
    put_with(&bytes, job, BUDGETS_OF(job->kind));
    if (!plain_read(bytes.at, bytes.length, &read)) {
        printf("the second program can't read a job of the tests\n");
        exit(1);
    }
    return &read;
}

struct plain_room room_of(const struct job *job, enum plain_way way) {
    return plain_room(known(job), way);
}

uint32_t claims_of(const struct job *job) {
    return (uint32_t)plain_certificate_room(known(job)).cells;
}

uint32_t most_picked(const struct job *job, uint32_t i) {
    switch (job->kind) {
    case KIND_COPIES: return job->copies.at[i];
    case KIND_ANY: return MOST_PICK_ANY;
    default: return 1;
    }
}
