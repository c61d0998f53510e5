/* Jobs and certificates as bytes, and jobs that are made by hand. */
#ifndef JOBS_H
#define JOBS_H

#include "bounds.h"
#include "plain.h"
#include <stddef.h>
#include <stdint.h>

enum {
    MOST_NUMBERS = MOST_IN_LIST + 1, /* in a list: one too many */
    MOST_BYTES = 16 * MOST_NUMBERS   /* three such lists, and some more */
};

struct list {
    uint32_t count;
    uint32_t at[MOST_NUMBERS];
};

struct job {
    uint32_t kind, budget, q;
    uint32_t budgets; /* so many numbers has the budgets section; 0 stands for as many as the kind has to have */
    struct list weights, values, copies;
};

struct bytes {
    size_t length;
    uint8_t at[MOST_BYTES];
};

/* A number as four bytes, lowest first. */
void put_at(uint8_t *bytes, uint32_t number);

/* A number, or a section, after what is there. Ends the tests where there is no room. */
void put_number(struct bytes *bytes, uint32_t number);
void put_section(struct bytes *bytes, const uint32_t *numbers, uint32_t count);

/* A job; of its budgets, the first is C and any other is q. */
void put_job(struct bytes *bytes, const struct job *job);

/* A certificate of so many of the picks and cells as the job's has; and one that is too long for these, into memory that has room for it.
 * Answers its bytes. */
void put_certificate(struct bytes *bytes, const struct job *job, const uint32_t *picks, const uint32_t *cells);
size_t lay_certificate(uint8_t *at, const struct job *job, const uint32_t *picks, const uint32_t *cells);

/* A list is given as its count and its numbers. Of a job's lists of n those are taken that its kind uses; others may be null. q is the
 * least one. */
void set_list(struct list *list, uint32_t count, const uint32_t *numbers);
void set_job(struct job *job, uint32_t kind, uint32_t budget, uint32_t n, const uint32_t *weights, const uint32_t *values,
             const uint32_t *copies);

/* So many labels, or claims, of 1: each list that the kind uses. */
void alike_labels(struct job *job, uint32_t kind, uint32_t n, uint32_t budget);

/* Document 01's case A: weights 3 4 5, values 4 5 6, C 7; as a job of any kind, with one copy of each. */
enum {
    CASE_A_LABELS = 3,
    CASE_A_BUDGET = 7,
    CASE_A_VALUE = 9,
    CASE_A_CELLS = FULL_TABLE(CASE_A_LABELS, CASE_A_BUDGET),
    CASE_A_STATED_CELLS = (CASE_A_LABELS + 1) * (4 + 5 + 6 + 1), /* as kind 9, where its values stay uncut */
    CASE_A_CERTIFICATE = CERTIFICATE(CASE_A_LABELS, CASE_A_CELLS)
};
void case_a(struct job *job, uint32_t kind);

/* What the job needs in a way, how many cells its certificate has, and how often that may pick label i. */
struct plain_room room_of(const struct job *job, enum plain_way way);
uint32_t claims_of(const struct job *job);
uint32_t most_picked(const struct job *job, uint32_t i);

#endif
