/* Jobs that are drawn from a number: the same number gives the same job on every machine. */
#ifndef DRAW_H
#define DRAW_H

#include "jobs.h"
#include "plain.h"

struct draw {
    uint64_t state;
};

/* A number from the least to the most, both may come. No expression draws twice where C leaves the order open. */
uint32_t drawn(struct draw *draw, uint32_t least, uint32_t most);

/* Whether one chance in so many came. */
int chance(struct draw *draw, uint32_t in);

/* Whether a kind's weights are labels, and no sizes or claims. */
int has_labels(uint32_t kind);

/* Sixteen bits hold the numbers below this one: a weight may fit if it is cut to them. */
enum { CUT_TO = 65536 };

/* ---- small jobs (draw.c) */

/* A job of a kind that keeps all its rules, with at most so many labels and so great a budget: weights from 1 to beyond C, few different
 * values, so that there are many ties. The budget of kind 7 is any number. */
void draw_job(struct draw *draw, uint32_t kind, uint32_t most_labels, uint32_t most_budget, struct job *job);

/* Puts sizes in order, each greater than the one before it. */
void put_in_order(struct list *sizes);

/* Values for the weights of a job; and claims, as many as are counted, 1 or more, which don't sum to 0. */
void draw_values(struct draw *draw, struct job *job);
void draw_claims(struct draw *draw, struct list *claims);

/* Lets one of the labels weigh what some of the others leave of C, so that C is reached. */
void reach_budget(struct draw *draw, struct job *job);

/* q for a job of kind 9, most often so that the cut values sum to about so much; and, in place of its values, most often others that are
 * divided by 1, by 2 or by more, in half of these jobs with many ties. */
void draw_stated(struct draw *draw, struct job *job, uint32_t most_total);

/* ---- what is wrong with them (faults.c) */

/* Something that breaks a rule, or just doesn't: another kind, a list too long or too short, a number at its bound or past it. */
void draw_fault(struct draw *draw, struct job *job);

/* The job's bytes damaged: cut short, some added, one changed, a count changed, two counts swapped. They are other bytes then. */
void draw_damage(struct draw *draw, const struct job *job, struct bytes *bytes);

/* Lengths of slices to lend: what is needed, or more; now and then one too few, or none. And one such length. */
struct plain_room draw_lengths(struct draw *draw, const struct plain_room *needed);
uint64_t draw_length(struct draw *draw, uint64_t needed);

/* ---- large jobs (draw_large.c) */

/* So many cells or words, or more, are a stretch that a loop may take at once: no number of document 01. */
enum { STRETCH = 16 };

/* A job that runs the long loops: large weights and budgets, many labels, more than 2^64 ways, products beyond 32 bits. */
void draw_large(struct draw *draw, uint32_t kind, struct job *job);

#endif
