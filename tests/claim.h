/* Tables of claims that nobody solved. */
#ifndef CLAIM_H
#define CLAIM_H

#include "draw.h"

/* The least that cell m may claim by rule 14, given the cells before it. */
uint32_t least_claim(const struct job *job, const uint32_t *cells, uint32_t m);

/* A table of claims that keep rule 14; one in `in` is higher than it has to be, by `most` at most, but none for budget C. Answers whether
 * some are. */
int draw_table(struct draw *draw, const struct job *job, uint32_t in, uint32_t most, uint32_t *cells);

/* One of the cells changed: by one, or to a number near the greatest. */
void spoil_claim(struct draw *draw, uint32_t *cells, uint32_t count);

/* Picks in place of the best: each as often as it may be and fits by itself, or less. */
void draw_any_picks(struct draw *draw, const struct job *job, uint32_t *picks);

/* What the last cell has to claim for them. Cut to 32 bits where they aren't allowed. */
uint32_t value_of_picks(const struct job *job, const uint32_t *picks);

#endif
