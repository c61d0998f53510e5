/* Slices to lend: full of dirt, with more dirt on both sides, so that a place that was written shows. */
#ifndef LENT_H
#define LENT_H

#include <stddef.h>
#include <stdint.h>

struct lent {
    uint8_t *whole;
    void *slice;
    size_t bytes;
    uint64_t salt;
};

/* A slice of so many elements of a size, aligned for that size and no better. The salt says which dirt it holds: most often any numbers,
 * and now and then small ones, nothing but 0, or nothing but 255. Ends the tests where there isn't enough memory. */
void lend(struct lent *lent, size_t count, size_t size, uint64_t salt);

/* Whether the slice holds its dirt from some byte on, and both sides do. From 0 on: nothing was written. */
int kept_from(const struct lent *lent, size_t byte);

/* Whether both sides of the slice hold their dirt. */
int kept_outside(const struct lent *lent);

void give_back(struct lent *lent);

#endif
