/* Slices to lend: full of dirt, with more dirt on both sides, so that a place that was written shows. */
#include "lent.h"
#include <stdio.h>
#include <stdlib.h>
#include <string.h>

enum { SIDE = 64 };

/* The dirt comes round again after so many bytes, a prime number of elements, so that no row of another length does with it. */
enum { ROUND = 4 * 1021 };

/* A byte of it. Elements start at multiples of 4, so that only a small number's lowest byte isn't 0. */
static uint8_t dirt(size_t byte, unsigned sort) {
    uint8_t any = (uint8_t)((byte * 2654435761u) >> 9);
    switch (sort) {
    case 7: return byte % 4 == 0 ? any % 8 : 0;
    case 11: return 0;
    case 14: return 255;
    default: return any;
    }
}

/* The dirt of the whole from a byte on, as far as it lies in one piece, and how many bytes that are: large slices are filled and compared
 * by pieces, since byte by byte takes long. Where in its round it starts is for the salt to say. */
static const uint8_t *piece(const struct lent *lent, size_t from, size_t to, size_t *length) {
    enum { SORTS = 16 };
    static uint8_t rounds[SORTS][ROUND];
    static int made;
    size_t k, at = (from + 4 * (size_t)(lent->salt % ROUND)) % ROUND;
    for (k = 0; !made && k < SORTS * ROUND; k++) rounds[k / ROUND][k % ROUND] = dirt(k % ROUND, (unsigned)(k / ROUND));
    made = 1;
    *length = to - from < ROUND - at ? to - from : ROUND - at;
    return rounds[lent->salt % SORTS] + at;
}

static size_t start_of(const struct lent *lent) {
    return (size_t)((uint8_t *)lent->slice - lent->whole);
}

void lend(struct lent *lent, size_t count, size_t size, uint64_t salt) {
    size_t k, length, all = SIDE + size + count * size + SIDE;
    const uint8_t *from;
    lent->whole = malloc(all);
    if (lent->whole == NULL) {
        printf("not enough memory: %llu bytes\n", (unsigned long long)all);
        exit(1);
    }
    lent->slice = lent->whole + SIDE + size;
    lent->bytes = count * size;
    lent->salt = salt;
    for (k = 0; k < all; k += length) {
        from = piece(lent, k, all, &length);
        memcpy(lent->whole + k, from, length);
    }
}

/* Whether the bytes of the whole hold their dirt from one to before another. */
static int kept_between(const struct lent *lent, size_t from, size_t to) {
    size_t k, length;
    const uint8_t *kept;
    for (k = from; k < to; k += length) {
        kept = piece(lent, k, to, &length);
        if (memcmp(lent->whole + k, kept, length) != 0) return 0;
    }
    return 1;
}

int kept_from(const struct lent *lent, size_t byte) {
    size_t start = start_of(lent);
    return kept_between(lent, 0, start) && kept_between(lent, start + byte, start + lent->bytes + SIDE);
}

int kept_outside(const struct lent *lent) {
    return kept_from(lent, lent->bytes);
}

void give_back(struct lent *lent) {
    free(lent->whole);
}
