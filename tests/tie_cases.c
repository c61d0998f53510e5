/* Ties by hand: for each kind that has a tie rule, a job for which every other rule would name other picks. */
#include "calls.h"
#include "parts.h"
#include "tell.h"
#include <stdio.h>

enum { MOST_N = 5 };

struct tie_case {
    uint32_t kind, budget, n, weights[MOST_N], values[MOST_N], copies[MOST_N], picks[MOST_N];
};

static const struct tie_case cases[] = {
    {KIND_ONCE, 8, 4, {2, 1, 6, 1}, {2, 1, 2, 1}, {0}, {1, 0, 1, 0}},
    {KIND_COPIES, 4, 3, {3, 4, 1}, {2, 3, 1}, {1, 2, 3}, {0, 1, 0}},
    {KIND_ANY, 8, 3, {5, 4, 3}, {2, 2, 2}, {0}, {1, 0, 1}},
    {KIND_FEWEST, 24, 4, {1, 3, 7, 9}, {0}, {0}, {0, 2, 0, 2}},
    {KIND_SHARES, 3, 5, {1, 3, 1, 3, 1}, {0}, {0}, {1, 1, 0, 1, 0}},
    {KIND_LABELS_BEHIND, 4, 4, {2, 1, 3, 1}, {0}, {0}, {0, 1, 1, 0}},
    {KIND_STATED_SHARE, 4, 4, {2, 1, 3, 1}, {2, 1, 3, 1}, {0}, {0, 1, 1, 0}},
};

static void try_case(const struct tie_case *given) {
    static struct job job;
    static struct bytes bytes;
    const struct plain_answer *answer;
    struct plain_room lengths[PLAIN_WAYS];
    struct plain_job read;
    uint32_t i;
    int other;
    set_job(&job, given->kind, given->budget, given->n, given->weights, given->values, given->copies);
    put_job(&bytes, &job);
    read_back(&bytes, &read);
    lengths[LIGHT_WAY] = plain_room(&read, LIGHT_WAY);
    lengths[FULL_WAY] = plain_room(&read, FULL_WAY);
    answer = try_both_ways(&bytes, lengths, given->kind).of[LIGHT_WAY];
    holds("that there is a tie", answer->as_good > 1);
    for (i = 0; i < given->n; i++) same_at("the second program's pick", i, given->picks[i], answer->picks[i]);
    for (other = 1; other < RULES && read.kind != KIND_SHARES; other++) {
        holds("that another rule names other picks", other_rule_tells(&read, other, given->picks));
    }
}

void part_ties(void) {
    size_t k;
    for (k = 0; k < sizeof cases / sizeof cases[0]; k++) {
        about("ties", k);
        try_case(&cases[k]);
    }
    printf("ties: %d jobs\n", (int)k);
}
