/* Document 01's second program: all kinds but 7 by trying every selection of a small job, one by one. Each place of the table is a small
 * job of its own, of the first i labels with budget c, or in kind 9 of some of them with a total, for which all is tried again. See the
 * head of plain.c. */
#include "plain.h"

enum { LABELS = 12, SELECTIONS = 300000 }; /* no more than these are tried for a job; document 01 has no number for it */

static uint32_t left; /* how many selections may still be tried */

/* Kind 9: the labels that aren't left aside, m of them, the divisor, and what the cut values sum to. */
static struct {
    uint32_t m, label[LABELS], divisor;
    uint64_t total;
} stated;

/* The divisor is the greatest whole number that, times m and q, isn't above the greatest value, but at least 1: it is counted up, and not
 * divided, so that the table's is held to it. */
static void state(const struct plain_job *job) {
    uint64_t greatest = 0, product;
    uint32_t i;
    stated.m = 0;
    for (i = 0; i < job->weights.count; i++) {
        if (plain_item(job->weights, i) > job->budget) continue;
        stated.label[stated.m++] = i;
        greatest = GREATER(greatest, plain_item(job->values, i));
    }
    stated.divisor = 1;
    product = (uint64_t)stated.m * job->q;
    while (stated.m > 0 && (stated.divisor + 1) * product <= greatest) stated.divisor++;
    stated.total = 0;
    for (i = 0; i < stated.m; i++) stated.total += plain_item(job->values, stated.label[i]) / stated.divisor;
}

/* Before selections are tried of a job that has no more labels than may be. */
static void start(const struct plain_job *job) {
    left = SELECTIONS;
    if (job->kind == KIND_STATED_SHARE) state(job);
}

/* Kinds 1 to 3 and 9 ask for value within the budget; 4 to 6 and 8 ask for what weighs exactly so much. */
static int is_knapsack(uint32_t kind) {
    return kind == KIND_ONCE || kind == KIND_COPIES || kind == KIND_ANY || kind == KIND_STATED_SHARE;
}

/* ---- one selection after the other */

struct selection {
    uint32_t counts[LABELS];
    uint64_t weight, value, blocks; /* the value of cut values, in kind 9 */
};

/* What one of label k is worth. In kind 9 that is said of each label, though one that is left aside is in no selection. */
static uint32_t worth(const struct plain_job *job, uint32_t k) {
    if (!is_knapsack(job->kind)) return 0;
    return plain_item(job->values, k) / (job->kind == KIND_STATED_SHARE ? stated.divisor : 1);
}

/* The same selection with another count of label k. */
static void set_count(const struct plain_job *job, struct selection *s, uint32_t k, uint32_t count) {
    uint64_t more = (uint64_t)count - s->counts[k]; /* below 0 it wraps, and so do the sums, back to what they have to be */
    s->weight += more * plain_item(job->weights, k);
    s->value += more * worth(job, k);
    s->blocks += more;
    s->counts[k] = count;
}

/* The next selection of the first i labels that is allowed and weighs at most c, or 0 after the last. The counts go up as the digits of a
 * number do: the first that can go up does, and those before it go back to 0. */
static int next_selection(const struct plain_job *job, uint32_t i, uint32_t c, struct selection *s) {
    uint32_t k;
    if (left == 0) return 0;
    left--;
    for (k = 0; k < i; k++) {
        if (s->counts[k] < plain_most(job, k) && s->weight + plain_item(job->weights, k) <= c) {
            set_count(job, s, k, s->counts[k] + 1);
            return 1;
        }
        if (s->counts[k] > 0) set_count(job, s, k, 0);
    }
    return 0;
}

/* ---- which one is asked for */

/* What trying all selections of the first i labels for c shows. */
struct outcome {
    uint64_t asked, as_good; /* how many selections count, and how many of these are as good as the best */
    struct selection best;   /* the one that the tie rule names */
};

/* Whether a selection that weighs at most c counts. */
static int counts_for(const struct plain_job *job, const struct selection *s, uint32_t c) {
    return is_knapsack(job->kind) || s->weight == c;
}

/* Above 0 if a is better than b, 0 if they are equally good: more value, in kind 9 of as much the lighter, or fewer blocks. Kinds 4, 6 and
 * 8 don't choose. */
static int compared(const struct plain_job *job, const struct selection *a, const struct selection *b) {
    if (job->kind == KIND_STATED_SHARE && a->value == b->value) return (a->weight < b->weight) - (a->weight > b->weight);
    if (is_knapsack(job->kind)) return (a->value > b->value) - (a->value < b->value);
    if (job->kind == KIND_FEWEST) return (a->blocks < b->blocks) - (a->blocks > b->blocks);
    return 0;
}

struct plain_rule plain_rule(uint32_t kind) {
    struct plain_rule rule;
    rule.from_last = kind != KIND_ANY;
    rule.small = kind == KIND_ONCE || kind == KIND_COPIES || kind == KIND_LABELS_BEHIND || kind == KIND_STATED_SHARE;
    return rule;
}

/* Of two selections that are equally good, whether a comes before b: the first count that differs decides, as labels are read. */
static int goes_first(struct plain_rule rule, uint32_t i, const struct selection *a, const struct selection *b) {
    uint32_t k;
    for (k = 0; k < i; k++) {
        uint32_t label = rule.from_last ? i - 1 - k : k, x = a->counts[label], y = b->counts[label];
        if (x != y) return rule.small ? x < y : x > y;
    }
    return 0;
}

static struct outcome try_all(const struct plain_job *job, uint32_t i, uint32_t c, struct plain_rule rule) {
    static const struct outcome none;
    struct outcome all = none;
    struct selection s = none.best;
    do {
        int better = !counts_for(job, &s, c) ? -1 : all.asked++ == 0 ? 1 : compared(job, &s, &all.best);
        if (better > 0) all.as_good = 0;
        if (better >= 0) all.as_good++;
        if (better > 0 || (better == 0 && goes_first(rule, i, &s, &all.best))) all.best = s;
    } while (next_selection(job, i, c, &s));
    return all;
}

void plain_picks(const struct plain_job *job, struct plain_rule rule, uint32_t *picks) {
    struct outcome all;
    uint32_t k;
    start(job);
    all = try_all(job, job->weights.count, job->budget, rule);
    for (k = 0; k < job->weights.count; k++) picks[k] = all.best.counts[k];
}

/* Each label at most once is no more selections than may be tried. */
int plain_try_best(const struct plain_job *job, uint64_t *best) {
    if (job->weights.count > LABELS) return 0;
    start(job);
    *best = try_all(job, job->weights.count, job->budget, plain_rule(job->kind)).best.value;
    return 1;
}

/* ---- the table and the answer */

/* Kind 9: what a selection is worth in uncut values. */
static uint64_t uncut(const struct plain_job *job, const struct selection *s) {
    uint64_t value = 0;
    uint32_t k;
    for (k = 0; k < job->values.count; k++) value += s->counts[k] * (uint64_t)plain_item(job->values, k);
    return value;
}

/* The number that is asked for: a value, whether c is reached, fewest blocks, ways or a weight. */
static uint64_t number_of(const struct plain_job *job, const struct outcome *all) {
    switch (job->kind) {
    case KIND_SUMS: return all->asked > 0;
    case KIND_FEWEST: return all->asked > 0 ? all->best.blocks : NO_WAY;
    case KIND_WAYS: return all->asked;
    case KIND_LABELS_BEHIND: return all->best.weight;
    case KIND_STATED_SHARE: return uncut(job, &all->best);
    default: return all->best.value;
    }
}

/* Kind 8: the least i such that the first i labels reach c. */
static uint64_t first_to_reach(const struct plain_job *job, uint32_t c) {
    uint32_t i;
    for (i = 0; i <= job->weights.count; i++) {
        if (try_all(job, i, c, plain_rule(job->kind)).asked > 0) return i;
    }
    return NOT_REACHED;
}

/* What the table says of the first i labels and c. Once too many were tried the table says nothing, and no more is. */
static uint64_t place(const struct plain_job *job, uint32_t i, uint32_t c) {
    struct outcome all;
    if (left == 0) return 0;
    if (job->kind == KIND_LABELS_BEHIND) return first_to_reach(job, c);
    all = try_all(job, i, c, plain_rule(job->kind));
    return number_of(job, &all);
}

/* Kind 9: the least weight within C of cut values that sum to t, of the first j labels that aren't left aside. */
static uint32_t least_weight(const struct plain_job *job, uint32_t j, uint64_t t) {
    static const struct selection none;
    struct selection s = none;
    uint32_t i = j == 0 ? 0 : stated.label[j - 1] + 1; /* among the first i labels there are j of them */
    uint64_t least = NO_WEIGHT;
    if (left == 0) return 0;
    do {
        if (s.value == t && s.weight < least) least = s.weight;
    } while (next_selection(job, i, job->budget, &s));
    return (uint32_t)least;
}

/* As many as the labels and values say that were looked at here; the table's have to be as many. */
static void try_stated_places(const struct plain_job *job, struct plain_answer *answer) {
    uint64_t m, width = stated.total + 1;
    answer->filled.cells = (stated.m + 1) * width;
    for (m = 0; m < answer->filled.cells; m++) answer->cells[m] = least_weight(job, (uint32_t)(m / width), m % width);
}

static void try_places(const struct plain_job *job, struct plain_answer *answer) {
    uint32_t m, n = job->weights.count, width = ROW(job->budget);
    int rows = answer->filled.cells > width; /* a row for each number of labels, or one for all of them */
    if (job->kind == KIND_STATED_SHARE) {
        try_stated_places(job, answer);
        return;
    }
    for (m = 0; m < answer->filled.cells; m++) answer->cells[m] = (uint32_t)place(job, rows ? m / width : n, m % width);
    for (m = 0; m < answer->filled.words; m++) answer->words[m] = job->kind == KIND_WAYS ? place(job, n, m) : 0;
    if (job->kind != KIND_SUMS) return;
    for (m = 0; m < width; m++) {
        uint64_t reached = place(job, n, m);
        answer->words[m / WORD_BITS] |= reached << m % WORD_BITS;
        answer->second += reached;
    }
}

/* Kind 5 or 8 and no list at all is refusal 7. So few selections are never too many ways. */
static void try_answer(const struct plain_job *job, struct plain_answer *answer) {
    struct outcome all = try_all(job, job->weights.count, job->budget, plain_rule(job->kind));
    uint32_t k;
    if ((job->kind == KIND_FEWEST || job->kind == KIND_LABELS_BEHIND) && all.asked == 0) {
        answer->refused = 7;
        answer->filled.picks = 0;
        return;
    }
    answer->as_good = all.as_good;
    answer->first = number_of(job, &all);
    if (is_knapsack(job->kind)) answer->second = all.best.weight;
    for (k = 0; k < answer->filled.picks; k++) answer->picks[k] = all.best.counts[k];
}

/* How often at least one selection is tried: for each place once, or in kind 8, where none reaches it, for each number of labels. */
static uint64_t fewest_tried(const struct plain_job *job, const struct plain_answer *answer) {
    uint64_t places = answer->filled.cells + answer->filled.words;
    return job->kind == KIND_LABELS_BEHIND ? places * (job->weights.count + 1) : places;
}

/* Whether they are too many for all places, told before all of them are tried: each selection of all labels comes up again for every budget
 * from its weight to C, or in kind 9 for every total. Not in kind 8, where fewer labels may do. */
static int are_too_many(const struct plain_job *job) {
    struct selection s = {{0}, 0, 0, 0};
    uint64_t tries = 0;
    start(job);
    if (job->kind == KIND_LABELS_BEHIND) return 0;
    do tries += job->kind == KIND_STATED_SHARE ? stated.total + 1 : ROW((uint64_t)job->budget) - s.weight;
    while (tries <= SELECTIONS && next_selection(job, job->weights.count, job->budget, &s));
    return tries > SELECTIONS;
}

int plain_try(const struct plain_job *job, struct plain_answer *answer) {
    plain_start(answer, job, 0, FULL_WAY);
    if (job->kind == KIND_SHARES || job->weights.count > LABELS || fewest_tried(job, answer) > SELECTIONS) return 0;
    if (are_too_many(job)) return 0;
    start(job);
    try_places(job, answer);
    try_answer(job, answer);
    return left > 0;
}
