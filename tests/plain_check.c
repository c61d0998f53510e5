/* Document 01's second program: certificates, judged in the order of the refusals, for the kinds of request K1. Rule 14 is asked count by
 * count; for many copies there is a faster way, which the tests hold to that. See the head of plain.c. */
#include "plain.h"

enum { SUMS = 200000 }; /* no more than these are asked one by one for a certificate; no document has a number for it */

/* ---- rule 14, as it is said */

/* A cell, 64 bits wide so that values can be added; `cells` starts at cell 0, behind the count. */
static uint64_t cell(const uint8_t *cells, uint64_t m) {
    return plain_number(cells + (size_t)(m * 4));
}

/* Kinds 1 and 2: K(i,c) is below K(i-1,c-kw) plus k values, for a count k that label i-1 may have and whose weight fits. */
static int low_by_counts(const struct plain_job *job, const uint8_t *cells, uint64_t i, uint64_t c) {
    uint32_t label = (uint32_t)(i - 1);
    uint64_t weight = plain_item(job->weights, label), value = plain_item(job->values, label), k;
    uint64_t width = ROW((uint64_t)job->budget), here = cell(cells, i * width + c);
    for (k = 0; k <= plain_most(job, label) && k * weight <= c; k++) {
        if (here < cell(cells, (i - 1) * width + c - k * weight) + k * value) return 1;
    }
    return 0;
}

/* Kind 3: cell c is below the cell one weight earlier plus the value, for a label whose weight is at most c. */
static int low_by_labels(const struct plain_job *job, const uint8_t *cells, uint64_t c) {
    uint64_t here = cell(cells, c);
    uint32_t i;
    for (i = 0; i < job->weights.count; i++) {
        uint32_t weight = plain_item(job->weights, i);
        if (weight <= c && here < cell(cells, c - weight) + plain_item(job->values, i)) return 1;
    }
    return 0;
}

/* Row 0 of kinds 1 and 2 isn't asked. */
int plain_low(const struct plain_job *job, const uint8_t *cells, uint64_t m) {
    uint64_t width = ROW((uint64_t)job->budget);
    if (job->kind == KIND_ANY) return low_by_labels(job, cells, m);
    return m >= width && low_by_counts(job, cells, m / width, m % width);
}

/* The number of the first cell that is too low, or 0 if there is none: cell 0 never is, in row 0 or with weights from 1 up. */
static uint64_t first_low_cell(const struct plain_job *job, struct plain_list cells) {
    uint64_t m = 0;
    while (m < cells.count && !plain_low(job, cells.bytes, m)) m++;
    return m < cells.count ? m : 0;
}

/* How many sums of kinds 1 and 2 are asked at most. */
static uint64_t sums_of(const struct plain_job *job) {
    uint64_t sums = 0;
    uint32_t i;
    for (i = 0; i < job->weights.count; i++) {
        uint64_t fits = job->budget / plain_item(job->weights, i), most = plain_most(job, i);
        sums += ROW((uint64_t)job->budget) * (1 + (fits < most ? fits : most));
    }
    return sums;
}

/* ---- kinds 1 and 2 where the counts are many: budgets with the same rest by the weight, one after the other */

/* A label, and the row before its own. */
struct step {
    const uint8_t *before;
    uint64_t weight, value, most;
};

/* What c has to claim if it starts from another budget and takes the label for what is between. */
static uint64_t claim_from(const struct step *step, uint64_t from, uint64_t c) {
    return cell(step->before, from) + (c - from) / step->weight * step->value;
}

/* The greatest of these for each c, from the starts of at most so many copies earlier. Of two starts the one that asks for more does so
 * for every c after both. So the starts that wait are those that ask for more than all after them, and the first of them counts. */
static void greatest_claims(const struct step *step, uint64_t rest, uint64_t budget, uint64_t *least) {
    static uint64_t waiting[ROW(MOST_BUDGET)];
    uint64_t c, first = 0, end = 0;
    for (c = rest; c <= budget; c += step->weight) {
        while (end > first && claim_from(step, waiting[end - 1], c) <= cell(step->before, c)) end--;
        waiting[end++] = c;
        if ((c - waiting[first]) / step->weight > step->most) first++;
        least[c] = claim_from(step, waiting[first], c);
    }
}

/* As `first_low_cell`, row by row. */
static uint64_t first_low_in_rows(const struct plain_job *job, const uint8_t *cells) {
    static uint64_t least[ROW(MOST_BUDGET)];
    uint64_t width = ROW((uint64_t)job->budget), c;
    uint32_t i;
    for (i = 0; i < job->weights.count; i++) {
        struct step step = {cells + 4 * (i * width), plain_item(job->weights, i), plain_item(job->values, i), plain_most(job, i)};
        for (c = 0; c < width && c < step.weight; c++) greatest_claims(&step, c, job->budget, least);
        for (c = 0; c < width; c++) {
            if (cell(step.before, width + c) < least[c]) return (i + 1) * width + c;
        }
    }
    return 0;
}

/* ---- the other rules */

/* Reads the two sections; 0 is refusal 11. With both counts right, cut short and left over are just a wrong length. */
static int read_certificate(const struct plain_job *job, const uint8_t *bytes, size_t length, struct plain_list *picks,
                            struct plain_list *cells) {
    struct plain_room room = plain_certificate_room(job);
    size_t at = 0;
    if (!plain_section(bytes, length, &at, picks) || picks->count != room.picks) return 0;
    if (!plain_section(bytes, length, &at, cells) || cells->count != room.cells) return 0;
    return at == length;
}

/* The sum of the list's numbers times the picks; 64 bits hold it, since picks are of 16 bits here. */
static uint64_t picked_sum(struct plain_list list, struct plain_list picks) {
    uint64_t sum = 0;
    uint32_t i;
    for (i = 0; i < picks.count; i++) sum += (uint64_t)plain_item(picks, i) * plain_item(list, i);
    return sum;
}

/* The first label whose pick is above what its kind allows, or n if there is none. */
static uint32_t first_bad_pick(const struct plain_job *job, struct plain_list picks) {
    uint32_t i = 0;
    while (i < picks.count && plain_item(picks, i) <= (job->kind == KIND_ANY ? MOST_PICK_ANY : plain_most(job, i))) i++;
    return i;
}

static struct plain_verdict verdict(uint32_t number, uint64_t detail) {
    struct plain_verdict made;
    made.number = number;
    made.detail = detail;
    return made;
}

/* Refusals 12 to 15 in their order, or the value, for a certificate whose sections could be read. The last cell is K(n,C), or cell C. */
static struct plain_verdict judge(const struct plain_job *job, struct plain_list picks, struct plain_list cells, int one_by_one) {
    uint32_t bad_pick = first_bad_pick(job, picks);
    uint64_t low_cell, value;
    if (bad_pick < picks.count) return verdict(12, bad_pick);
    if (picked_sum(job->weights, picks) > job->budget) return verdict(13, 0);
    low_cell = one_by_one || job->kind == KIND_ANY ? first_low_cell(job, cells) : first_low_in_rows(job, cells.bytes);
    if (low_cell != 0) return verdict(14, low_cell);
    value = picked_sum(job->values, picks);
    if (cell(cells.bytes, cells.count - 1) != value) return verdict(15, 0);
    return verdict(0, value);
}

struct plain_verdict plain_check(const uint8_t *job, size_t job_len, const uint8_t *certificate, size_t length) {
    struct plain_job read;
    struct plain_list picks, cells;
    uint32_t refusal;
    if (!plain_read(job, job_len, &read)) return verdict(1, 0);
    refusal = plain_job_refusal(&read, LAST_CHECKED_KIND);
    if (refusal != 0) return verdict(refusal, 0);
    if (!read_certificate(&read, certificate, length, &picks, &cells)) return verdict(11, 0);
    return judge(&read, picks, cells, 0);
}

/* There are no counts to ask for in kind 3, or where the certificate isn't read. */
int plain_check_counts(const uint8_t *job, size_t job_len, const uint8_t *certificate, size_t length, struct plain_verdict *counted) {
    struct plain_job read;
    struct plain_list picks, cells;
    if (!plain_read(job, job_len, &read) || plain_job_refusal(&read, LAST_CHECKED_KIND) != 0 || read.kind == KIND_ANY) return 0;
    if (!read_certificate(&read, certificate, length, &picks, &cells) || sums_of(&read) > SUMS) return 0;
    *counted = judge(&read, picks, cells, 1);
    return 1;
}
