/* Document 01's second program: job bytes, refusals and the room that is needed. All files plain*.c were written from document 01, the
 * requests K1, K3, K4, K5 and K6 and include/quabnester.h, without sight of the planner's sources: that is what makes them a second
 * opinion, and whoever changes them should keep it so. They allocate nothing and keep nothing between calls. */
#include "plain.h"

/* ---- job bytes */

uint32_t plain_number(const uint8_t *bytes) {
    return (uint32_t)bytes[0] | (uint32_t)bytes[1] << 8 | (uint32_t)bytes[2] << 16 | (uint32_t)bytes[3] << 24;
}

uint32_t plain_item(struct plain_list list, uint32_t i) {
    return plain_number(list.bytes + (size_t)i * 4);
}

uint64_t plain_sum(struct plain_list list) {
    uint64_t sum = 0;
    uint32_t i;
    for (i = 0; i < list.count; i++) sum += plain_item(list, i);
    return sum;
}

int plain_section(const uint8_t *bytes, size_t length, size_t *at, struct plain_list *list) {
    if (length - *at < 4) return 0;
    list->count = plain_number(bytes + *at);
    *at += 4;
    if ((length - *at) / 4 < list->count) return 0;
    list->bytes = bytes + *at;
    *at += (size_t)list->count * 4;
    return 1;
}

int plain_read(const uint8_t *bytes, size_t length, struct plain_job *job) {
    struct plain_list kinds, budgets;
    size_t at = 0;
    if (!plain_section(bytes, length, &at, &kinds) || kinds.count != 1) return 0;
    job->kind = plain_item(kinds, 0);
    if (!plain_section(bytes, length, &at, &budgets) || budgets.count != BUDGETS_OF(job->kind)) return 0;
    job->budget = plain_item(budgets, 0);
    job->q = budgets.count > 1 ? plain_item(budgets, 1) : 0;
    if (!plain_section(bytes, length, &at, &job->weights)) return 0;
    if (!plain_section(bytes, length, &at, &job->values)) return 0;
    if (!plain_section(bytes, length, &at, &job->copies)) return 0;
    return at == length;
}

/* ---- what a kind is */

/* the bounds on n and C: of labels, of block sizes, of claims; and the least of what is weighed and of a size */
#define OF_LABELS .most_labels = MOST_LABELS, .most_budget = MOST_BUDGET, .least_weight = LEAST_WEIGHT
#define OF_SIZES .most_labels = MOST_SIZES, .most_budget = MOST_BUDGET, .least_weight = LEAST_SIZE, .ascending = 1
#define OF_CLAIMS .most_labels = MOST_CLAIMS, .most_budget = MOST_SHARED

static const struct plain_kind kinds[LAST_KIND + 1] = {
    [0] = {OF_LABELS}, /* stands for all that aren't there */
    [KIND_ONCE] = {OF_LABELS, .values = 1, .least_value = LEAST_VALUE, .picks = 1},
    [KIND_COPIES] = {OF_LABELS, .values = 1, .least_value = LEAST_VALUE, .copies = 1, .picks = 1},
    [KIND_ANY] = {OF_LABELS, .values = 1, .least_value = LEAST_VALUE_ANY, .picks = 1},
    [KIND_SUMS] = {OF_LABELS},
    [KIND_FEWEST] = {OF_SIZES, .picks = 1},
    [KIND_WAYS] = {OF_SIZES},
    [KIND_SHARES] = {OF_CLAIMS, .picks = 1},
    [KIND_LABELS_BEHIND] = {OF_LABELS, .picks = 1},
    [KIND_STATED_SHARE] = {OF_LABELS, .values = 1, .least_value = LEAST_VALUE, .picks = 1},
};

const struct plain_kind *plain_kind(uint32_t kind) {
    return &kinds[kind <= LAST_KIND ? kind : 0];
}

/* Kind 9: a row for each number of the labels that aren't left aside, with a cell for each total. A job that is refused needs none. */
static uint64_t stated_cells(const struct plain_job *job) {
    struct plain_stated stated;
    if (plain_job_refusal(job, LAST_KIND) != 0) return 0;
    plain_state(job, &stated);
    return ((uint64_t)stated.m + 1) * (stated.total + 1);
}

struct plain_room plain_room(const struct plain_job *job, enum plain_way way) {
    struct plain_room room = {0, 0, 0};
    uint64_t n = job->weights.count, C = job->budget;
    if (plain_kind(job->kind)->picks) room.picks = n;
    switch (job->kind) {
    case KIND_ONCE:
        room.cells = way == LIGHT_WAY ? ROW(C) : FULL_TABLE(n, C);
        room.words = way == LIGHT_WAY ? n * WORDS_OF_BITS(C) : 0;
        break;
    case KIND_COPIES: room.cells = FULL_TABLE(n, C); break;
    case KIND_ANY:
    case KIND_FEWEST:
    case KIND_LABELS_BEHIND: room.cells = ROW(C); break;
    case KIND_SUMS: room.words = WORDS_OF_BITS(C); break;
    case KIND_WAYS: room.words = ROW(C); break;
    case KIND_STATED_SHARE: room.cells = stated_cells(job); break;
    default: break;
    }
    return room;
}

struct plain_room plain_certificate_room(const struct plain_job *job) {
    uint64_t n = job->weights.count, C = job->budget;
    struct plain_room room = {job->kind == KIND_ANY ? ROW(C) : FULL_TABLE(n, C), 0, n};
    return room;
}

uint64_t plain_certificate_bytes(const struct plain_job *job) {
    struct plain_room room = plain_certificate_room(job);
    return CERTIFICATE(room.picks, room.cells);
}

/* ---- refusals */

/* Refusal 3: a used list's length isn't n, or an unused list isn't empty. Weights are used by all kinds, and n is their length. */
static int lengths_wrong(const struct plain_job *job) {
    const struct plain_kind *kind = plain_kind(job->kind);
    uint32_t n = job->weights.count;
    return job->values.count != (kind->values ? n : 0) || job->copies.count != (kind->copies ? n : 0);
}

/* Refusal 4: n or C above its bound. */
static int too_big(const struct plain_job *job) {
    const struct plain_kind *kind = plain_kind(job->kind);
    return job->weights.count > kind->most_labels || job->budget > kind->most_budget;
}

/* Whether some number of the list isn't from `least` to `most`. */
static int list_outside(struct plain_list list, uint32_t least, uint32_t most) {
    uint32_t i;
    for (i = 0; i < list.count; i++) {
        if (plain_item(list, i) < least || plain_item(list, i) > most) return 1;
    }
    return 0;
}

static int strictly_ascending(struct plain_list list) {
    uint32_t i;
    for (i = 1; i < list.count; i++) {
        if (plain_item(list, i) <= plain_item(list, i - 1)) return 0;
    }
    return 1;
}

/* Refusal 5: a weight, value, copies number or block size outside its rule, or q in kind 9. Unused lists are empty here. */
static int numbers_wrong(const struct plain_job *job) {
    const struct plain_kind *kind = plain_kind(job->kind);
    if (list_outside(job->weights, kind->least_weight, UINT32_MAX)) return 1;
    if (kind->ascending && !strictly_ascending(job->weights)) return 1;
    if (job->kind == KIND_STATED_SHARE && (job->q < LEAST_Q || job->q > MOST_Q)) return 1;
    return list_outside(job->values, kind->least_value, MOST_VALUE) || list_outside(job->copies, LEAST_COPIES, MOST_COPIES);
}

uint32_t plain_job_refusal(const struct plain_job *job, uint32_t last_kind) {
    if (job->kind < 1 || job->kind > last_kind) return 2;
    if (lengths_wrong(job)) return 3;
    if (too_big(job)) return 4;
    if (numbers_wrong(job)) return 5;
    return 0;
}

uint32_t plain_solve_refusal(const uint8_t *job, size_t job_len, const struct plain_room *lent, enum plain_way way) {
    struct plain_job read;
    struct plain_room room;
    uint32_t refusal;
    if (!plain_read(job, job_len, &read)) return 1;
    refusal = plain_job_refusal(&read, LAST_KIND);
    if (refusal != 0) return refusal;
    room = plain_room(&read, way);
    if (lent->cells < room.cells || lent->words < room.words || lent->picks < room.picks) return 6;
    if (read.kind == KIND_SHARES && plain_sum(read.weights) == 0) return 9;
    return 0;
}

uint32_t plain_write_refusal(const uint8_t *job, size_t job_len, size_t picks, size_t cells, size_t out) {
    struct plain_job read;
    struct plain_room room;
    uint32_t refusal;
    if (!plain_read(job, job_len, &read)) return 1;
    refusal = plain_job_refusal(&read, LAST_CHECKED_KIND);
    if (refusal != 0) return refusal;
    room = plain_certificate_room(&read);
    if (picks < room.picks || cells < room.cells || out < plain_certificate_bytes(&read)) return 6;
    return 0;
}

/* ---- what the ways to an answer share */

void plain_start(struct plain_answer *answer, const struct plain_job *job, uint32_t refused, enum plain_way way) {
    static const struct plain_room nothing = {0, 0, 0};
    answer->refused = refused;
    answer->first = answer->second = answer->as_good = 0;
    answer->tried = 0;
    answer->filled = refused == 0 ? plain_room(job, way) : nothing;
}

/* Whether the best value of labels 0 to i is above that of labels 0 to i-1 at budget c. */
static int is_above(const struct plain_job *job, const uint32_t *cells, uint32_t i, uint32_t c) {
    size_t width = ROW((size_t)job->budget), without = i * width + c, with = without + width;
    return cells[with] > cells[without];
}

void plain_light(const struct plain_job *job, const struct plain_answer *full, struct plain_answer *light) {
    uint32_t i, c, n = job->weights.count;
    size_t m, width = ROW((size_t)job->budget), each = WORDS_OF_BITS(job->budget);
    plain_start(light, job, 0, LIGHT_WAY);
    light->first = full->first;
    light->second = full->second;
    light->as_good = full->as_good;
    light->tried = full->tried;
    for (m = 0; m < light->filled.words; m++) light->words[m] = 0;
    for (c = 0; c < width; c++) {
        light->cells[c] = full->cells[n * width + c];
        for (i = 0; i < n; i++) light->words[i * each + c / WORD_BITS] |= (uint64_t)is_above(job, full->cells, i, c) << c % WORD_BITS;
    }
    for (i = 0; i < n; i++) light->picks[i] = full->picks[i];
}

uint64_t plain_most(const struct plain_job *job, uint32_t k) {
    switch (job->kind) {
    case KIND_ONCE:
    case KIND_SUMS:
    case KIND_LABELS_BEHIND:
    case KIND_STATED_SHARE: return 1;
    case KIND_COPIES: return plain_item(job->copies, k);
    default: return UINT64_MAX;
    }
}
