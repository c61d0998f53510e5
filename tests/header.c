/* What include/quabnester.h says by itself, its constants and its functions, held to the library and to bounds.h: needed lengths are enough
 * and one place less isn't, each bound and one past it, those of the quick answer too, the cells of kind 9, the bytes of jobs and
 * certificates, the marks, and each refusal by its name. */
#include "calls.h"
#include "draw.h"
#include "parts.h"
#include "tell.h"
#include <stdio.h>
#include <string.h>

static unsigned long tried, met[LAST_REFUSAL + 1];
static struct job job;
static struct bytes bytes;

/* ---- constants */

struct constant {
    const char *name;
    uint64_t said, named; /* by document 01, and by the header */
};

static const struct constant constants[] = {
    {"once", KIND_ONCE, QUABNESTER_KIND_ONCE},
    {"copies", KIND_COPIES, QUABNESTER_KIND_COPIES},
    {"any number", KIND_ANY, QUABNESTER_KIND_ANY},
    {"sums", KIND_SUMS, QUABNESTER_KIND_SUMS},
    {"fewest blocks", KIND_FEWEST, QUABNESTER_KIND_FEWEST},
    {"ways", KIND_WAYS, QUABNESTER_KIND_WAYS},
    {"shares", KIND_SHARES, QUABNESTER_KIND_SHARES},
    {"labels behind a total", KIND_LABELS_BEHIND, QUABNESTER_KIND_LABELS_BEHIND},
    {"a stated share", KIND_STATED_SHARE, QUABNESTER_KIND_STATED_SHARE},
    {"the last kind", LAST_KIND, QUABNESTER_LAST_KIND},
    {"the last kind with certificates", LAST_CHECKED_KIND, QUABNESTER_LAST_CERTIFICATE_KIND},
    {"the most labels", MOST_LABELS, QUABNESTER_MOST_LABELS},
    {"the most sizes", MOST_SIZES, QUABNESTER_MOST_SIZES},
    {"the most claims", MOST_CLAIMS, QUABNESTER_MOST_CLAIMS},
    {"the greatest budget", MOST_BUDGET, QUABNESTER_MOST_BUDGET},
    {"the greatest budget to share", MOST_SHARED, QUABNESTER_MOST_SHARED},
    {"the least q", LEAST_Q, QUABNESTER_LEAST_Q},
    {"the greatest q", MOST_Q, QUABNESTER_MOST_Q},
    {"the least weight", LEAST_WEIGHT, QUABNESTER_LEAST_WEIGHT},
    {"the least size", LEAST_SIZE, QUABNESTER_LEAST_SIZE},
    {"the least value", LEAST_VALUE, QUABNESTER_LEAST_VALUE},
    {"the least value of kind 3", LEAST_VALUE_ANY, QUABNESTER_LEAST_VALUE_ANY},
    {"the greatest value", MOST_VALUE, QUABNESTER_MOST_VALUE},
    {"the fewest copies", LEAST_COPIES, QUABNESTER_LEAST_COPIES},
    {"the most copies", MOST_COPIES, QUABNESTER_MOST_COPIES},
    {"the greatest pick of kind 3", MOST_PICK_ANY, QUABNESTER_MOST_PICK_ANY},
    {"no way", NO_WAY, QUABNESTER_NO_WAY},
    {"not reached", NOT_REACHED, QUABNESTER_NO_WAY},
    {"no weight", NO_WEIGHT, QUABNESTER_NO_WAY},
    {"too many ways", FULL, QUABNESTER_TOO_MANY_WAYS},
};

/* Whether all are the same. */
static int are_those_of_the_document(void) {
    size_t k;
    int well = 1;
    about("header, constants", 0);
    for (k = 0; k < sizeof constants / sizeof constants[0]; k++) well &= same(constants[k].name, constants[k].said, constants[k].named);
    return well;
}

static void the_version(void) {
    char text[40];
    snprintf(text, sizeof text, "%d.%d.%d", QUABNESTER_VERSION_MAJOR, QUABNESTER_VERSION_MINOR, QUABNESTER_VERSION_PATCH);
    about("header, version", QUABNESTER_VERSION_NUMBER);
    holds("its text", strcmp(text, QUABNESTER_VERSION_STRING) == 0);
    same("its last number", QUABNESTER_VERSION_PATCH, QUABNESTER_VERSION_NUMBER % 1000);
    same("its second number", QUABNESTER_VERSION_MINOR, QUABNESTER_VERSION_NUMBER / 1000 % 1000);
    same("its first number", QUABNESTER_VERSION_MAJOR, QUABNESTER_VERSION_NUMBER / 1000000);
    holds("that it is one of K4, which has kind 1 refused on slices that were enough before", QUABNESTER_VERSION_MAJOR >= 2);
    holds("that it is one of K5, which adds an entry", QUABNESTER_VERSION_NUMBER >= 2001000);
    holds("that it is one of K6, which has kind 9 answered", QUABNESTER_VERSION_NUMBER >= 2002000);
    holds("that it is one of K7, which has more labels answered", QUABNESTER_VERSION_NUMBER >= 2003000);
}

/* ---- room */

static struct plain_room room_by_header(enum plain_way way) {
    uint32_t n = job.weights.count;
    struct plain_room room;
    room.cells = (way == FULL_WAY ? quabnester_full_cells_needed : quabnester_cells_needed)(job.kind, n, job.budget);
    room.words = (way == FULL_WAY ? quabnester_full_words_needed : quabnester_words_needed)(job.kind, n, job.budget);
    room.picks = quabnester_picks_needed(job.kind, n, job.budget);
    if (job.kind != KIND_STATED_SHARE) return room;
    same("the cells of kind 9 by n and C alone", 0, room.cells);
    room.cells = quabnester_stated_cells_needed(job.budget, job.q, job.weights.at, job.values.at, n);
    return room;
}

/* The solver refuses the job in a way, on slices of these lengths, with this number. */
static void refused_in(enum plain_way way, const struct plain_room *lengths, uint32_t number) {
    struct solved solved;
    about("header", tried++);
    put_job(&bytes, &job);
    same("the job's bytes", quabnester_job_bytes_of(job.kind, job.weights.count, job.values.count, job.copies.count), bytes.length);
    same("its budgets", plain_number(bytes.at + 8), quabnester_budgets_of(job.kind));
    solve(&solved, &bytes, way, lengths, tried);
    if (same("the refusal", number, solved.refused)) met[number]++;
    give_back_solved(&solved);
}

static void refused_on(const struct plain_room *lengths, uint32_t number) {
    refused_in(LIGHT_WAY, lengths, number);
}

/* On as many places as the header says the job is answered in a way, and on one less of any it is refused. */
static void answered_in(enum plain_way way) {
    struct plain_room room = room_by_header(way), least = room_of(&job, way), less;
    about("header", tried);
    same("the cells", least.cells, room.cells);
    same("the words", least.words, room.words);
    same("the picks", least.picks, room.picks);
    refused_in(way, &room, QUABNESTER_NOT_REFUSED);
    less = room;
    if (less.cells-- > 0) refused_in(way, &less, QUABNESTER_REFUSED_ROOM);
    less = room;
    if (less.words-- > 0) refused_in(way, &less, QUABNESTER_REFUSED_ROOM);
    less = room;
    if (less.picks-- > 0) refused_in(way, &less, QUABNESTER_REFUSED_ROOM);
}

static void answered_on_room(void) {
    answered_in(LIGHT_WAY);
    answered_in(FULL_WAY);
}

/* Needs nothing, as the header says, and is refused. */
static void refused_without_room(uint32_t number) {
    struct plain_room room;
    int way;
    for (way = 0; way < PLAIN_WAYS; way++) {
        room = room_by_header(way);
        about("header", tried);
        same("what is needed", 0, room.cells + room.words + room.picks);
        refused_in(way, &room, number);
    }
    same("the certificate's bytes", 0, quabnester_certificate_bytes(job.kind, job.weights.count, job.budget));
}

/* ---- bounds */

/* n labels of the kind, all numbers as they have to be, and a budget that is reached. */
static void valid_job(uint32_t kind, uint32_t n, uint32_t budget) {
    uint32_t weights[MOST_NUMBERS], values[MOST_NUMBERS], copies[MOST_NUMBERS], i;
    for (i = 0; i < n; i++) {
        weights[i] = i + 1;
        values[i] = QUABNESTER_LEAST_VALUE_ANY + i % 5;
        copies[i] = QUABNESTER_LEAST_COPIES + 1 + i % 3;
    }
    if (kind == QUABNESTER_KIND_LABELS_BEHIND && budget > 0) weights[n - 1] = budget; /* since each label is used once */
    set_job(&job, kind, budget, n, weights, values, copies);
}

/* n and C at their bounds and past them, a budget of 0, and budgets about the border of a word. */
static void bounds_of(uint32_t kind) {
    uint32_t most = quabnester_most_labels(kind), budget = quabnester_most_budget(kind);
    valid_job(kind, most, 7);
    answered_on_room();
    valid_job(kind, most + 1, 7);
    refused_without_room(QUABNESTER_REFUSED_BOUND);
    valid_job(kind, 2, budget);
    answered_on_room();
    valid_job(kind, 2, budget + 1);
    if (budget < UINT32_MAX) refused_without_room(QUABNESTER_REFUSED_BOUND);
    valid_job(kind, 1, 0);
    answered_on_room();
    valid_job(kind, 3, WORD_BITS - 1);
    answered_on_room();
    valid_job(kind, 3, WORD_BITS);
    answered_on_room();
}

/* A number of the job from the least to the most, and one less and one more, where there are such. */
static void least_and_most(uint32_t *number, uint32_t least, uint32_t most) {
    struct plain_room room = room_by_header(LIGHT_WAY);
    *number = least - 1;
    if (least > 0) refused_on(&room, QUABNESTER_REFUSED_RULE);
    *number = most + 1;
    if (most < UINT32_MAX) refused_on(&room, QUABNESTER_REFUSED_RULE);
    *number = least;
    refused_on(&room, QUABNESTER_NOT_REFUSED);
    *number = most;
    refused_on(&room, QUABNESTER_NOT_REFUSED);
}

static void numbers_of_labels(void) {
    uint32_t kind;
    for (kind = 1; kind <= LAST_KIND; kind++) {
        if (!has_labels(kind)) continue;
        valid_job(kind, 3, 9);
        least_and_most(&job.weights.at[0], QUABNESTER_LEAST_WEIGHT, UINT32_MAX);
    }
    valid_job(QUABNESTER_KIND_ONCE, 3, 9);
    least_and_most(&job.values.at[1], QUABNESTER_LEAST_VALUE, QUABNESTER_MOST_VALUE);
    valid_job(QUABNESTER_KIND_COPIES, 3, 9);
    least_and_most(&job.values.at[1], QUABNESTER_LEAST_VALUE, QUABNESTER_MOST_VALUE);
    least_and_most(&job.copies.at[2], QUABNESTER_LEAST_COPIES, QUABNESTER_MOST_COPIES);
    valid_job(QUABNESTER_KIND_ANY, 3, 9);
    least_and_most(&job.values.at[1], QUABNESTER_LEAST_VALUE_ANY, QUABNESTER_MOST_VALUE);
}

/* One size, which makes a budget of 0. */
static void numbers_of_sizes(void) {
    valid_job(QUABNESTER_KIND_FEWEST, 1, 0);
    least_and_most(&job.weights.at[0], QUABNESTER_LEAST_SIZE, UINT32_MAX);
    valid_job(QUABNESTER_KIND_WAYS, 1, 0);
    least_and_most(&job.weights.at[0], QUABNESTER_LEAST_SIZE, UINT32_MAX);
    valid_job(QUABNESTER_KIND_SHARES, 2, 9);
    least_and_most(&job.weights.at[0], 0, UINT32_MAX);
}

/* ---- kind 9 */

/* q at its bounds and one past each. As three labels, of which the values stay uncut, the job needs as many cells with any q. */
static void numbers_of_shares(void) {
    valid_job(QUABNESTER_KIND_STATED_SHARE, 3, 9);
    least_and_most(&job.q, QUABNESTER_LEAST_Q, QUABNESTER_MOST_Q);
    valid_job(QUABNESTER_KIND_STATED_SHARE, 3, 9);
    job.values.at[0] = job.values.at[2] = 3; /* with the value that is at its bound, the cut values sum to six or less */
    least_and_most(&job.values.at[1], QUABNESTER_LEAST_VALUE, QUABNESTER_MOST_VALUE);
}

/* The cells, by the header's function; the job isn't asked. */
static void cells_are(uint64_t cells) {
    about("header, cells of kind 9", tried++);
    same("the cells", cells, quabnester_stated_cells_needed(job.budget, job.q, job.weights.at, job.values.at, job.weights.count));
}

/* None where n, C or q is outside its bounds; one where no label is left; those of a divisor of 1, of more, and of labels that are left
 * aside; and more than 32 bits count. */
static void cells_of_shares(void) {
    uint32_t i;
    valid_job(QUABNESTER_KIND_STATED_SHARE, QUABNESTER_MOST_LABELS + 1, 9);
    cells_are(0);
    valid_job(QUABNESTER_KIND_STATED_SHARE, 3, QUABNESTER_MOST_BUDGET + 1);
    cells_are(0);
    valid_job(QUABNESTER_KIND_STATED_SHARE, 3, 9);
    job.q = QUABNESTER_LEAST_Q - 1;
    cells_are(0);
    job.q = QUABNESTER_MOST_Q + 1;
    cells_are(0);
    job.q = QUABNESTER_MOST_Q;
    cells_are(4 * (1 + 2 + 3 + 1));
    job.q = 2;
    job.values.at[0] = 17;
    job.values.at[1] = 12;
    cells_are(4 * (8 + 6 + 1 + 1)); /* the divisor is 17 / 6, which is 2 */
    job.weights.at[0] = 10;
    cells_are(3 * (4 + 1 + 1)); /* and 12 / 4, which is 3 */
    job.budget = 1;
    cells_are(1);
    valid_job(QUABNESTER_KIND_STATED_SHARE, QUABNESTER_MOST_LABELS, QUABNESTER_MOST_BUDGET);
    for (i = 0; i < QUABNESTER_MOST_LABELS; i++) job.values.at[i] = QUABNESTER_MOST_VALUE;
    job.q = QUABNESTER_MOST_Q;
    cells_are((QUABNESTER_MOST_LABELS + 1) * ((uint64_t)QUABNESTER_MOST_LABELS * QUABNESTER_MOST_VALUE + 1));
    job.weights.count = 0;
    cells_are(1);
}

/* ---- the quick answer */

/* It is refused with this number on lists of these lengths. */
static void quick_on(uint64_t first_len, uint64_t second_len, uint32_t number) {
    struct quick quick;
    about("header, quick", tried++);
    ask_quick(&quick, &job, first_len, second_len, tried);
    if (same("the refusal", number, quick.refused)) met[number]++;
    holds("a list where it isn't refused", (quick.which == 0) == (number != QUABNESTER_NOT_REFUSED));
    give_back_quick(&quick);
}

/* On as many places of each list as kind 1 has picks it is answered, and on one less of either it isn't. */
static void quick_on_room(uint32_t n, uint32_t budget) {
    uint64_t room = quabnester_picks_needed(QUABNESTER_KIND_ONCE, n, budget);
    valid_job(QUABNESTER_KIND_ONCE, n, budget);
    quick_on(room, room, QUABNESTER_NOT_REFUSED);
    if (room == 0) return;
    quick_on(room - 1, room, QUABNESTER_REFUSED_ROOM);
    quick_on(room, room - 1, QUABNESTER_REFUSED_ROOM);
}

/* A number of the job at its bounds, and one past each. */
static void quick_at(uint32_t *number, uint32_t least, uint32_t most) {
    uint64_t room = job.weights.count;
    *number = least - 1;
    if (least > 0) quick_on(room, room, QUABNESTER_REFUSED_RULE);
    *number = most + 1;
    if (most < UINT32_MAX) quick_on(room, room, QUABNESTER_REFUSED_RULE);
    *number = least;
    quick_on(room, room, QUABNESTER_NOT_REFUSED);
    *number = most;
    quick_on(room, room, QUABNESTER_NOT_REFUSED);
}

/* Its bounds are those of kind 1, and so are its refusals. */
static void quick_answers(void) {
    quick_on_room(0, 0);
    quick_on_room(3, 9);
    quick_on_room(QUABNESTER_MOST_LABELS, 7);
    quick_on_room(2, QUABNESTER_MOST_BUDGET);
    valid_job(QUABNESTER_KIND_ONCE, QUABNESTER_MOST_LABELS + 1, 7);
    quick_on(QUABNESTER_MOST_LABELS + 1, QUABNESTER_MOST_LABELS + 1, QUABNESTER_REFUSED_BOUND);
    valid_job(QUABNESTER_KIND_ONCE, 2, QUABNESTER_MOST_BUDGET + 1);
    quick_on(2, 2, QUABNESTER_REFUSED_BOUND);
    valid_job(QUABNESTER_KIND_ONCE, 3, 9);
    quick_at(&job.weights.at[0], QUABNESTER_LEAST_WEIGHT, UINT32_MAX);
    quick_at(&job.values.at[1], QUABNESTER_LEAST_VALUE, QUABNESTER_MOST_VALUE);
    job.values.count--;
    quick_on(3, 3, QUABNESTER_REFUSED_LENGTHS);
}

/* ---- certificates */

static uint32_t picks[CASE_A_LABELS], cells[CASE_A_CELLS];
static struct bytes certificate;

/* The writer, lent this many bytes. */
static void written_on(uint64_t length, uint32_t number) {
    struct written written;
    about("header", tried++);
    put_job(&bytes, &job);
    write_out(&written, &bytes, picks, CASE_A_LABELS, cells, CASE_A_CELLS, length);
    if (same("the writer's refusal", number, written.refused)) met[number]++;
    same("the bytes written", number == QUABNESTER_NOT_REFUSED ? length : 0, written.bytes);
    give_back(&written.out);
}

static void certificates_of(uint32_t kind) {
    uint64_t length;
    case_a(&job, kind);
    length = quabnester_certificate_bytes(kind, CASE_A_LABELS, CASE_A_BUDGET);
    if (kind < 1 || kind > QUABNESTER_LAST_CERTIFICATE_KIND) {
        same("bytes of a kind without certificates", 0, length);
        written_on(CASE_A_CERTIFICATE, QUABNESTER_REFUSED_KIND);
        return;
    }
    same("the certificate's bytes", CERTIFICATE(CASE_A_LABELS, claims_of(&job)), length);
    written_on(length, QUABNESTER_NOT_REFUSED);
    written_on(length - 1, QUABNESTER_REFUSED_ROOM);
    valid_job(kind, MOST_LABELS, MOST_BUDGET); /* a gigabyte in kinds 1 and 2 */
    length = CERTIFICATE((uint64_t)MOST_LABELS, (uint64_t)claims_of(&job));
    same("the longest certificate's bytes", length, quabnester_certificate_bytes(kind, MOST_LABELS, MOST_BUDGET));
}

/* Case A's certificate with a pick and the last cell set to these, and so many bytes left out. */
static void judged_with(uint32_t kind, uint32_t pick, uint32_t last_cell, size_t less, uint32_t number) {
    uint64_t first, second;
    about("header", tried++);
    case_a(&job, kind);
    put_job(&bytes, &job);
    quabnester_solve_full(bytes.at, bytes.length, cells, CASE_A_CELLS, NULL, 0, picks, CASE_A_LABELS, &first, &second);
    picks[CASE_A_LABELS - 1] = pick;
    cells[quabnester_full_cells_needed(kind, CASE_A_LABELS, CASE_A_BUDGET) - 1] = last_cell;
    put_certificate(&certificate, &job, picks, cells);
    certificate.length -= less;
    if (same("the verdict", number, judged(&bytes, certificate.at, certificate.length))) met[number]++;
}

/* A pick may be `most`, and then they are too heavy. */
static void verdicts(uint32_t kind, uint32_t most) {
    judged_with(kind, 0, CASE_A_VALUE, 0, QUABNESTER_NOT_REFUSED);
    judged_with(kind, 0, CASE_A_VALUE, 1, QUABNESTER_REFUSED_SECTIONS);
    judged_with(kind, most + 1, CASE_A_VALUE, 0, QUABNESTER_REFUSED_PICK);
    judged_with(kind, most, CASE_A_VALUE, 0, QUABNESTER_REFUSED_WEIGHT);
    judged_with(kind, 0, CASE_A_VALUE - 1, 0, QUABNESTER_REFUSED_CELL);
    judged_with(kind, 0, CASE_A_VALUE + 1, 0, QUABNESTER_REFUSED_VALUE);
}

/* ---- the other refusals, and the marks */

/* The solver on the job, which leaves this number in the last place of its table. */
static void leaves(uint32_t number, uint64_t mark) {
    struct plain_room room = room_by_header(LIGHT_WAY);
    struct solved solved;
    about("header", tried++);
    put_job(&bytes, &job);
    solve(&solved, &bytes, LIGHT_WAY, &room, tried);
    if (same("the refusal", number, solved.refused)) met[number]++;
    if (room.cells > 0) same("the last cell", mark, ((const uint32_t *)solved.cells.slice)[room.cells - 1]);
    if (room.words > 0) same("the last word", mark, ((const uint64_t *)solved.words.slice)[room.words - 1]);
    give_back_solved(&solved);
}

/* No budget but 0 can be made of a size, or reached by a label, that is greater; and two labels are too heavy together. */
static void marks(void) {
    valid_job(QUABNESTER_KIND_STATED_SHARE, 2, 2);
    leaves(QUABNESTER_NOT_REFUSED, QUABNESTER_NO_WAY);
    valid_job(QUABNESTER_KIND_FEWEST, 1, 3);
    job.weights.at[0] = job.budget + 1;
    leaves(QUABNESTER_REFUSED_NO_SUM, QUABNESTER_NO_WAY);
    valid_job(QUABNESTER_KIND_LABELS_BEHIND, 1, 3);
    job.weights.at[0] = job.budget + 1;
    leaves(QUABNESTER_REFUSED_NO_SUM, QUABNESTER_NO_WAY);
    valid_job(QUABNESTER_KIND_WAYS, QUABNESTER_MOST_SIZES, QUABNESTER_MOST_BUDGET);
    leaves(QUABNESTER_REFUSED_TOO_MANY, QUABNESTER_TOO_MANY_WAYS);
}

static void others(void) {
    struct plain_room room;
    case_a(&job, QUABNESTER_KIND_ONCE);
    room = room_by_header(LIGHT_WAY);
    job.values.count--;
    refused_on(&room, QUABNESTER_REFUSED_LENGTHS);
    valid_job(QUABNESTER_KIND_SHARES, 1, 9);
    job.weights.at[0] = 0;
    room = room_by_header(LIGHT_WAY);
    refused_on(&room, QUABNESTER_REFUSED_NO_CLAIMS);
    about("header", tried++);
    if (same("no bytes", QUABNESTER_REFUSED_BYTES, quabnester_check(NULL, 0, NULL, 0))) met[QUABNESTER_REFUSED_BYTES]++;
    same("a list that is too long for its count", 0, quabnester_job_bytes((uint64_t)UINT32_MAX + 1, 0, 0));
    same("the bytes of the longest lists", 28 + 12 * (uint64_t)UINT32_MAX, quabnester_job_bytes(UINT32_MAX, UINT32_MAX, UINT32_MAX));
    same("case A's bytes", 52, quabnester_job_bytes(CASE_A_LABELS, CASE_A_LABELS, 0));
    same("and as kind 9", 56, quabnester_job_bytes_of(QUABNESTER_KIND_STATED_SHARE, CASE_A_LABELS, CASE_A_LABELS, 0));
    same("a longer list of kind 9", 0, quabnester_job_bytes_of(QUABNESTER_KIND_STATED_SHARE, 0, (uint64_t)UINT32_MAX + 1, 0));
}

/* Every number that has a name came up. */
static void each_was_met(void) {
    static const uint32_t names[] = {
        QUABNESTER_NOT_REFUSED,      QUABNESTER_REFUSED_BYTES,     QUABNESTER_REFUSED_KIND,     QUABNESTER_REFUSED_LENGTHS,
        QUABNESTER_REFUSED_BOUND,    QUABNESTER_REFUSED_RULE,      QUABNESTER_REFUSED_ROOM,     QUABNESTER_REFUSED_NO_SUM,
        QUABNESTER_REFUSED_TOO_MANY, QUABNESTER_REFUSED_NO_CLAIMS, QUABNESTER_REFUSED_SECTIONS, QUABNESTER_REFUSED_PICK,
        QUABNESTER_REFUSED_WEIGHT,   QUABNESTER_REFUSED_CELL,      QUABNESTER_REFUSED_VALUE,
    };
    size_t k;
    for (k = 0; k < sizeof names / sizeof names[0]; k++) {
        about("header, refusal", names[k]);
        holds("that it came up", met[names[k]] > 0);
    }
}

void part_header(void) {
    uint32_t kind;
    the_version();
    if (!are_those_of_the_document()) return; /* lists are as long as bounds.h allows, and no longer */
    for (kind = 0; kind <= LAST_KIND + 1; kind++) {
        certificates_of(kind);
        valid_job(kind, 1, 1);
        if (kind < 1 || kind > LAST_KIND) refused_without_room(QUABNESTER_REFUSED_KIND);
        else bounds_of(kind);
    }
    numbers_of_labels();
    numbers_of_sizes();
    numbers_of_shares();
    cells_of_shares();
    quick_answers();
    verdicts(QUABNESTER_KIND_ONCE, 1);
    verdicts(QUABNESTER_KIND_COPIES, 1);
    verdicts(QUABNESTER_KIND_ANY, QUABNESTER_MOST_PICK_ANY);
    marks();
    others();
    each_was_met();
    printf("header: %lu calls\n", tried);
}
