/* Damaged bytes: of a dozen jobs of each kind that has certificates, and of these, every byte is changed, to several other values, every
 * shorter length is tried, and a byte more. So it is with jobs of kind 9, which have a number more than others. */
#include "calls.h"
#include "draw.h"
#include "parts.h"
#include "tell.h"
#include <stdio.h>

enum { EACH = 14, START = 2000000, WAYS = 5, MOST_N = 4, MOST_C = 12 }; /* small, so that every byte can be changed */

static struct job job;
static struct bytes bytes, certificate;
static struct plain_room rooms[PLAIN_WAYS]; /* as the whole job needs them */
static uint32_t claimed;                    /* cells of the certificate */
static unsigned long tried, verdicts[LAST_REFUSAL + 1], solved_with[LAST_SOLVER_REFUSAL + 1];

static uint8_t changed(uint8_t byte, int way) {
    switch (way) {
    case 0: return byte ^ 1;
    case 1: return byte ^ 128;
    case 2: return (uint8_t)(byte + 1);
    case 3: return (uint8_t)(byte - 1);
    default: return (uint8_t)~byte;
    }
}

/* The checker on the bytes as they are. */
static void try_check(void) {
    uint32_t verdict = judged(&bytes, certificate.at, certificate.length);
    verdicts[verdict <= LAST_REFUSAL ? verdict : 0]++;
    tried++;
}

/* The writer, on picks and cells of some job. */
static void try_write(void) {
    static uint32_t picks[MOST_N], cells[FULL_TABLE(MOST_N, MOST_C)];
    uint32_t n = job.weights.count, expected = plain_write_refusal(bytes.at, bytes.length, n, claimed, certificate.length);
    struct written written;
    write_out(&written, &bytes, picks, n, cells, claimed, certificate.length);
    same("the writer's refusal", expected, written.refused);
    holds("what a refusal leaves", expected == 0 || (written.bytes == 0 && kept_from(&written.out, 0)));
    give_back(&written.out);
}

/* The solver, in both ways, and the writer too. */
static void try_all(void) {
    solved_with[try_both_ways(&bytes, rooms, tried).of[LIGHT_WAY]->refused]++;
    try_write();
    try_check();
}

/* Every byte changed, every shorter length, and a byte more; each time `attempt` is called. */
static void damage(struct bytes *whole, void (*attempt)(void)) {
    size_t k, length = whole->length;
    int way;
    for (k = 0; k < length; k++) {
        uint8_t byte = whole->at[k];
        for (way = 0; way < WAYS; way++) {
            whole->at[k] = changed(byte, way);
            attempt();
        }
        whole->at[k] = byte;
    }
    for (whole->length = 0; whole->length < length; whole->length++) attempt();
    whole->length = length + 1;
    whole->at[length] = 0;
    attempt();
    whole->length = length;
}

/* A certificate of what the solver left, of kind 1 where the job's has none. */
static void certify(uint64_t number) {
    uint32_t kind = job.kind;
    struct plain_room room;
    struct solved solved;
    job.kind = kind <= LAST_CHECKED_KIND ? kind : KIND_ONCE;
    put_job(&bytes, &job);
    room = room_of(&job, FULL_WAY);
    solve(&solved, &bytes, FULL_WAY, &room, number);
    put_certificate(&certificate, &job, solved.picks.slice, solved.cells.slice);
    claimed = claims_of(&job);
    give_back_solved(&solved);
    job.kind = kind;
}

/* A job of a kind from its number, and a certificate. */
static void draw_pair(uint32_t kind, uint64_t number) {
    struct draw draw = {START + EACH * (kind - 1) + number};
    about("damage", draw.state);
    draw_job(&draw, kind, MOST_N, MOST_C, &job);
    certify(number);
    put_job(&bytes, &job);
    rooms[LIGHT_WAY] = room_of(&job, LIGHT_WAY);
    rooms[FULL_WAY] = room_of(&job, FULL_WAY);
}

static void start_counts(void) {
    int k;
    tried = 0;
    for (k = 0; k <= LAST_REFUSAL; k++) verdicts[k] = 0;
    for (k = 0; k <= LAST_SOLVER_REFUSAL; k++) solved_with[k] = 0;
}

static void print_counts(uint32_t kind) {
    int k;
    printf("damage, kind %d: %lu pairs of bytes; verdicts 0 to 5:", (int)kind, tried);
    for (k = 0; k <= 5; k++) printf(" %lu", verdicts[k]);
    printf("; 11 to 15:");
    for (k = 11; k <= 15; k++) printf(" %lu", verdicts[k]);
    printf("; solved and refused with 1 to 6:");
    for (k = 0; k <= 6; k++) printf(" %lu", solved_with[k]);
    printf("\n");
}

static void damage_kind(uint32_t kind) {
    uint64_t number;
    start_counts();
    for (number = 0; number < EACH; number++) {
        draw_pair(kind, number);
        same("the verdict before", kind <= LAST_CHECKED_KIND ? 0 : 2, judged(&bytes, certificate.at, certificate.length));
        if (kind <= LAST_CHECKED_KIND) damage(&certificate, try_check); /* else no certificate is looked at */
        damage(&bytes, try_all);
    }
    print_counts(kind);
}

void part_damage(void) {
    uint32_t kind;
    for (kind = 1; kind <= LAST_CHECKED_KIND; kind++) damage_kind(kind);
    damage_kind(KIND_STATED_SHARE);
    holds("that jobs of kind 9 are answered, too, and refused with 1, 5 and 6",
          solved_with[0] > 0 && solved_with[1] > 0 && solved_with[5] > 0 && solved_with[6] > 0);
}
