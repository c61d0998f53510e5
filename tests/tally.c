/* A tally of jobs: how often each kind, each refusal and a tie came up. */
#include "tally.h"
#include "tell.h"
#include <stdio.h>

void count_in(struct tally *tally, const struct bytes *job, const struct plain_answer *answer) {
    struct plain_job read;
    uint32_t kind = 0;
    int other;
    if (plain_read(job->at, job->length, &read) && read.kind <= LAST_KIND) kind = read.kind;
    tally->came[kind][answer->refused]++;
    tally->tried += (unsigned long)answer->tried;
    if (answer->as_good < 2 || !plain_kind(kind)->picks) return;
    tally->ties[kind][0]++;
    for (other = 1; other < RULES && kind != KIND_SHARES; other++) {
        tally->ties[kind][other] += (unsigned long)other_rule_tells(&read, other, answer->picks);
    }
}

static void hold_count(const char *what, unsigned long count, unsigned long least) {
    about("at least", least);
    same(what, least, count < least ? count : least);
}

void hold_things(const char *part, const struct thing *things, int count) {
    int k;
    for (k = 0; k < count; k++) {
        printf("%s, %s: %lu\n", part, things[k].what, things[k].came);
        hold_count(things[k].what, things[k].came, things[k].least);
    }
}

static void print_row(const char *part, const struct tally *tally, int kind) {
    int k;
    printf("%s, kind %d: answered %lu; ties, and those that tell the rule from others:", part, kind, tally->came[kind][0]);
    for (k = 0; k < RULES; k++) printf(" %lu", tally->ties[kind][k]);
    printf("; refused with 1 to %d:", LAST_SOLVER_REFUSAL);
    for (k = 1; k < VERDICTS; k++) printf(" %lu", tally->came[kind][k]);
    printf("\n");
}

void hold_tally(const char *part, const struct tally *tally, const struct tally *least) {
    char what[80];
    int kind, k;
    for (kind = 0; kind <= LAST_KIND; kind++) {
        print_row(part, tally, kind);
        for (k = 0; k < VERDICTS; k++) {
            snprintf(what, sizeof what, "%s, kind %d, refusal %d", part, kind, k);
            hold_count(what, tally->came[kind][k], least->came[kind][k]);
        }
        for (k = 0; k < RULES; k++) {
            snprintf(what, sizeof what, "%s, kind %d, a tie and rule %d", part, kind, k);
            hold_count(what, tally->ties[kind][k], least->ties[kind][k]);
        }
    }
    snprintf(what, sizeof what, "%s, by trying", part);
    hold_count(what, tally->tried, least->tried);
}
