/* Document 01's second program: kind 9 before anything is chosen (K6): which labels are left aside, the divisor and the cut values. See the
 * head of plain.c. */
#include "plain.h"

/* Takes over the labels that weigh at most C. Answers the greatest of their values, or 0 where there are none. */
static uint32_t leave_aside(const struct plain_job *job, struct plain_stated *stated) {
    uint32_t i, greatest = 0;
    stated->m = 0;
    for (i = 0; i < job->weights.count; i++) {
        if (plain_item(job->weights, i) > job->budget) continue;
        stated->label[stated->m] = i;
        stated->weight[stated->m] = plain_item(job->weights, i);
        greatest = GREATER(greatest, plain_item(job->values, i));
        stated->m++;
    }
    return greatest;
}

/* Where no label is left there is nothing to divide, by 1 or by another number. */
void plain_state(const struct plain_job *job, struct plain_stated *stated) {
    uint32_t k, greatest = leave_aside(job, stated);
    stated->divisor = stated->m == 0 ? 1 : greatest / (stated->m * job->q);
    if (stated->divisor < 1) stated->divisor = 1;
    stated->total = 0;
    for (k = 0; k < stated->m; k++) {
        stated->cut[k] = plain_item(job->values, stated->label[k]) / stated->divisor;
        stated->total += stated->cut[k];
    }
}
