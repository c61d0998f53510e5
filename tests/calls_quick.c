/* The quick answer (K5), asked for on lent slices and beside the second program. */
#include "calls.h"
#include "tell.h"
#include <stdio.h>
#include <string.h>

static void lend_list(struct lent *lent, const struct list *list, uint64_t salt) {
    lend(lent, list->count, 4, salt);
    memcpy(lent->slice, list->at, list->count * sizeof list->at[0]);
}

static int is_as_it_was(const struct lent *lent, const struct list *list) {
    return kept_outside(lent) && memcmp(lent->slice, list->at, list->count * sizeof list->at[0]) == 0;
}

void ask_quick(struct quick *quick, const struct job *job, size_t first_len, size_t second_len, uint64_t salt) {
    lend_list(&quick->weights, &job->weights, salt);
    lend_list(&quick->values, &job->values, salt + 1);
    lend(&quick->first, first_len, 4, salt + 2);
    lend(&quick->second, second_len, 4, salt + 7); /* other dirt in each */
    quick->which = (uint32_t)salt + 3;
    quick->value = salt + 3;
    quick->refused = quabnester_quick(job->budget, quick->weights.slice, job->weights.count, quick->values.slice, job->values.count,
                                      quick->first.slice, first_len, quick->second.slice, second_len, &quick->which, &quick->value);
}

void give_back_quick(struct quick *quick) {
    give_back(&quick->weights);
    give_back(&quick->values);
    give_back(&quick->first);
    give_back(&quick->second);
}

static void say_list(const struct list *list) {
    uint32_t i;
    for (i = 0; i < list->count; i++) printf(" %lu", (unsigned long)list->at[i]);
    printf(";");
}

static void say_job(const struct job *job, size_t first_len, size_t second_len) {
    printf("~the job: %d; %lu;", KIND_ONCE, (unsigned long)job->budget);
    say_list(&job->weights);
    say_list(&job->values);
    printf("; %lu %lu\n", (unsigned long)first_len, (unsigned long)second_len);
}

static const struct plain_quick *expected_quick(const struct job *job, size_t first_len, size_t second_len) {
    static struct plain_quick answer;
    static struct bytes bytes;
    struct plain_job read;
    put_job(&bytes, job);
    read_back(&bytes, &read);
    plain_quick(&read, first_len, second_len, &answer);
    return &answer;
}

const struct plain_quick *try_quick(const struct job *job, size_t first_len, size_t second_len, uint64_t salt) {
    const struct plain_quick *expected = expected_quick(job, first_len, second_len);
    struct quick quick;
    int well;
    ask_quick(&quick, job, first_len, second_len, salt);
    well = same("the refusal", expected->refused, quick.refused);
    well &= same("which list", expected->which, quick.which);
    well &= same("its value", expected->value, quick.value);
    well &= same_content("the first list's pick", expected->first, quick.first.slice, expected->filled, 4);
    well &= same_content("the second list's pick", expected->second, quick.second.slice, expected->filled, 4);
    well &= holds("what the first list held past its labels", kept_from(&quick.first, 4 * expected->filled));
    well &= holds("what the second list held past its labels", kept_from(&quick.second, 4 * expected->filled));
    holds("weights and values, which are only read",
          is_as_it_was(&quick.weights, &job->weights) && is_as_it_was(&quick.values, &job->values));
    if (!well && telling()) say_job(job, first_len, second_len);
    give_back_quick(&quick);
    return expected;
}
