/* Kind 4's number of totals, over one word, few and many. Labels of u, 2u, 4u .. bytes make every multiple of u, so there are C/u + 1
 * totals, and a u of a word or less has one of them in every word. Many of these jobs reach totals above C in the word of C too. */
#include "calls.h"
#include "parts.h"
#include "tell.h"
#include <stdio.h>

/* Each number of words up to a few, so that a loop over two or four of them has any rest. */
enum { FEW_WORDS = 9, MOST_WORDS = ROW(MOST_BUDGET) / WORD_BITS };

static unsigned long tried;

static void try_multiples(uint32_t unit, uint32_t budget) {
    static struct job job;
    static struct bytes bytes;
    struct plain_room lengths;
    const struct plain_answer *answer;
    uint32_t weight, m;
    about("totals", tried++);
    set_job(&job, KIND_SUMS, budget, 0, NULL, NULL, NULL);
    for (weight = unit; weight <= budget; weight *= 2) job.weights.at[job.weights.count++] = weight;
    lengths = room_of(&job, LIGHT_WAY);
    put_job(&bytes, &job);
    answer = try_job(&bytes, LIGHT_WAY, &lengths, tried);
    same("the second program's totals", budget / unit + 1, answer->second);
    for (m = 0; m < budget / WORD_BITS; m++) holds("that a word has a total", answer->words[m] != 0);
}

/* So many words. The last of them has one bit within the budget, half of its bits, or all. */
static void try_words(uint32_t count) {
    static const uint32_t units[] = {1, 3, 32, 63, 64}, bits[] = {1, WORD_BITS / 2, WORD_BITS};
    size_t u, b;
    for (u = 0; u < sizeof units / sizeof units[0]; u++) {
        for (b = 0; b < sizeof bits / sizeof bits[0]; b++) try_multiples(units[u], WORD_BITS * (count - 1) + bits[b] - 1);
    }
}

void part_totals(void) {
    uint32_t count;
    for (count = 1; count <= FEW_WORDS; count++) try_words(count);
    for (count = 2 * FEW_WORDS; count < MOST_WORDS - 1; count *= 2) try_words(count);
    try_words(MOST_WORDS - 1);
    try_words(MOST_WORDS);
    printf("totals: %lu jobs, of up to %d words\n", tried, MOST_WORDS);
}
