/* Tests of the C entries over the static library: every part, then a line 'N passed, M failed', where N counts comparisons.
 * Takes the listed trials and the example jobs as arguments: tests crates/trials/stdin examples/NAME.job .. Words before them: --first
 * ends at the first difference; --solver, --large and --entries have a third of the parts alone. */
#include "parts.h"
#include "tell.h"
#include <stdio.h>
#include <string.h>

/* Most of the solver's parts, with quick answers by hand and in many orders; its large jobs with rows of any length, and drawn quick
 * answers; and the parts of all entries: each third takes about as long as another. */
enum { SOLVER, LARGE, ENTRIES, THIRDS };
static const char *const thirds[THIRDS] = {[SOLVER] = "--solver", [LARGE] = "--large", [ENTRIES] = "--entries"};

/* The parts after those that take arguments, which are the solver's. What is soon done comes first, for --first. */
static const struct {
    void (*run)(void);
    int third;
} parts[] = {
    {part_header, ENTRIES}, {part_solve, SOLVER},  {part_ties, SOLVER},         {part_totals, SOLVER},     {part_light, LARGE},
    {part_behind, LARGE},   {part_stated, LARGE},  {part_quick, SOLVER},        {part_slips, ENTRIES},     {part_write, ENTRIES},
    {part_check, ENTRIES},  {part_empty, ENTRIES}, {part_quick_orders, SOLVER}, {part_quick_drawn, LARGE}, {part_drawn, SOLVER},
    {part_large, LARGE},    {part_column, SOLVER}, {part_ring, ENTRIES},        {part_claims, ENTRIES},    {part_claims_long, ENTRIES},
    {part_damage, ENTRIES}, {part_full, ENTRIES},
};

/* The third that a word asks for, or THIRDS. */
static int third_of(const char *word) {
    int third = 0;
    while (third < THIRDS && strcmp(word, thirds[third]) != 0) third++;
    return third;
}

int main(int count, char **words) {
    size_t k;
    int start = 1, asked = THIRDS; /* all of them */
    for (; start < count && words[start][0] == '-'; start++) {
        if (strcmp(words[start], "--first") == 0) end_at_first();
        else asked = third_of(words[start]);
    }
    if (count <= start) {
        printf("the listed trials and the examples are to be named\n");
        return 1;
    }
    if (asked == THIRDS || asked == SOLVER) {
        part_listed(words[start]);
        part_examples(count - start - 1, words + start + 1);
    }
    for (k = 0; k < sizeof parts / sizeof parts[0]; k++) {
        if (asked != THIRDS && asked != parts[k].third) continue;
        parts[k].run();
        fflush(NULL); /* what was tried is told even if the next part doesn't end well */
    }
    return told();
}
