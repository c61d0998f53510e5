/* The parts of the tests. Each prints one line of what it has tried. */
#ifndef PARTS_H
#define PARTS_H

void part_listed(const char *name);          /* listed.c: the trials that a file lists */
void part_examples(int count, char **names); /* examples.c: job files, with what is printed for each in a file beside it */
void part_solve(void);                       /* solve_cases.c: the solver's refusals, in order, and each bound */
void part_ties(void);                        /* tie_cases.c: jobs for which every other tie rule names other picks */
void part_totals(void);                      /* total_cases.c: the number of totals, over many words */
void part_light(void);                       /* light_cases.c: kind 1 in the light way, its row and its bits */
void part_behind(void);                      /* behind_cases.c: kind 8, cells and picks, rows of any length */
void part_stated(void);                      /* stated_cases.c: kind 9, tables and picks, divisors, q, budgets, rows of any length */
void part_quick(void);                       /* quick_cases.c: the quick answer, its lists by hand, its refusals and bounds */
void part_quick_orders(void);                /* quick_orders.c: quick answers of labels in many orders */
void part_quick_drawn(void);                 /* quick_drawn.c: quick answers of drawn jobs, beside the best value */
void part_header(void);                      /* header.c: the constants and functions of include/quabnester.h */
void part_slips(void);                       /* slips.c: the calls of docs/SLIPS.md */
void part_write(void);                       /* write_cases.c: the writer's refusals, in order, and what it writes */
void part_check(void);                       /* check_cases.c: the checker's verdicts, in order, with their places */
void part_empty(void);                       /* empty.c: slices of length 0 */
void part_drawn(void);                       /* drawn.c: small jobs of every kind, with faults and damage */
void part_large(void);                       /* large.c: large jobs of every kind */
void part_column(void);                      /* column.c: the column of K7 in each kind that may have so many labels */
void part_ring(void);                        /* ring.c: solve, try every selection, write, check, check another list */
void part_claims(void);                      /* claims.c: drawn tables of claims */
void part_claims_long(void);                 /* claims_long.c: many copies, and long rows */
void part_damage(void);                      /* damage.c: every byte changed, every length */
void part_full(void);                        /* full.c: the most labels and the greatest budget */

#endif
