/* The example jobs through the solver, in the light way and with slices as long as the program's: the answer, in the program's words, is
 * what stands in the file beside the job, and all is as the second program has it. */
#include "calls.h"
#include "parts.h"
#include "tell.h"
#include <stdio.h>
#include <string.h>

static const struct plain_room lengths = {PROGRAM_CELLS, PROGRAM_WORDS, PROGRAM_PICKS};

/* A file's bytes, at most as many as there is room for. */
static int read_file(const char *name, struct bytes *bytes) {
    FILE *file = fopen(name, "rb");
    bytes->length = 0;
    if (file == NULL) return 0;
    bytes->length = fread(bytes->at, 1, MOST_BYTES, file);
    fclose(file);
    return 1;
}

/* A word and a number as a line, or the picks. */
static void say(struct bytes *text, const char *form, const char *word, uint64_t number) {
    text->length += (size_t)snprintf((char *)text->at + text->length, MOST_BYTES - text->length, form, word, (unsigned long long)number);
}

static void say_picks(struct bytes *text, const uint32_t *picks, uint32_t n) {
    uint32_t i;
    say(text, "%s", "picks", 0);
    for (i = 0; i < n; i++) say(text, "%s%llu", " ", picks[i]);
    say(text, "%s", "\n", 0);
}

/* The words for an answer's numbers; where there is none the second is 0. */
static const struct {
    const char *first, *second;
} words[LAST_KIND + 1] = {
    [KIND_ONCE] = {"value", "weight"}, [KIND_COPIES] = {"value", "weight"},     [KIND_ANY] = {"value", "weight"},
    [KIND_SUMS] = {"yes", "totals"},   [KIND_FEWEST] = {"blocks", NULL},        [KIND_WAYS] = {"ways", NULL},
    [KIND_SHARES] = {"spare", NULL},   [KIND_LABELS_BEHIND] = {"weight", NULL}, [KIND_STATED_SHARE] = {"value", "weight"},
};

/* An answer as document 01 has the program print it, which refuses longer input than it has room for with 4, before all else. */
static void say_answer(struct bytes *text, const struct solved *solved, const struct bytes *job) {
    uint32_t refused = job->length > PROGRAM_BYTES ? 4 : solved->refused;
    struct plain_job read;
    text->length = 0;
    if (refused != 0) {
        say(text, "%s %llu\n", "refused", refused);
        return;
    }
    if (!holds("reading an example that is answered", plain_read(job->at, job->length, &read))) return;
    say(text, "%s %llu\n", "kind", read.kind);
    say(text, "%s %llu\n", words[read.kind].first, solved->first);
    if (words[read.kind].second != NULL) say(text, "%s %llu\n", words[read.kind].second, solved->second);
    if (words[read.kind].second == NULL) same("second, where there is none", 0, solved->second);
    if (plain_kind(read.kind)->picks) say_picks(text, solved->picks.slice, read.weights.count);
}

static void try_example(const char *name) {
    static struct bytes job, expected, text;
    struct solved solved;
    char out[256];
    int stem = (int)strlen(name) - 4;
    if (!holds("an example's name, NAME.job", stem > 0 && stem < 240 && strcmp(name + stem, ".job") == 0)) return;
    snprintf(out, sizeof out, "%.*s.out", stem, name);
    if (!holds("reading an example", read_file(name, &job) && read_file(out, &expected))) return;
    solve(&solved, &job, LIGHT_WAY, &lengths, job.length);
    answers(&solved, &job, expected_of(&job, LIGHT_WAY, &lengths));
    say_answer(&text, &solved, &job);
    if (!holds(name, text.length == expected.length && memcmp(text.at, expected.at, text.length) == 0)) {
        printf("%.*s", (int)text.length, (const char *)text.at);
    }
    give_back_solved(&solved);
}

void part_examples(int count, char **names) {
    int i;
    for (i = 0; i < count; i++) {
        about("example", (uint64_t)i);
        try_example(names[i]);
    }
    about("examples", 0);
    holds("that there are examples", count > 0);
    printf("examples: %d jobs\n", count);
}
