/* The trials that crates/trials/stdin lists, cases and bounds, through the solver in both ways, and quick answers: each is answered as
 * document 01's second program has it.
 * A line that starts with - or = is a case, a name and a job; one that starts with > is a bound, a name and two jobs with a slash between
 * them; one that starts with ~ is a name and a job for a quick answer; others are text. A job is `kind; budget; weights; values; copies;
 * places lent`, and what is left out at the end is empty. The budget is C, or C and q; as bytes the job has as many budgets. For a quick
 * answer the kind is 1, there are no copies and no q, and the places are those of its two lists. */
#include "calls.h"
#include "parts.h"
#include "tell.h"
#include <stdio.h>
#include <string.h>

enum { KIND, BUDGET, WEIGHTS, VALUES, COPIES, LENT, FIELDS };
enum { CELLS_LENT, WORDS_LENT, PICKS_LENT, LENGTHS };
enum { FIRST_LENT, SECOND_LENT, QUICK_LENGTHS };
enum { MOST_TEXT = 65536 };                   /* of the file: no bound of document 01 */
enum { MORE = 20 };                           /* places that are lent beyond the needed ones, where the list says nothing of them */
enum { JOBS = 210, TRIED = 110, QUICK = 20 }; /* at least so many have to be listed, answered by trying too, and answered quickly */

static char text[MOST_TEXT + 1];
static unsigned long jobs, tried, quick;

/* ---- reading */

/* All of a file, as text; 0 where it can't be read or is too long. */
static int read_text(const char *name) {
    FILE *file = fopen(name, "rb");
    size_t length;
    if (file == NULL) return 0;
    length = fread(text, 1, MOST_TEXT, file);
    fclose(file);
    text[length] = 0;
    return 0 < length && length < MOST_TEXT && strlen(text) == length;
}

/* The number at `*at`, which is moved behind it; 0 where there is none. */
static int read_number(const char **at, uint32_t *number) {
    uint64_t sum = 0;
    const char *start = *at;
    for (; '0' <= **at && **at <= '9' && sum <= UINT32_MAX; ++*at) sum = 10 * sum + (uint64_t)(**at - '0');
    *number = (uint32_t)sum;
    return *at > start && sum <= UINT32_MAX;
}

/* A number, or one so many times: 1x4 stands for 1 1 1 1. */
static int read_numbers(const char **at, struct list *list) {
    uint32_t number, times = 1;
    if (!read_number(at, &number)) return 0;
    if (**at == 'x') {
        ++*at;
        if (!read_number(at, &times)) return 0;
    }
    for (; times > 0 && list->count < MOST_NUMBERS; times--) list->at[list->count++] = number;
    return times == 0;
}

/* A field: numbers with spaces between them, up to what ends it. */
static int read_field(const char **at, struct list *list) {
    list->count = 0;
    while (**at != ';' && **at != '/' && **at != '\n') {
        if (**at == ' ') ++*at;
        else if (!read_numbers(at, list)) return 0;
    }
    return 1;
}

/* The fields of a job, up to a slash or the end of the line; those that are left out are empty. */
static int read_fields(const char **at, struct list *fields) {
    int k;
    for (k = 0; k < FIELDS; k++) fields[k].count = 0;
    for (k = 0; k < FIELDS; k++) {
        if (!read_field(at, &fields[k])) return 0;
        if (**at != ';') return 1;
        ++*at;
    }
    return 0;
}

/* ---- trying */

/* The places that the list has lent, or more than the job needs in a way. */
static struct plain_room lengths_of(const struct list *fields, const struct job *job, enum plain_way way) {
    struct plain_room lengths = room_of(job, way);
    lengths.cells += MORE;
    lengths.words += MORE;
    lengths.picks += MORE;
    if (fields[LENT].count == LENGTHS) {
        lengths.cells = fields[LENT].at[CELLS_LENT];
        lengths.words = fields[LENT].at[WORDS_LENT];
        lengths.picks = fields[LENT].at[PICKS_LENT];
    }
    return lengths;
}

static void set_fields(struct job *job, const struct list *fields) {
    job->kind = fields[KIND].at[0];
    job->budget = fields[BUDGET].at[0];
    job->budgets = fields[BUDGET].count;
    job->q = job->budgets > 1 ? fields[BUDGET].at[1] : 0;
    job->weights = fields[WEIGHTS];
    job->values = fields[VALUES];
    job->copies = fields[COPIES];
}

static void try_fields(const struct list *fields) {
    static struct job job;
    static struct bytes bytes;
    struct plain_room lengths[PLAIN_WAYS];
    set_fields(&job, fields);
    put_job(&bytes, &job);
    lengths[LIGHT_WAY] = lengths_of(fields, &job, LIGHT_WAY);
    lengths[FULL_WAY] = lengths_of(fields, &job, FULL_WAY);
    tried += (unsigned long)try_both_ways(&bytes, lengths, jobs).of[LIGHT_WAY]->tried;
    jobs++;
}

/* One job of a line. */
static int read_and_try(const char **at) {
    static struct list fields[FIELDS];
    if (!read_fields(at, fields) || fields[KIND].count != 1 || fields[BUDGET].count < 1 || fields[BUDGET].count > 2) return 0;
    if (fields[LENT].count != 0 && fields[LENT].count != LENGTHS) return 0;
    try_fields(fields);
    return 1;
}

/* One job for a quick answer; where the list says nothing of the places, there are more than it has labels. */
static int read_and_try_quick(const char **at) {
    static struct list fields[FIELDS];
    static struct job job;
    size_t first_len, second_len;
    if (!read_fields(at, fields) || fields[KIND].count != 1 || fields[BUDGET].count != 1) return 0;
    if (fields[KIND].at[0] != KIND_ONCE || fields[COPIES].count != 0) return 0;
    if (fields[LENT].count != 0 && fields[LENT].count != QUICK_LENGTHS) return 0;
    set_fields(&job, fields);
    first_len = fields[LENT].count == 0 ? job.weights.count + MORE : fields[LENT].at[FIRST_LENT];
    second_len = fields[LENT].count == 0 ? job.weights.count + MORE : fields[LENT].at[SECOND_LENT];
    try_quick(&job, first_len, second_len, quick++);
    return 1;
}

/* A line, up to its end; 0 where it can't be read. Text has no jobs. */
static int try_line(const char *at) {
    int bound = *at == '>', is_quick = *at == '~';
    if (*at != '-' && *at != '=' && !bound && !is_quick) return 1;
    while (*at != ':' && *at != '\n') at++;
    if (*at++ != ':' || !(is_quick ? read_and_try_quick : read_and_try)(&at)) return 0;
    if (bound && (*at++ != '/' || !read_and_try(&at))) return 0;
    return *at == '\n';
}

void part_listed(const char *name) {
    const char *at = text;
    uint64_t line = 0;
    about("listed", line);
    if (!holds("reading the list", read_text(name))) return;
    while (*at != 0) {
        about("listed, line", ++line);
        if (!holds("reading a line", strchr(at, '\n') != NULL && try_line(at))) return;
        at = strchr(at, '\n') + 1;
    }
    about("listed", line);
    holds("that there are enough jobs", jobs >= JOBS);
    holds("that every selection was tried for enough of them", tried >= TRIED);
    holds("that there are enough quick answers", quick >= QUICK);
    printf("listed: %lu jobs, %lu of them by trying every selection too, and %lu quick answers\n", jobs, tried, quick);
}
