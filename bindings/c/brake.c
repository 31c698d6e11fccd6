/* A head that takes a Reading or a Setpoint, generated from its signatures: open, until a statement says which. Then
 * the same as a text. */
#include <stdio.h>
#include <string.h>

#include "sortlib.h"

enum { READING, SETPOINT, METRE, SORTS };
enum { X, DISTANCE, TERMS };
enum { RECORDS = 16, SIDE = 16, TOPS = 8, RANGE = 8 };
enum { SHOWS = 0, EVERY_CONTEXT = (1 << SORTLIB_CONTEXTS) - 1 };

static const char *const sort_names[] = {"Reading", "Setpoint", "Metre"};
static const char *const term_names[] = {"x", "distance"};

/* Two signatures of one head: Reading to Metre, Setpoint to Metre. */
static const size_t signatures[] = {
    SORTLIB_SIGNATURE_SIMPLE, SHOWS, EVERY_CONTEXT, 0, 2, 0, 0, 0, 0, 0,
    SORTLIB_SIGNATURE_SIMPLE, SHOWS, EVERY_CONTEXT, 2, 2, 0, 0, 0, 0, 0,
};
static const size_t signature_sorts[] = {READING, METRE, SETPOINT, METRE};
static const size_t terms[] = {SORTLIB_TERM_VARIABLE, 0, SORTLIB_TERM_VARIABLE, 0};

/* One atom on line 1: the head of x and distance. */
static const size_t calls[] = {SORTLIB_QUERY_HEAD, SHOWS, 0, 2, 0, 0, 1, 0};
static const size_t arguments[] = {X, DISTANCE};

static size_t records[RECORDS * SORTLIB_RECORD_CELLS];
static size_t side[SIDE];
static size_t tops[TOPS];
static size_t range[RANGE * SORTLIB_RANGE_CELLS];

/* A list as two arguments; one of no cells. */
#define LIST(cells) cells, sizeof(cells) / sizeof((cells)[0])
#define NONE NULL, 0

static void solve(struct sortlib_counts counts) {
    static size_t work[SORTLIB_WORK_FRAMES * (TERMS + RECORDS)];
    size_t sort_list[TERMS];
    size_t errors[RECORDS * SORTLIB_ERROR_CELLS];
    struct sortlib_outcome outcome = sortlib_solve(
        counts, LIST(records), LIST(side), LIST(tops), LIST(range), LIST(work), LIST(sort_list), LIST(errors));
    if (outcome.number == SORTLIB_OPEN) {
        printf("%s is open, asked for on line %zu\n", term_names[outcome.term], outcome.place);
        return;
    }
    if (outcome.number != SORTLIB_DONE) {
        printf("answer %zu\n", outcome.number);
        return;
    }
    for (size_t term = 0; term < TERMS; term++) {
        size_t cell = sort_list[term];
        printf("%s: %s\n", term_names[term], cell == 0 ? "no sort" : sort_names[cell - 1]);
    }
}

/* Asks for the output's length with the room there is; what does not fit is not written. */
static void answer(const char *text) {
    unsigned char out[64];
    size_t length = sortlib_text((const unsigned char *)text, strlen(text), out, sizeof out);
    if (length > sizeof out) {
        printf("the answer has %zu bytes\n", length);
        return;
    }
    fwrite(out, 1, length, stdout);
}

int main(void) {
    struct sortlib_counts counts = {.terms = TERMS, .sorts = SORTS};
    struct sortlib_lent lent = {.signatures = 2, .signature_sorts = 4, .calls = 1, .arguments = 2};
    struct sortlib_added added = sortlib_add_query(
        lent, counts, LIST(signatures), LIST(signature_sorts), NONE, LIST(terms), LIST(calls), LIST(arguments),
        LIST(records), LIST(side), LIST(tops), LIST(range));
    if (added.number != SORTLIB_DONE) {
        printf("the query is refused: %zu\n", added.number);
        return 1;
    }
    solve(added.counts);

    /* Line 2: x is a Reading. */
    added = sortlib_assign_local(
        added.counts, X, READING, 2, LIST(terms), LIST(side), LIST(records), LIST(tops), LIST(range));
    if (added.number != SORTLIB_DONE) {
        printf("the local is refused: %zu\n", added.number);
        return 1;
    }
    solve(added.counts);

    answer("sort Reading\nsort Setpoint\nsort Metre\n"
           "prim shows 1 simple Reading Metre\nprim shows 1 simple Setpoint Metre\n"
           "atom shows x distance\nlocal x Reading\n");
    return 0;
}
