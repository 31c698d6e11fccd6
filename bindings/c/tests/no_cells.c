/* A list of no cells may be null: each list of each function is, and the answers are those of LAYOUTS.md. */
#include <errno.h>

#include "check.h"

enum { PLACE = 5, HEAD = 3, FILL = 7 };
enum { BODY_WORK = SORTLIB_WORK_FRAMES * SORTLIB_MAX_RECORDS };
enum { BODY_ERRORS = SORTLIB_ERROR_CELLS * SORTLIB_MAX_RECORDS };

static const struct sortlib_counts no_counts;
static const struct sortlib_lent no_lent;

static void fill(size_t *cells, size_t length) {
    for (size_t i = 0; i < length; i++) {
        cells[i] = FILL;
    }
}

static int all_are(const size_t *cells, size_t length, size_t value) {
    for (size_t i = 0; i < length; i++) {
        if (cells[i] != value) {
            return 0;
        }
    }
    return 1;
}

static void expect_outcome(const char *what, struct sortlib_outcome got, size_t number, size_t passes) {
    struct sortlib_outcome expected = {.number = number, .passes = passes};
    SAME(what, got, expected);
}

/* A refusal that has no head and no place. */
static void expect_refused(const char *what, struct sortlib_added got, size_t number, struct sortlib_counts before) {
    struct sortlib_added expected = {.number = number, .counts = before};
    SAME(what, got, expected);
}

static void expect_added(const char *what, struct sortlib_added got, struct sortlib_counts after) {
    expect_refused(what, got, SORTLIB_DONE, after);
}

/* Problems. */

static struct sortlib_outcome solve_none(struct sortlib_counts counts) {
    return sortlib_solve(counts, NONE, NONE, NONE, NONE, NONE, NONE, NONE);
}

static void solve_nothing(void) {
    size_t work[3];
    expect_outcome("solve: no list, one pass", solve_none(no_counts), SORTLIB_DONE, 1);
    fill(LIST(work));
    expect_outcome(
        "solve: a work room alone", sortlib_solve(no_counts, NONE, NONE, NONE, NONE, LIST(work), NONE, NONE),
        SORTLIB_DONE, 1);
    check("solve: the work room is zeroed whole", all_are(LIST(work), 0));
}

static void solve_too_many(void) {
    struct sortlib_counts records = {.records = 1}, side = {.side = 1}, tops = {.tops = 1}, range = {.range = 1};
    expect_outcome("solve: a record", solve_none(records), SORTLIB_TOO_MANY, 0);
    expect_outcome("solve: a cell of the side list", solve_none(side), SORTLIB_TOO_MANY, 0);
    expect_outcome("solve: a top-level entry", solve_none(tops), SORTLIB_TOO_MANY, 0);
    expect_outcome("solve: a range entry", solve_none(range), SORTLIB_TOO_MANY, 0);
}

/* One Assign of sort 0 to term 0: no side list and no range. */
static void solve_one_record(void) {
    static const size_t records[] = {SORTLIB_RECORD_ASSIGN, 0, 0, 0, 0, 0, PLACE, 0};
    static const size_t tops[] = {0};
    struct sortlib_counts counts = {.records = 1, .tops = 1, .terms = 1, .sorts = 1};
    size_t work[SORTLIB_WORK_FRAMES * 2], sort_list[1], errors[SORTLIB_ERROR_CELLS];
    fill(LIST(work));
    fill(LIST(sort_list));
    fill(LIST(errors));

    expect_outcome(
        "solve: no work room",
        sortlib_solve(counts, LIST(records), NONE, LIST(tops), NONE, NONE, LIST(sort_list), LIST(errors)),
        SORTLIB_WORK_TOO_SMALL, 0);
    expect_outcome(
        "solve: no sort list",
        sortlib_solve(counts, LIST(records), NONE, LIST(tops), NONE, LIST(work), NONE, LIST(errors)),
        SORTLIB_LIST_TOO_SHORT, 0);
    expect_outcome(
        "solve: no error list",
        sortlib_solve(counts, LIST(records), NONE, LIST(tops), NONE, LIST(work), LIST(sort_list), NONE),
        SORTLIB_LIST_TOO_SHORT, 0);
    check("solve: refused, the work room is as it was", all_are(LIST(work), FILL));
    check("solve: refused, the sort list is as it was", all_are(LIST(sort_list), FILL));
    check("solve: refused, the error list is as it was", all_are(LIST(errors), FILL));

    expect_outcome(
        "solve: no side list and no range",
        sortlib_solve(counts, LIST(records), NONE, LIST(tops), NONE, LIST(work), LIST(sort_list), LIST(errors)),
        SORTLIB_DONE, 2);
    check("solve: the term has sort 0", all_are(LIST(sort_list), 1));
    check("solve: no error", all_are(LIST(errors), 0));
    check("solve: the work room is zeroed", all_are(LIST(work), 0));
}

static void type_errors(void) {
    struct sortlib_told refused = {.number = SORTLIB_TOO_MANY};
    struct sortlib_told of_none = sortlib_type_error(0, 0, NONE), of_one = sortlib_type_error(1, 0, NONE);
    SAME("type_error: no records, no such entry", of_none, refused);
    SAME("type_error: a record, no error list", of_one, refused);
}

/* Calls of the generators. */

static struct sortlib_added query_none(struct sortlib_lent lent, struct sortlib_counts counts) {
    return sortlib_add_query(lent, counts, NONE, NONE, NONE, NONE, NONE, NONE, NONE, NONE, NONE, NONE);
}

static struct sortlib_added actions_none(struct sortlib_lent lent, struct sortlib_counts counts) {
    return sortlib_add_actions(lent, counts, NONE, NONE, NONE, NONE, NONE, NONE, NONE, NONE, NONE, NONE);
}

static void calls_of_nothing(void) {
    static const struct sortlib_lent one_of[] = {
        {.signatures = 1}, {.signature_sorts = 1}, {.globals = 1}, {.calls = 1}, {.arguments = 1}};
    static const struct sortlib_counts counts_of[] = {
        {.records = 1}, {.side = 1}, {.tops = 1}, {.range = 1}, {.terms = 1}};
    expect_added("add_query: no list", query_none(no_lent, no_counts), no_counts);
    expect_added("add_actions: no list", actions_none(no_lent, no_counts), no_counts);
    for (size_t i = 0; i < sizeof one_of / sizeof one_of[0]; i++) {
        expect_refused("add_query: one lent", query_none(one_of[i], no_counts), SORTLIB_TOO_MANY, no_counts);
        expect_refused("add_actions: one lent", actions_none(one_of[i], no_counts), SORTLIB_TOO_MANY, no_counts);
    }
    for (size_t i = 0; i < sizeof counts_of / sizeof counts_of[0]; i++) {
        struct sortlib_counts counts = counts_of[i];
        expect_refused("add_query: one counted", query_none(no_lent, counts), SORTLIB_TOO_MANY, counts);
        expect_refused("add_actions: one counted", actions_none(no_lent, counts), SORTLIB_TOO_MANY, counts);
    }
}

/* The equality of two variables: no signature, no global, nothing in the side list. */
static void query_equality(void) {
    static const size_t terms[] = {SORTLIB_TERM_VARIABLE, 0, SORTLIB_TERM_VARIABLE, 0};
    static const size_t calls[] = {SORTLIB_QUERY_EQUALITY, 0, 0, 2, 0, 0, PLACE, 0};
    static const size_t arguments[] = {0, 1};
    static const size_t eq[SORTLIB_RECORD_CELLS] = {SORTLIB_RECORD_EQ, 0, 1, 0, 0, 0, PLACE, 0};
    static const size_t both[] = {0, PLACE, 1, PLACE};
    struct sortlib_lent lent = {.calls = 1, .arguments = 2};
    struct sortlib_counts before = {.terms = 2};
    struct sortlib_counts after = {.records = 1, .tops = 1, .range = 2, .terms = 2};
    size_t records[SORTLIB_RECORD_CELLS], tops[1], range[2 * SORTLIB_RANGE_CELLS];
    fill(LIST(records));
    fill(LIST(tops));
    fill(LIST(range));

    expect_refused(
        "add_query: no room for a record",
        sortlib_add_query(lent, before, NONE, NONE, NONE, LIST(terms), LIST(calls), LIST(arguments), NONE, NONE,
                          LIST(tops), LIST(range)),
        SORTLIB_FULL, before);
    expect_refused(
        "add_query: no room for a top-level entry",
        sortlib_add_query(lent, before, NONE, NONE, NONE, LIST(terms), LIST(calls), LIST(arguments), LIST(records),
                          NONE, NONE, LIST(range)),
        SORTLIB_FULL, before);
    expect_refused(
        "add_query: no room in the range",
        sortlib_add_query(lent, before, NONE, NONE, NONE, LIST(terms), LIST(calls), LIST(arguments), LIST(records),
                          NONE, LIST(tops), NONE),
        SORTLIB_FULL, before);
    check("add_query: refused, the records are as they were", all_are(LIST(records), FILL));
    check("add_query: refused, the top-level entries are as they were", all_are(LIST(tops), FILL));
    check("add_query: refused, the range is as it was", all_are(LIST(range), FILL));

    expect_added(
        "add_query: an equality",
        sortlib_add_query(lent, before, NONE, NONE, NONE, LIST(terms), LIST(calls), LIST(arguments), LIST(records),
                          NONE, LIST(tops), LIST(range)),
        after);
    SAME("add_query: the record", records, eq);
    check("add_query: the top-level entry", all_are(LIST(tops), 0));
    SAME("add_query: the range", range, both);
}

/* A head with two alternatives is a choice, which needs the side list. */
static void query_choice(void) {
    static const size_t signatures[] = {
        SORTLIB_SIGNATURE_SIMPLE, HEAD, 1, 0, 1, 0, 0, 0, 0, 0,
        SORTLIB_SIGNATURE_SIMPLE, HEAD, 1, 1, 1, 0, 0, 0, 0, 0,
    };
    static const size_t signature_sorts[] = {0, 1};
    static const size_t terms[] = {SORTLIB_TERM_VARIABLE, 0};
    static const size_t calls[] = {SORTLIB_QUERY_HEAD, HEAD, 0, 1, 0, 0, PLACE, 0};
    static const size_t arguments[] = {0};
    struct sortlib_lent lent = {.signatures = 2, .signature_sorts = 2, .calls = 1, .arguments = 1};
    struct sortlib_counts counts = {.terms = 1, .sorts = 2};
    size_t records[5 * SORTLIB_RECORD_CELLS], tops[1], range[SORTLIB_RANGE_CELLS];
    expect_refused(
        "add_query: no side list for a choice",
        sortlib_add_query(lent, counts, LIST(signatures), LIST(signature_sorts), NONE, LIST(terms), LIST(calls),
                          LIST(arguments), LIST(records), NONE, LIST(tops), LIST(range)),
        SORTLIB_FULL, counts);
}

static void query_heads(void) {
    static const size_t terms[] = {SORTLIB_TERM_VARIABLE, 0, SORTLIB_TERM_GLOBAL, 0};
    static const size_t bare[] = {SORTLIB_QUERY_HEAD, HEAD, 0, 0, 0, 0, PLACE, 0};
    static const size_t applied[] = {SORTLIB_QUERY_HEAD, HEAD, 0, 2, 0, 0, PLACE, 0};
    static const size_t equality[] = {SORTLIB_QUERY_EQUALITY, 0, 0, 2, 0, 0, PLACE, 0};
    static const size_t arguments[] = {0, 1};
    struct sortlib_counts counts = {.terms = 2};
    struct sortlib_lent no_arguments = {.calls = 1}, two_arguments = {.calls = 1, .arguments = 2};
    struct sortlib_added unbound = {
        .number = SORTLIB_UNBOUND_FUNCTION, .head = HEAD, .place = PLACE, .counts = counts};
    struct sortlib_added got = sortlib_add_query(
        two_arguments, counts, NONE, NONE, NONE, LIST(terms), LIST(applied), LIST(arguments), NONE, NONE, NONE, NONE);
    SAME("add_query: no signatures", got, unbound);
    expect_refused(
        "add_query: no arguments",
        sortlib_add_query(no_arguments, counts, NONE, NONE, NONE, LIST(terms), LIST(bare), NONE, NONE, NONE, NONE,
                          NONE),
        SORTLIB_NO_ARGUMENTS, counts);
    expect_refused(
        "add_query: no globals",
        sortlib_add_query(two_arguments, counts, NONE, NONE, NONE, LIST(terms), LIST(equality), LIST(arguments), NONE,
                          NONE, NONE, NONE),
        SORTLIB_UNSORTED_GLOBAL, counts);
}

static void actions_without_lists(void) {
    static const size_t panic[] = {SORTLIB_ACTION_PANIC, 0, 0, 0, 0, 0, PLACE, 0};
    static const size_t both[] = {SORTLIB_ACTION_UNION, 0, 0, 0, 0, 1, PLACE, 0};
    static const size_t eq[SORTLIB_RECORD_CELLS] = {SORTLIB_RECORD_EQ, 0, 1, 0, 0, 0, PLACE, 0};
    size_t terms[] = {SORTLIB_TERM_VARIABLE, 0, SORTLIB_TERM_VARIABLE, 0};
    struct sortlib_lent one = {.calls = 1};
    struct sortlib_counts before = {.terms = 2};
    struct sortlib_counts after = {.records = 1, .tops = 1, .terms = 2};
    size_t records[SORTLIB_RECORD_CELLS], tops[1];
    expect_added(
        "add_actions: Panic adds nothing",
        sortlib_add_actions(one, no_counts, NONE, NONE, NONE, NONE, LIST(panic), NONE, NONE, NONE, NONE, NONE),
        no_counts);
    fill(LIST(tops));
    expect_added(
        "add_actions: Union needs no range",
        sortlib_add_actions(one, before, NONE, NONE, NONE, LIST(terms), LIST(both), NONE, LIST(records), NONE,
                            LIST(tops), NONE),
        after);
    SAME("add_actions: the record", records, eq);
    check("add_actions: the top-level entry", all_are(LIST(tops), 0));
}

/* The fresh term of a Change is written to the list of terms. */
static void actions_fresh_term(void) {
    static const size_t signatures[] = {SORTLIB_SIGNATURE_FUNCTION, HEAD, 0, 0, 1, 0, 0, 0, 0, 0};
    static const size_t signature_sorts[] = {0};
    static const size_t change[] = {SORTLIB_ACTION_CHANGE, HEAD, 0, 0, 0, 0, PLACE, 0};
    struct sortlib_lent lent = {.signatures = 1, .signature_sorts = 1, .calls = 1};
    struct sortlib_counts before = {.sorts = 1};
    struct sortlib_counts after = {.records = 1, .tops = 1, .terms = 1, .sorts = 1};
    size_t terms[SORTLIB_TERM_CELLS], records[SORTLIB_RECORD_CELLS], tops[1];
    fill(LIST(terms));
    expect_refused(
        "add_actions: no terms for a fresh one",
        sortlib_add_actions(lent, before, LIST(signatures), LIST(signature_sorts), NONE, NONE, LIST(change), NONE,
                            LIST(records), NONE, LIST(tops), NONE),
        SORTLIB_FULL, before);
    expect_added(
        "add_actions: a fresh term",
        sortlib_add_actions(lent, before, LIST(signatures), LIST(signature_sorts), NONE, LIST(terms), LIST(change),
                            NONE, LIST(records), NONE, LIST(tops), NONE),
        after);
    check("add_actions: the fresh term is a variable", all_are(LIST(terms), 0));
}

static void typed_local(void) {
    static const size_t terms[] = {SORTLIB_TERM_VARIABLE, 0};
    static const size_t assign[SORTLIB_RECORD_CELLS] = {SORTLIB_RECORD_ASSIGN, 0, 0, 0, 0, 0, PLACE, 0};
    static const size_t entry[] = {0, PLACE};
    struct sortlib_counts before = {.terms = 1, .sorts = 1};
    struct sortlib_counts after = {.records = 1, .tops = 1, .range = 1, .terms = 1, .sorts = 1};
    size_t records[SORTLIB_RECORD_CELLS], tops[1], range[SORTLIB_RANGE_CELLS];
    fill(LIST(tops));
    expect_refused(
        "assign_local: no such term", sortlib_assign_local(no_counts, 0, 0, PLACE, NONE, NONE, NONE, NONE, NONE),
        SORTLIB_OUT_OF_RANGE, no_counts);
    expect_refused(
        "assign_local: no terms", sortlib_assign_local(before, 0, 0, PLACE, NONE, NONE, NONE, NONE, NONE),
        SORTLIB_TOO_MANY, before);
    expect_refused(
        "assign_local: no room for the record",
        sortlib_assign_local(before, 0, 0, PLACE, LIST(terms), NONE, NONE, LIST(tops), LIST(range)), SORTLIB_FULL,
        before);
    expect_refused(
        "assign_local: no room for the top-level entry",
        sortlib_assign_local(before, 0, 0, PLACE, LIST(terms), NONE, LIST(records), NONE, LIST(range)), SORTLIB_FULL,
        before);
    expect_refused(
        "assign_local: no room in the range",
        sortlib_assign_local(before, 0, 0, PLACE, LIST(terms), NONE, LIST(records), LIST(tops), NONE), SORTLIB_FULL,
        before);
    expect_added(
        "assign_local: no side list",
        sortlib_assign_local(before, 0, 0, PLACE, LIST(terms), NONE, LIST(records), LIST(tops), LIST(range)), after);
    SAME("assign_local: the record", records, assign);
    check("assign_local: the top-level entry", all_are(LIST(tops), 0));
    SAME("assign_local: the range", range, entry);
}

/* Bodies. */

static void bodies(void) {
    static size_t work[BODY_WORK + SORTLIB_WORK_FRAMES], errors[BODY_ERRORS];
    static const size_t terms[] = {SORTLIB_TERM_VARIABLE, 0};
    static const size_t bare[] = {SORTLIB_ATOM_FUNCTION, 0, 0, 0, 0, 0, 0, 0};
    static const struct sortlib_body_counts nothing, one_of[] = {{.atoms = 1}, {.arguments = 1}, {.terms = 1}};
    struct sortlib_body_counts one_term = {.terms = 1}, one_atom = {.atoms = 1};
    for (size_t i = 0; i < sizeof one_of / sizeof one_of[0]; i++) {
        expect_outcome(
            "grounded_check: one counted",
            sortlib_grounded_check(one_of[i], PLACE, NONE, NONE, NONE, NONE, NONE, NONE), SORTLIB_TOO_MANY, 0);
    }
    expect_outcome(
        "grounded_check: no work room", sortlib_grounded_check(nothing, PLACE, NONE, NONE, NONE, NONE, NONE, NONE),
        SORTLIB_WORK_TOO_SMALL, 0);
    expect_outcome(
        "grounded_check: no error list",
        sortlib_grounded_check(nothing, PLACE, NONE, NONE, NONE, LIST(work), NONE, NONE), SORTLIB_LIST_TOO_SHORT, 0);
    expect_outcome(
        "grounded_check: no sort list",
        sortlib_grounded_check(one_term, PLACE, NONE, NONE, LIST(terms), LIST(work), NONE, LIST(errors)),
        SORTLIB_LIST_TOO_SHORT, 0);
    expect_outcome(
        "grounded_check: an atom, no arguments",
        sortlib_grounded_check(one_atom, PLACE, LIST(bare), NONE, NONE, LIST(work), NONE, LIST(errors)),
        SORTLIB_NO_ARGUMENTS, 0);
    fill(LIST(work));
    fill(LIST(errors));
    expect_outcome(
        "grounded_check: nothing is not grounded",
        sortlib_grounded_check(nothing, PLACE, NONE, NONE, NONE, LIST(work), NONE, LIST(errors)), SORTLIB_DONE, 1);
    check("grounded_check: the work room is zeroed whole", all_are(LIST(work), 0));
    check("grounded_check: no error", all_are(LIST(errors), 0));
}

/* Texts. */

static void texts(void) {
    static const char answer[] = "ok 0 passes 1\n";
    static const unsigned char declares[] = "sort Reading\n";
    const size_t length = sizeof answer - 1;
    unsigned char out[32];
    check("text: no text and no room for its output", sortlib_text(NONE, NONE) == length);
    check("text: no room for the output", sortlib_text(declares, sizeof declares - 1, NONE) == length);
    memset(out, FILL, sizeof out);
    check("text: no text", sortlib_text(NONE, LIST(out)) == length);
    check("text: the output of no text", memcmp(out, answer, length) == 0);
    check("text: what lies behind the output is as it was", out[length] == FILL && out[sizeof out - 1] == FILL);
}

int main(void) {
    errno = PLACE;
    solve_nothing();
    solve_too_many();
    solve_one_record();
    type_errors();
    calls_of_nothing();
    query_equality();
    query_choice();
    query_heads();
    actions_without_lists();
    actions_fresh_term();
    typed_local();
    bodies();
    texts();
    check("errno is as it was", errno == PLACE);
    return finish("lists of no cells");
}
