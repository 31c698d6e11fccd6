// C++ finds each function of the library by its C name. The answers are those of LAYOUTS.md for nothing at all.
#include "check.h"

static const sortlib_counts no_counts = {};
static const sortlib_lent no_lent = {};
static const sortlib_body_counts no_body = {};

static void added(const char *what, sortlib_added got, size_t number) {
    check(what, got.number == number);
}

int main() {
    const size_t term = 3;
    const sortlib_outcome open = {SORTLIB_OPEN, 1, term, 0};
    check("solve", sortlib_solve(no_counts, NONE, NONE, NONE, NONE, NONE, NONE, NONE).passes == 1);
    check("type_error", sortlib_type_error(0, 0, NONE).number == SORTLIB_TOO_MANY);
    check("outcome_type_error", sortlib_outcome_type_error(open).first == term);
    added(
        "add_query",
        sortlib_add_query(no_lent, no_counts, NONE, NONE, NONE, NONE, NONE, NONE, NONE, NONE, NONE, NONE),
        SORTLIB_DONE);
    added(
        "add_actions",
        sortlib_add_actions(no_lent, no_counts, NONE, NONE, NONE, NONE, NONE, NONE, NONE, NONE, NONE, NONE),
        SORTLIB_DONE);
    added(
        "assign_local", sortlib_assign_local(no_counts, term, 0, 0, NONE, NONE, NONE, NONE, NONE),
        SORTLIB_OUT_OF_RANGE);
    check(
        "grounded_check",
        sortlib_grounded_check(no_body, 0, NONE, NONE, NONE, NONE, NONE, NONE).number == SORTLIB_WORK_TOO_SMALL);
    check("text", sortlib_text(NONE, NONE) == strlen("ok 0 passes 1\n"));
    return finish("linked from C++");
}
