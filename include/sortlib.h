/* Sort inference for rule templates: what the static library libsortlib.a has. Every function takes any numbers and any
 * lists, always returns, and refuses bad input itself. docs/LAYOUTS.md has the flat layouts of the lists, what each
 * function leaves in those that it may write, and when each answer number is given. bindings/c/README.md says how to
 * build, install and link. tools/constants checks this file against the definition.
 *
 * What a caller sees to:
 * - A list is its first cell and its length in cells. A list of no cells (length 0) may be null.
 * - A list that is written overlaps no other list of the call. Lists that are only read may overlap each other.
 * - A list of size_t is aligned to 8 bytes, and so is every struct: as a C compiler lays them. Bytes need no alignment.
 * - There is enough stack: how much each function takes stands below. Nothing is allocated.
 * - The machine is x86-64 with Linux: the library is built for nothing else.
 *
 * What a caller may rely on:
 * - Nothing is kept between calls and nothing is shared. Any number of threads may call at a time, each with lists of
 *   its own to be written. Lists that are only read may be shared.
 * - errno is left alone, the system is not called, and nothing is computed in floating point. */
#ifndef SORTLIB_H
#define SORTLIB_H

#include <stddef.h>

#ifdef __cplusplus
extern "C" {
#endif

/* A cell has 64 bits. Where a size_t has not, this array has no size, and no version of C or C++ compiles it. */
typedef char sortlib_a_cell_is_a_size_t_of_64_bits[sizeof(size_t) == 8 ? 1 : -1];

/* The library's version: as text, and in numbers that #if can compare. */
#define SORTLIB_VERSION "0.2.0"
#define SORTLIB_VERSION_MAJOR 0
#define SORTLIB_VERSION_MINOR 2
#define SORTLIB_VERSION_PATCH 0

/* Cells of an entry of each list. Entries of the other lists have one cell. */
#define SORTLIB_RECORD_CELLS 8
#define SORTLIB_RANGE_CELLS 2
#define SORTLIB_ERROR_CELLS 8
#define SORTLIB_SIGNATURE_CELLS 10
#define SORTLIB_TERM_CELLS 2
#define SORTLIB_CALL_CELLS 8
#define SORTLIB_ATOM_CELLS 8

/* The work room has so many cells for each term and each record. */
#define SORTLIB_WORK_FRAMES 18

/* Largest counts. The numbers of calls and of a body's atoms are bounded by their lists alone. */
#define SORTLIB_MAX_RECORDS 512
#define SORTLIB_MAX_SIDE 2048
#define SORTLIB_MAX_TOPS 512
#define SORTLIB_MAX_RANGE 256
#define SORTLIB_MAX_TERMS 256
#define SORTLIB_MAX_SORTS 256
#define SORTLIB_MAX_SIGNATURES 256
#define SORTLIB_MAX_SIGNATURE_SORTS 2048
#define SORTLIB_MAX_GLOBALS 256
#define SORTLIB_MAX_ARGUMENTS 2048
#define SORTLIB_MAX_TEXT_BYTES 32768

/* Other limits: the depth of a record, a top-level one having 1; an Impossible's expected count, which is at least 1;
 * an all-equal primitive's exact length; how many contexts there are, numbered from 0. */
#define SORTLIB_MAX_DEPTH 8
#define SORTLIB_MAX_EXPECTED 9999
#define SORTLIB_MAX_LENGTH 9999
#define SORTLIB_CONTEXTS 8

/* Stack that a thread should have for a call of each function, in kB: as measured, and some to spare. */
#define SORTLIB_SOLVE_STACK_KB 80
#define SORTLIB_TYPE_ERROR_STACK_KB 16
#define SORTLIB_OUTCOME_TYPE_ERROR_STACK_KB 16
#define SORTLIB_ADD_QUERY_STACK_KB 64
#define SORTLIB_ADD_ACTIONS_STACK_KB 64
#define SORTLIB_ASSIGN_LOCAL_STACK_KB 16
#define SORTLIB_GROUNDED_CHECK_STACK_KB 96
#define SORTLIB_TEXT_STACK_KB 1024

/* Kinds of records. */
#define SORTLIB_RECORD_EQ 0
#define SORTLIB_RECORD_ASSIGN 1
#define SORTLIB_RECORD_AND 2
#define SORTLIB_RECORD_XOR 3
#define SORTLIB_RECORD_IMPOSSIBLE 4
#define SORTLIB_RECORD_IMPLIES 5

/* Kinds of signatures. */
#define SORTLIB_SIGNATURE_FUNCTION 0
#define SORTLIB_SIGNATURE_CONSTRUCTOR 1
#define SORTLIB_SIGNATURE_SIMPLE 2
#define SORTLIB_SIGNATURE_ALL_EQUAL 3

/* Kinds of terms. */
#define SORTLIB_TERM_VARIABLE 0
#define SORTLIB_TERM_GLOBAL 1
#define SORTLIB_TERM_LITERAL 2

/* Kinds of calls in a query: a head's atom, an equality. */
#define SORTLIB_QUERY_HEAD 0
#define SORTLIB_QUERY_EQUALITY 1

/* Kinds of calls in actions. */
#define SORTLIB_ACTION_LET 0
#define SORTLIB_ACTION_SET 1
#define SORTLIB_ACTION_CHANGE 2
#define SORTLIB_ACTION_UNION 3
#define SORTLIB_ACTION_LET_ATOM_TERM 4
#define SORTLIB_ACTION_PANIC 5

/* Kinds of a body's atoms. */
#define SORTLIB_ATOM_FUNCTION 0
#define SORTLIB_ATOM_PRIMITIVE 1
#define SORTLIB_ATOM_EQUALITY 2

/* Answer numbers. 1 to 21 and 50 to 52 are refusals. */
#define SORTLIB_DONE 0              /* answered, added, grounded; of a type error: none */
#define SORTLIB_TOO_MANY 1          /* a count is larger than the largest, or than its list */
#define SORTLIB_OUT_OF_RANGE 2      /* a kind, term, sort, context, expected count, length or part */
#define SORTLIB_NO_TREES 3          /* records are no trees, or not each named once */
#define SORTLIB_TOO_DEEP 4          /* a record is deeper than 8 */
#define SORTLIB_WORK_TOO_SMALL 5    /* the work room */
#define SORTLIB_LIST_TOO_SHORT 6    /* the sort list or the error list */
#define SORTLIB_NO_ARGUMENTS 7      /* an atom without arguments, or an equality without exactly two */
#define SORTLIB_NO_SORTS 8          /* an alternative without sorts, or of the exact length 0 */
#define SORTLIB_UNSORTED_GLOBAL 9   /* a global without a sort */
#define SORTLIB_FULL 10             /* what is added would pass a largest count, or its list */
#define SORTLIB_UNBOUND_FUNCTION 20 /* no signature of the head fits the context */
#define SORTLIB_SET_CONSTRUCTOR 21  /* Set of a constructor */
#define SORTLIB_MISMATCH 30         /* two sorts for a term */
#define SORTLIB_OPEN 31             /* a range entry's term has no sort */
#define SORTLIB_NONE_FITS 32        /* no alternative of a head is left */
#define SORTLIB_ARITY 33            /* a head with a wrong number of arguments */
#define SORTLIB_UNGROUNDED 40       /* a variable that is not grounded */
#define SORTLIB_MALFORMED 50        /* text: a line is malformed */
#define SORTLIB_BAD_NAME 51         /* text: a name is unknown, or declared twice */
#define SORTLIB_TOO_LONG 52         /* text: it has too many bytes */

/* How many of each thing a problem has. */
struct sortlib_counts {
    size_t records;
    size_t side;
    size_t tops;
    size_t range;
    size_t terms;
    size_t sorts;
};

/* The answer's number, the passes begun, and for 31 and 40 the term and the place. */
struct sortlib_outcome {
    size_t number;
    size_t passes;
    size_t term;
    size_t place;
};

/* Solves a problem: 0 answered, 1 to 6 refused, 30 to 33 failed. Needs SORTLIB_WORK_FRAMES * (terms + records) cells of
 * work room, a cell of the sort list for each term, SORTLIB_ERROR_CELLS of the error list for each record. */
struct sortlib_outcome sortlib_solve(
    struct sortlib_counts counts,
    const size_t *records, size_t records_len,
    const size_t *side, size_t side_len,
    const size_t *tops, size_t tops_len,
    const size_t *range, size_t range_len,
    size_t *work, size_t work_len,
    size_t *sort_list, size_t sort_list_len,
    size_t *errors, size_t errors_len);

/* A type error: 30 to 33, 0 for none, 1 or 2 for a refusal; and its values. What has no meaning is 0. */
struct sortlib_told {
    size_t number;
    size_t first;
    size_t second;
    size_t third;
};

/* What the numbered entry of the error list that solving left for so many records is as a type error: 30, 32 or 33, 0
 * past the error's end; 1, 2 refused. */
struct sortlib_told sortlib_type_error(
    size_t records, size_t entry,
    const size_t *errors, size_t errors_len);

/* What the outcome 31 is as a type error; any other outcome is refused with 2. */
struct sortlib_told sortlib_outcome_type_error(struct sortlib_outcome outcome);

/* The counts of what a generator's call is lent besides the problem, and its context. */
struct sortlib_lent {
    size_t signatures;
    size_t signature_sorts;
    size_t globals;
    size_t context;
    size_t calls;
    size_t arguments;
};

/* A generator's answer: its number, for 20 and 21 the head and the place, and the counts after the call. 0 is added.
 * add_query refuses with 1, 2, 7 to 10, 20; add_actions with 1, 2, 8 to 10, 20, 21 (never 7, since a term is appended
 * to every head's arguments); assign_local with 1, 2, 10. */
struct sortlib_added {
    size_t number;
    size_t head;
    size_t place;
    struct sortlib_counts counts;
};

/* Adds what a query's atoms give to a problem. */
struct sortlib_added sortlib_add_query(
    struct sortlib_lent lent,
    struct sortlib_counts counts,
    const size_t *signatures, size_t signatures_len,
    const size_t *signature_sorts, size_t signature_sorts_len,
    const size_t *globals, size_t globals_len,
    const size_t *terms, size_t terms_len,
    const size_t *calls, size_t calls_len,
    const size_t *arguments, size_t arguments_len,
    size_t *records, size_t records_len,
    size_t *side, size_t side_len,
    size_t *tops, size_t tops_len,
    size_t *range, size_t range_len);

/* Adds what actions give. A Change makes a fresh term. */
struct sortlib_added sortlib_add_actions(
    struct sortlib_lent lent,
    struct sortlib_counts counts,
    const size_t *signatures, size_t signatures_len,
    const size_t *signature_sorts, size_t signature_sorts_len,
    const size_t *globals, size_t globals_len,
    size_t *terms, size_t terms_len,
    const size_t *calls, size_t calls_len,
    const size_t *arguments, size_t arguments_len,
    size_t *records, size_t records_len,
    size_t *side, size_t side_len,
    size_t *tops, size_t tops_len,
    size_t *range, size_t range_len);

/* Adds what a typed local gives. */
struct sortlib_added sortlib_assign_local(
    struct sortlib_counts counts,
    size_t term,
    size_t sort,
    size_t place,
    const size_t *terms, size_t terms_len,
    const size_t *side, size_t side_len,
    size_t *records, size_t records_len,
    size_t *tops, size_t tops_len,
    size_t *range, size_t range_len);

/* How many atoms, arguments and terms a rule's body has. */
struct sortlib_body_counts {
    size_t atoms;
    size_t arguments;
    size_t terms;
};

/* Whether every variable of a rule's body is grounded: 0, or 40 with the first that is not; 1, 2, 5, 6, 7, 10 refused.
 * The lists to write are those of sortlib_solve, with the records taken as SORTLIB_MAX_RECORDS. */
struct sortlib_outcome sortlib_grounded_check(
    struct sortlib_body_counts counts,
    size_t place,
    const size_t *atoms, size_t atoms_len,
    const size_t *arguments, size_t arguments_len,
    const size_t *terms, size_t terms_len,
    size_t *work, size_t work_len,
    size_t *sort_list, size_t sort_list_len,
    size_t *errors, size_t errors_len);

/* Puts the whole output of a text (docs/TEXT.md) at the front of `out` and leaves the rest of `out` as it was; where
 * the output does not fit, all of `out` is as it was. Returns how many bytes the output has, whether it fits or not. */
size_t sortlib_text(
    const unsigned char *text, size_t text_len,
    unsigned char *out, size_t out_len);

#ifdef __cplusplus
}
#endif

#endif
