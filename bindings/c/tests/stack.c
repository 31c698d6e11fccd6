/* Each function runs in a thread that has as much stack as the header says, on inputs that take the most of it.
 * `stack measure` prints the least stack of a thread in which they are answered. */
#define _POSIX_C_SOURCE 200809L
#include <pthread.h>
#include <sys/wait.h>
#include <unistd.h>

#include "check.h"

enum { KILOBYTE = 1024, CHAIN = SORTLIB_MAX_RECORDS, HEAD = 0 };
enum { LEAST_STACK_KB = 16, STEP_KB = 4, NESTED_STACK_KB = 32, ENTRIES = 9 };

static size_t work[SORTLIB_WORK_FRAMES * (SORTLIB_MAX_TERMS + SORTLIB_MAX_RECORDS)];
static size_t sort_list[SORTLIB_MAX_TERMS];
static size_t errors[SORTLIB_ERROR_CELLS * SORTLIB_MAX_RECORDS];

static size_t records[SORTLIB_RECORD_CELLS * SORTLIB_MAX_RECORDS];
static size_t side[SORTLIB_MAX_SIDE];
static size_t tops[SORTLIB_MAX_TOPS];
static size_t range[SORTLIB_RANGE_CELLS * SORTLIB_MAX_RANGE];

static const size_t signatures[] = {
    SORTLIB_SIGNATURE_FUNCTION, HEAD, 0, 0, 1, 0, 0, 0, 0, 0,
    SORTLIB_SIGNATURE_ALL_EQUAL, HEAD, 1, 0, 0, 1, 2, 1, 0, 0,
};
static const size_t signature_sorts[] = {0};
static size_t terms[SORTLIB_TERM_CELLS * 2];
static const size_t arguments[] = {0};

/* Records that are each the only child of the next, as deep as the list is long. */
static struct sortlib_outcome solve_chain(size_t kind, size_t length) {
    struct sortlib_counts counts = {.records = length, .side = length, .tops = 1, .terms = 1, .sorts = 1};
    memset(records, 0, sizeof records);
    records[0] = SORTLIB_RECORD_ASSIGN;
    for (size_t i = 1; i < length; i++) {
        size_t *record = records + i * SORTLIB_RECORD_CELLS;
        record[0] = kind;
        record[1] = i - 1;
        record[2] = kind == SORTLIB_RECORD_IMPLIES ? 0 : 1;
        record[3] = i - 1;
        side[i - 1] = i - 1;
    }
    tops[0] = length - 1;
    return sortlib_solve(
        counts, LIST(records), LIST(side), LIST(tops), LIST(range), LIST(work), LIST(sort_list), LIST(errors));
}

static int all_chains(size_t length, size_t number) {
    return solve_chain(SORTLIB_RECORD_AND, length).number == number &&
           solve_chain(SORTLIB_RECORD_XOR, length).number == number &&
           solve_chain(SORTLIB_RECORD_IMPLIES, length).number == number;
}

static int solves(void) {
    return all_chains(CHAIN, SORTLIB_TOO_DEEP);
}

static int solves_up_to_the_deepest(void) {
    return all_chains(SORTLIB_MAX_DEPTH, SORTLIB_DONE);
}

static int tells_type_error(void) {
    return sortlib_type_error(0, 0, NONE).number == SORTLIB_TOO_MANY;
}

static int tells_outcome_type_error(void) {
    struct sortlib_outcome open = {.number = SORTLIB_OPEN};
    return sortlib_outcome_type_error(open).number == SORTLIB_OPEN;
}

/* A head with two alternatives, one of them all-equal. */
static const struct sortlib_lent lent = {.signatures = 2, .signature_sorts = 1, .calls = 1, .arguments = 1};
static const struct sortlib_counts counts = {.terms = 1, .sorts = 1};

static int adds_query(void) {
    static const size_t calls[] = {SORTLIB_QUERY_HEAD, HEAD, 0, 1, 0, 0, 1, 0};
    return sortlib_add_query(
               lent, counts, LIST(signatures), LIST(signature_sorts), NONE, LIST(terms), LIST(calls), LIST(arguments),
               LIST(records), LIST(side), LIST(tops), LIST(range))
               .number == SORTLIB_DONE;
}

static int adds_actions(void) {
    static const size_t calls[] = {SORTLIB_ACTION_CHANGE, HEAD, 0, 1, 0, 0, 1, 0};
    return sortlib_add_actions(
               lent, counts, LIST(signatures), LIST(signature_sorts), NONE, LIST(terms), LIST(calls), LIST(arguments),
               LIST(records), LIST(side), LIST(tops), LIST(range))
               .number == SORTLIB_DONE;
}

static int assigns_local(void) {
    return sortlib_assign_local(counts, 0, 0, 1, LIST(terms), LIST(side), LIST(records), LIST(tops), LIST(range))
               .number == SORTLIB_DONE;
}

/* A primitive whose only input and output are one variable: nothing grounds it. */
static int checks_body(void) {
    static const size_t atoms[] = {SORTLIB_ATOM_PRIMITIVE, 0, 0, 2, 0, 0, 0, 0};
    static const size_t twice[] = {0, 0};
    struct sortlib_body_counts body = {.atoms = 1, .arguments = 2, .terms = 1};
    return sortlib_grounded_check(
               body, 1, LIST(atoms), LIST(twice), LIST(terms), LIST(work), LIST(sort_list), LIST(errors))
               .number == SORTLIB_UNGROUNDED;
}

static int answers_text(void) {
    static const char text[] = "sort Reading\nsort Setpoint\n"
                               "prim shows 1 simple Reading\nprim shows 1 simple Setpoint\natom shows d\n";
    static const char answer[] = "open 1\nunsorted 5 d\n";
    static unsigned char out[64];
    return sortlib_text((const unsigned char *)text, sizeof text - 1, LIST(out)) == sizeof answer - 1 &&
           memcmp(out, answer, sizeof answer - 1) == 0;
}

/* How much stack is promised to be enough. */
static const struct {
    const char *name;
    size_t kilobytes;
    int (*runs)(void);
} functions[ENTRIES] = {
    {"solve", SORTLIB_SOLVE_STACK_KB, solves},
    {"solve, nested 8 deep", NESTED_STACK_KB, solves_up_to_the_deepest},
    {"type_error", SORTLIB_TYPE_ERROR_STACK_KB, tells_type_error},
    {"outcome_type_error", SORTLIB_OUTCOME_TYPE_ERROR_STACK_KB, tells_outcome_type_error},
    {"add_query", SORTLIB_ADD_QUERY_STACK_KB, adds_query},
    {"add_actions", SORTLIB_ADD_ACTIONS_STACK_KB, adds_actions},
    {"assign_local", SORTLIB_ASSIGN_LOCAL_STACK_KB, assigns_local},
    {"grounded_check", SORTLIB_GROUNDED_CHECK_STACK_KB, checks_body},
    {"text", SORTLIB_TEXT_STACK_KB, answers_text},
};

static int (*running)(void);

static void *in_thread(void *answered) {
    *(int *)answered = running();
    return NULL;
}

/* Whether the function answers rightly in a thread with so much stack. */
static int answers_in(size_t kilobytes, int (*runs)(void)) {
    pthread_attr_t attributes;
    pthread_t thread;
    int answered = 0;
    running = runs;
    if (pthread_attr_init(&attributes) != 0 || pthread_attr_setstacksize(&attributes, kilobytes * KILOBYTE) != 0 ||
        pthread_create(&thread, &attributes, in_thread, &answered) != 0) {
        return 0;
    }
    return pthread_join(thread, NULL) == 0 && answered;
}

/* In a process of its own, since one without enough stack dies. */
static int survives(size_t kilobytes, int (*runs)(void)) {
    int status = 0;
    pid_t child = fork();
    if (child == 0) {
        _exit(answers_in(kilobytes, runs) ? 0 : 1);
    }
    return child > 0 && waitpid(child, &status, 0) == child && WIFEXITED(status) && WEXITSTATUS(status) == 0;
}

static void measure(const char *name, size_t most, int (*runs)(void)) {
    for (size_t kilobytes = LEAST_STACK_KB; kilobytes <= most; kilobytes += STEP_KB) {
        if (survives(kilobytes, runs)) {
            printf("%s: %zu kB\n", name, kilobytes);
            return;
        }
    }
    printf("%s: more than %zu kB\n", name, most);
}

int main(int argc, char **argv) {
    int measuring = argc > 1 && strcmp(argv[1], "measure") == 0;
    for (size_t i = 0; i < ENTRIES; i++) {
        if (measuring) {
            measure(functions[i].name, functions[i].kilobytes, functions[i].runs);
        } else {
            check(functions[i].name, survives(functions[i].kilobytes, functions[i].runs));
        }
    }
    return measuring ? 0 : finish("stack");
}
