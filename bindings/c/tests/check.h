/* What the tests share: lists as arguments, and comparing what is got with what LAYOUTS.md says. */
#ifndef CHECK_H
#define CHECK_H

#include <stdio.h>
#include <string.h>

#include "sortlib.h"

/* A list as two arguments; one of no cells. */
#define LIST(cells) cells, sizeof(cells) / sizeof((cells)[0])
#define NONE NULL, 0

/* Two of one type are the same, byte for byte: what is compared has no padding. */
#define SAME(what, got, expected) \
    check(what, sizeof(got) == sizeof(expected) && memcmp(&(got), &(expected), sizeof(got)) == 0)

static int checked, failed;

static void check(const char *what, int holds) {
    checked++;
    if (!holds) {
        failed++;
        printf("not so: %s\n", what);
    }
}

/* The test's last line and its status. */
static int finish(const char *name) {
    printf("%s: %d checked, %d failed\n", name, checked, failed);
    return failed > 0 || checked == 0;
}

#endif
