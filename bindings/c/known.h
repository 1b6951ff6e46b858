/*
 * What the tests of include/lca.h share: the known sheet with room for its tables, and how a number is held to what it must be.
 */

#ifndef KNOWN_H
#define KNOWN_H

#include "lca.h"

#include <stdio.h>

enum { PARTS = 7, LABEL = 42, TOUR = 72, LIFT = 21, ORDER = 7, WORK = 28, COUNTS = 7, TOTALS = 7 };

/* What a cell holds that no call has written. */
enum { UNTOUCHED = 9999 };

/* The known sheet. */
static const uint16_t parents[PARTS] = {0, 0, 0, 1, 1, 2, 5};

static uint16_t label[LABEL], tour[TOUR], lift[LIFT], order[ORDER], work[WORK];

static int all_right = 1;

/* How many wrong numbers are told one by one: a wrong length may be wrong for thousands of sheets. */
enum { MOST_TOLD = 20 };

/* Says so where a number is not what it must be. */
static void expect(const char *what, uint64_t is, uint64_t must)
{
    static int told = 0;
    if (is == must) {
        return;
    }
    all_right = 0;
    if (told < MOST_TOLD) {
        fprintf(stderr, "header: %s is %lu and must be %lu\n", what, (unsigned long)is, (unsigned long)must);
    } else if (told == MOST_TOLD) {
        fprintf(stderr, "header: further numbers are wrong\n");
    }
    told++;
}

/* The same of one number of many. */
static void expect_at(const char *what, size_t at, uint64_t is, uint64_t must)
{
    char name[80];
    snprintf(name, sizeof name, "%s(%lu)", what, (unsigned long)at);
    expect(name, is, must);
}

#endif
