/*
 * Tests of the lengths that include/lca.h gives: those worked out by hand, those of every n against the archive, and the logarithm that
 * they are made of against the compiler's own count of leading zeros and against plain halving.
 */

#ifndef LENGTHS_H
#define LENGTHS_H

#include "known.h"

struct lengths {
    size_t n, label, tour, lift, order, work, counts, totals;
};

static void test_known_lengths(void)
{
    static const struct lengths all[] = {
        {0, 0, 0, 0, 0, 0, 0, 0},
        {1, 6, 3, 1, 1, 4, 1, 1},
        {3, 18, 23, 6, 3, 12, 3, 3},
        {PARTS, LABEL, TOUR, LIFT, ORDER, WORK, COUNTS, TOTALS},
        {16384, 98304, 540656, 245760, 16384, 65536, 16384, 16384},
        {16385, 0, 0, 0, 0, 0, 0, 0},
        {(size_t)-1, 0, 0, 0, 0, 0, 0, 0},
    };
    size_t i;
    for (i = 0; i < sizeof all / sizeof all[0]; i++) {
        size_t n = all[i].n;
        expect_at("lca_label_cells", n, lca_label_cells(n), all[i].label);
        expect_at("lca_tour_cells", n, lca_tour_cells(n), all[i].tour);
        expect_at("lca_lift_cells", n, lca_lift_cells(n), all[i].lift);
        expect_at("lca_order_cells", n, lca_order_cells(n), all[i].order);
        expect_at("lca_work_cells", n, lca_work_cells(n), all[i].work);
        expect_at("lca_counts_cells", n, lca_counts_cells(n), all[i].counts);
        expect_at("lca_totals_cells", n, lca_totals_cells(n), all[i].totals);
    }
    expect("LCA_MOST_PARTS", LCA_MOST_PARTS, 16384);
    expect("LCA_ANSWER_CELLS", LCA_ANSWER_CELLS, 3);
    expect("LCA_TRAIL_CELLS", LCA_TRAIL_CELLS, 64);
    expect("LCA_NO_CELL", LCA_NO_CELL, 65535);
}

/* The logarithm of m as a count of halvings. */
static size_t halvings(size_t m)
{
    size_t count = 0;
    while (m > 1) {
        m /= 2;
        count++;
    }
    return count;
}

static void test_log_of(size_t m)
{
    expect_at("lca_log", m, lca_log(m), halvings(m));
#ifdef __GNUC__
    expect_at("lca_leading_zeros", m, lca_leading_zeros(m), m == 0 ? 64 : (uint64_t)__builtin_clzll(m));
#endif
}

/* Every number of 16 bits. */
static void test_short_logs(void)
{
    size_t m;
    for (m = 0; m <= 65535; m++) {
        test_log_of(m);
    }
}

/* Of the wider numbers each power of two with those beside it, and the last. */
static void test_long_logs(void)
{
    size_t power;
    for (power = 65536; power != 0; power *= 2) {
        test_log_of(power - 1);
        test_log_of(power);
        test_log_of(power + 1);
    }
    test_log_of((size_t)-1);
}

/* Room for every sheet. */
static uint16_t long_sheet[16384], long_label[98304], long_tour[540656], long_lift[245760], long_order[16384], long_work[65536];
static uint32_t long_counts[16384];
static uint64_t long_totals[16384];

/* The archive takes one length of each buffer and no other. It takes the header's, since it gets as far as the first part's entry. */
static void test_lengths_of(size_t n)
{
    uint64_t value = UNTOUCHED;
    uint32_t number = lca_build(long_sheet, n, long_label, lca_label_cells(n), long_tour, lca_tour_cells(n), long_lift, lca_lift_cells(n),
        long_order, lca_order_cells(n), long_work, lca_work_cells(n), &value);
    expect_at("lca_build of an entry off the sheet", n, number, LCA_OFF_SHEET);
    expect_at("its place", n, value, 0);
    value = UNTOUCHED;
    number = lca_totals(
        long_sheet, n, long_work, lca_work_cells(n), long_counts, lca_counts_cells(n), long_totals, lca_totals_cells(n), &value);
    expect_at("lca_totals of an entry off the sheet", n, number, LCA_OFF_SHEET);
    expect_at("its place", n, value, 0);
}

static void test_lengths(void)
{
    size_t n;
    test_known_lengths();
    test_short_logs();
    test_long_logs();
    long_sheet[0] = LCA_MOST_PARTS;
    for (n = 1; n <= LCA_MOST_PARTS; n++) {
        test_lengths_of(n);
    }
}

#endif
