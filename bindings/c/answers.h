/*
 * Tests of the calls that answer: pairs by each route, a list and a trail of the known sheet, whose tables have been built.
 */

#ifndef ANSWERS_H
#define ANSWERS_H

#include "known.h"

typedef uint32_t asking(
    const uint16_t *, size_t, const uint16_t *, size_t, const uint16_t *, size_t, const uint16_t *, size_t, const uint16_t *, size_t,
    uint16_t *, size_t, const uint16_t *, size_t, uint16_t *, size_t, uint64_t *);

enum { PAIRS = 7, ASKED = 14, ANSWER = 21 };

static const uint16_t pairs[ASKED] = {3, 4, 3, 6, 6, 6, 0, 6, 5, 6, 4, 1, 6, 2};

/* Three cells for each pair, by hand: its carrier, the branch towards x, the branch towards y. */
static const uint16_t answers[ANSWER] = {1, 3, 4, 0, 1, 2, 6, 6, 6, 0, 0, 2, 5, 5, 6, 1, 4, 1, 2, 5, 2};

/* Asks for the pairs in the first so many cells, with so many cells for the answer. Only an accepted call fills them. */
static void test_pairs_of(const char *what, asking *call, size_t asked, size_t cells, uint32_t must, uint64_t place)
{
    uint16_t answer[ANSWER + 1];
    uint64_t value = UNTOUCHED;
    uint32_t number;
    size_t i, filled = must == LCA_ACCEPTED ? cells : 0;
    for (i = 0; i <= ANSWER; i++) {
        answer[i] = UNTOUCHED;
    }
    number = call(
        parents, PARTS, label, LABEL, tour, TOUR, lift, LIFT, order, ORDER, work, WORK, pairs, asked, answer, cells, &value);
    expect(what, number, must);
    expect_at("the value of pairs, by cells of the answer", cells, value, place);
    for (i = 0; i < filled; i++) {
        expect_at(what, i, answer[i], answers[i]);
    }
    for (i = filled; i <= ANSWER; i++) {
        expect_at(what, i, answer[i], UNTOUCHED);
    }
}

/* One cell a pair is too few, and so are two; one cell less or more in all does not fit either. An odd question is told first. */
static void test_pairs(const char *what, asking *call)
{
    test_pairs_of(what, call, ASKED, ANSWER, LCA_ACCEPTED, 0);
    test_pairs_of(what, call, 2, 3, LCA_ACCEPTED, 0);
    test_pairs_of(what, call, ASKED, PAIRS, LCA_MISFIT, 6);
    test_pairs_of(what, call, ASKED, 2 * PAIRS, LCA_MISFIT, 6);
    test_pairs_of(what, call, ASKED, ANSWER - 1, LCA_MISFIT, 6);
    test_pairs_of(what, call, ASKED, ANSWER + 1, LCA_MISFIT, 6);
    test_pairs_of(what, call, 2, 1, LCA_MISFIT, 6);
    test_pairs_of(what, call, ASKED - 1, ANSWER, LCA_MISFIT, 5);
    test_pairs_of(what, call, ASKED - 1, ANSWER - 3, LCA_MISFIT, 5);
}

static void test_list(void)
{
    static const uint16_t question[3] = {6, 5, 2};
    uint16_t answer = UNTOUCHED;
    uint64_t value = UNTOUCHED;
    uint32_t number = lca_list(
        parents, PARTS, label, LABEL, tour, TOUR, lift, LIFT, order, ORDER, work, WORK, question, 3, &answer, 1, &value);
    expect("lca_list", number, LCA_ACCEPTED);
    expect("lca_list's answer", answer, 2);
    expect("lca_list's value", value, 0);
}

/* The trail of 3 and 6 has three lifts: to 3 and 5, to 1 and 2, to 0 and 0. */
static void test_trail(void)
{
    static const uint16_t pair[2] = {3, 6}, rows[6] = {3, 5, 1, 2, 0, 0};
    uint16_t trail[LCA_TRAIL_CELLS] = {0}, answer = UNTOUCHED;
    uint64_t value = UNTOUCHED;
    size_t i;
    uint32_t number = lca_trail(
        parents, PARTS, label, LABEL, tour, TOUR, lift, LIFT, order, ORDER, work, WORK, pair, 2, &answer, 1, trail, LCA_TRAIL_CELLS,
        &value);
    expect("lca_trail", number, LCA_ACCEPTED);
    expect("lca_trail's count of lifts", value, 3);
    expect("lca_trail's answer", answer, 0);
    for (i = 0; i < 64; i++) {
        expect_at("trail", i, trail[i], i < 6 ? rows[i] : 65535);
    }
}

/* The answer to a list or a trail has one cell: three, as for a pair, are refused. */
static void test_one_cell(void)
{
    static const uint16_t pair[2] = {3, 6};
    uint16_t trail[LCA_TRAIL_CELLS] = {0}, answer[3] = {UNTOUCHED, UNTOUCHED, UNTOUCHED};
    uint64_t value = UNTOUCHED;
    size_t i;
    uint32_t number = lca_list(
        parents, PARTS, label, LABEL, tour, TOUR, lift, LIFT, order, ORDER, work, WORK, pair, 2, answer, 3, &value);
    expect("lca_list with three cells", number, LCA_MISFIT);
    expect("the place of lca_list with three cells", value, 6);
    value = UNTOUCHED;
    number = lca_trail(
        parents, PARTS, label, LABEL, tour, TOUR, lift, LIFT, order, ORDER, work, WORK, pair, 2, answer, 3, trail, LCA_TRAIL_CELLS,
        &value);
    expect("lca_trail with three cells", number, LCA_MISFIT);
    expect("the place of lca_trail with three cells", value, 6);
    for (i = 0; i < 3; i++) {
        expect_at("an answer of three cells to a list or a trail", i, answer[i], UNTOUCHED);
    }
}

static void test_answers(void)
{
    test_pairs("lca_pairs_by_labels", lca_pairs_by_labels);
    test_pairs("lca_pairs_by_tour", lca_pairs_by_tour);
    test_pairs("lca_pairs_by_lifts", lca_pairs_by_lifts);
    test_list();
    test_trail();
    test_one_cell();
}

#endif
