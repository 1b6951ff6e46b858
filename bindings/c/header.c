/*
 * Tests include/lca.h against the archive that is linked. Prints nothing and exits with 0 where all is right; otherwise it says on standard
 * error what is wrong, and exits with 1.
 *
 * It stands beside the tests of the Rust binding, since include/ has only what a user copies. It is one program with answers.h, which has
 * the tests of the calls that answer, lengths.h, which has those of the lengths, and known.h, which all share. It is compiled as C99 and
 * as C++ (.ci/run). By hand, from the top of the repository:
 *
 *     bash tools/build.sh lca
 *     cc -std=c99 -Wall -Wextra -Wpedantic -Werror -Iinclude bindings/c/header.c target/staticlib/liblca.a -o target/header
 *     target/header
 */

/* First, so that the header is seen to need no other. */
#include "lca.h"

#include "answers.h"
#include "known.h"
#include "lengths.h"

#include <stdio.h>
#include <stdlib.h>
#include <string.h>

#if LCA_VERSION < 1
#error "LCA_VERSION must be a number from 1 on that #if can read"
#endif

static void test_version(void)
{
    if (lca_version() != LCA_VERSION) {
        fprintf(stderr, "header: lca.h declares version %lu, and the archive has %lu: raise both, and make the archive again\n",
            (unsigned long)LCA_VERSION, (unsigned long)lca_version());
        all_right = 0;
    }
}

struct row {
    uint32_t name;
    const char *word;
};

/* The card has the numbers from 0 on, and each its word. The last row is off the card. */
static void test_card(void)
{
    static const struct row card[] = {
        {LCA_ACCEPTED, "accepted"},
        {LCA_BARE, "bare"},
        {LCA_OVERSIZE, "oversize"},
        {LCA_MISFIT, "misfit"},
        {LCA_OFF_SHEET, "off sheet"},
        {LCA_ROOTLESS, "rootless"},
        {LCA_SECOND_ROOT, "second root"},
        {LCA_LOOP, "loop"},
        {LCA_STALE, "stale"},
        {LCA_NOTHING_LISTED, "nothing listed"},
        {LCA_NO_SUCH_PART, "no such part"},
        {LCA_ADRIFT, "adrift"},
        {LCA_ILLEGIBLE, "illegible"},
        {13, "unknown"},
    };
    uint32_t i;
    for (i = 0; i < sizeof card / sizeof card[0]; i++) {
        expect_at("the card's number", i, card[i].name, i);
        if (strcmp(lca_word(i), card[i].word) != 0) {
            fprintf(stderr, "header: lca_word(%lu) is \"%s\" and must be \"%s\"\n", (unsigned long)i, lca_word(i), card[i].word);
            all_right = 0;
        }
    }
}

/* The tables are the known sheet's. */
static void test_compare(void)
{
    uint64_t value = UNTOUCHED;
    uint32_t number = lca_compare(parents, PARTS, label, LABEL, tour, TOUR, lift, LIFT, order, ORDER, work, WORK, &value);
    expect("lca_compare", number, LCA_ACCEPTED);
    expect("lca_compare's value", value, 0);
}

/* Builds the tables of the known sheet, of which the questions below are asked. A cell of each was worked out by hand. */
static void test_build(void)
{
    uint64_t value = UNTOUCHED;
    uint32_t number;
    expect("lca_check", lca_check(parents, PARTS, work, WORK, &value), LCA_ACCEPTED);
    expect("lca_check's value", value, 0);
    value = UNTOUCHED;
    number = lca_build(parents, PARTS, label, LABEL, tour, TOUR, lift, LIFT, order, ORDER, work, WORK, &value);
    expect("lca_build", number, LCA_ACCEPTED);
    expect("lca_build's value", value, 0);
    expect_at("label", 41, label[41], 6);
    expect_at("tour", 64, tour[64], 6);
    expect_at("lift", 13, lift[13], 2);
    expect_at("order", 4, order[4], 2);
    test_compare();
}

/* Asks for the subtree of a part, with so many cells of the order table. */
static void test_subtree_of(size_t part, size_t cells, uint32_t must, uint64_t start_must, uint64_t value_must)
{
    uint64_t start = UNTOUCHED, value = UNTOUCHED;
    uint32_t number = lca_subtree(
        parents, PARTS, label, LABEL, tour, TOUR, lift, LIFT, order, cells, work, WORK, part, &start, &value);
    expect_at("lca_subtree", part, number, must);
    expect_at("the start of the subtree", part, start, start_must);
    expect_at("the value of the subtree", part, value, value_must);
}

/* The parts in preorder are 0 1 3 4 2 5 6: part 2 carries the last three of them, part 6 the last alone. */
static void test_subtree(void)
{
    static const uint16_t carried[3] = {2, 5, 6};
    size_t i;
    test_subtree_of(0, ORDER, LCA_ACCEPTED, 0, 7);
    test_subtree_of(2, ORDER, LCA_ACCEPTED, 4, 3);
    test_subtree_of(6, ORDER, LCA_ACCEPTED, 6, 1);
    test_subtree_of(7, ORDER, LCA_NO_SUCH_PART, 0, 0);
    test_subtree_of(65536 + 2, ORDER, LCA_NO_SUCH_PART, 0, 0);
    test_subtree_of((size_t)-1, ORDER, LCA_NO_SUCH_PART, 0, 0);
    test_subtree_of(2, ORDER - 1, LCA_MISFIT, 0, 8);
    for (i = 0; i < 3; i++) {
        expect_at("order", 4 + i, order[4 + i], carried[i]);
    }
    test_compare();
}

/* What each part has worn, and the most that it can have. */
static const uint32_t counts[COUNTS] = {1, 2, 4, 8, 16, 32, 64};
static const uint32_t most[COUNTS] = {UINT32_MAX, UINT32_MAX, UINT32_MAX, UINT32_MAX, UINT32_MAX, UINT32_MAX, UINT32_MAX};

/* Asks for the totals of these counts. Part 1 carries 1 3 4, part 2 carries 2 5 6, part 5 carries 5 6, and the root all. */
static void test_totals_of(const uint32_t *worn, const uint64_t *must)
{
    uint64_t totals[TOTALS] = {UNTOUCHED, UNTOUCHED, UNTOUCHED, UNTOUCHED, UNTOUCHED, UNTOUCHED, UNTOUCHED}, value = UNTOUCHED;
    size_t i;
    expect("lca_totals", lca_totals(parents, PARTS, work, WORK, worn, COUNTS, totals, TOTALS, &value), LCA_ACCEPTED);
    expect("lca_totals's value", value, 0);
    for (i = 0; i < TOTALS; i++) {
        expect_at("totals", i, totals[i], must[i]);
    }
}

/* A sheet, work, counts and totals of which the first so many cells are lent are refused, and the totals stay as they were. */
static void test_totals_refused(
    const uint16_t *sheet, size_t parts, size_t work_len, size_t counts_len, size_t totals_len, uint32_t must, uint64_t place)
{
    uint64_t totals[TOTALS] = {UNTOUCHED, UNTOUCHED, UNTOUCHED, UNTOUCHED, UNTOUCHED, UNTOUCHED, UNTOUCHED}, value = UNTOUCHED;
    size_t i;
    expect("lca_totals of what is refused", lca_totals(sheet, parts, work, work_len, counts, counts_len, totals, totals_len, &value), must);
    expect("the place of refused totals", value, place);
    for (i = 0; i < TOTALS; i++) {
        expect_at("totals after a refusal", i, totals[i], UNTOUCHED);
    }
}

/* 7, 3 and 2 times the most that a part can have worn are more than 32 bits hold. */
static void test_totals(void)
{
    static const uint64_t must[TOTALS] = {127, 26, 100, 8, 16, 96, 64};
    static const uint64_t must_of_most[TOTALS] = {
        UINT64_C(30064771065), UINT64_C(12884901885), UINT64_C(12884901885), UINT32_MAX, UINT32_MAX, UINT64_C(8589934590), UINT32_MAX};
    static const uint16_t loop[3] = {0, 2, 1};
    test_totals_of(counts, must);
    test_totals_of(most, must_of_most);
    test_totals_refused(loop, 3, 12, 3, 3, LCA_LOOP, 1);
    test_totals_refused(parents, PARTS, WORK - 1, COUNTS - 1, TOTALS - 1, LCA_MISFIT, 4);
    test_totals_refused(parents, PARTS, WORK, COUNTS - 1, TOTALS - 1, LCA_MISFIT, 9);
    test_totals_refused(parents, PARTS, WORK, COUNTS, TOTALS - 1, LCA_MISFIT, 10);
}

/* Parts 1 and 2 are bolted into each other. The refusal changes no table: what was lent is still the known sheet's. */
static void test_refusal(void)
{
    static const uint16_t loop[3] = {0, 2, 1};
    uint64_t value = UNTOUCHED;
    expect("lca_build of a loop", lca_build(loop, 3, label, 18, tour, 23, lift, 6, order, 3, work, 12, &value), LCA_LOOP);
    expect("the loop's place", value, 1);
    test_compare();
}

int main(void)
{
    test_version();
    test_lengths();
    test_card();
    test_build();
    test_answers();
    test_subtree();
    test_totals();
    test_refusal();
    return all_right ? EXIT_SUCCESS : EXIT_FAILURE;
}
