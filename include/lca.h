/*
 * Lowest common ancestors in a rooted tree of 1 to 16,384 nodes, in the words of a parts sheet.
 *
 *   part     a node of the tree; n parts have the numbers 0 to n - 1
 *   sheet    the tree, as an array of n entries: entry v is the part into which part v is bolted, its parent
 *   root     the part that names itself: its entry is its own number
 *   level    the steps from a part up to the root; a step goes from a part to its entry
 *   carries  a part carries itself and all that is bolted into what it carries: it is an ancestor of each
 *   subtree  of a part, the parts that it carries
 *   carrier  of two parts, or of a list, their lowest common ancestor: their common carrier that all their other common carriers carry
 *   branch   of a carrier towards a part that it carries: the part directly below the carrier on the way to that part; the carrier itself
 *            where the part is the carrier
 *   route    a way to find the carrier of a pair. There are three, and they give the same answers:
 *              by labels  B. Schieber and U. Vishkin, "On finding lowest common ancestors: simplification and parallelization",
 *                         SIAM Journal on Computing 17 (1988)
 *              by tour    M. A. Bender and M. Farach-Colton, "The LCA problem revisited", LATIN 2000
 *              by lifts   the deeper part is raised to the other's level by falling powers of two. If the parts then differ, both are
 *                         raised by falling powers of two while they stay different, and then both by one
 *   lift     one such raise, of one part or of both
 *   trail    the lifts of a pair in order: after each, where the two parts are
 *   preorder an order of the parts: the root first; a part before all else that it carries; of two parts with the same entry, the lower
 *            number with all it carries before the other with all it carries
 *   count    of a part, its wear, a whole number of 32 bits
 *   total    of a part, the wear of its assembly, in 64 bits: the sum of the counts of all parts that it carries
 *
 * Link with target/staticlib/liblca.a, which `bash tools/build.sh lca` makes.
 *
 *
 * Buffers
 *
 * Each buffer is a pointer and a length, in cells. A cell is a uint16_t, but a uint32_t in counts and a uint64_t in totals. Lengths are
 * exact; for n parts, 1 to LCA_MOST_PARTS, they are:
 *
 *   buffer    cells                      what it holds
 *   parents   n                          the sheet
 *   label     lca_label_cells(n)         PREORDER, SIZE, LEVEL, INLABEL, ASCENDANT and HEAD, n cells each
 *   tour      lca_tour_cells(n)          the 2n - 1 visits, each part's first position, and row k: from each position on, the first of
 *                                        least level among 2^k
 *   lift      lca_lift_cells(n)          row k: each part's carrier 2^k steps up, or the root if that is nearer
 *   order     lca_order_cells(n)         the parts in preorder
 *   work      lca_work_cells(n)          the call's own room: what it holds before makes no difference
 *   question  2 for each pair            the pairs, one after another: x, y, x, y, ..
 *             2 for a trail              x, y
 *             any for a list             the listed parts
 *   answer    3 for each pair            pair by pair in the question's order: the carrier, the branch towards x, the branch towards y
 *             1 for a list or a trail    the carrier
 *   trail     LCA_TRAIL_CELLS            two cells for each lift, x's side and then y's; LCA_NO_CELL after the last
 *   counts    lca_counts_cells(n)        each part's count
 *   totals    lca_totals_cells(n)        each part's total
 *
 * Any other length is refused, and so is any content that a call cannot answer. The caller owes only this:
 *
 *   - No pointer is null, even for length 0. Each is aligned for its type, and points to as many cells as its length says.
 *   - A buffer that a call writes overlaps no other buffer; `value` and `start` overlap none, nor each other. Buffers that are const in a
 *     call may overlap one another.
 *
 * Calls keep nothing between them and may run at the same time, on buffers of their own. Const buffers may be shared.
 *
 *
 * Results
 *
 * A call returns LCA_ACCEPTED, or the number of its refusal, by the card below. It always sets *value: to the refusal's place, to an
 * accepted trail's count of lifts, to an accepted subtree's count of parts, or to 0.
 *
 * An accepted call fills every cell of what it was lent to fill. A refused one changes no table, answer, trail or total. `work` is all
 * zero afterwards, but unchanged after refusals 1 to 3.
 */

#ifndef LCA_H
#define LCA_H

#include <stddef.h>
#include <stdint.h>

#ifdef __cplusplus
extern "C" {
#endif

/*
 * The version of the C interface that this header declares. Every change of a call, of a length or of a number's meaning raises it.
 * lca_version() gives that of the archive which is linked. A program may compare both before its first call.
 */
#define LCA_VERSION 4

uint32_t lca_version(void);

/*
 * The card of numbers. Tests run in this order, as far as the call has such input, and the first that fails gives its number. What the
 * place is stands beside each. A name is the operator's word for its number (lca_word), and the Rust crate's name, with LCA_ before it.
 */
enum lca_number {
    LCA_ACCEPTED = 0,
    LCA_BARE = 1,           /* the sheet has no part; 0 */
    LCA_OVERSIZE = 2,       /* the sheet has more than LCA_MOST_PARTS parts; 0 */
    LCA_MISFIT = 3,         /* a buffer hasn't its exact length; the lowest such buffer of 1 label, 2 tour, 3 lift, 4 work, 5 question,
                               6 answer, 7 trail, 8 order, 9 counts, 10 totals */
    LCA_OFF_SHEET = 4,      /* an entry is n or more; the lowest part with such an entry */
    LCA_ROOTLESS = 5,       /* no part names itself; 0 */
    LCA_SECOND_ROOT = 6,    /* two or more parts name themselves; the second lowest of them */
    LCA_LOOP = 7,           /* a part's climb never meets the root; the lowest such part */
    LCA_STALE = 8,          /* a table's cell isn't this sheet's; the first such cell from 0, label, tour, lift and order end to
                               end */
    LCA_NOTHING_LISTED = 9, /* the question is empty; 0 */
    LCA_NO_SUCH_PART = 10,  /* a number in the question is n or more; the first such position in the question, from 0. Or the part of
                               lca_subtree is; 0 */
    LCA_ADRIFT = 11,        /* the parts asked for have no common carrier; 0. No sheet that passes the tests before has such parts */
    LCA_ILLEGIBLE = 12      /* the program `report` alone gives this one: a line breaks its forms; the line's number from 1 */
};

enum {
    LCA_MOST_PARTS = 16384, /* the most parts that a sheet can have */
    LCA_ANSWER_CELLS = 3,   /* the cells of a pair's answer: the carrier, the branch towards x, the branch towards y */
    LCA_TRAIL_CELLS = 64,   /* the cells of a trail buffer: 32 rows of two */
    LCA_NO_CELL = 65535     /* what a cell holds that stands for nothing */
};

/*
 * The lengths of the buffers for n parts. There are no tables for 0 parts, nor for more than LCA_MOST_PARTS: each function then gives 0.
 */

static inline int lca_has_tables(size_t n)
{
    return n != 0 && n <= LCA_MOST_PARTS;
}

/*
 * How many zeros stand above the highest one of m in its 64 bits; 64 for m = 0. The highest one is copied to all places below it, so that
 * only those zeros are left. They are the ones of the complement, which are counted in every two bits, four, and so on up to all 64.
 */
static inline size_t lca_leading_zeros(uint64_t m)
{
    m |= m >> 1;
    m |= m >> 2;
    m |= m >> 4;
    m |= m >> 8;
    m |= m >> 16;
    m |= m >> 32;
    m = ~m;
    m = (m & 0x5555555555555555) + ((m >> 1) & 0x5555555555555555);
    m = (m & 0x3333333333333333) + ((m >> 2) & 0x3333333333333333);
    m = (m & 0x0f0f0f0f0f0f0f0f) + ((m >> 4) & 0x0f0f0f0f0f0f0f0f);
    m = (m & 0x00ff00ff00ff00ff) + ((m >> 8) & 0x00ff00ff00ff00ff);
    m = (m & 0x0000ffff0000ffff) + ((m >> 16) & 0x0000ffff0000ffff);
    return (size_t)((m & 0x00000000ffffffff) + (m >> 32));
}

/* The logarithm of m to base 2, rounded down; 0 for m = 0. Setting the lowest bit gives 0 the logarithm of 1, and changes no other one. */
static inline size_t lca_log(size_t m)
{
    return 63 - lca_leading_zeros((uint64_t)m | 1);
}

/* 6n */
static inline size_t lca_label_cells(size_t n)
{
    return lca_has_tables(n) ? 6 * n : 0;
}

/* (2n - 1)(t + 2) + n, where t = log(2n - 1) */
static inline size_t lca_tour_cells(size_t n)
{
    return lca_has_tables(n) ? (2 * n - 1) * (lca_log(2 * n - 1) + 2) + n : 0;
}

/* n(l + 1), where l = log n */
static inline size_t lca_lift_cells(size_t n)
{
    return lca_has_tables(n) ? n * (lca_log(n) + 1) : 0;
}

/* n */
static inline size_t lca_order_cells(size_t n)
{
    return lca_has_tables(n) ? n : 0;
}

/* 4n */
static inline size_t lca_work_cells(size_t n)
{
    return lca_has_tables(n) ? 4 * n : 0;
}

/* n */
static inline size_t lca_counts_cells(size_t n)
{
    return lca_has_tables(n) ? n : 0;
}

/* n */
static inline size_t lca_totals_cells(size_t n)
{
    return lca_has_tables(n) ? n : 0;
}

/* The operator's word for a number: "accepted" for 0, "unknown" for one off the card. */
static inline const char *lca_word(uint32_t number)
{
    switch (number) {
    case LCA_ACCEPTED: return "accepted";
    case LCA_BARE: return "bare";
    case LCA_OVERSIZE: return "oversize";
    case LCA_MISFIT: return "misfit";
    case LCA_OFF_SHEET: return "off sheet";
    case LCA_ROOTLESS: return "rootless";
    case LCA_SECOND_ROOT: return "second root";
    case LCA_LOOP: return "loop";
    case LCA_STALE: return "stale";
    case LCA_NOTHING_LISTED: return "nothing listed";
    case LCA_NO_SUCH_PART: return "no such part";
    case LCA_ADRIFT: return "adrift";
    case LCA_ILLEGIBLE: return "illegible";
    default: return "unknown";
    }
}

/* Accepts a sheet that is one rooted tree. Tests 1 to 7. Writes: work. */
uint32_t lca_check(
    const uint16_t *parents, size_t parents_len,
    uint16_t *work, size_t work_len,
    uint64_t *value);

/* Fills the four tables with the sheet's own cells. Tests 1 to 7. Writes: label, tour, lift, order, work. */
uint32_t lca_build(
    const uint16_t *parents, size_t parents_len,
    uint16_t *label, size_t label_len,
    uint16_t *tour, size_t tour_len,
    uint16_t *lift, size_t lift_len,
    uint16_t *order, size_t order_len,
    uint16_t *work, size_t work_len,
    uint64_t *value);

/* Accepts tables that are the sheet's own in every cell. Tests 1 to 8. Writes: work. */
uint32_t lca_compare(
    const uint16_t *parents, size_t parents_len,
    const uint16_t *label, size_t label_len,
    const uint16_t *tour, size_t tour_len,
    const uint16_t *lift, size_t lift_len,
    const uint16_t *order, size_t order_len,
    uint16_t *work, size_t work_len,
    uint64_t *value);

/*
 * The calls that answer. Tests 1 to 11. Writes: work, answer.
 *
 * Each first tests the sheet and compares the tables with it, once whatever the number of its questions. That takes time in proportion to
 * the tables. Only a further pair of the same call costs little: so ask many pairs in one call. As docs/PERFORMANCE.md measured it on its
 * machine, on random sheets:
 *
 *                           a call with one pair,   each further pair of the same call,
 *   parts    table cells    by any route            by labels   by tour   by lifts
 *       64         1,976      2 microseconds        31 ns       19 ns      33 ns
 *   16,384       901,104    350 microseconds        29 ns       22 ns      36 ns
 */

/* The carrier of each pair and its branches towards x and y, by labels. A further pair takes constant time. */
uint32_t lca_pairs_by_labels(
    const uint16_t *parents, size_t parents_len,
    const uint16_t *label, size_t label_len,
    const uint16_t *tour, size_t tour_len,
    const uint16_t *lift, size_t lift_len,
    const uint16_t *order, size_t order_len,
    uint16_t *work, size_t work_len,
    const uint16_t *question, size_t question_len,
    uint16_t *answer, size_t answer_len,
    uint64_t *value);

/* The carrier of each pair and its branches towards x and y, by the tour. A further pair takes constant time. */
uint32_t lca_pairs_by_tour(
    const uint16_t *parents, size_t parents_len,
    const uint16_t *label, size_t label_len,
    const uint16_t *tour, size_t tour_len,
    const uint16_t *lift, size_t lift_len,
    const uint16_t *order, size_t order_len,
    uint16_t *work, size_t work_len,
    const uint16_t *question, size_t question_len,
    uint16_t *answer, size_t answer_len,
    uint64_t *value);

/*
 * The carrier of each pair and its branches towards x and y, by lifts. A further pair takes up to about 2 log n + 2 steps, and constant
 * time for the branches.
 */
uint32_t lca_pairs_by_lifts(
    const uint16_t *parents, size_t parents_len,
    const uint16_t *label, size_t label_len,
    const uint16_t *tour, size_t tour_len,
    const uint16_t *lift, size_t lift_len,
    const uint16_t *order, size_t order_len,
    uint16_t *work, size_t work_len,
    const uint16_t *question, size_t question_len,
    uint16_t *answer, size_t answer_len,
    uint64_t *value);

/* The carrier of all the listed parts. A further part takes constant time. */
uint32_t lca_list(
    const uint16_t *parents, size_t parents_len,
    const uint16_t *label, size_t label_len,
    const uint16_t *tour, size_t tour_len,
    const uint16_t *lift, size_t lift_len,
    const uint16_t *order, size_t order_len,
    uint16_t *work, size_t work_len,
    const uint16_t *question, size_t question_len,
    uint16_t *answer, size_t answer_len,
    uint64_t *value);

/* The carrier of one pair, its trail, and in *value the count of its lifts. Writes trail too. */
uint32_t lca_trail(
    const uint16_t *parents, size_t parents_len,
    const uint16_t *label, size_t label_len,
    const uint16_t *tour, size_t tour_len,
    const uint16_t *lift, size_t lift_len,
    const uint16_t *order, size_t order_len,
    uint16_t *work, size_t work_len,
    const uint16_t *question, size_t question_len,
    uint16_t *answer, size_t answer_len,
    uint16_t *trail, size_t trail_len,
    uint64_t *value);

/*
 * The subtree of a part: where it stands in the order table that was lent. Tests 1 to 8, and 10 of `part`, at 0. Writes: work.
 *
 * Of an accepted call *value is the count of the parts that `part` carries, 1 or more, and *start the cell at which they begin: they are
 * order[*start] to order[*start + *value - 1], in preorder, and the first of them is `part`. Nothing is copied. After a refusal *start is 0.
 *
 * It compares the tables as a call that answers does, and that is nearly all its time.
 */
uint32_t lca_subtree(
    const uint16_t *parents, size_t parents_len,
    const uint16_t *label, size_t label_len,
    const uint16_t *tour, size_t tour_len,
    const uint16_t *lift, size_t lift_len,
    const uint16_t *order, size_t order_len,
    uint16_t *work, size_t work_len,
    size_t part,
    uint64_t *start,
    uint64_t *value);

/*
 * Wear by assembly: each part's total, the sum of the counts of all parts that it carries. Tests 1 to 7. Writes: totals, work.
 *
 * The root's total is the sum of all counts. No total wraps: LCA_MOST_PARTS counts of 32 bits come to less than 2^46. The call is lent no
 * tables, and what totals held before makes no difference.
 */
uint32_t lca_totals(
    const uint16_t *parents, size_t parents_len,
    uint16_t *work, size_t work_len,
    const uint32_t *counts, size_t counts_len,
    uint64_t *totals, size_t totals_len,
    uint64_t *value);

#ifdef __cplusplus
}
#endif

#endif
