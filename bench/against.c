/*
 * Times compare and build on the benchmark's kinds of sheet, with whichever liblca.a it is linked with. bench/against.py links it with
 * two of them and runs both by turns. It prints a line for each sheet: parts, shape, and the nanoseconds of one compare and one build.
 */

#define _POSIX_C_SOURCE 200112L

#include "lca.h"

#include <stdint.h>
#include <stdio.h>
#include <stdlib.h>
#include <time.h>

enum { CHAIN, STAR, RANDOM, SHAPES };
enum { ROUNDS = 201 };

static const char *const names[SHAPES] = {"chain", "star", "random"};
static const size_t sizes[] = {64, 512, 4096, 16384};

/* A sheet with its tables, and work. */
struct lent {
    uint16_t *parents, *label, *tour, *lift, *order, *work;
    size_t parts, label_cells, tour_cells, lift_cells, order_cells, work_cells;
};

static uint64_t state = UINT64_C(88172645463325252);

/* A number below `bound`, the same ones in every run (xorshift). */
static size_t below(size_t bound)
{
    state ^= state << 13;
    state ^= state >> 7;
    state ^= state << 17;
    return (size_t)(state % bound);
}

static uint16_t *cells(size_t count)
{
    uint16_t *made = calloc(count, sizeof *made);
    if (made == NULL) {
        exit(2);
    }
    return made;
}

/* Each part's entry is any earlier part; then all numbers are shuffled. */
static void fill_random(uint16_t *parents, size_t n)
{
    uint16_t *name = cells(n);
    for (size_t v = 0; v < n; v++) {
        name[v] = (uint16_t)v;
    }
    for (size_t v = n - 1; v > 0; v--) {
        size_t w = below(v + 1);
        uint16_t kept = name[v];
        name[v] = name[w];
        name[w] = kept;
    }
    parents[name[0]] = name[0];
    for (size_t v = 1; v < n; v++) {
        parents[name[v]] = name[below(v)];
    }
    free(name);
}

static void fill_sheet(uint16_t *parents, size_t n, int shape)
{
    if (shape == RANDOM) {
        fill_random(parents, n);
        return;
    }
    for (size_t v = 0; v < n; v++) {
        parents[v] = (uint16_t)(shape == STAR || v == 0 ? 0 : v - 1);
    }
}

static uint32_t build(const struct lent *t)
{
    uint64_t value;
    return lca_build(t->parents, t->parts, t->label, t->label_cells, t->tour, t->tour_cells, t->lift, t->lift_cells,
                     t->order, t->order_cells, t->work, t->work_cells, &value);
}

static uint32_t compare(const struct lent *t)
{
    uint64_t value;
    return lca_compare(t->parents, t->parts, t->label, t->label_cells, t->tour, t->tour_cells, t->lift, t->lift_cells,
                       t->order, t->order_cells, t->work, t->work_cells, &value);
}

/* The nanoseconds of one call, over as many as take some 300 microseconds or more. */
static double timed(uint32_t (*call)(const struct lent *), const struct lent *t)
{
    struct timespec from, to;
    size_t repeats = 1 + 20000 / t->parts;
    clock_gettime(CLOCK_MONOTONIC, &from);
    for (size_t i = 0; i < repeats; i++) {
        if (call(t) != LCA_ACCEPTED) {
            exit(1);
        }
    }
    clock_gettime(CLOCK_MONOTONIC, &to);
    return ((double)(to.tv_sec - from.tv_sec) * 1e9 + (double)(to.tv_nsec - from.tv_nsec)) / (double)repeats;
}

static int rising(const void *a, const void *b)
{
    double x = *(const double *)a, y = *(const double *)b;
    return (x > y) - (x < y);
}

/* The lower quartile of many rounds: what other programs take from the core does not count. */
static double quartile(uint32_t (*call)(const struct lent *), const struct lent *t)
{
    static double rounds[ROUNDS];
    for (int i = 0; i < ROUNDS; i++) {
        rounds[i] = timed(call, t);
    }
    qsort(rounds, ROUNDS, sizeof *rounds, rising);
    return rounds[ROUNDS / 4];
}

static void measure(size_t n, int shape)
{
    struct lent t = {
        .parts = n,
        .label_cells = lca_label_cells(n),
        .tour_cells = lca_tour_cells(n),
        .lift_cells = lca_lift_cells(n),
        .order_cells = lca_order_cells(n),
        .work_cells = lca_work_cells(n),
    };
    t.parents = cells(n);
    t.label = cells(t.label_cells);
    t.tour = cells(t.tour_cells);
    t.lift = cells(t.lift_cells);
    t.order = cells(t.order_cells);
    t.work = cells(t.work_cells);
    fill_sheet(t.parents, n, shape);
    double built = quartile(build, &t);
    printf("%zu %s %.1f %.1f\n", n, names[shape], quartile(compare, &t), built);
    free(t.parents);
    free(t.label);
    free(t.tour);
    free(t.lift);
    free(t.order);
    free(t.work);
}

int main(void)
{
    for (size_t i = 0; i < sizeof sizes / sizeof *sizes; i++) {
        for (int shape = 0; shape < SHAPES; shape++) {
            measure(sizes[i], shape);
        }
    }
    return 0;
}
