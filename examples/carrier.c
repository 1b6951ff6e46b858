/*
 * Prints the carrier, the lowest common ancestor, of each pair of parts on a sheet, with the branches by which it carries them: the parts
 * directly below it on the way to the one and to the other, or the carrier itself where it is that part. Then it prints the parts that the
 * first of these carriers carries: the whole assembly, itself first.
 *
 * Reads whitespace-separated numbers, 0 to 65535, from standard input: the count of parts, an entry for each part, and then the pairs.
 * examples/carrier.txt is such an input. Its output, in examples/carrier.out, is worked out by hand:
 *
 *     3 4: carrier 1, by 3 and 4
 *     3 6: carrier 0, by 1 and 2
 *     5 6: carrier 5, by 5 and 6
 *     0 6: carrier 0, by 0 and 2
 *     1 carries 1 3 4
 *
 * A refusal by the library is printed with its number, word and place. The exit status is 0 if every pair was answered, and 1 otherwise.
 *
 * From the top of the repository:
 *
 *     bash tools/build.sh lca
 *     cc -std=c99 -Wall -Wextra -Wpedantic -O2 -Iinclude examples/carrier.c target/staticlib/liblca.a -o target/carrier
 *     target/carrier < examples/carrier.txt
 */

#include "lca.h"

#include <ctype.h>
#include <inttypes.h>
#include <stdint.h>
#include <stdio.h>
#include <stdlib.h>

/* Cells that grow. `cells` is never null once `start` has succeeded. */
struct buffer {
    uint16_t *cells;
    size_t len;
    size_t room;
};

/* A sheet with its tables, and work. */
struct lent {
    const struct buffer *parents;
    struct buffer label, tour, lift, order, work;
};

enum reading { READ_NUMBER, READ_END, READ_FAILED };

/* Makes a buffer of `len` zero cells, with room for at least one. */
static int start(struct buffer *buffer, size_t len)
{
    buffer->room = len == 0 ? 1 : len;
    buffer->len = len;
    buffer->cells = calloc(buffer->room, sizeof *buffer->cells);
    return buffer->cells != NULL;
}

static int push(struct buffer *buffer, uint16_t cell)
{
    if (buffer->len == buffer->room) {
        if (buffer->room > SIZE_MAX / 2 / sizeof *buffer->cells) {
            return 0;
        }
        size_t room = 2 * buffer->room;
        uint16_t *cells = realloc(buffer->cells, room * sizeof *cells);
        if (cells == NULL) {
            return 0;
        }
        buffer->cells = cells;
        buffer->room = room;
    }
    buffer->cells[buffer->len++] = cell;
    return 1;
}

/* Reads the next number, or tells that the input ends before one. */
static enum reading read_number(uint16_t *number)
{
    uint32_t sum = 0;
    int c = getchar();
    while (c != EOF && isspace(c)) {
        c = getchar();
    }
    if (c == EOF) {
        return ferror(stdin) ? READ_FAILED : READ_END;
    }
    do {
        if (!isdigit(c)) {
            return READ_FAILED;
        }
        sum = 10 * sum + (uint32_t)(c - '0');
        if (sum > UINT16_MAX) {
            return READ_FAILED;
        }
        c = getchar();
    } while (c != EOF && !isspace(c));
    *number = (uint16_t)sum;
    return ferror(stdin) ? READ_FAILED : READ_NUMBER;
}

static int complain(const char *what)
{
    fprintf(stderr, "carrier: %s\n", what);
    return 0;
}

/* Reads the count of parts and their entries. */
static int read_sheet(struct buffer *parents)
{
    uint16_t n;
    if (read_number(&n) != READ_NUMBER) {
        return complain("the count of parts is missing, or no number from 0 to 65535");
    }
    for (uint16_t v = 0; v < n; v++) {
        uint16_t entry;
        if (read_number(&entry) != READ_NUMBER) {
            fprintf(stderr, "carrier: the entry of part %u is missing, or no number from 0 to 65535\n", (unsigned)v);
            return 0;
        }
        if (!push(parents, entry)) {
            return complain("out of memory");
        }
    }
    return 1;
}

/* Reads pairs until the input ends. */
static int read_pairs(struct buffer *question)
{
    for (;;) {
        uint16_t part;
        switch (read_number(&part)) {
        case READ_NUMBER:
            if (!push(question, part)) {
                return complain("out of memory");
            }
            break;
        case READ_END:
            return question->len % 2 == 0 || complain("the last pair has only one number");
        case READ_FAILED:
            return complain("a pair has what is no number from 0 to 65535");
        }
    }
}

/* Tells a refusal, if `number` is one. */
static int accepted(uint32_t number, uint64_t place)
{
    if (number != LCA_ACCEPTED) {
        printf("refused %" PRIu32 " (%s) at %" PRIu64 "\n", number, lca_word(number), place);
    }
    return number == LCA_ACCEPTED;
}

/* Builds the tables. */
static int build(struct lent *t)
{
    uint64_t value;
    uint32_t number = lca_build(
        t->parents->cells, t->parents->len, t->label.cells, t->label.len, t->tour.cells, t->tour.len, t->lift.cells, t->lift.len,
        t->order.cells, t->order.len, t->work.cells, t->work.len, &value);
    return accepted(number, value);
}

/* Asks for every pair at once. */
static int answer_pairs(struct lent *t, const struct buffer *question, struct buffer *answer)
{
    uint64_t value;
    uint32_t number = lca_pairs_by_labels(
        t->parents->cells, t->parents->len, t->label.cells, t->label.len, t->tour.cells, t->tour.len, t->lift.cells, t->lift.len,
        t->order.cells, t->order.len, t->work.cells, t->work.len, question->cells, question->len, answer->cells, answer->len, &value);
    return accepted(number, value);
}

/* Prints the answer to each pair: its carrier, and the branches towards both parts. */
static void print_answers(const struct buffer *question, const struct buffer *answer)
{
    for (size_t i = 0; i < question->len / 2; i++) {
        const uint16_t *pair = question->cells + 2 * i, *cells = answer->cells + LCA_ANSWER_CELLS * i;
        printf("%u %u: carrier %u, by %u and %u\n", (unsigned)pair[0], (unsigned)pair[1], (unsigned)cells[0], (unsigned)cells[1],
            (unsigned)cells[2]);
    }
}

/* Prints the parts that a part carries. They stand in the order table, one after another. */
static int print_carried(struct lent *t, uint16_t part)
{
    uint64_t first, count;
    uint32_t number = lca_subtree(
        t->parents->cells, t->parents->len, t->label.cells, t->label.len, t->tour.cells, t->tour.len, t->lift.cells, t->lift.len,
        t->order.cells, t->order.len, t->work.cells, t->work.len, part, &first, &count);
    if (!accepted(number, count)) {
        return 0;
    }
    printf("%u carries", (unsigned)part);
    for (uint64_t i = 0; i < count; i++) {
        printf(" %u", (unsigned)t->order.cells[first + i]);
    }
    printf("\n");
    return 1;
}

/* Answers every pair. There is one at least, or the library has refused the question. */
static int answer_all(struct lent *t, const struct buffer *question, struct buffer *answer)
{
    if (!build(t) || !answer_pairs(t, question, answer)) {
        return 0;
    }
    print_answers(question, answer);
    return print_carried(t, answer->cells[0]);
}

/* Makes the buffers for a sheet and its questions, and prints the answers. */
static int run(const struct buffer *parents, const struct buffer *question)
{
    size_t n = parents->len;
    struct lent t = {.parents = parents};
    struct buffer answer = {0};
    int done = 0;
    if (start(&t.label, lca_label_cells(n)) && start(&t.tour, lca_tour_cells(n)) && start(&t.lift, lca_lift_cells(n))
        && start(&t.order, lca_order_cells(n)) && start(&t.work, lca_work_cells(n))
        && start(&answer, LCA_ANSWER_CELLS * (question->len / 2))) {
        done = answer_all(&t, question, &answer);
    } else {
        complain("out of memory");
    }
    free(t.label.cells);
    free(t.tour.cells);
    free(t.lift.cells);
    free(t.order.cells);
    free(t.work.cells);
    free(answer.cells);
    return done;
}

int main(void)
{
    struct buffer parents = {0}, question = {0};
    int done = 0;
    if (!start(&parents, 0) || !start(&question, 0)) {
        complain("out of memory");
    } else if (read_sheet(&parents) && read_pairs(&question)) {
        done = run(&parents, &question);
    }
    free(parents.cells);
    free(question.cells);
    if (fflush(stdout) != 0 || ferror(stdout)) {
        complain("the output cannot be written");
        done = 0;
    }
    return done ? EXIT_SUCCESS : EXIT_FAILURE;
}
