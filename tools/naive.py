#!/usr/bin/env python3
"""How much `naive` has to hold, by arithmetic from its sizes and shapes alone: what it must print where the library and the plain climber agree.

    python3 tools/naive.py | diff - crates/naive/stdout
"""

SHAPES = ["chain", "star", "halves", "fan", "random", "vine"]
SIZES = [1, 2] + [2 ** k + d for k in range(2, 10) for d in (-1, 0, 1)]
LARGE = 16384

# Each shape with its parts in rising order and with their numbers permuted, at each size; and two large sheets, a chain and a random one.
SHEETS = [n for n in SIZES for _ in SHAPES for _ in ("rising", "permuted")] + [LARGE, LARGE]

# The buffers of each call whose length is exact, by their numbers: 1 label, 2 tour, 3 lift, 4 work, 5 question, 6 answer, 7 trail, 8 order.
TABLES = {1, 2, 3, 8}
PAIRS = TABLES | {4, 5, 6}
EXACT = {
    "check": {4},
    "build": TABLES | {4},
    "compare": TABLES | {4},
    "pairs by labels": PAIRS,
    "pairs by tour": PAIRS,
    "pairs by lifts": PAIRS,
    "trail": PAIRS | {7},
    "list": TABLES | {4, 6},
}
CALLS = len(EXACT)
LENT_TABLES = CALLS - 1
READING = CALLS - 2
ASKING = CALLS - 3


def log(n):
    """The logarithm to base 2, rounded down."""
    return n.bit_length() - 1


def cells(n):
    """The cells of the four tables of n parts."""
    label = 6 * n
    tour = (2 * n - 1) * (log(2 * n - 1) + 2) + n
    lift = n * (log(n) + 1)
    order = n
    return label + tour + lift + order


def pairs(n):
    """The pairs that are asked by three routes: all ordered pairs of a small sheet, some of a larger one."""
    return 3 * (n * n if n <= 17 else 300 if n <= 513 else 100)


def trails(n):
    return 20 if n <= 513 else 10


def lists(n):
    return 10 if n <= 513 else 5


def refusals(n):
    """The calls that are refused on a sheet of n parts."""
    sheet_of_no_parts_and_of_too_many = 2 * CALLS
    buffer_short_and_long = 2 * sum(map(len, EXACT.values()))
    two_unfit_buffers = LENT_TABLES
    entry_off_the_sheet_and_two = 2 * CALLS
    no_root_or_two_or_a_part_in_one_that_it_carries = 3 * CALLS if n > 1 else 0
    two_parts_in_each_other = CALLS if n > 2 else 0
    cell_of_each_table_and_two_cells = (len(TABLES) + 1) * READING
    empty_question = ASKING
    number_that_is_no_part_and_two = 2 * ASKING
    unfit_with_an_entry_off_the_sheet = LENT_TABLES
    loop_with_stale_cells_and_a_number_that_is_no_part = READING if n > 1 else 0
    stale_cells_with_an_empty_question_or_a_number_that_is_no_part = 2 * ASKING
    return (
        sheet_of_no_parts_and_of_too_many
        + buffer_short_and_long
        + two_unfit_buffers
        + entry_off_the_sheet_and_two
        + no_root_or_two_or_a_part_in_one_that_it_carries
        + two_parts_in_each_other
        + cell_of_each_table_and_two_cells
        + empty_question
        + number_that_is_no_part_and_two
        + unfit_with_an_entry_off_the_sheet
        + loop_with_stale_cells_and_a_number_that_is_no_part
        + stale_cells_with_an_empty_question_or_a_number_that_is_no_part
    )


def main():
    print("sheets", len(SHEETS))
    for held in (cells, pairs, trails, lists, refusals):
        print(held.__name__, sum(map(held, SHEETS)))
    print("disagreements", 0)


main()
