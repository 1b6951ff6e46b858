#!/usr/bin/env python3
"""A plain model of document 01's tests, of the four tables and of the answers, written apart from the library: what `known` must print.

    python3 tools/known.py | diff - crates/known/stdout

It takes each definition as it stands, climbs part by part, scans block by block and shares nothing with crates/. It reads the small sheets
from crates/known/stdin and makes the large ones. Of the tables of the large ones it says only what follows from the definitions: a sheet's own
tables are accepted, and a changed cell is stale at its place. An answer is the carrier, by whatever route it is asked: no route's rule is here but
that of lifts, for its trail. A subtree is what the part carries, kept in the order of the order table (document 02, 2026-01). A total is the sum of
the counts of all parts that the part carries (2026-02); of the large sheets, what a walk has counted between coming to the part and leaving it. Behind
a pair's carrier stand its branches (2026-03): where a climb from x, and from y, stands when its next step is to the carrier.
"""
import os
import re

LIMIT = 16384
NO_CELL = 65535
NUMBERS = 640
BUFFERS = [1, 2, 3, 8, 4]  # the numbers of label, tour, lift, order and work, which stand in this order wherever they are lent
TABLES = 4
ROOM = [192, 480, 192, 32, 128]
ROOM_OF_ANSWER = 768
ROOM_OF_TRAIL = [3, 65]
ROOM_OF_TOTALS = [128, 32, 32]  # of work, counts and totals
LARGEST_COUNT = 4294967295
MIXING = 4294967291
PRINTED_WHOLE = 32


# The tests.

def climbs_to(root, parents, v):
    """Whether v's climb meets the root: no climb takes n steps to get there."""
    for _ in parents:
        if v == root:
            return True
        v = parents[v]
    return False


def log(n):
    """The logarithm to base 2, rounded down."""
    k = 0
    while 2 ** (k + 1) <= n:
        k += 1
    return k


def exact(n):
    """The cells of label, tour, lift, order and work for n parts."""
    return [6 * n, (2 * n - 1) * (log(2 * n - 1) + 2) + n, n * (log(n) + 1), n, 4 * n]


def misfit(lent, wanted, further):
    """The number of the lowest buffer that has not its exact length, or None; a buffer that is not lent is None; further is that of the others, or None."""
    unfit = [buffer for buffer, cells, right in zip(BUFFERS, lent, wanted) if cells is not None and cells != right]
    if further is not None:
        unfit.append(further)
    return min(unfit, default=None)


def refusal(parents, lent, further=None):
    """The number and place of the first of tests 1 to 7 that fails, or None; further is the lowest of buffers 5 to 7 that does not fit, or None."""
    n = len(parents)
    if n == 0:
        return 1, 0
    if n > LIMIT:
        return 2, 0
    buffer = misfit(lent, exact(n), further)
    if buffer is not None:
        return 3, buffer
    for v, entry in enumerate(parents):
        if entry >= n:
            return 4, v
    roots = [v for v, entry in enumerate(parents) if entry == v]
    if not roots:
        return 5, 0
    if len(roots) > 1:
        return 6, roots[1]
    met = set(roots)
    for v in range(n):
        if v in met:
            continue
        if not climbs_to(roots[0], parents, v):
            return 7, v
        while v not in met:
            met.add(v)
            v = parents[v]
    return None


def stale(parents, tables, lent, further=None):
    """The same of tests 1 to 8, with the lent tables end to end, or None for tables that are the sheet's own."""
    why = refusal(parents, lent, further)
    if why is not None or tables is None:
        return why
    for place, (cell, own) in enumerate(zip(tables, sum(own_tables(parents), []))):
        if cell != own:
            return 8, place
    return None


def lowest_unfit(fits):
    """The lowest buffer that does not fit, from whether each does, or None."""
    return next((buffer for buffer in sorted(fits) if not fits[buffer]), None)


def unfit(kind, question, answer, trail):
    """The lowest of question, answer and trail, buffers 5 to 7, that has not its exact length, by their cells, or None."""
    if kind == "m":
        fits = {6: answer == 1}
    elif kind == "r":
        fits = {5: question == 2, 6: answer == 1, 7: trail == 64}
    else:
        fits = {5: question % 2 == 0, 6: 2 * answer == 3 * question}
    return lowest_unfit(fits)


def unfit_of_totals(n, counts, totals):
    """The same of counts and totals, buffers 9 and 10, each of which has a cell for each of n parts."""
    return lowest_unfit({9: counts == n, 10: totals == n})


def asked(parents, why, question):
    """The same of tests 1 to 10, from that of tests 1 to 8. Test 11 is never met: the root carries every part."""
    if why is not None:
        return why
    if not question:
        return 9, 0
    for position, part in enumerate(question):
        if part >= len(parents):
            return 10, position
    return None


# The tables.

def climb(parents, v, steps):
    """The part that many steps up, staying at the root."""
    for _ in range(steps):
        v = parents[v]
    return v


def carriers(parents, v):
    """The parts that carry v, from v to the root."""
    found = [v]
    while parents[v] != v:
        v = parents[v]
        found.append(v)
    return found


def bolted_into(parents, v):
    """The parts whose entry is v, the root apart, in rising number."""
    return [c for c, entry in enumerate(parents) if entry == v and c != v]


def walk(parents, v):
    """The tour from v: v, and after each part that is bolted into it v again."""
    visits = [v]
    for c in bolted_into(parents, v):
        visits += walk(parents, c) + [v]
    return visits


def rightmost_zeros(k):
    """How many zero bits stand right of the lowest one bit of k."""
    zeros = 0
    while k % 2 == 0:
        k //= 2
        zeros += 1
    return zeros


def own_tables(parents):
    """The label, tour, lift and order tables of one rooted tree."""
    parts = range(len(parents))
    root = next(v for v in parts if parents[v] == v)
    visits = walk(parents, root)
    level = [len(carriers(parents, v)) - 1 for v in parts]
    return [label_table(parents, root, visits, level), tour_table(parts, visits, level), lift_table(parents), order_table(parents)]


def label_table(parents, root, visits, level):
    """PREORDER, SIZE, LEVEL, INLABEL, ASCENDANT, HEAD."""
    parts = range(len(parents))
    order = sorted(parts, key=visits.index)
    preorder = [order.index(v) + 1 for v in parts]
    size = [sum(v in carriers(parents, u) for u in parts) for v in parts]
    inlabel = [max(range(preorder[v], preorder[v] + size[v]), key=rightmost_zeros) for v in parts]
    ascendant = [0 for _ in parts]
    for v in order:
        if v == root:
            ascendant[v] = 2 ** log(len(parents))
        elif inlabel[v] == inlabel[parents[v]]:
            ascendant[v] = ascendant[parents[v]]
        else:
            ascendant[v] = ascendant[parents[v]] + 2 ** rightmost_zeros(inlabel[v])
    head = []
    for k in range(1, len(parents) + 1):
        labelled = [v for v in parts if inlabel[v] == k]
        head.append(min(labelled, key=lambda v: level[v]) if labelled else NO_CELL)
    return preorder + size + level + inlabel + ascendant + head


def tour_table(parts, visits, level):
    """E, R, and the rows of leftmost positions of least LEVEL."""
    table = visits + [visits.index(v) for v in parts]
    for j in range(log(len(visits)) + 1):
        for i in range(len(visits)):
            block = range(i, i + 2 ** j)
            table.append(min(block, key=lambda p: level[visits[p]]) if block[-1] < len(visits) else NO_CELL)
    return table


def lift_table(parents):
    """Each part's carrier 2^k steps up, row by row."""
    return [climb(parents, v, 2 ** k) for k in range(log(len(parents)) + 1) for v in range(len(parents))]


def order_table(parents):
    """The parts in preorder, by their ways down from the root: a way stands before all that go on from it, and of two that part the one to the lower number."""
    return sorted(range(len(parents)), key=lambda v: carriers(parents, v)[::-1])


def walked_order(parents):
    """The same by a walk that holds the parts still to come, for sheets on which all ways together are too long."""
    into = {v: [] for v in range(len(parents))}
    coming = []
    for v, entry in enumerate(parents):
        (coming if v == entry else into[entry]).append(v)
    order = []
    while coming:
        v = coming.pop()
        order.append(v)
        coming += reversed(into[v])
    return order


# The answers.

def carrier(parents, parts):
    """The first part on the climb of one of them that carries all of them."""
    above = [set(carriers(parents, v)) for v in parts]
    return next(c for c in carriers(parents, parts[0]) if all(c in found for found in above))


def branch(parents, common, v):
    """The part directly below the carrier on the way to v, or the carrier itself where v is the carrier."""
    if v == common:
        return common
    at = v
    while parents[at] != common:
        at = parents[at]
    assert at in bolted_into(parents, common)
    assert at in carriers(parents, v)
    return at


def level_of(parents, v):
    """The number of steps to the root."""
    return len(carriers(parents, v)) - 1


def ones(m):
    """The count of one bits."""
    return bin(m).count("1")


def trail(parents, x, y):
    """The rows of a pair's trail: each raise, x's side and then y's side after it."""
    levels = [level_of(parents, x), level_of(parents, y)]
    common = carrier(parents, [x, y])
    powers = [2 ** k for k in reversed(range(log(len(parents)) + 1))]
    rows = []
    for power in powers:
        apart = level_of(parents, x) - level_of(parents, y)
        if apart >= power:
            x = climb(parents, x, power)
            rows.append((x, y))
        elif -apart >= power:
            y = climb(parents, y, power)
            rows.append((x, y))
    if x != y:
        for power in powers:
            if climb(parents, x, power) != climb(parents, y, power):
                x, y = climb(parents, x, power), climb(parents, y, power)
                rows.append((x, y))
        x, y = parents[x], parents[y]
        rows.append((x, y))
    down = min(levels) - level_of(parents, common)
    assert x == y == common
    assert len(rows) == ones(abs(levels[0] - levels[1])) + (ones(down - 1) + 1 if down > 0 else 0)
    return rows


def subtree(parents, v):
    """The parts that v carries, as the order table has them, and where they begin in it: they stand there without a gap."""
    order = order_table(parents)
    carried = [u for u in order if v in carriers(parents, u)]
    start = order.index(v)
    assert order == walked_order(parents)
    assert order[start:start + len(carried)] == carried
    return start, carried


def walked_subtree(order, parents, v):
    """The same of a large sheet, by its order: a part is carried if its entry is, which stands before it."""
    carried = {v}
    for u in order:
        if parents[u] in carried:
            carried.add(u)
    start = order.index(v)
    assert set(order[start:start + len(carried)]) == carried
    return start, order[start:start + len(carried)]


def walked_totals(parents, counts):
    """The total of each part, by a walk down from the root: what has been counted when it leaves a part, less what had been when it came."""
    into = {v: [] for v in range(len(parents))}
    coming = []
    for v, entry in enumerate(parents):
        (coming if v == entry else into[entry]).append(v)
    counted = 0
    before = {}
    found = [0] * len(parents)
    while coming:
        v = coming[-1]
        if v in before:
            found[v] = counted - before[v]
            coming.pop()
        else:
            before[v] = counted
            counted += counts[v]
            coming += into[v]
    return found


def totals(parents, counts):
    """The total of each part: the sum of the counts of all parts on whose climb it stands."""
    parts = range(len(parents))
    found = [sum(counts[u] for u in parts if v in carriers(parents, u)) for v in parts]
    assert found == walked_totals(parents, counts)
    return found


# The lines.

def listed(numbers):
    return " ".join(map(str, numbers))


def entries(parents):
    return listed(parents) or "no entries"


def work_after(why):
    """What a verdict leaves of work."""
    return "work kept" if why is not None and why[0] <= 3 else "work zero"


def verdict(why):
    """A verdict and what it leaves of work."""
    if why is None:
        return f": accepted, {work_after(why)}"
    return f": refused {why[0]} at {why[1]}, {work_after(why)}"


def filled(parents, lent):
    """The tables after a build, end to end: the sheet's own, or the sevens that they held."""
    if refusal(parents, lent) is None:
        return sum(own_tables(parents), [])
    return [7] * sum(lent[:TABLES])


def show_built(parents, lent):
    """Lines of kind 't'."""
    why = refusal(parents, lent)
    print(f"{entries(parents)} with {listed(lent)}{verdict(why)}, tables {'filled' if why is None else 'kept'}")
    if why is None:
        for name, table in zip(["label", "tour", "lift", "order"], own_tables(parents)):
            print(f"  {name}: {listed(table)}")


def show_damaged(places, parents, lent):
    """A line of kind 'd'."""
    tables = filled(parents, lent)
    for place in places:
        tables[place] = (tables[place] + 1) % 65536
    print(f"{entries(parents)} with {listed(lent)}, damaged at {listed(places) or 'no place'}{verdict(stale(parents, tables, lent))}")


def show_given(order, parents, lent):
    """A line of kind 'g'."""
    tables = filled(parents, lent)[:sum(lent[:TABLES - 1])] + order
    print(f"{entries(parents)} with {listed(lent)}, order {listed(order) or 'nothing'}{verdict(stale(parents, tables, lent))}")


def show_other(first, second, lent):
    """A line of kind 'o'."""
    print(f"{entries(first)} / {entries(second)} with {listed(lent)}{verdict(stale(second, filled(first, lent), lent))}")


def show_sevens(parents, lent):
    """A line of kind 'c'."""
    print(f"{entries(parents)} with {listed(lent)}, sevens{verdict(stale(parents, [7] * sum(lent[:TABLES]), lent))}")


def answered(name, why, answer):
    """A line of one call, up to its answer."""
    return f"  {name}{verdict(why)}, answer {listed(answer) if why is None else 'kept'}"


def show_pairs(parents, why, question):
    """The lines of a question of pairs, one for each route."""
    answer = []
    for pair in zip(question[::2], question[1::2]) if why is None else []:
        common = carrier(parents, pair)
        answer += [common] + [branch(parents, common, v) for v in pair]
    for route in ["labels", "tour", "lifts"]:
        print(answered(route, why, answer))


def show_trail(parents, why, question):
    """The line of a trail."""
    if why is not None:
        print(f"{answered('trail', why, [])}, trail kept")
        return
    rows = trail(parents, *question)
    cells = [part for row in rows for part in row]
    line = answered("trail", why, [carrier(parents, question)])
    print(f"{line}, lifts {len(rows)}, rows {listed(cells) or 'nothing'}, then {64 - len(cells)} times {NO_CELL}")


def show_list(parents, why, question):
    """The line of a list."""
    print(answered("list", why, [] if why is not None else [carrier(parents, question)]))


def show_subtree(part, why, found):
    """The lines of one part's subtree: where it stands, and the stretch itself; found is both, or None where the calls are refused."""
    start, stretch = found or (0, [])
    print(f"  locate {part}{verdict(why)}" + (f", start {start}, count {len(stretch)}" if why is None else ""))
    parts = listed(stretch) or "nothing"
    if len(stretch) > PRINTED_WHOLE:
        parts = f"{len(stretch)} parts from {stretch[0]} to {stretch[-1]}"
    print(f"  subtree {part}: {parts}, {work_after(why)}")


def show_subtrees(parents, why, question):
    """The lines of each part's subtree: a part is asked for by itself, at position 0."""
    for part in question:
        reason = asked(parents, why, [part])
        show_subtree(part, reason, subtree(parents, part) if reason is None else None)


def joined(low, high):
    """The counts, of their low and their high halves; those high halves that are not given are 0."""
    return [l + 65536 * h for l, h in zip(low, high + [0] * len(low))]


def show_totals(numbers):
    """A line of kind 'a'."""
    work, mid, room, halves = numbers[:4]
    lent, rest = [work, mid, room], numbers[4:]
    end = mid + halves
    assert end <= len(rest)
    assert all(cells <= most for cells, most in zip(lent, ROOM_OF_TOTALS))
    counts, parents = joined(rest[:mid], rest[mid:end]), rest[end:]
    why = refusal(parents, only_work(work), unfit_of_totals(len(parents), mid, room))
    became = listed(totals(parents, counts)) if why is None else "kept"
    print(f"{entries(parents)} with {listed(lent)}, counts {listed(counts) or 'nothing'}{verdict(why)}, totals {became}")


SHOW = {"p": show_pairs, "r": show_trail, "m": show_list}


def show_asked(kind, numbers, lent):
    """Lines of the kinds 'p', 'r', 'm' and 's'."""
    answer, room, count, changes = numbers[:4]
    rest = numbers[4:]
    assert count + changes <= len(rest)
    question, places, parents = rest[:count], rest[count:count + changes], rest[count + changes:]
    tables = filled(parents, lent)
    for place in places:
        tables[place] = (tables[place] + 1) % 65536
    damaged = f", damaged at {listed(places)}" if places else ""
    print(f"{entries(parents)} with {listed(lent + [answer, room])}{damaged}, asked {listed(question) or 'nothing'}")
    if kind == "s":
        show_subtrees(parents, stale(parents, tables, lent), question)
        return
    if kind == "r":
        assert answer <= ROOM_OF_TRAIL[0] and room <= ROOM_OF_TRAIL[1]
    else:
        assert answer <= ROOM_OF_ANSWER
    why = stale(parents, tables, lent, unfit(kind, count, answer, room))
    SHOW[kind](parents, asked(parents, why, question), question)


def only_work(cells):
    """What is lent where there are no tables."""
    return [None] * TABLES + [cells]


def show_line(kind, numbers):
    """The lines that one line of stdin gives."""
    if kind == "w":
        cells, *parents = numbers
        assert cells <= ROOM[TABLES]
        print(f"{entries(parents)} with {cells}{verdict(refusal(parents, only_work(cells)))}")
        return
    if kind == "a":
        show_totals(numbers)
        return
    lent, rest = numbers[:TABLES + 1], numbers[TABLES + 1:]
    if any(cells > room for cells, room in zip(lent, ROOM)):
        print("too many cells")
    elif kind == "t":
        show_built(rest, lent)
    elif kind == "d":
        show_damaged(rest[1:rest[0] + 1], rest[rest[0] + 1:], lent)
    elif kind == "g":
        show_given(rest[:lent[TABLES - 1]], rest[lent[TABLES - 1]:], lent)
    elif kind == "o":
        show_other(rest[:len(rest) // 2], rest[len(rest) // 2:], lent)
    elif kind == "c":
        show_sevens(rest, lent)
    elif kind in SHOW or kind == "s":
        show_asked(kind, rest, lent)


# The large sheets.

def show(name, parents, cells=None):
    """The line of one sheet that is checked, with exact work where no cells are given."""
    work = 4 * len(parents) if cells is None else cells
    print(f"{name}{verdict(refusal(parents, only_work(work)))}")


def show_answers(parents, lent):
    """The lines of the questions to a large sheet and its own tables, or to one that is too large."""
    questions = [
        ("p", [0, 16383, 16383, 16383, 16382, 16383, 12345, 6789, 4095, 4096, 8191, 8192, 7586, 11500, 15297, 9876, 12290, 11371]),
        ("r", [12290, 11371]),
        ("r", [16383, 0]),
        ("m", [13885, 11371, 10066, 12290]),
    ]
    why = stale(parents, None, lent)
    for kind, question in questions:
        SHOW[kind](parents, asked(parents, why, question), question)
    order = walked_order(parents) if why is None else None
    for part in [0, 3, 8192, 16383, 16384, 2 ** 64 - 1]:
        reason = asked(parents, why, [part])
        show_subtree(part, reason, walked_subtree(order, parents, part) if reason is None else None)


def show_tables(name, parents):
    """The lines of a large sheet whose tables are built, compared, asked, and compared with one to three cells changed."""
    lent = exact(len(parents))
    why = refusal(parents, lent)
    assert why is None
    print(f"{name}, tables{verdict(why)}, tables filled")
    print(f"  compared{verdict(None)}")
    show_answers(parents, lent)
    print(f"  last cell changed{verdict((8, sum(lent[:TABLES]) - 1))}")
    print(f"  last cell of lift changed too{verdict((8, sum(lent[:TABLES - 1]) - 1))}")
    print(f"  first cell changed too{verdict((8, 0))}")


def show_large_totals(name, parents):
    """The line of a large sheet that is asked for totals: the buffers are those of 16,384 parts, and each count is the largest."""
    counts = [LARGEST_COUNT] * LIMIT
    why = refusal(parents, only_work(4 * LIMIT), unfit_of_totals(len(parents), LIMIT, LIMIT))
    became = "kept"
    if why is None:
        found = walked_totals(parents, counts)
        mixed = 0
        for total in found:
            mixed = (31 * mixed + total) % MIXING
        became = f"from {found[0]} to {found[-1]}, mixed {mixed}"
    print(f"{name}, every count {LARGEST_COUNT}{verdict(why)}, totals {became}")


def scattered(turn):
    """A tree of no order, in which each part names a lower one; then each number is that many greater, modulo 16,384."""
    parents = [0] * LIMIT
    for v in range(LIMIT):
        entry = (40503 * v + 12829) % 65536 % v if v > 0 else 0
        parents[(v + turn) % LIMIT] = (entry + turn) % LIMIT
    return parents


def changed(parents, **entries):
    """A sheet with some entries changed, each named as v0, v16383 and so on."""
    parents = list(parents)
    for name, entry in entries.items():
        parents[int(name[1:])] = entry
    return parents


def main():
    here = os.path.dirname(os.path.abspath(__file__))
    with open(os.path.join(here, "..", "crates", "known", "stdin")) as lines:
        for line in lines:
            numbers = list(map(int, re.findall(r"\d+", line)))
            if not line.startswith("#"):
                assert len(numbers) <= NUMBERS
                show_line(line[0], numbers)

    star = [0] * LIMIT
    down = [0] + list(range(LIMIT - 1))
    up = list(range(1, LIMIT + 1))
    show("star of 16384, root 0", star)
    show("star of 16384, root 16383", [16383] * LIMIT)
    show("chain of 16384, root 0", down)
    show("chain of 16384, root 16383", changed(up, v16383=16383))
    show("16385 entries", [0] * (LIMIT + 1))
    show("16384 entries, a cell of work short", star, 4 * LIMIT - 1)
    show("star of 16384, the last entry 16384", changed(star, v16383=16384))
    show("star of 16384, the last part a root too", changed(star, v16383=16383))
    show("loop of 16384", changed(up, v16383=0))
    show("root 0 and a loop of 16383", changed(up, v0=0, v16383=1))
    show("climb of 16381 steps to a loop of 2", changed(up, v16382=16381, v16383=16383))
    show("star of 16382 and a loop of the last two", changed(star, v16382=16383, v16383=16382))

    large = verdict(refusal([0] * (LIMIT + 1), exact(1)))
    print(f"16385 entries, tables{large}, tables kept")
    print(f"16385 entries, compared{large}")
    show_answers([0] * (LIMIT + 1), exact(1))
    show_tables("star of 16384, root 0", star)
    show_tables("chain of 16384, root 0", down)
    show_tables("tree of 16384 of no order", scattered(0))
    show_large_totals("star of 16384, root 0", star)
    show_large_totals("chain of 16384, root 16383", changed(up, v16383=16383))
    show_large_totals("tree of 16384 of no order, root 5000", scattered(5000))
    show_large_totals("root 0 and a loop of 16383", changed(up, v0=0, v16383=1))
    show_large_totals("16385 entries", [0] * (LIMIT + 1))


main()
