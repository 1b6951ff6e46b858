#!/usr/bin/env python3
"""A plain model of the program, by the words of document 01 and of document 02, 2026-03, alone: what must be printed for an input.

    python3 tools/report.py < FILE

It shares nothing with the library. Lines are split at LF and held to patterns; carriers and branches are found by climbing part by part; lifts are
counted twice, by the sum of ones and by trying each power of two, and both counts must be equal.
"""
import re, sys

NUMBER = rb'(0|[1-9][0-9]*)'
MACHINE = re.compile(rb'\(machine ' + NUMBER + rb'\)')
PART = re.compile(rb'\(part ' + NUMBER + rb' \(in ' + NUMBER + rb'\)\)')
PAIR = re.compile(rb'\(pair ' + NUMBER + rb' ' + NUMBER + rb'\)')
MANY = re.compile(rb'\(many((?: (?:0|[1-9][0-9]*))*)\)')


def numbers_of(texts):
    """The values, or None where one is above 65535."""
    values = [int(t) for t in texts]
    return None if any(65535 < v for v in values) else values


def form_of(line):
    """The kind of a line and its numbers; None for a line that breaks the forms."""
    if 200 < len(line):
        return None
    for kind, pattern in (('machine', MACHINE), ('part', PART), ('pair', PAIR)):
        m = pattern.fullmatch(line)
        if m:
            values = numbers_of(m.groups())
            return None if values is None else (kind, values)
    m = MANY.fullmatch(line)
    if not m:
        return None
    values = numbers_of(m.group(1).split())
    return None if values is None or 32 < len(values) else ('many', values)


def climb_of(sheet, v):
    """The parts from v up, to the root or round to one that was met."""
    path = [v]
    while sheet[path[-1]] not in path:
        path.append(sheet[path[-1]])
    return path


def sheet_refusal(sheet):
    """Tests 4 to 7: number and place, or None."""
    n = len(sheet)
    for v in range(n):
        if n <= sheet[v]:
            return 4, v
    roots = [v for v in range(n) if sheet[v] == v]
    if not roots:
        return 5, 0
    if 1 < len(roots):
        return 6, roots[1]
    for v in range(n):
        if climb_of(sheet, v)[-1] != roots[0]:
            return 7, v
    return None


def question_refusal(sheet, listed):
    """Tests 9 and 10: number and place, or None. On a tree test 11 is never met."""
    if not listed:
        return 9, 0
    for i, v in enumerate(listed):
        if len(sheet) <= v:
            return 10, i
    return None


def carrier_of(sheet, listed):
    """The first part on the climb of the first that is on every climb."""
    climbs = [set(climb_of(sheet, v)) for v in listed]
    return next(c for c in climb_of(sheet, listed[0]) if all(c in climb for climb in climbs))


def branch_of(sheet, carrier, x):
    """The part directly below the carrier on the way to x: the last on the climb of x before the carrier, or the carrier itself where x is it."""
    if x == carrier:
        return carrier
    path = climb_of(sheet, x)
    branch = path[path.index(carrier) - 1]
    directly_below = [v for v in range(len(sheet)) if sheet[v] == carrier and v != carrier]
    assert [v for v in directly_below if v in path] == [branch]
    return branch


def lifts_of(sheet, x, y):
    """The sum of ones, held to the count of raises."""
    def level(v):
        return len(climb_of(sheet, v)) - 1

    def up(v, steps):
        path = climb_of(sheet, v)
        return path[min(steps, len(path) - 1)]

    lx, ly, lc = level(x), level(y), level(carrier_of(sheet, [x, y]))
    g, d = abs(lx - ly), min(lx, ly) - lc
    by_ones = bin(g).count('1') + (bin(d - 1).count('1') + 1 if 0 < d else 0)
    raises, powers = 0, [2 ** k for k in reversed(range(len(sheet).bit_length()))]
    for p in powers:
        if p <= abs(level(x) - level(y)):
            x, y = (up(x, p), y) if level(y) < level(x) else (x, up(y, p))
            raises += 1
    if x != y:
        for p in powers:
            if up(x, p) != up(y, p):
                x, y, raises = up(x, p), up(y, p), raises + 1
        raises += 1
    assert raises == by_ones
    return by_ones


def refused(number, place):
    return '(refused %d (at %d))\n' % (number, place)


def answer_of(sheet, kind, listed):
    why = question_refusal(sheet, listed)
    if why:
        return refused(*why)
    carrier = carrier_of(sheet, listed)
    said = '(%s%s (carrier %d)' % (kind, ''.join(' %d' % v for v in listed), carrier)
    if kind == 'pair':
        said += ' (by %d %d)' % tuple(branch_of(sheet, carrier, v) for v in listed)
        said += ' (lifts %d)' % lifts_of(sheet, *listed)
    return said + ')\n'


def report(data):
    """What the program prints for these bytes."""
    if 65536 < len(data):
        return refused(12, 1)
    *lines, tail = data.split(b'\n')

    def form(i):
        """Line i, from 0; None where it is missing or breaks the forms."""
        return form_of(lines[i]) if i < len(lines) else None

    first = form(0)
    if first is None or first[0] != 'machine':
        return refused(12, 1)
    n = first[1][0]
    if n == 0:
        return refused(1, 0)
    if 512 < n:
        return refused(2, 0)
    said, sheet = '(machine %d)\n' % n, []
    for v in range(n):
        f = form(1 + v)
        if f is None or f[0] != 'part' or f[1][0] != v:
            return said + refused(12, 2 + v)
        sheet.append(f[1][1])
    why = sheet_refusal(sheet)
    if why:
        return said + refused(*why)
    for i in range(1 + n, len(lines)):
        f = form(i)
        if f is None or f[0] not in ('pair', 'many'):
            return said + refused(12, 1 + i)
        said += answer_of(sheet, *f)
    return said + (refused(12, 1 + len(lines)) if tail else '')


if __name__ == '__main__':
    sys.stdout.write(report(sys.stdin.buffer.read()))
