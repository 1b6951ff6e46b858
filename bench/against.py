#!/usr/bin/env python3
"""Two builds of the library by turns: how much the second one's compare and build take more or less than the first one's.

    against.py OLD NEW [RUNS]

OLD and NEW are archives of `bash tools/build.sh lca` with this checkout's interface, or the tops of checkouts in which it was run: such a one is linked with its own
include/lca.h and bench/against.c, so that builds of other interfaces can be compared too. Both programs are run RUNS times (11), by turns. A row has the medians
over the runs.
"""
import os
import statistics
import subprocess
import sys
import tempfile

TOP = os.path.dirname(os.path.dirname(os.path.abspath(__file__)))


def link(build, program):
    """The program of bench/against.c with this archive, or with that of this checkout."""
    top, archive = TOP, build
    if os.path.isdir(build):
        top, archive = build, os.path.join(build, 'target', 'staticlib', 'liblca.a')
    words = ['cc', '-std=c99', '-Wall', '-Wextra', '-O2', '-I' + os.path.join(top, 'include')]
    subprocess.run(words + [os.path.join(top, 'bench', 'against.c'), archive, '-o', program], check=True)


def run(program):
    """(parts, shape) to the times of compare and build."""
    lines = subprocess.run([program], check=True, capture_output=True, text=True).stdout.splitlines()
    rows = [line.split() for line in lines]
    return {(int(n), shape): (float(compare), float(build)) for n, shape, compare, build in rows}


def medians(runs, sheet):
    return [statistics.median(run[sheet][call] for run in runs) for call in (0, 1)]


def main(old, new, count):
    with tempfile.TemporaryDirectory() as folder:
        programs = [os.path.join(folder, name) for name in ('old', 'new')]
        for build, program in zip((old, new), programs):
            link(build, program)
        runs = [[], []]
        for turn in range(count):
            for which in ((0, 1) if turn % 2 == 0 else (1, 0)):
                runs[which].append(run(programs[which]))
    print('| n | shape | compare, old | new | change | build, old | new | change |')
    print('|---|---|---:|---:|---:|---:|---:|---:|')
    for sheet in sorted(runs[0][0]):
        cells = []
        for before, after in zip(medians(runs[0], sheet), medians(runs[1], sheet)):
            cells += ['%.0f ns' % before, '%.0f ns' % after, '%+.1f%%' % (100 * (after / before - 1))]
        print('| %d | %s | %s |' % (sheet[0], sheet[1], ' | '.join(cells)))


if __name__ == '__main__':
    if len(sys.argv) not in (3, 4):
        sys.exit(__doc__)
    main(sys.argv[1], sys.argv[2], int(sys.argv[3]) if len(sys.argv) == 4 else 11)
