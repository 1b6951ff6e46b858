#!/usr/bin/env python3
"""Brings the names of this repository's own definitions, laws, fields and variables to the spelling of today's Rattle: words in snake case, a dash only between
two names. It was run once, after the toolchain's own port.py, and is kept so that the renaming can be made again on another commit.

    python3 tools/respell.py [--list]      at the top of the repository

What is renamed, in specs/, proofs/, the clauses of src/, must-fail/ and the documents:
  1. a name in lower camel case that an .antt file declares or binds: `lowestOne` becomes `lowest_one`;
  2. a dashed name in which such a name's words stood apart: `row-cells-length`, a law of `rowCells`, becomes `row_cells-length`;
  3. a law that would then have its definition's name ends in `_lem`: `least-from`, of `leastFrom`, becomes `least_from_lem`.
Functions of src/, strings, inputs and outputs are left alone. Names that would still fall together are printed.
"""
import os
import re
import sys

# The library's own names with a capital inside, which stay.
LIBRARY = re.compile(r'_[A-Z]')
# Names of the library and of what Rattle generates in camel case.
THEIRS = {'inputTy', 'nextLfts'}
# The plain spelling is a word of the library with another meaning, or that of a definition beside the field or law that says it of a length.
OTHERWISE = {
    'countBy': 'count_by_verdict',
    'label-cells': 'label_length',
    'tour-cells': 'tour_length',
    'lift-cells': 'lift_length',
    'order-cells': 'order_length',
    'trail-cells': 'trail_length',
    'count-cells': 'count_length',
    'total-cells': 'total_length',
}
NAME = r"[A-Za-z0-9_₀-₉ᴰ'′-]"
TOKEN = re.compile(r"(?<!%s)[a-z]%s*" % (NAME, NAME))
DECLARED = re.compile(r"^\s*(?:pub |abbrev |unfoldable |data )*([a-z]%s*) :" % NAME)


def files(top, suffixes):
    for folder, below, names in os.walk(top):
        below[:] = [b for b in below if b not in ('out', '.git', 'target')]
        for name in sorted(names):
            if name.endswith(suffixes):
                yield os.path.join(folder, name)


def text(path):
    with open(path, encoding='utf-8') as f:
        return f.read()


def snake(name):
    return re.sub(r'(?<=[a-z0-9])([A-Z])', lambda m: '_' + m.group(1).lower(), name)


def joined(name, words):
    """The name with the words of every longest run that is itself a name joined by `_`."""
    parts, out, i = name.split('-'), [], 0
    while i < len(parts):
        j = len(parts)
        while i + 1 < j and '_'.join(parts[i:j]) not in words:
            j -= 1
        out.append('_'.join(parts[i:j]))
        i = j
    return '-'.join(out)


def renames():
    seen, declared = set(), set()
    for path in files('crates', '.antt'):
        lines = re.sub(r'--.*', '', text(path))
        seen |= set(TOKEN.findall(lines))
        if not path.endswith('/Proof.antt'):
            declared |= {m.group(1) for m in map(DECLARED.match, lines.split('\n')) if m}
    camel = {t for t in seen if re.search('[A-Z]', t) and not LIBRARY.search(t) and t not in THEIRS}
    table = {t: OTHERWISE.get(t, snake(t)) for t in camel if not re.search('-[A-Z]', t)}
    words = {n for n in table.values() if '_' in n and '-' not in n}
    for name in declared - camel:
        new = OTHERWISE.get(name) or joined(name, words)
        if new in words:
            new += '_lem'
        if new != name:
            table[name] = new
    return table, sorted((t, n) for t, n in table.items() if n in declared - set(table) or list(table.values()).count(n) > 1)


def turned(line, table):
    """The line in the new names. A path's or a field's part in snake case is a function's or a step's name, which stays."""
    def new(m):
        name = m.group(0)
        part = line[m.start() - 1:m.start()] == '.' or line[m.end():m.end() + 1] == '.'
        return name if part and re.fullmatch('[a-z0-9_]+', name) else table.get(name, name)

    return TOKEN.sub(new, line)


def turn(path, table, source):
    old = text(path)
    if source:
        table = {t: n for t, n in table.items() if not re.fullmatch('[a-z0-9_]+', t)}
        new = ''.join(p if p.startswith('"') else turned(p, table) for p in re.split(r'("(?:[^"\\\n]|\\.)*")', old))
    else:
        new = turned(old, table)
    if new != old:
        with open(path, 'w', encoding='utf-8') as f:
            f.write(new)
    return new != old


def main():
    table, fallen = renames()
    if '--list' in sys.argv:
        for name in sorted(table):
            print(name, table[name])
    if fallen:
        print('names that fall together:', *fallen, sep='\n  ')
    if '--list' in sys.argv:
        return
    done = [turn(p, table, p.endswith('.rt')) for p in files('crates', ('.antt', '.rt', '.edit'))]
    done += [turn(p, table, False) for p in [*files('docs', '.md'), 'README.md']]
    print(len(table), 'names,', sum(done), 'files')


main()
