#!/usr/bin/env python3
"""Holds the program against its plain model on random inputs, most of them damaged.

    python3 tools/fuzz.py COUNT [SEED]

Each input is a small machine with questions, in which up to three bytes are taken out, put in, changed, or cut off with all that follows. It runs
target/bin/report (after `bash tools/build.sh report`) and tools/report.py, and says how many agree, or the first input on which they do not.
"""
import os
import random
import subprocess
import sys

from report import report

PROGRAM = os.path.join(os.path.dirname(os.path.abspath(__file__)), '..', 'target', 'bin', 'report')
BYTES = b' ()\n0123456789ab\r\0\xff'


def machine():
    n = random.choice([1, 2, 3, 5, 7, 9])
    lines = ['(machine %d)' % n]
    for v in range(n):
        entry = random.randrange(n + 2) if random.random() < 0.02 else random.randrange(max(v, 1))
        lines.append('(part %d (in %d))' % (v, entry))
    for _ in range(random.randrange(6)):
        count = 2 if random.random() < 0.5 else random.choice([0, 1, 2, 3, 5, 31, 32, 33])
        word = 'pair' if count == 2 else 'many'
        lines.append('(%s%s)' % (word, ''.join(' %d' % random.randrange(n + (random.random() < 0.1)) for _ in range(count))))
    return '\n'.join(lines).encode() + b'\n'


def damaged(data):
    data = bytearray(data)
    for _ in range(random.choice([0, 0, 1, 1, 2, 3])):
        at = random.randrange(len(data) + 1)
        kind = random.randrange(5)
        if kind == 0:
            del data[at:at + 1]
        elif kind == 1:
            data.insert(at, random.choice(BYTES))
        elif kind == 2:
            data[at:at + 1] = bytes([random.choice(BYTES)])
        elif kind == 3:
            data[at:at] = random.choice([b'0', b'65535', b'65536', b'512', b'513', b' 0'])
        else:
            del data[at:]
    return bytes(data)


def main():
    count = int(sys.argv[1])
    random.seed(int(sys.argv[2]) if 2 < len(sys.argv) else 0)
    for i in range(count):
        data = damaged(machine())
        said = subprocess.run([PROGRAM], input=data, capture_output=True).stdout
        if said != report(data).encode():
            print('input %d: %r\nprogram: %r\nmodel: %r' % (i, data, said, report(data)))
            sys.exit(1)
    print('%d inputs, and the program and its model agree on each' % count)


main()
