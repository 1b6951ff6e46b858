#!/usr/bin/env python3
"""What `sessions` must print, worked out by the plain model of tools/report.py, which shares nothing with the library.

    python3 tools/sessions.py | diff - crates/sessions/stdout

The cases of its standard input are read from crates/sessions/stdin, whose head tells their form; any line there that is neither a case nor a comment
is refused. The inputs that it makes by loops are made here again.
"""
import os
import re
import sys

from report import report

CASES = os.path.join(os.path.dirname(os.path.abspath(__file__)), '..', 'crates', 'sessions', 'stdin')
KNOWN = b'(machine 7)\n' + b''.join(b'(part %d (in %d))\n' % (v, p) for v, p in enumerate([0, 0, 0, 1, 1, 2, 5]))
CASE = re.compile(rb'([iq]) ([^:]+):(?: (.*))?', re.S)
MEANT = {b'n': b'\n', b'r': b'\r', b't': b'\t', b'0': b'\0', b'F': b'\xff', b'\\': b'\\'}


def say(name, text):
    sys.stdout.write(name.decode() + ':\n' + text)


def refuse(number, what, found):
    sys.exit('crates/sessions/stdin:%d: %s: %s' % (number, what, found.decode(errors='replace')))


def decoded(text, number):
    """The bytes that a case's text stands for."""
    def meant(escape):
        return MEANT.get(escape.group(1)) or refuse(number, 'no such escape', escape.group(0))
    return re.sub(rb'\\(.?)', meant, text, flags=re.S)


def cases():
    """The kind, the name and the bytes of each case of standard input."""
    with open(CASES, 'rb') as stdin:
        lines = stdin.read().split(b'\n')
    for number, line in enumerate(lines, 1):
        case = CASE.fullmatch(line)
        if case:
            yield case.group(1), case.group(2), decoded(case.group(3) or b'', number)
        elif line and not line.startswith(b'#'):
            refuse(number, 'no case', line)


def room(n):
    """What a buffer must have: five bytes for each byte that is read, and 64."""
    return 5 * min(n, 65536) + 64


def in_buffers(title, data):
    """In a buffer of its room, and in two that are short."""
    short = 'the buffer is short: it needs %d bytes\n' % room(len(data))
    say(title, report(data) + short + short)


def summary(title, data):
    text, total = report(data), 0
    assert len(text) <= room(len(data))
    for b in text.encode():
        total = (31 * total + b) % 1000003
    say(title, '%d bytes read, %d written, sum %d, the last:\n%s' % (len(data), len(text), total, text[-60:]))


def sheet(n, lines, step):
    return b'(machine %d)\n' % n + b''.join(b'(part %d (in %d))\n' % (v, max(v - step, 0)) for v in range(lines))


def long_lines():
    head = b'(machine 1)\n(part 0 (in 0))\n(many' + 32 * b' 65535'
    for title, tail in ((b'a line of 198 bytes', b')'), (b'a line of 200 bytes', b'  )'), (b'a line of 201 bytes', b'   )'),
                        (b'a line of 33 numbers and 200 bytes', b' 0)')):
        data = head + tail + b'\n(many 0)\n'
        named = re.search(rb'(\d+) bytes', title).group(1)
        assert len(data.split(b'\n')[2]) == int(named)
        say(title, report(data))


def sheets():
    summary(b'512 parts in a star', sheet(512, 512, 512) + b'(pair 510 511)\n(pair 511 512)\n(many 1 511 0)\n')
    summary(b'512 parts in a chain', sheet(512, 512, 1) + b'(pair 511 0)\n(pair 510 511)\n(pair 256 511)\n(many 511 300 400)\n')
    summary(b'512 parts in two chains', sheet(512, 512, 2) + b'(pair 511 510)\n(pair 511 256)\n(pair 510 2)\n')
    summary(b'512 parts, and 511 lines', sheet(512, 511, 1))
    summary(b'512 parts, and 513 lines', sheet(512, 513, 1))
    summary(b'513 parts in a chain', sheet(513, 513, 1))


def spread():
    """103 parts with root 100: part 0 sits in 101 and part 1 in 102, and every other part in the root, so that the numbers of a short pair's answer are long."""
    below = {0: 101, 1: 102}
    return b'(machine 103)\n' + b''.join(b'(part %d (in %d))\n' % (v, below.get(v, 100)) for v in range(103))


def longest():
    """A report that has more than four bytes for each byte of its input."""
    data = spread() + 5779 * b'(pair 0 1)\n'
    text = report(data)
    assert len(data) == 65533
    assert len(text) == 277406
    assert 4 * len(data) + 64 < len(text)
    assert text.count('(pair 0 1 (carrier 100) (by 101 102) (lifts 2))\n') == 5779
    return data


def limits():
    data = KNOWN + 7268 * b'(many 3)\n'
    assert len(data) == 65536
    summary(b'an input of 65,536 bytes', data)
    summary(b'an input of 65,535 bytes', data[:-1])
    summary(b'an input of 65,537 bytes', data + b'\n')
    summary(b'the most questions', KNOWN + 9344 * b'(many)\n')
    summary(b'a report of more than four bytes for each byte', longest())


for kind, title, data in cases():
    say(title, report(KNOWN + data if kind == b'q' else data))
in_buffers(b'no input in its room', b'')
in_buffers(b'a machine in its room', b'(machine 1)\n(part 0 (in 0))\n(pair 0 0)\n')
long_lines()
sheets()
limits()
