#!/usr/bin/env python3
"""The input that takes the program longest: 512 parts, and as many questions as fit into 65,536 bytes.

    python3 tools/longest.py > FILE && time target/bin/report < FILE > /dev/null

Each call compares the tables, which takes most of the time. A pair that is accepted takes two calls, one of a route and one of the trail, and a list, or a
question that is refused, one. So the questions are pairs of the shortest kind, two comparisons for 11 bytes; `(many)`, the shortest line, has one for 7.
"""
import random
import sys

random.seed(1)
text = '(machine 512)\n' + ''.join('(part %d (in %d))\n' % (v, random.randrange(max(v, 1))) for v in range(512))
question = '(pair 0 0)\n'
sys.stdout.write(text + question * ((65536 - len(text)) // len(question)))
