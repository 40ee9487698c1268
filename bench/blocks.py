#!/usr/bin/env python3
"""blocks.py N: large blocks of many kinds at 5,000, 10,000 and 20,000 vertices, and N random small blocks under the name `same`, one
a line: a name, the number of vertices, how many numbers of ends follow, and these."""
import random
import sys

from embeddings import is_block, numbered
from kinds import bipartite, bundles, cycle, grown, ladder, nest, triangulation, wheel


def line(name, vertices, ends):
    print(name, vertices, 2 * len(ends), *(end for pair in ends for end in pair))


def main():
    for kind in (cycle, ladder, nest, bipartite, wheel, bundles, triangulation, grown):
        for size in (5000, 10000, 20000):
            line(kind.__name__, *kind(size))
    chance, left = random.Random(1), int(sys.argv[1])
    while left:
        n = chance.randint(2, 9)
        pairs = [tuple(chance.sample(range(n), 2)) for _ in range(chance.randint(n - 1, 3 * n))]
        if {x for pair in pairs for x in pair} == set(range(n)) and is_block(numbered(pairs)):
            line("same", n, pairs)
            left -= 1


main()
