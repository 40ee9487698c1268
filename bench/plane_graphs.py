#!/usr/bin/env python3
"""plane_graphs.py EDGES..: planar blocks of given numbers of edges with their split components, one a line, for bench/plane_block.

Each is grown from a triangle, a bond or K4 together with its components: an edge is subdivided, doubled, or a K4 is glued on it.
cycle: one edge after the other subdivided; bundle: doubled; nest: the last edge doubled and subdivided alternately; series-parallel:
a random edge subdivided or doubled; grown: the same or a K4 glued on. A line is a name, the number of vertices, how many numbers
of ends follow and these, how many numbers of pieces follow and these, five a piece: component, kind (0 polygon, 1 bond, 2
triconnected), two ends, and twice the edge, or twice the linked component and one more."""
import random
import sys

POLYGON, BOND, RIGID = 0, 1, 2


class Grown:
    def __init__(self, kind, ends):
        self.ends = list(ends)
        self.vertices = 1 + max(max(pair) for pair in ends)
        self.kinds, self.pieces = [kind], [[(*pair, 2 * e) for e, pair in enumerate(ends)]]
        self.place = [(0, i) for i in range(len(ends))]

    def edge(self, k, a, b):
        """A new edge in component k."""
        self.place.append((k, len(self.pieces[k])))
        self.pieces[k].append((a, b, 2 * len(self.ends)))
        self.ends.append((a, b))

    def component(self, kind, k, a, b):
        """A new component that is linked with k."""
        self.kinds.append(kind)
        self.pieces.append([(a, b, 2 * k + 1)])
        return len(self.kinds) - 1

    def out(self, e, kind):
        """The component of edge e where it is of that kind, else a new one between, with the edge in it."""
        k, i = self.place[e]
        if self.kinds[k] == kind:
            return k
        a, b = self.ends[e]
        j = self.component(kind, k, a, b)
        self.pieces[k][i] = (a, b, 2 * j + 1)
        self.place[e] = (j, 1)
        self.pieces[j].append((a, b, 2 * e))
        return j

    def subdivide(self, e):
        k = self.out(e, POLYGON)
        a, b = self.ends[e]
        z = self.vertices
        self.vertices += 1
        self.ends[e] = (a, z)
        self.pieces[k][self.place[e][1]] = (a, z, 2 * e)
        self.edge(k, z, b)

    def double(self, e):
        self.edge(self.out(e, BOND), *self.ends[e])

    def glue(self, e):
        k = self.out(e, BOND)
        (a, b), y, z = self.ends[e], self.vertices, self.vertices + 1
        self.vertices += 2
        j = self.component(RIGID, k, a, b)
        self.pieces[k].append((a, b, 2 * j + 1))
        for pair in ((a, y), (a, z), (b, y), (b, z), (y, z)):
            self.edge(j, *pair)

    def line(self, name):
        ends = [v for pair in self.ends for v in pair]
        pieces = [x for k, kept in enumerate(self.pieces) for a, b, what in kept for x in (k, self.kinds[k], a, b, what)]
        return f"{name} {self.vertices} {len(ends)} {' '.join(map(str, ends))} {len(pieces)} {' '.join(map(str, pieces))}"


def grown(name, edges):
    draw = random.Random(edges)
    start = {"cycle": (POLYGON, [(0, 1), (1, 2), (0, 2)]), "grown": (RIGID, [(0, 1), (0, 2), (0, 3), (1, 2), (1, 3), (2, 3)])}
    g = Grown(*start.get(name, (BOND, [(0, 1)] * 3)))
    while len(g.ends) < edges:
        last, any_edge, turn = len(g.ends) - 1, draw.randrange(len(g.ends)), draw.randrange(3)
        if name == "cycle" or name == "nest" and last % 2 == 0:
            g.subdivide(last)
        elif name in ("bundle", "nest"):
            g.double(last)
        elif name == "grown" and turn == 2:
            g.glue(any_edge)
        else:
            (g.subdivide if turn % 2 else g.double)(any_edge)
    return g


def main():
    for edges in map(int, sys.argv[1:]):
        for name in ("cycle", "bundle", "nest", "series-parallel", "grown"):
            print(grown(name, edges).line(f"{name}-{edges}"))


if __name__ == "__main__":
    main()
