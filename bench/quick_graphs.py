#!/usr/bin/env python3
"""quick_graphs.py: graphs for the quick embedder and the embedder by paths, one a line: a name, the number of vertices, and the ends of the edges.

  quick_graphs.py large [MOST]    random triangulations and square grids with a diagonal in each square, of about 5,000, 10,000
                                  and 16,000 vertices (or MOST at most), each also with one edge more that makes it nonplanar; a
                                  wheel of 20,000, also with two more edges that cross; random graphs; and other shapes
  quick_graphs.py shapes [MOST [SEED]]
                                  triangulations, grids, wheels, bipyramids, prisms, nests, twisted ladders and random graphs, of about
                                  20,000 vertices (or MOST), as far as the limits allow, most also with an edge or two more that
                                  make them nonplanar, and with their numbers mixed; of one SEED these edges are at the same relative
                                  place at all sizes
  quick_graphs.py small SEED N    N random graphs of 4 to 12 vertices, connected, some planar and some not
"""
import random
import sys


def tell(name, vertices, ends):
    print(name, vertices, " ".join(f"{first} {second}" for first, second in ends))


def mixed(draw, vertices, ends):
    names = list(range(vertices))
    draw.shuffle(names)
    ends = [(names[a], names[b]) if draw.random() < 0.5 else (names[b], names[a]) for a, b in ends]
    draw.shuffle(ends)
    return ends


def triangulation(draw, vertices):
    faces = [(0, 1, 2), (0, 2, 1)]
    for vertex in range(3, vertices):
        place = draw.randrange(len(faces))
        a, b, c = faces[place]
        faces[place] = (a, b, vertex)
        faces += [(b, c, vertex), (c, a, vertex)]
    third = {}
    for a, b, c in faces:
        third.update({(a, b): c, (b, c): a, (c, a): b})
    ends = [(a, b) for a, b in third if a < b]
    for _ in range(4 * vertices):
        place = draw.randrange(len(ends))
        a, b = ends[place]
        c, d = third[a, b], third[b, a]
        if c == d or (c, d) in third or (d, c) in third:
            continue
        del third[a, b], third[b, a]
        third.update({(a, d): c, (d, c): a, (c, a): d, (d, b): c, (b, c): d, (c, d): b})
        ends[place] = (c, d)
    return ends


def grid(side):
    ends = []
    for y in range(side):
        for x in range(side):
            here = y * side + x
            ends += [(here, here + 1)] * (x + 1 < side) + [(here, here + side)] * (y + 1 < side)
            ends += [(here, here + side + 1)] * (x + 1 < side and y + 1 < side)
    return ends


def torus(width, height, closed):
    ends = [(y * width + x, y * width + (x + 1) % width) for y in range(height) for x in range(width)]
    ends += [(y * width + x, (y + 1) % height * width + x) for y in range(height - (not closed)) for x in range(width)]
    return ends


def one_more(draw, vertices, ends, inner):
    present = {frozenset(pair) for pair in ends}
    while True:
        a, b = draw.choice(inner), draw.choice(inner)
        if a != b and frozenset((a, b)) not in present:
            return ends + [(a, b)]


def scattered(draw, vertices, edges):
    present = set()
    while len(present) < edges:
        a, b = sorted(draw.sample(range(vertices), 2))
        present.add((a, b))
    return sorted(present)


def one_block(draw, vertices, edges):
    # with a ring, so that it is one block; some edges fewer, where the ring has them already
    rim = {tuple(sorted(pair)) for pair in ring(0, vertices)}
    return mixed(draw, vertices, sorted(rim | set(scattered(draw, vertices, edges - vertices))))


def with_paths(pattern, branch, length):
    ends, vertices = [], branch
    for a, b in pattern:
        inner = list(range(vertices, vertices + length))
        vertices += length
        ends += list(zip([a] + inner, inner + [b]))
    return vertices, ends


def large(most):
    for size in (5000, 10000, 16000):
        if size > most:
            continue
        draw = random.Random(size)
        ends = triangulation(draw, size)
        tell(f"triangulation_{size}", size, mixed(draw, size, ends))
        tell(f"triangulation_{size}+1", size, mixed(draw, size, one_more(draw, size, ends, range(size))))
        side = round(size ** 0.5)
        inner = [y * side + x for y in range(1, side - 1) for x in range(1, side - 1)]
        tell(f"grid_{side}x{side}", side * side, grid(side))
        tell(f"grid_{side}x{side}_mixed", side * side, mixed(draw, side * side, grid(side)))
        tell(f"grid_{side}x{side}+1", side * side, one_more(draw, side * side, grid(side), inner))
        tell(f"grid_{side}x{side}+1_mixed", side * side, mixed(draw, side * side, one_more(draw, side * side, grid(side), inner)))
    wheel = [(0, v) for v in range(1, 20000)] + [(v, v + 1) for v in range(1, 19999)] + [(19999, 1)]
    tell("wheel_20000", 20000, wheel)
    tell("wheel_20000+2", 20000, wheel + [(1, 10000), (5000, 15000)])
    draw = random.Random(50000)
    for name in "abc":
        tell(f"random_10000_50000_{name}", 10000, scattered(draw, 10000, 50000))
    tell("torus_140x140", 19600, torus(140, 140, True))
    tell("cylinder_140", 19600, torus(140, 140, False) + [(x, x + 70) for x in range(70)])
    tell("K5_long", *with_paths([(a, b) for b in range(5) for a in range(b)], 5, 1900))
    tell("K33_long", *with_paths([(a, b) for a in range(3) for b in range(3, 6)], 6, 2000))


def ring(first, count):
    return [(first + i, first + (i + 1) % count) for i in range(count)]


def tell_all(draw, name, vertices, ends, more):
    for kind, all_ends in (("", ends), ("+" + str(len(more)), ends + more)):
        if more or not kind:
            tell(name + kind, vertices, all_ends)
            tell(name + kind + "_mixed", vertices, mixed(draw, vertices, all_ends))


def across(place, side):
    """An edge of a grid between inner vertices of two rows and two columns, at a relative place."""
    first, second = place.uniform(0.1, 0.4), place.uniform(0.6, 0.9)
    third, fourth = place.uniform(0.1, 0.4), place.uniform(0.6, 0.9)
    return round(side * first) * side + round(side * third), round(side * second) * side + round(side * fourth)


def shapes(most, seed):
    draw, place = random.Random(seed), random.Random(seed)
    size = most * 4 // 5
    ends = triangulation(draw, size)
    tell(f"triangulation_{size}", size, mixed(draw, size, ends))
    tell(f"triangulation_{size}+1", size, mixed(draw, size, one_more(draw, size, ends, range(size))))
    side = round((most * 4 // 5) ** 0.5)
    tell_all(draw, f"grid_{side}x{side}", side * side, grid(side), [across(place, side)])
    rim = most - 1
    wheel = ring(0, rim) + [(v, rim) for v in range(rim)]
    turn = int(rim * place.random() / 4)
    tell_all(draw, f"wheel_{most}", most, wheel, [(turn, turn + rim // 2), (turn + rim // 4, turn + 3 * rim // 4)])
    rim = most * 4 // 5
    poles = ring(0, rim) + [(v, rim) for v in range(rim)] + [(v, rim + 1) for v in range(rim)]
    tell_all(draw, f"bipyramid_{rim}", rim + 2, poles, [(0, rim // 2)])
    side = most // 2
    prism = ring(0, side) + ring(side, side) + [(v, side + v) for v in range(side)]
    tell_all(draw, f"prism_{most}", most, prism, [(0, side + side // 2)])
    ladder = ring(0, 2 * side) + [(v, side + v) for v in range(side)]
    tell_all(draw, f"twisted_ladder_{most}", 2 * side, ladder, [])
    depth = most // 3
    nest = [pair for k in range(depth) for pair in ring(3 * k, 3)] + [(v, v + 3) for v in range(3 * depth - 3)]
    tell_all(draw, f"nest_{3 * depth}", 3 * depth, nest, [(0, 3 * depth - 2)])
    size = most // 2
    tell(f"random_{size}", size, one_block(draw, size, 5 * size))


def small(seed, count):
    draw = random.Random(seed)
    for number in range(count):
        vertices = draw.randrange(4, 13)
        ends = triangulation(draw, vertices)
        shape = number % 3
        if shape == 1 and vertices > 4:
            if len(ends) < vertices * (vertices - 1) // 2:
                ends = one_more(draw, vertices, ends, range(vertices))
        elif shape == 2:
            edges = min(vertices * (vertices - 1) // 2, draw.randrange(vertices, 4 * vertices))
            path = {(v - 1, v) for v in range(1, vertices)}
            ends = sorted(path | set(scattered(draw, vertices, edges)))
        tell(f"small_{number}", vertices, mixed(draw, vertices, ends))


if sys.argv[1] == "large":
    large(int(sys.argv[2]) if len(sys.argv) > 2 else 16000)
elif sys.argv[1] == "shapes":
    shapes(int(sys.argv[2]) if len(sys.argv) > 2 else 20000, int(sys.argv[3]) if len(sys.argv) > 3 else 1)
else:
    small(int(sys.argv[2]), int(sys.argv[3]))
