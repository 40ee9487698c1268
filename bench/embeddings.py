#!/usr/bin/env python3
"""embeddings.py: the plane rotation systems of a block, its choices, their order, lists and moves, by a slow program that
rests on the definitions alone.

  embeddings.py small            all multigraph blocks of up to 4 vertices and 7 edges, each in some orders of its edges
  embeddings.py random N SEED    N random blocks of up to 8 vertices and 12 edges
  embeddings.py rows             the worked rows

Each run checks on its blocks: in every plane rotation system the edges of each group are in one run at each vertex of each
node; a bond has (k - 1)! choices, a rigid node two that are mirror images; every selection of choices is that of exactly one
plane rotation system; a move keeps plane and changes one choice; the rotation systems that moves of unlocked nodes reach are
those with the same choices at the locked ones; the moves from one to another lead there; ranks are mixed-radix numbers; the
last of the list is the mirror image of the first. A second way, by composing the rotation systems of the skeletons, is
compared with it.

A rotation system is a dictionary from vertices to tuples of edges, each from its least edge on."""
import random
import sys
from itertools import combinations, combinations_with_replacement, permutations, product
from math import factorial

import head_of

sys.setrecursionlimit(100000)
OVER = 2 ** 128


def from_least(order):
    """The cyclic order written from its least member on."""
    if not order:
        return ()
    place = order.index(min(order))
    return tuple(order[place:]) + tuple(order[:place])


class Node:
    """A node: its kind, its vertices, and items (key, a, b, real edge or None, linked node or None, its set of edges)."""

    def __init__(self, kind, vertices, items):
        self.kind, self.vertices, self.items = kind, vertices, items
        self.keys = [item[0] for item in items]
        self.key_of = {edge: item[0] for item in items for edge in item[5]}


class Block:
    """A block with its tree."""

    def __init__(self, edges):
        self.edges = {name: (a, b) for name, a, b in edges}
        self.vertices = sorted({x for _, a, b in edges for x in (a, b)})
        self.at = {v: sorted(name for name, a, b in edges if v in (a, b)) for v in self.vertices}
        self.nodes = nodes_of(edges)

    def key(self):
        return tuple(self.edges.items())


def nodes_of(edges):
    parts = sorted(head_of.tree(edges), key=lambda part: sorted({x for _, a, b in part for x in (a, b)}))
    holder = {}
    for number, part in enumerate(parts):
        for name, _, _ in part:
            holder.setdefault(name, []).append(number)

    def beyond(node, came):
        found = []
        for name, _, _ in parts[node]:
            if isinstance(name, int):
                found.append(name)
            elif name != came:
                found += beyond(sum(holder[name]) - node, name)
        return found

    nodes = []
    for number, part in enumerate(parts):
        items = []
        for name, a, b in part:
            low, high = min(a, b), max(a, b)
            if isinstance(name, int):
                items.append((name, low, high, name, None, frozenset([name])))
            else:
                other = sum(holder[name]) - number
                side = frozenset(beyond(other, name))
                items.append((min(side), low, high, None, other, side))
        nodes.append(Node(head_of.kind(part), sorted({x for _, a, b in part for x in (a, b)}), sorted(items, key=lambda i: i[0])))
    return nodes


# Rotation systems and faces.


def successors(rotation):
    after = {}
    for v, order in rotation.items():
        for i, e in enumerate(order):
            after[v, e] = order[(i + 1) % len(order)]
    return after


def faces(edges, rotation):
    """Each face from its least pair (vertex, edge), the faces in order of these."""
    after, seen, found = successors(rotation), set(), []
    for dart in sorted(after):
        if dart not in seen:
            face, (v, e) = [], dart
            while (v, e) not in seen:
                seen.add((v, e))
                face.append((v, e))
                a, b = edges[e]
                w = b if v == a else a
                v, e = w, after[w, e]
            found.append(face)
    return found


def is_plane(block, rotation):
    return len(block.vertices) + len(faces(block.edges, rotation)) == len(block.edges) + 2


def all_rotations(edges_at):
    """All rotation systems, where edges_at gives each vertex its edges, rising."""
    vertices = sorted(edges_at)
    orders = [[(edges_at[v][0],) + rest for rest in permutations(edges_at[v][1:])] for v in vertices]
    for chosen in product(*orders):
        yield dict(zip(vertices, chosen))


def rotation_total(edges_at):
    total = 1
    for order in edges_at.values():
        total *= factorial(len(order) - 1)
    return total


def mirror(rotation):
    return {v: from_least(tuple(reversed(order))) for v, order in rotation.items()}


def frozen(rotation):
    return tuple(sorted(rotation.items()))


# Groups, choices, moves.


def runs(node, order):
    """The cyclic order cut into runs of one key: a list of (key, run), begun where a key ends; None where a key comes twice."""
    keys = [node.key_of[e] for e in order]
    start = 0
    while start < len(keys) and keys[start] == keys[start - 1]:
        start += 1
    if start == len(keys):
        return [(keys[0], list(order))]
    turned = list(order[start:]) + list(order[:start])
    cut = []
    for e in turned:
        if cut and cut[-1][0] == node.key_of[e]:
            cut[-1][1].append(e)
        else:
            cut.append((node.key_of[e], [e]))
    return None if len({key for key, _ in cut}) < len(cut) else cut


def choice(node, rotation):
    if node.kind in "SB":
        return ()
    return from_least([key for key, _ in runs(node, rotation[node.vertices[0]])])


def choices(block, rotation):
    return tuple(choice(node, rotation) for node in block.nodes)


def joined(cut):
    return from_least([e for _, run in cut for e in run])


def flip(block, k, rotation):
    """At each vertex of the node the cyclic order of the groups is reversed."""
    node, turned = block.nodes[k], dict(rotation)
    for v in node.vertices:
        turned[v] = joined(list(reversed(runs(node, rotation[v]))))
    return turned


def permute(block, k, keys, rotation):
    """At the lesser pole the groups stand in the cyclic order of the keys, at the other pole in the reverse."""
    node, turned = block.nodes[k], dict(rotation)
    for v, order in zip(node.vertices, (keys, tuple(reversed(keys)))):
        group = dict(runs(node, rotation[v]))
        turned[v] = joined([(key, group[key]) for key in order])
    return turned


def move(block, m, rotation):
    return flip(block, m[1], rotation) if m[0] == "flip" else permute(block, m[1], m[2], rotation)


def moves_between(block, now, wanted):
    found = []
    for k, node in enumerate(block.nodes):
        goal = choice(node, wanted)
        if choice(node, now) != goal:
            found.append(("flip", k) if node.kind == "R" else ("permute", k, goal))
    return found


# The lists, by enumeration.


def full_list(block):
    """All plane rotation systems, strictly rising."""
    return sorted((r for r in all_rotations(block.at) if is_plane(block, r)), key=lambda r: choices(block, r))


# The second way: choices in a product, and composing skeletons.


def skeleton(node):
    """The skeleton, its edges named by their keys: the edges at each vertex, and the ends of each."""
    return {v: sorted(item[0] for item in node.items if v in item[1:3]) for v in node.vertices}, {item[0]: item[1:3] for item in node.items}


def skeleton_rotations(node):
    """The plane rotation systems of a rigid skeleton."""
    at, edges = skeleton(node)
    if rotation_total(at) <= 20000:
        return [r for r in all_rotations(at) if len(at) + len(faces(edges, r)) == len(edges) + 2]
    one = face_by_face(at, edges)
    return [] if one is None else [one, mirror(one)]


def face_by_face(at, edges):
    """A plane rotation system of a triconnected graph by putting paths into faces (Demoucron, Malgrange and Pertuiset 1964)."""
    def other(e, v):
        a, b = edges[e]
        return b if v == a else a

    def path(start, goals, allowed, inner):
        back, waiting = {start: None}, [start]
        for v in waiting:
            for e in at[v]:
                w = other(e, v)
                if e in allowed and w not in back:
                    if w in goals and w != start:
                        walk = [e]
                        while back[v] is not None:
                            walk.append(back[v])
                            v = other(back[v], v)
                        return walk[::-1]
                    if w not in inner:
                        back[w] = e
                        waiting.append(w)
        return None

    first = min(edges)
    a, b = edges[first]
    cycle = [first] + path(b, {a}, set(edges) - {first}, set())
    order, v = [], a
    for e in cycle:
        order.append((v, e))
        v = other(e, v)
    back_way = [(other(e, v), e) for v, e in reversed(order)]
    found, drawn, met = [order, back_way], set(cycle), {v for v, _ in order}
    while len(drawn) < len(edges):
        pieces = head_of.lumps([(e, *edges[e]) for e in edges if e not in drawn], met)
        best = None
        for piece in pieces:
            feet = {x for e in piece for x in e[1:] if x in met}
            fits = [f for f in found if feet <= {v for v, _ in f}]
            if not fits:
                return None
            if best is None or len(fits) < len(best[2]):
                best = (piece, feet, fits)
        piece, feet, fits = best
        start = min(feet)
        walk = path(start, feet, {e[0] for e in piece}, met)
        face = fits[0]
        found.remove(face)
        ends, v = [], start
        for e in walk:
            ends.append((v, e))
            v = other(e, v)
        i = next(j for j, (w, _) in enumerate(face) if w == start)
        turned = face[i:] + face[:i]
        j = next(j for j, (w, _) in enumerate(turned) if w == v)
        found += [ends + turned[j:], [(other(e, w), e) for w, e in reversed(ends)] + turned[:j]]
        drawn |= set(walk)
        met |= {w for w, _ in ends}
    after = {}
    for face in found:
        for (v, e), (w, f) in zip(face, face[1:] + face[:1]):
            after[w, e] = f
    rotation = {}
    for v, keys in at.items():
        ring = [keys[0]]
        while len(ring) < len(keys):
            ring.append(after[v, ring[-1]])
        rotation[v] = tuple(ring)
    return rotation


class Composed:
    """The list as a product of choices; None in `planar` where a skeleton has no plane rotation system."""

    def __init__(self, block):
        self.block = block
        self.rigid = {}
        self.planar = True
        for k, node in enumerate(block.nodes):
            if node.kind == "R":
                found = {from_least(r[node.vertices[0]]): r for r in skeleton_rotations(node)}
                self.rigid[k] = found
                self.planar = self.planar and bool(found)

    def radix(self, k):
        node = self.block.nodes[k]
        return factorial(len(node.items) - 1) if node.kind == "P" else 2 if node.kind == "R" else 1

    def digit(self, k, chosen):
        node = self.block.nodes[k]
        if node.kind == "R":
            return sorted(self.rigid[k]).index(chosen)
        return sum(sum(y < x for y in chosen[i + 1:]) * factorial(len(chosen) - 1 - i) for i, x in enumerate(chosen))

    def choice_at(self, k, digit):
        node = self.block.nodes[k]
        if node.kind == "R":
            return sorted(self.rigid[k])[digit]
        if node.kind in "SB":
            return ()
        left, chosen = node.keys[1:], [node.keys[0]]
        for i in range(len(left), 0, -1):
            place, digit = divmod(digit, factorial(i - 1))
            chosen.append(left.pop(place))
        return tuple(chosen)

    def count(self, locked=()):
        total = 1
        for k in range(len(self.block.nodes)):
            total *= 1 if k in locked else self.radix(k)
        return total

    def rank(self, chosen, locked=()):
        value = 0
        for k in range(len(self.block.nodes)):
            if k not in locked:
                value = value * self.radix(k) + self.digit(k, chosen[k])
        return value

    def choices_at(self, rank, chosen, locked=()):
        digits = list(chosen)
        for k in reversed(range(len(self.block.nodes))):
            if k not in locked:
                rank, digit = divmod(rank, self.radix(k))
                digits[k] = self.choice_at(k, digit)
        return tuple(digits)

    def compose(self, chosen):
        """The rotation system of the block in which each node has its chosen order."""
        nodes, orders = self.block.nodes, []
        for k, node in enumerate(nodes):
            if node.kind == "R":
                orders.append(self.rigid[k][chosen[k]])
            elif node.kind == "P":
                a, b = node.vertices
                orders.append({a: chosen[k], b: tuple(reversed(chosen[k]))})
            else:
                orders.append({v: tuple(item[0] for item in node.items if v in item[1:3]) for v in node.vertices})
        items = [{item[0]: item for item in node.items} for node in nodes]

        def run(k, key, v):
            _, _, _, real, other, _ = items[k][key]
            if real is not None:
                return [real]
            back = next(item[0] for item in nodes[other].items if item[4] == k)
            return around(other, v, back)

        def around(k, v, behind):
            order = list(orders[k][v])
            i = 0 if behind is None else order.index(behind) + 1
            turned = order[i:] + order[:i]
            return [e for key in turned if key != behind for e in run(k, key, v)]

        ring = {}
        for v in self.block.vertices:
            k = next(k for k, node in enumerate(nodes) if v in node.vertices)
            ring[v] = from_least(around(k, v, None))
        return ring


# The checks.


def need(condition, what, block):
    if not condition:
        print("WRONG:", what, "in", [(e, *ends) for e, ends in block.edges.items()])
        sys.exit(1)


def check(block, chance):
    """All laws on one block; returns the number of its rotation systems and of its plane ones."""
    total, plane = 0, []
    for r in all_rotations(block.at):
        total += 1
        if is_plane(block, r):
            plane.append(r)
            for node in block.nodes:
                for v in node.vertices:
                    cut = runs(node, r[v])
                    need(cut is not None, "groups in runs", block)
                    need({key for key, _ in cut} == {item[0] for item in node.items if v in item[1:3]}, "a group for each item", block)
    composed = Composed(block)
    need(composed.planar == bool(plane), "planar where each skeleton is", block)
    for node in block.nodes:
        if node.kind == "R":
            tried, one = skeleton_rotations(node), face_by_face(*skeleton(node))
            need(tried == [] if one is None else one in tried and mirror(one) in tried and len(tried) == 2, "paths put into faces", block)
    if not plane:
        return total, 0
    vectors = [choices(block, r) for r in plane]
    order = sorted(range(len(plane)), key=lambda i: vectors[i])
    plane, vectors = [plane[i] for i in order], [vectors[i] for i in order]
    need(all(v < w for v, w in zip(vectors, vectors[1:])), "strictly rising", block)
    for k, node in enumerate(block.nodes):
        seen = sorted({v[k] for v in vectors})
        if node.kind == "P":
            need(seen == [(node.keys[0],) + rest for rest in permutations(node.keys[1:])], "choices of a bond", block)
            for r in plane:
                low, high = (from_least([key for key, _ in runs(node, r[v])]) for v in node.vertices)
                need(high == from_least(tuple(reversed(low))), "reverse at the other pole", block)
        elif node.kind == "R":
            need(len(seen) == 2 and seen[1] == seen[0][:1] + seen[0][:0:-1], "choices of a rigid node", block)
        else:
            need(seen == [()], "no choice", block)
    length = composed.count()
    need(len(plane) == length, "the length is the product", block)
    need(mirror(plane[0]) == plane[-1], "the last is the mirror image of the first", block)
    index = {frozen(r): i for i, r in enumerate(plane)}
    for i, (r, v) in enumerate(zip(plane, vectors)):
        need(composed.rank(v) == i and composed.choices_at(i, v) == v, "ranks", block)
        need(composed.compose(v) == r, "composed", block)
        need(index[frozen(mirror(r))] == composed.rank(tuple(c[:1] + c[:0:-1] for c in v)), "mirror", block)
    free = [k for k, node in enumerate(block.nodes) if node.kind in "PR"]
    step = {k: [] for k in free}
    for i, r in enumerate(plane):
        for k in free:
            node = block.nodes[k]
            ways = [("flip", k)] if node.kind == "R" else [("permute", k, keys) for keys in permutations(node.keys)] if len(node.keys) < 5 \
                else [("permute", k, (node.keys[0],) + rest) for rest in permutations(node.keys[1:])]
            for m in ways:
                q = move(block, m, r)
                j = index.get(frozen(q))
                need(j is not None, "a move keeps plane", block)
                need(all(vectors[j][c] == vectors[i][c] for c in range(len(block.nodes)) if c != k), "a move changes one choice", block)
                wanted = vectors[i][k][:1] + vectors[i][k][:0:-1] if node.kind == "R" else from_least(m[2])
                need(vectors[j][k] == wanted, "a move sets its choice", block)
                step[k].append((i, j))
    for size in range(len(free) + 1):
        for locked in combinations(free, size):
            label = list(range(len(plane)))

            def root(x):
                while label[x] != x:
                    label[x] = label[label[x]]
                    x = label[x]
                return x

            for k in free:
                if k not in locked:
                    for i, j in step[k]:
                        label[root(i)] = root(j)
            kept = {}
            for i, v in enumerate(vectors):
                kept.setdefault(tuple(v[k] for k in locked), []).append(i)
            for members in kept.values():
                need(len({root(i) for i in members}) == 1, "all that is kept is reached", block)
                need(len(members) == composed.count(locked), "the length with locks", block)
                for rank, i in enumerate(members):
                    need(composed.rank(vectors[i], locked) == rank, "rank with locks", block)
                    need(composed.choices_at(rank, vectors[members[0]], locked) == vectors[i], "member with locks", block)
            need(len({root(i) for i in range(len(plane))}) == len(kept), "all that is reached is kept", block)
    pairs = [(i, j) for i in range(len(plane)) for j in range(len(plane))]
    for i, j in pairs if len(pairs) <= 200 else chance.sample(pairs, 200):
        r = plane[i]
        for m in moves_between(block, plane[i], plane[j]):
            need(vectors[i][m[1]] != vectors[j][m[1]], "moves name nodes that differ", block)
            r = move(block, m, r)
            need(frozen(r) in index, "moves go through plane ones", block)
        need(r == plane[j], "moves lead", block)
    return total, len(plane)


def is_block(edges):
    return len(head_of.blocks(edges)) == 1


def numbered(pairs):
    """Edges with their numbers; the ends of some turned round, as a file may have them."""
    return [(number, a, b) for number, (a, b) in enumerate(pairs)]


def small(chance):
    blocks = rotations = plane = nonplanar = 0
    for n in range(2, 5):
        places = list(combinations(range(n), 2))
        for m in range(1, 8):
            for pairs in combinations_with_replacement(places, m):
                if {x for pair in pairs for x in pair} != set(range(n)) or not is_block(numbered(pairs)):
                    continue
                orders = {pairs, tuple(reversed(pairs)), tuple(chance.sample(pairs, m))} if n > 2 else {pairs}
                for order in sorted(orders):
                    total, good = check(Block(numbered(order)), chance)
                    blocks, rotations, plane = blocks + 1, rotations + total, plane + good
    print(f"small: {blocks} blocks, {rotations} rotation systems, {plane} plane")


def random_block(chance):
    """Every other one simple, of up to 8 vertices; the rest of up to 7 vertices, with edges that may be parallel."""
    while True:
        simple = chance.random() < 0.5
        n = chance.randint(4, 8) if simple else chance.randint(2, 7)
        places = list(combinations(range(n), 2))
        m = chance.randint(n, 12)
        if simple and m > len(places):
            continue
        pairs = chance.sample(places, m) if simple else [chance.choice(places) for _ in range(m)]
        pairs = [pair if chance.random() < 0.5 else pair[::-1] for pair in pairs]
        if {x for pair in pairs for x in pair} == set(range(n)) and is_block(numbered(pairs)):
            block = Block(numbered(pairs))
            if rotation_total(block.at) <= 8000:
                return block


def many(count, seed):
    chance = random.Random(seed)
    rotations = plane = nonplanar = several = rigid = 0
    for _ in range(count):
        block = random_block(chance)
        total, good = check(block, chance)
        rotations, plane, nonplanar = rotations + total, plane + good, nonplanar + (good == 0)
        several += sum(node.kind in "PR" for node in block.nodes) > 1
        rigid += any(node.kind == "R" for node in block.nodes)
    print(f"random: {count} blocks, {nonplanar} nonplanar, {rigid} with a rigid node, {several} with two or more choices, {rotations} rotation systems, {plane} plane")


def text_of(rotation):
    return "; ".join(f"{v}:" + "".join(f" {e}" for e in order) for v, order in sorted(rotation.items()))


ROWS = [
    ("K4", "01 02 03 12 13 23", 2, [(0, "0: 0 1 2; 1: 0 4 3; 2: 1 3 5; 3: 2 5 4")], []),
    ("square with a chord", "01 12 23 30 02", 2, [(0, "0: 0 3 4; 1: 0 1; 2: 1 4 2; 3: 2 3")], []),
    ("K2,3", "02 12 03 13 04 14", 2, [], []),
    ("pentagon", "01 12 23 34 40", 1, [], []),
    ("three parallel edges", "01 01 01", 2, [(0, "0: 0 1 2; 1: 0 2 1"), (1, "0: 0 2 1; 1: 0 1 2")], []),
    ("one edge", "01", 1, [(0, "0: 0; 1: 0")], []),
    ("two edges", "01 01", 1, [], []),
    ("two K4 on an edge", "01 02 03 12 13 23 04 05 14 15 45", 8,
     [(0, "0: 0 1 2 6 7; 1: 0 9 8 4 3; 2: 1 3 5; 3: 2 5 4; 4: 6 8 10; 5: 7 10 9")],
     [(0, 7, [("permute", 0, (0, 6, 1)), ("flip", 1), ("flip", 2)])]),
    ("two K4 without the edge", "02 03 12 13 23 04 05 14 15 45", 4,
     [(0, "0: 0 1 5 6; 1: 2 8 7 3; 2: 0 2 4; 3: 1 4 3; 4: 5 7 9; 5: 6 9 8"),
      (2, "0: 0 5 6 1; 1: 2 3 8 7; 2: 0 4 2; 3: 1 3 4; 4: 5 7 9; 5: 6 9 8")], []),
    ("K5", "01 02 03 04 12 13 14 23 24 34", 0, [], []),
]


def rows():
    chance = random.Random(1)
    for name, text, length, members, led in ROWS:
        block = Block(numbered([(int(pair[0]), int(pair[1])) for pair in text.split()]))
        _, good = check(block, chance)
        need(good == length, f"{name}: length", block)
        found = full_list(block)
        for rank, member in members:
            need(text_of(found[rank]) == member, f"{name}: member {rank}", block)
        for i, j, wanted in led:
            need(moves_between(block, found[i], found[j]) == wanted, f"{name}: moves", block)
        print(f"row {name}: {good}")
    many_edges = Composed(Block(numbered([(0, 1)] * 35)))
    need(many_edges.count() == 295232799039604140847618609643520000000, "35 parallel edges", many_edges.block)


def main():
    words = sys.argv[1:]
    if words[:1] == ["small"]:
        small(random.Random(7))
    elif words[:1] == ["random"] and len(words) == 3:
        many(int(words[1]), int(words[2]))
    elif words == ["rows"]:
        rows()
    else:
        sys.exit(__doc__)


if __name__ == "__main__":
    main()
