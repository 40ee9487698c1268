#!/usr/bin/env python3
"""check_tree.py: whether lists of nodes are the tree of a block, word for word by the definition (specs/Tutte.antt and
specs/Split.antt of pair_split), on small blocks whose trees are known; and that near misses are no trees.

A node is written `KIND VERTICES | ITEMS`, an item `KEY:U-W` where it is an edge and `KEY:U-W@NODE` where it is a link."""
from itertools import combinations


def components(links, vertices):
    label = {v: v for v in vertices}
    for _ in vertices:
        for a, b in links:
            if a in label and b in label:
                label[a] = label[b] = min(label[a], label[b])
    return label


def connected(links, vertices):
    return len(set(components(links, vertices).values())) <= 1


def read(text):
    nodes = []
    for line in text.strip().split("\n"):
        front, back = line.split("|")
        kind, *vertices = front.split()
        items = []
        for word in back.split():
            key, ends = word.split(":")
            ends, _, node = ends.partition("@")
            a, b = map(int, ends.split("-"))
            items.append((int(key), a, b, int(node) if node else None))
        nodes.append((kind, [int(v) for v in vertices], items))
    return nodes


def of_kind(kind, ends):
    vertices = sorted({v for pair in ends for v in pair})
    degrees = [sum(v in pair for pair in ends) for v in vertices]
    pairs = {frozenset(pair) for pair in ends}
    if any(a == b for a, b in ends):
        return False
    if kind == "S":
        return connected(ends, vertices) and all(d == 2 for d in degrees) and len(vertices) >= 3
    if kind == "P":
        return len(pairs) == 1 and len(ends) >= 3
    if kind == "B":
        return len(pairs) == 1 and 1 <= len(ends) <= 2
    return len(pairs) == len(ends) and len(vertices) >= 4 and all(
        connected([pair for pair in ends if not set(pair) & set(out)], [v for v in vertices if v not in out])
        for size in range(3) for out in combinations(vertices, size))


def faults(vertex_count, edges, nodes):
    """The points of the definition that fail."""
    found = set()
    links = {(k, item[3]): item for k, node in enumerate(nodes) for item in node[2] if item[3] is not None}

    def beyond(k, j):
        others = [pair for pair in links if set(pair) != {k, j}]
        label = components(others, range(len(nodes)))
        return [c for c in range(len(nodes)) if label[c] == label[j]]

    def side(k, j):
        return {item[0] for c in beyond(k, j) for item in nodes[c][2] if item[3] is None}

    for kind, _, items in nodes:
        if not of_kind(kind, [item[1:3] for item in items]) or (kind == "B" and len(nodes) > 1):
            found.add("kinds")
    if len(links) != sum(item[3] is not None for node in nodes for item in node[2]):
        found.add("links")
    for (k, j), item in links.items():
        if (j, k) not in links or set(links[(j, k)][1:3]) != set(item[1:3]):
            found.add("links")
    pairs = {frozenset(pair) for pair in links}
    if len(pairs) != len(nodes) - 1 or not connected([tuple(pair) for pair in pairs if len(pair) == 2], range(len(nodes))):
        found.add("tree")
    real = [item for node in nodes for item in node[2] if item[3] is None]
    if sorted(item[0] for item in real) != list(range(len(edges))) or any(set(item[1:3]) != set(edges[item[0]]) for item in real):
        found.add("edges")
    if {v for node in nodes for item in node[2] for v in item[1:3]} != set(range(vertex_count)):
        found.add("vertices")
    if not found:
        for (k, j), item in links.items():
            inside = side(k, j)
            at = [{v for e in es for v in edges[e]} for es in (inside, set(range(len(edges))) - inside)]
            if at[0] & at[1] != set(item[1:3]):
                found.add("sides")
            if nodes[k][0] == nodes[j][0] and nodes[k][0] in "SP":
                found.add("joined")
            if item[0] != min(inside):
                found.add("keys")
    for _, vertices, items in nodes:
        if vertices != sorted({v for item in items for v in item[1:3]}) or any(item[1] >= item[2] for item in items) or [item[0] for item in items] != sorted({item[0] for item in items}):
            found.add("order")
    if any(first[1] >= second[1] for first, second in zip(nodes, nodes[1:])):
        found.add("order")
    return sorted(found)


def graph(words):
    edges = [(int(w[0]), int(w[1])) for w in words.split()]
    return max(v for pair in edges for v in pair) + 1, edges


TREES = [
    ("K4", "01 02 03 12 13 23", "R 0 1 2 3 | 0:0-1 1:0-2 2:0-3 3:1-2 4:1-3 5:2-3"),
    ("one edge", "01", "B 0 1 | 0:0-1"),
    ("two edges", "01 01", "B 0 1 | 0:0-1 1:0-1"),
    ("three parallel edges", "01 01 01", "P 0 1 | 0:0-1 1:0-1 2:0-1"),
    ("square with a chord", "01 12 23 30 02", """S 0 1 2 | 0:0-1 1:1-2 2:0-2@1
P 0 2 | 0:0-2@0 2:0-2@2 4:0-2
S 0 2 3 | 0:0-2@1 2:2-3 3:0-3"""),
    ("K2,3", "02 12 03 13 04 14", """P 0 1 | 0:0-1@1 2:0-1@2 4:0-1@3
S 0 1 2 | 0:0-2 1:1-2 2:0-1@0
S 0 1 3 | 0:0-1@0 2:0-3 3:1-3
S 0 1 4 | 0:0-1@0 4:0-4 5:1-4"""),
    ("pentagon", "01 12 23 34 40", "S 0 1 2 3 4 | 0:0-1 1:1-2 2:2-3 3:3-4 4:0-4"),
    ("K5", "01 02 03 04 12 13 14 23 24 34", "R 0 1 2 3 4 | 0:0-1 1:0-2 2:0-3 3:0-4 4:1-2 5:1-3 6:1-4 7:2-3 8:2-4 9:3-4"),
    ("two K4 on an edge", "01 02 03 12 13 23 04 05 14 15 45", """P 0 1 | 0:0-1 1:0-1@1 6:0-1@2
R 0 1 2 3 | 0:0-1@0 1:0-2 2:0-3 3:1-2 4:1-3 5:2-3
R 0 1 4 5 | 0:0-1@0 6:0-4 7:0-5 8:1-4 9:1-5 10:4-5"""),
    ("two K4 without the edge", "02 03 12 13 23 04 05 14 15 45", """R 0 1 2 3 | 0:0-2 1:0-3 2:1-2 3:1-3 4:2-3 5:0-1@1
R 0 1 4 5 | 0:0-1@0 5:0-4 6:0-5 7:1-4 8:1-5 9:4-5"""),
]

MISSES = [
    ("a polygon in two", "kinds joined", "01 12 23 30", "S 0 1 2 | 0:0-1 1:1-2 2:0-2@1\nS 0 2 3 | 0:0-2@0 2:2-3 3:0-3"),
    ("a block as one triconnected graph", "kinds", "01 12 23 30 02", "R 0 1 2 3 | 0:0-1 1:1-2 2:2-3 3:0-3 4:0-2"),
    ("a key too large", "keys", "01 12 23 30 02", "S 0 1 2 | 0:0-1 1:1-2 4:0-2@1\nP 0 2 | 0:0-2@0 2:0-2@2 4:0-2\nS 0 2 3 | 0:0-2@1 2:2-3 3:0-3"),
    ("nodes in another order", "order", "02 03 12 13 23 04 05 14 15 45",
     "R 0 1 4 5 | 0:0-1@1 5:0-4 6:0-5 7:1-4 8:1-5 9:4-5\nR 0 1 2 3 | 0:0-2 1:0-3 2:1-2 3:1-3 4:2-3 5:0-1@0"),
    ("an edge twice", "edges", "01 01 01", "P 0 1 | 0:0-1 1:0-1 1:0-1 2:0-1"),
    ("links with other ends", "links", "01 12 23 30 02", "S 0 1 2 | 0:0-1 1:1-2 2:0-2@1\nP 0 2 | 0:0-2@0 2:0-3@2 4:0-2\nS 0 2 3 | 0:0-2@1 2:2-3 3:0-3"),
]


def main():
    wrong = 0
    for name, edges, tree in TREES:
        found = faults(*graph(edges), read(tree))
        wrong += bool(found)
        print(f"{name}: {' '.join(found) or 'the tree'}")
    for name, fault, edges, tree in MISSES:
        found = faults(*graph(edges), read(tree))
        missed = not set(found) & set(fault.split())
        wrong += missed
        print(f"{name}: {'NOT REFUSED' if missed else 'refused by ' + ' '.join(found)}")
    return 1 if wrong else 0


if __name__ == "__main__":
    raise SystemExit(main())
