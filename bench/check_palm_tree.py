#!/usr/bin/env python3
"""check_palm_tree.py: whether what the crate palm_tree grows is a palm tree, point by point from the definition (specs of
palm_tree), on small graphs and on random connected multigraphs.

`check_palm_tree.py make COUNT` writes the graphs, a line for each; `check_palm_tree.py check GRAPHS TREES` compares."""
import random
import sys


def connected_multigraph(rng):
    n = rng.randint(1, rng.choice([3, 6, 9, 14]))
    ends = [(rng.randrange(v), v) for v in range(1, n)]
    if n > 1:
        for _ in range(rng.randint(0, rng.choice([1, n, 2 * n]))):
            ends.append(tuple(rng.sample(range(n), 2)))
        for _ in range(rng.choice([0, 0, 1, 3])):
            ends.append(rng.choice(ends))
    names = list(range(n))
    rng.shuffle(names)
    rng.shuffle(ends)
    return n, [(names[a], names[b]) if rng.random() < 0.5 else (names[b], names[a]) for a, b in ends]


def one_block(n, ends):
    """Each two edges are equal or on a common cycle: without any vertex the rest is connected (or the graph is one bond)."""
    if not ends or any(all(v not in pair for pair in ends) for v in range(n)):
        return False
    for x in range(n):
        label = {v: v for v in range(n) if v != x}
        for _ in range(n):
            for a, b in ends:
                if a != x and b != x:
                    label[a] = label[b] = min(label[a], label[b])
        if len(set(label.values())) > 1:
            return False
    return True


def faults(n, ends, number, parent, frond, low1, low2, darts):
    m = len(ends)
    other = lambda e, v: ends[e][1] if ends[e][0] == v else ends[e][0]
    yield "numbers", sorted(number) == list(range(n))
    yield "root", all((parent[v] is None) == (number[v] == 0) for v in range(n))

    def chain(v):
        found = [v]
        while parent[found[-1]] is not None and len(found) <= n:
            found.append(parent[found[-1]])
        return found

    below = {v: [z for z in range(n) if v in chain(z)] for v in range(n)}
    yield "chains end", all(len(chain(v)) <= n for v in range(n))
    yield "consecutive", all(sorted(number[z] for z in below[v]) == list(range(number[v], number[v] + len(below[v]))) for v in range(n))
    parent_edges = {v: [e for e in range(m) if not frond[e] and v in ends[e] and other(e, v) == parent[v]] for v in range(n)}
    yield "one parent edge", all(len(parent_edges[v]) == (parent[v] is not None) for v in range(n))
    child_of = {e: v for v in range(n) for e in parent_edges[v]}
    lower = {}
    for e in range(m):
        if not frond[e]:
            yield "no frond is a parent edge", e in child_of
            lower[e] = child_of.get(e)
        else:
            a, b = ends[e]
            yield "frond to an ancestor", b in chain(a) or a in chain(b)
            lower[e] = a if b in chain(a) else b
    begin = {e: lower[e] if frond[e] else other(e, lower[e]) for e in range(m)}
    yield "darts", all(sorted(darts[v]) == [e for e in range(m) if begin[e] == v] for v in range(n))
    for v in range(n):
        reached = {number[other(e, lower[e])] for e in range(m) if frond[e] and lower[e] in below[v]}
        yield "low1", low1[v] == min(reached | {number[v]})
        yield "low2", low2[v] == min((reached - {low1[v]}) | {number[v]})
        goal = lambda e: number[other(e, v)] if frond[e] else low1[other(e, v)]
        kind = lambda e: 1 if frond[e] else (0 if low2[other(e, v)] < number[v] else 2)
        keys = [(goal(e), kind(e)) for e in darts[v]]
        yield "darts in order", keys == sorted(keys)
    if one_block(n, ends):
        for v in range(n):
            children = [number[other(e, v)] for e in darts[v] if not frond[e]]
            yield "later children are less", children == sorted(children, reverse=True)


def small():
    yield 0, []
    yield 1, []
    yield 3, [(0, 1), (1, 2), (2, 0)]
    yield 3, [(0, 1), (0, 2)]
    yield 4, [(0, 1), (0, 2), (0, 3)]
    yield 5, [(0, 1), (1, 2), (2, 0), (0, 3), (3, 4), (4, 0)]
    yield 2, [(0, 1)] * 5


def main():
    if sys.argv[1] == "make":
        rng = random.Random(1)
        graphs = list(small()) + [connected_multigraph(rng) for _ in range(int(sys.argv[2]))]
        for n, ends in graphs:
            print(n, *(x for pair in ends for x in pair))
        return
    wrong = compared = blocks = 0
    with open(sys.argv[2]) as graphs, open(sys.argv[3]) as trees:
        trees = [line for line in trees if "|" in line]
        for graph, tree in zip(graphs, trees, strict=True):
            n, *flat = map(int, graph.split())
            ends = list(zip(flat[::2], flat[1::2]))
            number, parent, frond, low1, low2, *darts = tree.split("|")[:-1]
            numbers = lambda text: [int(word) for word in text.split()]
            parents = [None if word == "-" else int(word) for word in parent.split()]
            marks = [word == "1" for word in frond.split()]
            found = {name for name, right in faults(n, ends, numbers(number), parents, marks, numbers(low1), numbers(low2), [numbers(text) for text in darts]) if not right}
            compared += 1
            blocks += one_block(n, ends)
            if found:
                wrong += 1
                print(f"{graph.strip()}: {sorted(found)}")
    print(f"{compared} graphs, {blocks} of them one block, {wrong} wrong")
    sys.exit(wrong > 0)


main()
