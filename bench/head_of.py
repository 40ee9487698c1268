#!/usr/bin/env python3
"""head_of.py: the head that the program must print for a GML file, but for the lines on planarity, by a slow program that rests
on the definitions alone.

  head_of.py NAME.gml

It shares no way of working with the program: blocks by trying cut vertices, split components by trying all pairs of
vertices again after each split, then neighbouring bonds and neighbouring polygons put together. For files as make.py
writes them."""
import re
import sys
from itertools import combinations

sys.setrecursionlimit(100000)


def read(path):
    text = open(path).read()
    ids = [int(number) for number in re.findall(r"\bid (-?\d+)", text)]
    place = {number: vertex for vertex, number in enumerate(ids)}
    pairs = re.findall(r"source (-?\d+)\s+target (-?\d+)", text)
    return ids, [(place[int(a)], place[int(b)]) for a, b in pairs]


def lumps(edges, removed):
    """The classes of edges (name, a, b) that are joined without passing a removed vertex."""
    label = {}

    def root(x):
        while label[x] != x:
            x = label[x]
        return x

    for _, a, b in edges:
        for x in (a, b):
            if x not in removed:
                label.setdefault(x, x)
    for _, a, b in edges:
        if a not in removed and b not in removed:
            label[root(a)] = root(b)
    classes = {}
    for edge in edges:
        free = [x for x in edge[1:] if x not in removed]
        classes.setdefault(("at", root(free[0])) if free else ("edge", edge[0]), []).append(edge)
    return list(classes.values())


def blocks(edges):
    """Edges parted at every vertex that parts them, until none does."""
    done, waiting = [], [edges]
    while waiting:
        part = waiting.pop()
        for x in sorted({x for _, a, b in part for x in (a, b)}) + [None]:
            pieces = lumps(part, {x})
            if len(pieces) > 1:
                waiting += pieces
                break
        else:
            done.append(part)
    return sorted(sorted(part) for part in done)


def split(edges):
    """Split components: lists of (name, a, b), a virtual edge under the name ('v', number) in two of them."""
    done, waiting, count = [], [edges], 0
    while waiting:
        part = waiting.pop()
        found = None
        if len(part) >= 4:
            for p, q in combinations(sorted({x for _, a, b in part for x in (a, b)}), 2):
                pieces = lumps(part, {p, q})
                single = [piece for piece in pieces if len(piece) == 1 and set(piece[0][1:]) == {p, q}]
                wide = [piece for piece in pieces if len(piece) >= 2 and len(part) - len(piece) >= 2]
                if wide:
                    found = (p, q, wide[0])
                elif len(single) >= 2 and len(part) >= 4:
                    found = (p, q, single[0] + single[1])
                if found:
                    break
        if found:
            p, q, side = found
            virtual = (("v", count), p, q)
            count += 1
            waiting += [side + [virtual], [edge for edge in part if edge not in side] + [virtual]]
        else:
            done.append(part)
    return done


def kind(part):
    vertices = {x for _, a, b in part for x in (a, b)}
    if len(vertices) == 2:
        return "P" if len(part) > 2 else "B"
    degree = {x: sum(x in edge[1:] for edge in part) for x in vertices}
    return "S" if set(degree.values()) == {2} else "R"


def tree(edges):
    parts = split(edges)
    changed = True
    while changed:
        changed = False
        for i, j in combinations(range(len(parts)), 2):
            shared = {e[0] for e in parts[i]} & {e[0] for e in parts[j]}
            if shared and kind(parts[i]) == kind(parts[j]) and kind(parts[i]) in "SP":
                parts[i] = [e for e in parts[i] + parts[j] if e[0] not in shared]
                del parts[j]
                changed = True
                break
    return parts


def node_lines(edges, ends):
    parts = sorted(tree(edges), key=lambda part: sorted({x for _, a, b in part for x in (a, b)}))
    holder = {}
    for number, part in enumerate(parts):
        for name, _, _ in part:
            holder.setdefault(name, []).append(number)

    def least(node, came):
        found = [name for name, _, _ in parts[node] if isinstance(name, int)]
        for name, _, _ in parts[node]:
            if name != came and not isinstance(name, int):
                found.append(least(sum(holder[name]) - node, name))
        return min(found)

    for number, part in enumerate(parts):
        items = []
        for name, a, b in part:
            low, high = min(a, b), max(a, b)
            if isinstance(name, int):
                items.append((name, f"{name}:{low}-{high}"))
            else:
                other = sum(holder[name]) - number
                key = least(other, name)
                items.append((key, f"{key}:{low}-{high}@{other}"))
        vertices = sorted({x for _, a, b in part for x in (a, b)})
        yield f"node {number} {kind(part)} {' '.join(map(str, vertices))} | {' '.join(text for _, text in sorted(items))}"


def main():
    ids, ends = read(sys.argv[1])
    edges = [(number, a, b) for number, (a, b) in enumerate(ends)]
    found = blocks(edges) if edges else []
    print(f"graph {len(ids)} {len(ends)}")
    for vertex, number in enumerate(ids):
        print(f"vertex {vertex} {number}")
    for vertex in range(len(ids)):
        if sum(any(vertex in edge[1:] for edge in block) for block in found) > 1:
            print(f"cut {vertex}")
    for number, block in enumerate(found):
        print(f"block {number}: {' '.join(str(edge[0]) for edge in block)}")
        for line in node_lines(block, ends):
            print(line)


if __name__ == "__main__":
    main()
