#!/usr/bin/env python3
"""drawn.py GRAPH SCRIPT REPORT: whether the answers to `draw` in a printed report are right. Ends with 1 where one is not.

Each `draw` of more than an edge needs a `show` of its block in the script, before or after it, with no change of it in between. A
drawing is judged by a sweep over its points in whole numbers (Shamos and Hoey 1976); nothing of the program's way to find one is
used. Some seconds for 20,000 vertices."""
import re
import sys
from bisect import bisect_left
from functools import cmp_to_key

HEAD = (b"graph", b"vertex", b"cut", b"block", b"node", b"planar", b"nonplanar", b"path")
CHANGES = ("flip", "permute", "mirror", "first", "next", "goto", "convert", "convert_to", "take", "lock", "unlock")


def turn(a, b, c):
    """Above 0 where c lies to the left of the way from a to b, below 0 to the right, 0 on the line."""
    return (b[0] - a[0]) * (c[1] - a[1]) - (b[1] - a[1]) * (c[0] - a[0])


def meet(first, last):
    """Whether two segments, each from its lower end on, have a point in common that is not an end of both."""
    (a, b), (c, d) = first, last
    if b < c or d < a:
        return False
    common = {a, b} & {c, d}
    if len(common) == 2:
        return True
    if common:
        # They overlap where the other two ends lie in one direction.
        z, = common
        p, q = (b if a == z else a), (d if c == z else c)
        return turn(z, p, q) == 0 and (p > z) == (q > z)
    one, two, three, four = turn(a, b, c), turn(a, b, d), turn(c, d, a), turn(c, d, b)
    if one == two == three == four == 0:
        return max(a, c) <= min(b, d)
    return (one <= 0 <= two or two <= 0 <= one) and (three <= 0 <= four or four <= 0 <= three)


def crossing(points, ends):
    """What is wrong with the segments between these different points, in words; None where edges meet in common ends alone and
    pass no other vertex.

    The sweep goes over the points from left to right, and upwards where several are above each other. `held` are the segments
    that begin before the point and end at it or after it, upwards. Where no two that come to be neighbours meet, none meet."""
    leaving, entering = {v: [] for v in points}, {v: 0 for v in points}
    segments = {}
    for edge, (u, w) in ends.items():
        low, high = (u, w) if points[u] < points[w] else (w, u)
        segments[edge] = (points[low], points[high])
        leaving[low].append(edge)
        entering[high] += 1
    held = []
    for v in sorted(points, key=points.get):
        at = points[v]
        first = bisect_left(held, 1, key=lambda edge: turn(*segments[edge], at) <= 0)
        last = first
        while last < len(held) and segments[held[last]][1] == at:
            last += 1
        if last - first != entering[v]:
            return f"an edge crosses those that end at vertex {v}, or goes through it"
        if last < len(held) and turn(*segments[held[last]], at) == 0:
            return f"edge {held[last]} goes through vertex {v}"
        new = sorted(leaving[v], key=cmp_to_key(lambda e, f: -turn(at, segments[e][1], segments[f][1])))
        held[first:last] = new
        for place in range(max(first, 1), min(first + len(new) + 1, len(held))):
            if meet(segments[held[place - 1]], segments[held[place]]):
                return f"edges {held[place - 1]} and {held[place]} meet"
    return None


def goes_around(center, others):
    """Whether these points, in different directions from the center, are met counterclockwise, once around."""
    upper = [(center[1], center[0]) < (y, x) for x, y in others]

    def before(i, j):
        left = turn(center, others[i], others[j]) > 0
        return not upper[j] or left if upper[i] else not upper[j] and left

    return sum(not before(i, (i + 1) % len(others)) for i in range(len(others))) <= 1


def wrong_drawing(ends, rotation, points):
    """What is wrong with a drawing of a block, in words; None where it is right. `ends` has the two ends of each edge, `rotation`
    the edges at each vertex, counterclockwise, and `points` the point of each vertex."""
    count = len(points)
    if sorted(points) != sorted(rotation):
        return "the points are not those of the vertices"
    if count == 2 and [points[v] for v in sorted(points)] != [(0, 0), (1, 0)]:
        return "two vertices are not at (0, 0) and (1, 0)"
    for v, (x, y) in points.items():
        if count > 2 and not (0 <= x <= 2 * count - 4 and 0 <= y <= count - 2):
            return f"vertex {v} is not on the grid"
    if len(set(points.values())) != count:
        return "two vertices have the same point"
    wrong = crossing(points, ends)
    if wrong:
        return wrong
    for v, order in rotation.items():
        others = [points[ends[e][0] + ends[e][1] - v] for e in order]
        if not goes_around(points[v], others):
            return f"the edges at vertex {v} are not in the order of the rotation system"
    return None


def least_parallel(ends):
    """The least pair of edges with the same ends; None where there is none."""
    found = {}
    for edge in sorted(ends):
        found.setdefault(tuple(sorted(ends[edge])), []).append(edge)
    return min(((pair[0], pair[1]) for pair in found.values() if len(pair) > 1), default=None)


# The report.


def answers(report, script):
    """The blocks of the head, each with its edges, those that are planar, and the lines of the answer to each command."""
    lines = report.split(b"\n")
    place, blocks, planar = 0, {}, set()
    while lines[place].split(b" ")[0] in HEAD:
        words = lines[place].split()
        if words[0] == b"block":
            blocks[int(words[1][:-1])] = [int(word) for word in words[2:]]
        elif words[0] == b"planar":
            planar.add(int(words[1]))
        place += 1
    found = []
    for _ in script:
        words = lines[place].split()
        more = 0
        if words[0] in (b"faces", b"draw"):
            more = int(words[2])
        elif words[0] in (b"list", b"listwhole"):
            more = int(words[2]) + 1
        elif words[0] == b"moves":
            more = int(words[1])
        elif words[0] == b"longest":
            more = 1 + int(lines[place + 1].split()[1])
        elif words[0] == b"gml":
            size, more = int(words[1]), 0
            while size > 0:
                more += 1
                size -= len(lines[place + more]) + 1
        found.append([line.decode() for line in lines[place:place + more + 1]])
        place += more + 1
    return blocks, planar, found


def orders_of(line):
    """The edges at each vertex, from a line `rotation B | ..`."""
    entries = line.split("|")[1].split(";")
    return {int(v): [int(e) for e in edges.split()] for v, edges in (entry.split(":") for entry in entries)}


def points_of(lines):
    """The point of each vertex, from the lines of an answer; None where these are no such lines, increasing."""
    found = [re.fullmatch(r"point (0|[1-9][0-9]*) (0|[1-9][0-9]*) (0|[1-9][0-9]*)", line) for line in lines[1:]]
    if not all(found) or any(int(a[1]) >= int(b[1]) for a, b in zip(found, found[1:])):
        return None
    return {int(m[1]): (int(m[2]), int(m[3])) for m in found}


def judged(ends, blocks, planar, script, found):
    """For each `draw`: the number of its command, and what is wrong with its answer, or None."""
    changes, every = dict.fromkeys(blocks, 0), 0
    orders, drawn = {}, []
    for number, (command, lines) in enumerate(zip(script, found)):
        done = not lines[0].startswith("error") and lines[0] != "end"
        if command[0] in ("undo", "redo", "nextwhole", "convertwhole") and done:
            every += 1
        elif command[0] in CHANGES and done:
            changes[command[1]] += 1
        elif command[0] == "show" and done:
            orders[command[1], changes[command[1]], every] = orders_of(lines[0])
        elif command[0] == "draw":
            drawn.append((number, command[1], (command[1], changes.get(command[1]), every), lines))
    for number, b, state, lines in drawn:
        yield number, wrong_answer({e: ends[e] for e in blocks.get(b, [])}, b, b in planar, orders.get(state), lines)


def wrong_answer(ends, b, is_planar, order, lines):
    """What is wrong with the answer to `draw` of a block with these edges, which has this order; None where it is right."""
    pair = least_parallel(ends)
    refusal = "error 1" if not ends else "error 5" if not is_planar else f"error 13 {pair[0]} {pair[1]}" if pair else None
    if refusal or lines[0].startswith("error"):
        return None if lines == [refusal] else f"wanted {refusal}, printed {lines[0]}"
    points = points_of(lines)
    if points is None or lines[0] != f"draw {b} {len(points)}":
        return "the lines are not those of a drawing"
    if order is None and len(ends) == 1:
        order = {v: [e] for e, pair in ends.items() for v in pair}
    return wrong_drawing(ends, order, points) if order else "no `show` tells the order"


def main():
    # That file uses the judgement above.
    from report_of import commands, document, graph_of
    if len(sys.argv) != 4:
        sys.exit(__doc__)
    graph, script, report = (open(name, "rb").read() for name in sys.argv[1:])
    steps = commands(script)
    if not isinstance(steps, list) or report.startswith(b"refused"):
        sys.exit("the script or the graph is refused")
    blocks, planar, found = answers(report, steps)
    right = 0
    for number, wrong in judged(graph_of(document(graph))[1], blocks, planar, steps, found):
        if wrong:
            sys.exit(f"drawn: command {number + 1}: {wrong}")
        right += 1
    if not right:
        sys.exit("drawn: the script draws nothing")
    print(f"drawn: {right} answers to draw are right")


if __name__ == "__main__":
    main()
