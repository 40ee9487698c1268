"""components.py: the components of a graph, for report_of.py: what may be around a cut vertex, and the plane rotation systems of a
component, found in two ways.

A state has the rotation systems of the blocks (`parts`: by block) and at each cut vertex an arrangement (`cuts`: by vertex), a list of all
edges there from the least on, which keeps the cyclic order of each block and in which no edges of two blocks alternate."""
from functools import cached_property
from itertools import combinations

from embeddings import from_least, rotation_total
from whole_lists import Component

TRIED = 4000


# One cut vertex: `orders` has the cyclic order of each block around it.


def options(prefix, orders):
    """The edges that may follow in an arrangement. The block of an edge has not begun; or the edge follows the last one of its block,
    and no block with an edge after that one is unfinished."""
    if not prefix:
        return [min(e for order in orders.values() for e in order)]
    met = {b: [e for e in prefix if e in order] for b, order in orders.items()}
    found = []
    for b, order in orders.items():
        if not met[b]:
            found += order
        elif len(met[b]) < len(order):
            since = prefix[prefix.index(met[b][-1]) + 1:]
            if all(len(met[c]) == len(orders[c]) for c in orders if set(since) & set(orders[c])):
                found.append(order[(order.index(met[b][-1]) + 1) % len(order)])
    return sorted(found)


def least(prefix, orders):
    """The least arrangement with this prefix."""
    found = list(prefix)
    while len(found) < sum(map(len, orders.values())):
        found.append(options(found, orders)[0])
    return tuple(found)


def following(edges, orders):
    """The next arrangement; None after the last one."""
    for place in reversed(range(len(edges))):
        greater = [e for e in options(list(edges[:place]), orders) if e > edges[place]]
        if greater:
            return least([*edges[:place], greater[0]], orders)
    return None


def changes(edges, mine, other):
    """How often the block changes on the way around, where only the edges of two blocks are looked at."""
    sides = [e in mine for e in edges if e in mine or e in other]
    return sum(side != sides[place - 1] for place, side in enumerate(sides))


def wrong_arrangement(edges, orders):
    """Why these edges, which are those at the vertex, are no arrangement: code 16 with a block, or 17 with two; None where they are one."""
    for b, order in sorted(orders.items()):
        if from_least([e for e in edges if e in order]) != order:
            return 16, b
    for b, c in combinations(sorted(orders), 2):
        if changes(edges, orders[b], orders[c]) > 2:
            return 17, b, c
    return None


# A component.


class Whole:
    """A component, over the lists of its blocks: the product of these, and in each member of it the product of the arrangements."""

    def __init__(self, number, vertices, session):
        self.number, self.vertices = number, vertices
        self.at = {v: session.at[v] for v in vertices}
        self.edges = {e: session.ends[e] for v in vertices for e in self.at[v]}
        self.blocks = [b for b, block in enumerate(session.blocks) if set(block.edges) <= set(self.edges) and block.edges]
        self.trees = {b: session.blocks[b] for b in self.blocks}
        self.lists = {b: session.lists[b] for b in self.blocks}
        self.cuts = [v for v in vertices if len(self.around(v)) > 1]
        self.planar = all(lists.planar for lists in self.lists.values())

    def around(self, v):
        """The blocks at a vertex."""
        return [b for b in self.blocks if v in self.trees[b].at]

    def orders(self, v, parts):
        return {b: parts[b][v] for b in self.around(v)}

    def system(self, parts, cuts):
        """The rotation system of the component."""
        alone = {v: next((parts[b][v] for b in self.around(v)), ()) for v in self.vertices}
        return {**alone, **cuts}

    def part(self, b, rotation):
        """What a rotation system leaves of itself on a block."""
        return {v: from_least([e for e in rotation[v] if e in self.trees[b].edges]) for v in self.trees[b].vertices}

    def first(self, v, parts):
        return least([], self.orders(v, parts))

    def wrong(self, v, edges, parts, cuts):
        return wrong_arrangement(edges, self.orders(v, parts))

    def after(self, parts, cuts, locks):
        """The state that follows in the list; None after the last one."""
        for place, v in reversed(list(enumerate(self.cuts))):
            found = following(cuts[v], self.orders(v, parts))
            if found:
                return parts, {**cuts, v: found, **{w: self.first(w, parts) for w in self.cuts[place + 1:]}}
        for b in reversed(self.blocks):
            rank = self.lists[b].rank(parts[b], locks[b]) + 1
            if rank < self.lists[b].count(parts[b], locks[b]):
                later = {c: self.lists[c].member(0, parts[c], locks[c]) for c in self.blocks if c > b}
                parts = {**parts, b: self.lists[b].member(rank, parts[b], locks[b]), **later}
                return parts, {v: self.first(v, parts) for v in self.cuts}
        return None


class TriedWhole(Whole):
    """The same by trying all rotation systems of the component, with nothing of how blocks are put together."""

    def __init__(self, number, vertices, session):
        super().__init__(number, vertices, session)
        self.every = Component(len(session.ids), session.ends, vertices[0])

    @cached_property
    def members(self):
        """All, in order, each with its choices and with its parts."""
        return [(rotation, found, {b: self.part(b, rotation) for b in self.blocks}) for rotation, found in self.every.members()]

    def first(self, v, parts):
        return min(member[0][v] for member in self.members if member[2] == parts)

    def wrong(self, v, edges, parts, cuts):
        text = self.every.refusal(self.system(parts, cuts), v, edges)
        return text and ({"order": 16, "cross": 17}[text.split()[0]], *map(int, text.split()[1:]))

    def after(self, parts, cuts, locks):
        here = next(member for member in self.members if member[0] == self.system(parts, cuts))
        kept = [member for member in self.members if self.every.keeps(member, here, [(b, k) for b in self.blocks for k in locks[b]])]
        rest = kept[kept.index(here) + 1:]
        return (rest[0][2], {v: rest[0][0][v] for v in self.cuts}) if rest else None


def components(session, composed):
    """The components, in order of their least vertices."""
    found, seen = [], set()
    for start in sorted(session.at):
        if start in seen:
            continue
        inside = [start]
        seen.add(start)
        for v in inside:
            near = {w for e in session.at[v] for w in session.ends[e]} - seen
            inside += near
            seen |= near
        at = {v: session.at[v] for v in inside if session.at[v]}
        way = Whole if composed or rotation_total(at) > TRIED else TriedWhole
        found.append(way(len(found), sorted(inside), session))
    return found
