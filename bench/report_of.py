#!/usr/bin/env python3
"""report_of.py: the report that the program must print for a GML file and a script, by the slow definitions of embeddings.py.

  report_of.py GRAPH SCRIPT              prints the report; for a certificate, which is free, there is a line `nonplanar B ?`
                                         and for moves and points that are free, of `longest` and `draw`, a line `moves ?` or `point ?`
  report_of.py GRAPH SCRIPT REPORT       compares a printed report with it, and checks its certificates, free moves and free points
  --composed                             finds the lists by composing skeletons even where all rotation systems could be tried

Small blocks are listed by trying all their rotation systems, others by composing those of their skeletons. A graph file that
is no document or is refused is not for this program, but for the refusals of a start; these and a script that is refused are
answered as the program does."""
import re
import sys

import head_of
from components import components
from drawn import least_parallel, points_of, wrong_drawing
from embeddings import (OVER, Block, Composed, choice, choices, faces, flip, from_least, full_list, is_plane, mirror, move, moves_between,
                        numbered, permute, rotation_total, runs, text_of)

TRIED = 20000
START = b"spqrRotation"
sys.set_int_max_str_digits(0)


# The graph file.

TOKEN = re.compile(rb'[ \t-\r]+|#[^\r\n]*|"[^"]*"|\[|\]|[^ \t-\r\[\]"#]+')


def document(data):
    tokens = [t for t in TOKEN.findall(data) if t.strip(b" \t\n\v\f\r") and not t.startswith(b"#")]
    stack, pairs, key = [], [], None
    for token in tokens:
        if token == b"]":
            inner, (pairs, name) = pairs, stack.pop()
            pairs.append((name, inner))
        elif key is None:
            key = token
        elif token == b"[":
            stack.append((pairs, key))
            pairs, key = [], None
        else:
            pairs.append((key, token))
            key = None
    return pairs


def written(pairs, depth=0):
    out = b""
    for key, value in pairs:
        indent = b"  " * depth
        if isinstance(value, list):
            out += indent + key + b" [\n" + written(value, depth + 1) + indent + b"]\n"
        else:
            out += indent + key + b" " + value + b"\n"
    return out


def lists_under(pairs, name):
    return [value for key, value in pairs if key == name and isinstance(value, list)]


def graph_of(pairs):
    graph = lists_under(pairs, b"graph")[0]
    first = lambda inner, name: int(next(value for key, value in inner if key == name))
    ids = [first(node, b"id") for node in lists_under(graph, b"node")]
    place = {number: vertex for vertex, number in enumerate(ids)}
    ends = [(place[first(edge, b"source")], place[first(edge, b"target")]) for edge in lists_under(graph, b"edge")]
    return ids, ends


# The start that a file gives, and the start that is written.


class RefusedGraph(Exception):
    """The words of the refusal."""


def start_of(pairs, ends):
    """The numbers at each vertex, in the order of the file; None where the file has no start."""
    nodes = lists_under(lists_under(pairs, b"graph")[0], b"node")
    texts = [next((value for key, value in node if key == START), None) for node in nodes]
    if not texts or not all(isinstance(text, bytes) and text.startswith(b'"') for text in texts):
        return None
    lists = []
    for v, text in enumerate(texts):
        words = text[1:-1].split()
        if not all(re.fullmatch(rb"[0-9]+", word) for word in words) or sorted(map(int, words)) != [e for e, pair in enumerate(ends) if v in pair]:
            raise RefusedGraph(f"start-vertex {v}")
        lists.append([int(word) for word in words])
    return lists


def marked(pairs, texts):
    """The document with these texts in its nodes: in place of the first value under the key, else at the end of the node."""
    graph, left, nodes = lists_under(pairs, b"graph")[0], iter(texts), []
    for key, value in graph:
        if key == b"node" and isinstance(value, list):
            text = b'"%s"' % next(left).encode()
            place = next((i for i, (name, _) in enumerate(value) if name == START), len(value))
            value = value[:place] + [(START, text)] + value[place + 1:]
        nodes.append((key, value))
    return [(key, nodes if value is graph else value) for key, value in pairs]


# The script.


class NoCommand(Exception):
    pass


def number(word, limit=2 ** 32):
    if not re.fullmatch("[0-9]+", word) or int(word) >= limit:
        raise NoCommand
    return int(word)


def rotation_of(text):
    """The entries of a rotation system as written: a list of (vertex, edges)."""
    words = re.sub("([:;])", r" \1 ", text).split()
    if not words:
        return []
    entries = []
    for part in " ".join(words).split(";"):
        words = part.split()
        if len(words) < 2 or words[1] != ":":
            raise NoCommand
        entries.append((number(words[0]), [number(word) for word in words[2:]]))
    if any(v >= w for (v, _), (w, _) in zip(entries, entries[1:])):
        raise NoCommand
    return entries


def command(line):
    if re.search("[^ -~\t]", line):
        raise NoCommand
    words = line.split()
    name, rest = words[0], words[1:]
    after = lambda count: line.strip(" \t").split(None, count)[count] if len(words) > count else ""
    if name == "euler":
        return ("euler", rotation_of(after(1)))
    if name in ("undo", "redo", "gml") and not rest:
        return (name,)
    if name in ("show", "faces", "mirror", "first", "next", "count", "rank", "longest", "draw", "whole", "nextwhole") and len(rest) == 1:
        return (name, number(rest[0]))
    if name in ("flip", "lock", "unlock") and len(rest) == 2:
        return (name, number(rest[0]), number(rest[1]))
    if name == "permute" and len(rest) >= 3:
        return (name, number(rest[0]), number(rest[1]), [number(word) for word in rest[2:]])
    if name == "regroup" and len(rest) >= 2:
        return (name, number(rest[0]), [number(word) for word in rest[1:]])
    if name in ("list", "listwhole") and len(rest) == 2 and 1 <= number(rest[1]) <= 10000:
        return (name, number(rest[0]), number(rest[1]))
    if name == "goto" and len(rest) == 2:
        return (name, number(rest[0]), number(rest[1], OVER))
    if name == "convert" and len(rest) == 3 and rest[1] == "rank":
        return ("convert", number(rest[0]), number(rest[2], OVER))
    if name == "convert" and len(rest) >= 2 and rest[1] == "to":
        return ("convert_to", number(rest[0]), rotation_of(after(3)))
    if name in ("take", "convertwhole") and rest:
        return (name, number(rest[0]), rotation_of(after(2)))
    raise NoCommand


def commands(data):
    """The commands, or the number of the first line that is none."""
    lines = data.split(b"\n")
    if lines[-1] == b"":
        lines.pop()
    found = []
    for place, line in enumerate(lines, 1):
        if line.endswith(b"\r"):
            line = line[:-1]
        bare = line.strip(b" \t")
        if bare and not bare.startswith(b"#"):
            try:
                found.append(command(line.decode("latin-1")))
            except NoCommand:
                return place
    return found


# The lists of a block, in one of the two ways.


class Tried:
    """By trying all rotation systems."""

    def __init__(self, block):
        self.block, self.members = block, full_list(block)
        self.planar = bool(self.members)

    def kept(self, now, locked):
        """The members with the choices that `now` has at the locked nodes."""
        wanted = choices(self.block, now)
        return [r for r in self.members if all(choice(self.block.nodes[k], r) == wanted[k] for k in locked)]

    def first(self):
        return self.members[0]

    def every(self):
        return self.members

    def count(self, now, locked):
        return len(self.kept(now, locked))

    def rank(self, now, locked):
        return self.kept(now, locked).index(now)

    def member(self, rank, now, locked):
        return self.kept(now, locked)[rank]


class Made:
    """By composing skeletons."""

    def __init__(self, block):
        self.block, self.way = block, Composed(block)
        self.planar = self.way.planar

    def first(self):
        return self.way.compose(self.way.choices_at(0, [()] * len(self.block.nodes)))

    def every(self):
        if self.way.count() > TRIED:
            sys.exit(f"a block has {self.way.count()} members, too many to try them all")
        return (self.way.compose(self.way.choices_at(rank, [()] * len(self.block.nodes))) for rank in range(self.way.count()))

    def count(self, now, locked):
        return self.way.count(locked)

    def rank(self, now, locked):
        return self.way.rank(choices(self.block, now), locked)

    def member(self, rank, now, locked):
        return self.way.compose(self.way.choices_at(rank, choices(self.block, now), locked))


class Refused(Exception):
    """A code with its numbers."""


def longest(block, rotation):
    """The length of the longest face."""
    return max(map(len, faces(block.edges, rotation)))


class FreeMoves:
    """Any moves of a block from `now` to a plane rotation system with a face of this length."""
    shown = b"moves ?\n"

    def __init__(self, block, now, length):
        self.block, self.now, self.length = block, now, length

    def __eq__(self, other):
        return isinstance(other, FreeMoves) and (self.block.edges, self.now, self.length) == (other.block.edges, other.now, other.length)

    def read(self, printed):
        """What is printed after such moves; None where they are not such."""
        match = re.match(rb"moves ([1-9][0-9]*)\n((?:(?:flip [0-9]+|permute [0-9]+(?: [0-9]+)+)\n)+)", printed)
        if not match or int(match[1]) != match[2].count(b"\n"):
            return None
        found = [line.split() for line in match[2].decode().splitlines()]
        found = [(m[0], int(m[1])) if m[0] == "flip" else (m[0], int(m[1]), tuple(map(int, m[2:]))) for m in found]
        for m in found:
            if m[1] >= len(self.block.nodes) or self.block.nodes[m[1]].kind != {"flip": "R", "permute": "P"}[m[0]]:
                return None
            if m[0] == "permute" and sorted(m[2]) != self.block.nodes[m[1]].keys:
                return None
        there = self.now
        for m in found:
            there = move(self.block, m, there)
        right = is_plane(self.block, there) and longest(self.block, there) == self.length and moves_between(self.block, self.now, there) == found
        return printed[match.end():] if right else None


class FreePoints:
    """Any points of a block that draw it in the order `now`."""

    def __init__(self, b, block, now):
        self.b, self.block, self.now = b, block, now
        self.shown = b"draw %d %d\npoint ?\n" % (b, len(block.vertices))

    def __eq__(self, other):
        return isinstance(other, FreePoints) and (self.b, self.block.edges, self.now) == (other.b, other.block.edges, other.now)

    def read(self, printed):
        """What is printed after such points; None where they are not such."""
        lines = printed.split(b"\n", len(self.block.vertices) + 1)
        points = points_of([line.decode("latin-1") for line in lines[:-1]])
        right = lines[0] == b"draw %d %d" % (self.b, len(self.block.vertices)) and points and wrong_drawing(self.block.edges, self.now, points) is None
        return lines[-1] if right else None


def bad_vertex(at, entries):
    """The least number that is a vertex whose list is no arrangement of its edges, or no vertex; else None."""
    named = dict(entries)
    wrong = [v for v in set(at) | set(named) if v not in at or sorted(named.get(v, [])) != sorted(at[v])]
    return min(wrong) if wrong else None


def move_line(m, *block):
    """The line of a move, with the number of its block where that is to be named."""
    return " ".join(map(str, (m[0], *block, m[1], *(m[2] if m[0] == "permute" else ()))))


class Session:
    def __init__(self, ids, ends, pairs, composed):
        self.ids, self.ends, self.pairs = ids, ends, pairs
        edges = numbered(ends)
        self.blocks = [Block(part) for part in (head_of.blocks(edges) if edges else [])]
        self.lists = [Made(b) if composed or rotation_total(b.at) > TRIED else Tried(b) for b in self.blocks]
        self.at = {v: [] for v in range(len(ids))}
        for e, (a, b) in enumerate(ends):
            self.at[a].append(e)
            self.at[b].append(e)
        self.family = tuple((rotation, frozenset()) for rotation in self.starts(start_of(pairs, ends)))
        # The arrangements at cut vertices; at those that are not here it is the first one for the present family.
        self.cuts = {}
        self.earlier, self.later = [], []
        self.components = components(self, composed)
        self.component_of = {v: whole for whole in self.components for v in whole.vertices}

    def starts(self, start):
        """The rotation system from which each block sets out: that of the file, or the first; None for a block that is not planar."""
        for number, (block, lists) in enumerate(zip(self.blocks, self.lists)):
            if not lists.planar:
                yield None
            elif start is None:
                yield lists.first()
            else:
                rotation = {v: from_least([e for e in start[v] if e in block.edges]) for v in block.vertices}
                if not is_plane(block, rotation):
                    raise RefusedGraph(f"start-genus {number} {len(block.vertices)} {len(block.edges)} {len(faces(block.edges, rotation))}")
                yield rotation

    def texts(self):
        """The text of each vertex: its edges block by block, in a planar block in their present order from the least on."""
        for v in range(len(self.ids)):
            orders = [(now or block.at)[v] for block, (now, _) in zip(self.blocks, self.family) if v in block.at]
            yield " ".join(str(e) for order in orders for e in order)

    def head(self):
        yield f"graph {len(self.ids)} {len(self.ends)}"
        for vertex, number in enumerate(self.ids):
            yield f"vertex {vertex} {number}"
        for vertex in range(len(self.ids)):
            if sum(vertex in block.vertices for block in self.blocks) > 1:
                yield f"cut {vertex}"
        for number, block in enumerate(self.blocks):
            yield f"block {number}: {' '.join(map(str, block.edges))}"
            yield from head_of.node_lines([(e, *block.edges[e]) for e in block.edges], self.ends)
            yield f"planar {number}" if self.lists[number].planar else f"nonplanar {number} ?"

    def change(self, family, cuts):
        self.earlier.append((self.family, self.cuts))
        self.later = []
        self.family, self.cuts = family, cuts

    def set(self, b, rotation, locked):
        """Another rotation system of a block; the arrangements at its cut vertices become the first ones."""
        cuts = {v: edges for v, edges in self.cuts.items() if v not in self.blocks[b].at}
        self.change(self.family[:b] + ((rotation, locked),) + self.family[b + 1:], cuts)

    def set_locks(self, b, locked):
        self.change(self.family[:b] + ((self.family[b][0], locked),) + self.family[b + 1:], self.cuts)

    def euler(self, entries):
        v = bad_vertex(self.at, entries)
        if v is not None:
            raise Refused(6, v)
        found = len(faces(dict(enumerate(self.ends)), {v: tuple(order) for v, order in entries if order})) + sum(not order for order in self.at.values())
        label = {v: v for v in self.at}

        def root(x):
            while label[x] != x:
                x = label[x]
            return x

        for a, b in self.ends:
            label[root(a)] = root(b)
        parts = sum(v == root(v) for v in label)
        n, m = len(self.at), len(self.ends)
        return [f"euler {n} {m} {found} {parts} {'plane' if n + found == m + 2 * parts else 'not-plane'}"]

    def step(self, c):
        """The lines of the answer; a `gml` answers with bytes."""
        if c[0] == "euler":
            return self.euler(c[1])
        if c[0] == "gml":
            text = written(marked(self.pairs, self.texts()))
            return [f"gml {len(text)}", text]
        if c[0] in ("undo", "redo"):
            here, there = (self.earlier, self.later) if c[0] == "undo" else (self.later, self.earlier)
            if not here:
                raise Refused(8 if c[0] == "undo" else 9)
            there.append((self.family, self.cuts))
            self.family, self.cuts = here.pop()
            return ["ok"]
        if c[0] == "regroup":
            return self.regroup(*c[1:])
        if c[0] in ("whole", "nextwhole", "listwhole", "convertwhole"):
            return self.on_component(*c)
        b = c[1]
        if b >= len(self.blocks):
            raise Refused(1)
        block, lists, (now, locked) = self.blocks[b], self.lists[b], self.family[b]
        if c[0] in ("flip", "permute", "lock", "unlock"):
            k = c[2]
            if k >= len(block.nodes):
                raise Refused(2)
            if block.nodes[k].kind not in {"flip": "R", "permute": "P"}.get(c[0], "PR"):
                raise Refused(3)
            if c[0] == "permute" and sorted(c[3]) != block.nodes[k].keys:
                raise Refused(4)
        if not lists.planar:
            raise Refused(5)
        return getattr(self, "do_" + c[0])(b, block, lists, now, locked, *c[2:])

    def do_show(self, b, block, lists, now, locked):
        return [f"rotation {b} | {text_of(now)}"]

    def do_faces(self, b, block, lists, now, locked):
        found = faces(block.edges, now)
        return [f"faces {b} {len(found)}"] + ["face " + " ".join(f"{v}-{e}" for v, e in face) for face in found]

    def do_flip(self, b, block, lists, now, locked, k):
        if k in locked:
            raise Refused(12, k)
        self.set(b, flip(block, k, now), locked)
        return ["ok"]

    def do_permute(self, b, block, lists, now, locked, k, keys):
        if k in locked:
            raise Refused(12, k)
        self.set(b, permute(block, k, tuple(keys), now), locked)
        return ["ok"]

    def do_mirror(self, b, block, lists, now, locked):
        if locked:
            raise Refused(12, min(locked))
        self.set(b, mirror(now), locked)
        return ["ok"]

    def do_lock(self, b, block, lists, now, locked, k):
        self.set_locks(b, locked | {k})
        return ["ok"]

    def do_unlock(self, b, block, lists, now, locked, k):
        self.set_locks(b, locked - {k})
        return ["ok"]

    def do_first(self, b, block, lists, now, locked):
        self.set(b, lists.member(0, now, locked), locked)
        return ["ok"]

    def do_next(self, b, block, lists, now, locked):
        rank = lists.rank(now, locked) + 1
        if rank == lists.count(now, locked):
            return ["end"]
        self.set(b, lists.member(rank, now, locked), locked)
        return ["ok"]

    def do_list(self, b, block, lists, now, locked, n):
        rank, count = lists.rank(now, locked), lists.count(now, locked)
        last = min(rank + n, count - 1)
        found = [f"rotation {b} | {text_of(lists.member(i, now, locked))}" for i in range(rank + 1, last + 1)]
        return [f"list {b} {len(found)}"] + found + ["end" if last + 1 == count else "more"]

    def total(self, lists, now, locked):
        count = lists.count(now, locked)
        if count >= OVER:
            raise Refused(10)
        return count

    def do_count(self, b, block, lists, now, locked):
        return [f"count {self.total(lists, now, locked)}"]

    def do_rank(self, b, block, lists, now, locked):
        self.total(lists, now, locked)
        return [f"rank {lists.rank(now, locked)}"]

    def do_goto(self, b, block, lists, now, locked, rank):
        count = self.total(lists, now, locked)
        if rank >= count:
            raise Refused(11, count)
        self.set(b, lists.member(rank, now, locked), locked)
        return ["ok"]

    def given(self, block, now, locked, entries):
        """The rotation system that is given, or the refusal."""
        v = bad_vertex(block.at, entries)
        if v is not None:
            raise Refused(6, v)
        wanted = {v: from_least(tuple(order)) for v, order in entries}
        if not is_plane(block, wanted):
            raise Refused(7, len(block.vertices), len(block.edges), len(faces(block.edges, wanted)))
        for k in sorted(locked):
            if choice(block.nodes[k], wanted) != choice(block.nodes[k], now):
                raise Refused(12, k)
        return wanted

    def do_take(self, b, block, lists, now, locked, entries):
        self.set(b, self.given(block, now, locked, entries), locked)
        return ["ok"]

    def led(self, b, block, now, locked, wanted):
        found = moves_between(block, now, wanted)
        self.set(b, wanted, locked)
        return [f"moves {len(found)}"] + [move_line(m) for m in found]

    def do_longest(self, b, block, lists, now, locked):
        """By trying all members, whatever is locked."""
        length = max(longest(block, member) for member in lists.every())
        return [f"longest {length}", "moves 0" if longest(block, now) == length else FreeMoves(block, now, length)]

    def do_draw(self, b, block, lists, now, locked):
        """Of one edge the points are determined; locks do not matter."""
        pair = least_parallel(block.edges)
        if pair:
            raise Refused(13, *pair)
        if len(block.vertices) == 2:
            return [f"draw {b} 2"] + [f"point {v} {place} 0" for place, v in enumerate(sorted(block.vertices))]
        return [FreePoints(b, block, now)]

    def do_convert(self, b, block, lists, now, locked, rank):
        count = self.total(lists, now, locked)
        if rank >= count:
            raise Refused(11, count)
        return self.led(b, block, now, locked, lists.member(rank, now, locked))

    def do_convert_to(self, b, block, lists, now, locked, entries):
        return self.led(b, block, now, locked, self.given(block, now, locked, entries))


    # Whole components.

    def state_of(self, whole):
        """The rotation systems of its blocks, the arrangements at its cut vertices, and the locks."""
        parts = {b: self.family[b][0] for b in whole.blocks}
        cuts = {v: self.cuts.get(v) or whole.first(v, parts) for v in whole.cuts}
        return parts, cuts, {b: self.family[b][1] for b in whole.blocks}

    def lead(self, parts, cuts):
        """Another state of a component; locks stay."""
        self.change(tuple((parts.get(b, rotation), locked) for b, (rotation, locked) in enumerate(self.family)), {**self.cuts, **cuts})

    def regroup(self, v, edges):
        whole = self.component_of.get(v)
        if whole and not whole.planar:
            raise Refused(5)
        if whole and sorted(edges) != sorted(self.at[v]):
            raise Refused(6, v)
        if whole is None or v not in whole.cuts:
            raise Refused(15)
        parts, cuts, _ = self.state_of(whole)
        wrong = whole.wrong(v, edges, parts, cuts)
        if wrong:
            raise Refused(*wrong)
        self.lead({}, {v: from_least(edges)})
        return ["ok"]

    def on_component(self, word, c, *rest):
        if c >= len(self.components):
            raise Refused(14)
        whole = self.components[c]
        if not whole.planar:
            raise Refused(5)
        return getattr(self, word)(whole, *self.state_of(whole), *rest)

    def whole(self, whole, parts, cuts, locks):
        return [f"whole {whole.number} | {text_of(whole.system(parts, cuts))}"]

    def nextwhole(self, whole, parts, cuts, locks):
        after = whole.after(parts, cuts, locks)
        if after is None:
            return ["end"]
        self.lead(*after)
        return ["ok"]

    def listwhole(self, whole, parts, cuts, locks, n):
        found, after = [], whole.after(parts, cuts, locks)
        while after and len(found) < n:
            found += self.whole(whole, *after, locks)
            after = whole.after(*after, locks)
        return [f"listwhole {whole.number} {len(found)}"] + found + ["more" if after else "end"]

    def convertwhole(self, whole, parts, cuts, locks, entries):
        v = bad_vertex(whole.at, entries)
        if v is not None:
            raise Refused(6, v)
        wanted = {v: () for v in whole.vertices} | {v: from_least(order) for v, order in entries}
        count = len(faces(whole.edges, wanted)) if whole.edges else 1
        if len(whole.vertices) - len(whole.edges) + count != 2:
            raise Refused(7, len(whole.vertices), len(whole.edges), count)
        target = {b: whole.part(b, wanted) for b in whole.blocks}
        for b in whole.blocks:
            for k in sorted(locks[b]):
                if choice(self.blocks[b].nodes[k], target[b]) != choice(self.blocks[b].nodes[k], parts[b]):
                    raise Refused(12, b, k)
        lines = [move_line(m, b) for b in whole.blocks for m in moves_between(self.blocks[b], parts[b], target[b])]
        moved = [b for b in whole.blocks if target[b] != parts[b]]
        for v in whole.cuts:
            there = whole.first(v, target) if set(moved) & set(whole.around(v)) else cuts[v]
            if there != wanted[v]:
                lines.append(f"regroup {v} {' '.join(map(str, wanted[v]))}")
        self.lead(target, {v: wanted[v] for v in whole.cuts})
        return [f"moves {len(lines)}"] + lines


def report(graph, script, composed):
    """The lines of the report; a refused script is one line."""
    pairs = document(open(graph, "rb").read())
    try:
        session = Session(*graph_of(pairs), pairs, composed)
    except RefusedGraph as refused:
        return [f"refused graph {refused}"]
    found = commands(open(script, "rb").read())
    if isinstance(found, int):
        return [f"refused script line {found}"]
    lines = list(session.head())
    for c in found:
        try:
            lines += session.step(c)
        except Refused as refused:
            lines.append("error " + " ".join(map(str, refused.args)))
    return lines


def as_bytes(lines):
    return b"".join(line if isinstance(line, bytes) else line.shown if isinstance(line, (FreeMoves, FreePoints)) else line.encode() + b"\n" for line in lines)


# Certificates.


def is_certificate(kind, branch, paths, edges, block):
    """Whether these are a subdivision of K5 or K3,3 in the block, in the written form: paths are (u, w, edges)."""
    if kind == "K5":
        wanted = [(branch[i], branch[j]) for i in range(5) for j in range(i + 1, 5)] if len(branch) == 5 and branch == sorted(branch) else None
    else:
        good = len(branch) == 6 and branch[:3] == sorted(branch[:3]) and branch[3:] == sorted(branch[3:]) and branch[0] < branch[3]
        wanted = [(u, w) for u in branch[:3] for w in branch[3:]] if good else None
    if wanted is None or [(u, w) for u, w, _ in paths] != wanted:
        return False
    met = list(branch)
    for u, w, walk in paths:
        v = u
        for i, e in enumerate(walk):
            if e not in block or v not in edges[e]:
                return False
            v = edges[e][0] + edges[e][1] - v
            if i + 1 < len(walk):
                met.append(v)
        if v != w or not walk:
            return False
    return len(set(met)) == len(met)


def compare(wanted, printed, graph):
    """None where the printed report is right, else what is wrong."""
    if printed and not printed.endswith(b"\n"):
        return "the last line does not end"
    pairs = document(open(graph, "rb").read())
    ids, ends = graph_of(pairs)
    found = head_of.blocks(numbered(ends)) if ends else []
    for line in wanted:
        if isinstance(line, str) and line.endswith(" ?"):
            b = int(line.split()[1])
            match = re.match(rb"nonplanar %d (K5|K33)((?: [0-9]+)+)\n((?:path [0-9]+ [0-9]+:(?: [0-9]+)+\n)+)" % b, printed)
            if not match:
                return f"no certificate of block {b}"
            branch = [int(word) for word in match[2].split()]
            paths = []
            for text in match[3].decode().splitlines():
                left, right = text.split(":")
                paths.append((*map(int, left.split()[1:]), [int(word) for word in right.split()]))
            if not is_certificate(match[1].decode(), branch, paths, ends, {e for e, _, _ in found[b]}):
                return f"the certificate of block {b} is none"
            printed = printed[match.end():]
            continue
        if isinstance(line, (FreeMoves, FreePoints)):
            rest = line.read(printed)
            if rest is None:
                return f"wanted {line.shown!r}, printed {printed[:60]!r}"
            printed = rest
            continue
        text = line if isinstance(line, bytes) else line.encode() + b"\n"
        if not printed.startswith(text):
            return f"wanted {text!r}, printed {printed[:len(text) + 40]!r}"
        printed = printed[len(text):]
    return f"more is printed: {printed[:60]!r}" if printed else None


def main():
    words = [word for word in sys.argv[1:] if word != "--composed"]
    if len(words) not in (2, 3):
        sys.exit(__doc__)
    lines = report(words[0], words[1], "--composed" in sys.argv)
    if len(words) == 2:
        sys.stdout.buffer.write(as_bytes(lines))
        return
    wrong = compare(lines, open(words[2], "rb").read(), words[0])
    if wrong:
        sys.exit(wrong)


if __name__ == "__main__":
    main()
