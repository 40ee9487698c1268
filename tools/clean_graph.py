"""Makes of the pairs of a file a graph that the program takes, and says each change. Standard library alone.

What is changed: where the list `graph` is and how it is spelled; ids that are not whole numbers, missing or doubled; ends that
are; edges without ends and loops, which are left out; a start whose numbers are not those of the edges, which is left out, too.
Whether a start is in the plane is not looked at. All other pairs stay."""
from __future__ import annotations

import re
from decimal import Decimal
from typing import Optional

from clean_text import NoGraph, Say
from gml_text import INTEGER_RANGE, START, Pair, decoded, edges_at_nodes, whole_number

SPELLINGS = {b"id": {b"id"}, b"source": {b"source", b"from", b"src"}, b"target": {b"target", b"to", b"dst"}}
MOST = {"vertices": 20_000, "edges": 50_000}


def repair(top: Pair, say: Say) -> None:
    """Changes the pairs so that they have a graph by the rules of docs/FORMATS.md. Fails with NoGraph where they have none."""
    graph = _graph(top, say)
    for key in (b"node", b"edge"):
        _spell(graph, key, {key}, say, "list")
    ids = _Ids(graph, say)
    _check("vertices", len(graph.lists(b"node")))
    for node in graph.lists(b"node"):
        _spell(node, b"id", SPELLINGS[b"id"], say)
    for edge in graph.lists(b"edge"):
        for key in (b"source", b"target"):
            _spell(edge, key, SPELLINGS[key], say)
    ids.number_nodes()
    for place, edge in enumerate(graph.lists(b"edge")):
        ids.join(place, edge)
    ids.leave_out()
    _check("vertices", len(graph.lists(b"node")))
    _check("edges", len(graph.lists(b"edge")))
    _leave_out_start(graph, say)


def numbers_of(text: bytes) -> Optional[list[int]]:
    """The numbers with white space between them that the text of a start is; None where it is none."""
    words = text.split()
    return [int(word) for word in words] if all(re.fullmatch(rb"[0-9]{1,40}", word) for word in words) else None


def _leave_out_start(graph: Pair, say: Say) -> None:
    """Leaves out the texts of a start where one of them does not have the edges at its node."""
    nodes = graph.lists(b"node")
    texts = [node.first(START) for node in nodes]
    if any(text is None or text.kind != "string" for text in texts):
        return
    for place, (text, edges) in enumerate(zip(texts, edges_at_nodes(graph))):
        if sorted(numbers_of(text.text) or []) != edges or numbers_of(text.text) is None:
            say(text.at, f"the `spqrRotation` of node {place} does not have the edges there, each once: it is left out at all nodes")
            for node in nodes:
                node.value = [pair for pair in node.pairs if pair.key != START]
            return


def _check(what: str, total: int) -> None:
    if total > MOST[what]:
        raise NoGraph(f"the graph has {total:,} {what}, and the program takes at most {MOST[what]:,}")


def _graph(top: Pair, say: Say) -> Pair:
    """The one list `graph` of the document."""
    _spell(top, b"graph", {b"graph", b"digraph"}, say, "list")
    graphs = top.lists(b"graph") or _lifted(top, say) or _wrapped(top, say)
    kept = next((graph for graph in graphs if graph.lists(b"node")), graphs[0])
    for place, graph in enumerate(graphs):
        if graph is not kept:
            say(graph.at, f"graph {place} of the file is left out: the program takes one, and graph {graphs.index(kept)} is kept")
            _remove(top, graph)
    return kept


def _remove(parent: Pair, pair: Pair) -> None:
    parent.value = [one for one in parent.pairs if one is not pair]


def _spell(parent: Pair, key: bytes, spellings: set[bytes], say: Say, kind: str = "") -> None:
    """Spells a key in lower case where it is not there in this spelling: of lists all, of other values the first."""
    fits = [pair for pair in parent.pairs if pair.key.lower() in spellings and kind in ("", pair.kind)]
    if any(pair.key == key for pair in fits):
        return
    for pair in fits if kind else fits[:1]:
        say(pair.at, f"`{pair.key.decode('ascii')}` is written `{key.decode('ascii')}`")
        pair.key = key


def _lifted(top: Pair, say: Say) -> list[Pair]:
    """The first graph that is inside another list, taken out of it."""
    lists = top.pairs[::-1]
    while lists:
        pair = lists.pop()
        for inner in pair.lists(b"graph"):
            say(inner.at, f"the graph is taken out of the list `{pair.key.decode('ascii')}`")
            _remove(pair, inner)
            top.pairs.append(inner)
            return [inner]
        lists += pair.pairs[::-1]
    return []


def _wrapped(top: Pair, say: Say) -> list[Pair]:
    """A graph of the nodes and edges that are in no list."""
    inside = [pair for pair in top.pairs if pair.kind == "list" and pair.key.lower() in (b"node", b"edge")]
    if not any(pair.key.lower() == b"node" for pair in inside):
        raise NoGraph("the file has no list `graph`, and no nodes")
    say(inside[0].at, "nodes and edges are put into a list `graph`")
    graph = Pair(b"graph", "list", inside)
    top.value = [pair for pair in top.pairs if not any(pair is one for one in inside)] + [graph]
    return [graph]


def meaning(given: Optional[Pair]) -> Optional[int]:
    """The whole number that a value is meant to be: 5, 5.0 and "5" are 5. None where it is not one, or out of range."""
    if given is None or given.kind == "list" or len(given.text) > 40:
        return None
    text = given.text.strip()
    if not re.fullmatch(rb"[+-]?[0-9]+(?:\.0*)?", text):
        return None
    value = int(Decimal(text.decode("ascii")))
    return value if INTEGER_RANGE[0] <= value <= INTEGER_RANGE[1] else None


class _Ids:
    """The ids of the nodes of a graph: by the number they are meant as, and by their text."""

    def __init__(self, graph: Pair, say: Say) -> None:
        self.graph = graph
        self.say = say
        self.by_number: dict[int, int] = {}
        self.by_text: dict[tuple[str, bytes], int] = {}
        self.by_label: dict[bytes, int] = {}
        self.used: set[int] = set()
        self.left_out: set[int] = set()         # nodes and edges, by their identity
        self.next = 0

    def fresh(self) -> int:
        """The least number that no node has."""
        while self.next in self.used:
            self.next += 1
        self.used.add(self.next)
        return self.next

    def leave_out(self) -> None:
        """Leaves out of the graph what is not to be in it."""
        self.graph.value = [pair for pair in self.graph.pairs if id(pair) not in self.left_out]

    def number_nodes(self) -> None:
        """Gives each node a whole number of its own, and leaves out nodes with the id of an earlier one."""
        nodes = self.graph.lists(b"node")
        given = [node.first(b"id") for node in nodes]
        ends = [edge.first(key) for edge in self.graph.lists(b"edge") for key in (b"source", b"target")]
        self.used = {value for value in [*map(whole_number, given), *map(meaning, given + ends)] if value is not None}
        for place, (node, pair) in enumerate(zip(nodes, given)):
            if pair is None:
                number = self.fresh()
                self.say(node.at, f"node {place} has no id and is given {number}")
                node.pairs.insert(0, Pair(b"id", "number", str(number).encode()))
            elif not self.add(place, node, pair):
                self.left_out.add(id(node))
                continue
            label = node.first(b"label")
            if label is not None and label.kind == "string":
                self.by_label.setdefault(label.text, whole_number(node.first(b"id")))

    def add(self, place: int, node: Pair, pair: Pair) -> bool:
        """Enters the id of a node. Whether it is new."""
        value = meaning(pair)
        known = self.find(pair)
        if known is not None:
            self.say(node.at, f"node {place} has the id of an earlier node, {known}, and is left out")
            return False
        number = value if value is not None else self.fresh()
        if whole_number(pair) is None:
            self.say(pair.at, f"the id {_shown(pair)} of node {place} is written {number}")
            self.keep_text(node, pair)
        if value is not None:
            self.by_number[value] = number
        self.by_text[pair.kind, pair.text] = number
        node.pairs[[one is pair for one in node.pairs].index(True)] = _number(pair, number)
        return True

    def keep_text(self, node: Pair, pair: Pair) -> None:
        """Keeps the text of an id that becomes a number: as the label, or as the name where the node has a label."""
        if pair.kind == "string" and meaning(pair) is None:
            free = next((key for key in (b"label", b"name") if node.first(key) is None), None)
            if free is not None:
                node.pairs.append(Pair(free, "string", pair.text, pair.at, pair.value_at))

    def find(self, pair: Pair) -> Optional[int]:
        """The number of the node with this id."""
        by_text = self.by_text.get((pair.kind, pair.text))
        if by_text is not None:
            return by_text
        value = meaning(pair)
        return self.by_number.get(value) if value is not None else None

    def join(self, place: int, edge: Pair) -> None:
        """Writes the ends of an edge as whole numbers that are ids; leaves out an edge that lacks one, and a loop."""
        ends = []
        for key in (b"source", b"target"):
            pair = edge.first(key)
            if pair is None or pair.kind == "list":
                self.say(edge.at, f"edge {place} has no {key.decode('ascii')} and is left out: later edges get the number before theirs")
                self.left_out.add(id(edge))
                return
            ends.append(self.end(place, edge, pair))
        if ends[0] == ends[1]:
            self.say(edge.at, f"edge {place} is a loop at {ends[0]} and is left out: later edges get the number before theirs")
            self.left_out.add(id(edge))

    def end(self, place: int, edge: Pair, pair: Pair) -> int:
        """The number of the node that an end of an edge names, which is added where it is not there."""
        number = self.find(pair)
        number = self.by_label.get(pair.text) if number is None else number
        if number is None:
            number = self.add_node(pair)
        if whole_number(pair) != number:
            self.say(pair.at, f"the {pair.key.decode('ascii')} {_shown(pair)} of edge {place} is written {number}")
        edge.pairs[[one is pair for one in edge.pairs].index(True)] = _number(pair, number)
        return number

    def add_node(self, pair: Pair) -> int:
        value = meaning(pair)
        number = value if value is not None else self.fresh()
        self.used.add(number)
        self.say(pair.at, f"no node has the id {_shown(pair)}: a node {number} is added")
        pairs = [Pair(b"id", "number", str(number).encode())]
        if value is None:
            pairs.append(Pair(b"label", "string", pair.text))
        else:
            self.by_number[value] = number
        self.by_text[pair.kind, pair.text] = number
        self.graph.pairs.append(Pair(b"node", "list", pairs))
        return number


def _number(pair: Pair, number: int) -> Pair:
    """The pair with this number; word for word as it was where it is this number."""
    text = pair.text if whole_number(pair) == number else str(number).encode()
    return Pair(pair.key, "number", text, pair.at, pair.value_at)


def _shown(pair: Pair) -> str:
    text = decoded(pair.text)[:40]
    return f'"{text}"' if pair.kind == "string" else f"`{text}`"
