"""A client of the program `spqr` for Python and networkx.

    import networkx as nx
    import spqr_client as spqr

    ran = spqr.run_graph(nx.wheel_graph(6), "count 0")
    ran.report.blocks[0].is_planar        # True
    ran.report.answers[0].members         # 2

`run` takes the bytes of a graph file, `run_graph` a networkx graph, also a multigraph; both return values (see spqr_report.py).
In these, vertices and edges are the program's numbers; `Named.vertices` and `Named.edges` lead back to the graph's own names.
Everything that returns a networkx graph takes a `Report`, a `Block` or a `Node`. The program is found as in spqr_program.py.

A rotation system (`Lists`) has of each vertex its edges counterclockwise, with y upwards. networkx wants them clockwise in
`PlanarEmbedding.set_data`; `planar_embedding` turns them. The program ignores directions: the two arcs u -> v and v -> u of a
directed graph are two parallel edges."""
from __future__ import annotations

import re
from dataclasses import dataclass
from typing import Any, Hashable, Iterable, Optional, Sequence, Union

import networkx as nx

from spqr_program import ProgramError, Ran, Refused, program_path, run_bytes, run_files
from spqr_report import (Answer, Answered, Block, Certificate, Command, Count, Document, Drawing, End, Ends, Error, Euler, Faces, Item, Listed,
                         ListedWhole, Lists, Longest, Move, Moves, Node, Ok, Path, Rank, Regroup, Report, ReportError, Rotation, Whole,
                         commands_of, lists_of_text, read_report, text_of_lists)

__all__ = ["Answer", "Answered", "Block", "Certificate", "Command", "Count", "Document", "Drawing", "End", "Ends", "Error", "Euler", "Faces",
           "Item", "Listed", "ListedWhole", "Lists", "Longest", "Move", "Moves", "Named", "Node", "NotPlanar", "Ok", "Path", "ProgramError", "Ran", "Rank",
           "Refused", "Regroup", "Report", "ReportError", "Rotation", "Whole", "block_cut_tree", "block_graph", "commands_of", "drop_vertex", "embed",
           "face_with", "gml_of", "gml_of_ends", "lists_of", "lists_of_text", "planar_embedding", "program_path", "read_report", "run", "run_bytes", "run_files",
           "run_graph", "skeleton", "text_of_lists", "tree_of", "whole_graph", "whole_lists"]


class NotPlanar(ValueError):
    """A block is not planar, so no embedding exists; `block.certificate` is a subdivision of K5 or K3,3 in it."""

    def __init__(self, block: Block) -> None:
        super().__init__(f"block {block.number} is not planar")
        self.block = block


@dataclass(frozen=True)
class Named:
    """A report on a networkx graph: `vertices[v]` is the graph's name of vertex v, `edges[e]` the edge e as `graph.edges` has
    it, with its key where the graph is a multigraph."""
    report: Report
    vertices: tuple[Hashable, ...]
    edges: tuple[tuple[Any, ...], ...]


def run(graph: bytes, script: Union[str, bytes] = b"", program: Optional[str] = None) -> Report:
    """Runs the program on the bytes of a graph file and a script. Fails with Refused where one of them is refused."""
    script = script.encode() if isinstance(script, str) else script
    return read_report(run_bytes(graph, script, program).report(), script)


def run_graph(graph: nx.Graph, script: Union[str, bytes] = b"", program: Optional[str] = None) -> Named:
    """The same for a networkx graph. Fails with ValueError where it has a loop."""
    return Named(run(gml_of(graph), script, program), tuple(graph.nodes), _edges(graph))


def gml_of(graph: nx.Graph) -> bytes:
    """A graph file for the program: vertices and edges in the order of the graph, ids from 0, and names as labels.
    Fails with ValueError where the graph has a loop."""
    number = {name: vertex for vertex, name in enumerate(graph.nodes)}
    lines = ["graph ["]
    for name, vertex in number.items():
        lines.append(f'  node [ id {vertex} label "{_escaped(str(name))}" ]')
    for edge in _edges(graph):
        if edge[0] == edge[1]:
            raise ValueError(f"the program takes no loops, and the graph has one at {edge[0]!r}")
        lines.append(f"  edge [ source {number[edge[0]]} target {number[edge[1]]} ]")
    return "\n".join([*lines, "]", ""]).encode("ascii")


def gml_of_ends(vertices: int, ends: Ends) -> bytes:
    """A graph file with this many vertices and with these edges, which are numbered from 0 without gaps."""
    nodes = [f"  node [ id {vertex} ]\n" for vertex in range(vertices)]
    edges = [f"  edge [ source {low} target {high} ]\n" for _, (low, high) in sorted(ends.items())]
    return "".join(["graph [\n", *nodes, *edges, "]\n"]).encode("ascii")


def _edges(graph: nx.Graph) -> tuple[tuple[Any, ...], ...]:
    return tuple(graph.edges(keys=True)) if graph.is_multigraph() else tuple(graph.edges())


def _escaped(text: str) -> str:
    """A text as networkx writes it in GML: `&`, quotes, and what is not a printable character of ASCII as entities."""
    return re.sub('[^ -~]|[&"]', lambda found: {"&": "&amp;", '"': "&quot;"}.get(found.group(), f"&#{ord(found.group())};"), text)


def block_cut_tree(report: Report) -> nx.Graph:
    """The blocks and cut vertices of the graph: nodes `("block", B)` and `("cut", V)`, joined where V lies in B. It is a forest,
    with a tree for each component that has edges."""
    tree = nx.Graph()
    tree.add_nodes_from(("cut", vertex) for vertex in report.cuts)
    for block in report.blocks:
        tree.add_node(("block", block.number))
        inside = set(block.vertices())
        tree.add_edges_from((("block", block.number), ("cut", vertex)) for vertex in report.cuts if vertex in inside)
    return tree


def tree_of(block: Block) -> nx.Graph:
    """The SPQR tree of a block. Its nodes are the numbers of the tree's nodes, with `kind`, `vertices` and `items`; an edge has
    the ends of the virtual edge as `ends`, and as `keys` the key that it has at each of the two nodes."""
    tree = nx.Graph()
    for node in block.nodes:
        tree.add_node(node.number, kind=node.kind, vertices=node.vertices, items=node.items)
    for node in block.nodes:
        for item in node.items:
            if item.node is None:
                continue
            if not tree.has_edge(node.number, item.node):
                tree.add_edge(node.number, item.node, ends=(item.low, item.high), keys={})
            tree.edges[node.number, item.node]["keys"][node.number] = item.key
    return tree


def skeleton(node: Node) -> nx.MultiGraph:
    """The skeleton of a node: its items as edges, each with its key; `node` is that with which a virtual edge is shared, or None."""
    graph = nx.MultiGraph()
    graph.add_nodes_from(node.vertices)
    for item in node.items:
        graph.add_edge(item.low, item.high, key=item.key, node=item.node)
    return graph


def block_graph(block: Block) -> nx.MultiGraph:
    """A block as a graph: the vertices' numbers, and the edges' numbers as keys."""
    return _numbered(block.vertices(), block.ends())


def whole_graph(report: Report) -> nx.MultiGraph:
    """The whole graph, also with the vertices that have no edges: the vertices' numbers, and the edges' numbers as keys."""
    return _numbered(range(len(report.ids)), report.ends())


def _numbered(vertices: Iterable[int], ends: Ends) -> nx.MultiGraph:
    graph = nx.MultiGraph()
    graph.add_nodes_from(vertices)
    for edge, (low, high) in sorted(ends.items()):
        graph.add_edge(low, high, key=edge)
    return graph


def whole_lists(report: Report, shown: Optional[dict[int, Lists]] = None) -> Lists:
    """The rotation system of the whole graph from those of its blocks: at a cut vertex the lists of its blocks one after the
    other, in the order of the blocks, each from its first edge on. It is plane where each of them is. `shown` has the lists of
    each block; without it, they are those that `show` printed. Fails with ValueError where a block is not among them."""
    shown = report.shown() if shown is None else shown
    whole: dict[int, list[int]] = {vertex: [] for vertex in range(len(report.ids))}
    for block in report.blocks:
        if block.number not in shown:
            raise ValueError(f"no rotation system of block {block.number} is given")
        for vertex, edges in shown[block.number].items():
            whole[vertex].extend(edges)
    return {vertex: tuple(edges) for vertex, edges in whole.items()}


def embed(graph: Union[bytes, nx.Graph], program: Optional[str] = None) -> tuple[Report, Lists]:
    """A rotation system of the whole graph: each block as it starts. Fails with NotPlanar where none exists."""
    data = graph if isinstance(graph, bytes) else gml_of(graph)
    head = run(data, b"", program)
    for block in head.blocks:
        if not block.is_planar:
            raise NotPlanar(block)
    report = run(data, "".join(f"show {block.number}\n" for block in head.blocks), program)
    return report, whole_lists(report)


def face_with(report: Report, block: int, vertices: Iterable[int], program: Optional[str] = None) -> Lists:
    """A plane rotation system of a block in which all these vertices of the block are on one face.

    A new vertex, with the next number, is joined to them by edges with the next numbers; in a plane rotation system of the
    larger graph it lies in a face of the block. Fails with NotPlanar where none exists: then the certificate, in the numbers of
    the larger graph, says why. Fails with ValueError where a vertex is not one of the block."""
    corners = sorted(set(vertices))
    if not set(corners) <= set(report.blocks[block].vertices()):
        raise ValueError(f"not all of the vertices {corners} are vertices of block {block}")
    new = len(report.ids)
    ends = {**report.ends(), **{report.edge_count + place: (vertex, new) for place, vertex in enumerate(corners)}}
    data = gml_of_ends(new + 1, ends)
    edge = report.blocks[block].edges[0]
    larger = next(one for one in run(data, b"", program).blocks if edge in one.edges)
    if not larger.is_planar:
        raise NotPlanar(larger)
    shown = run(data, f"show {larger.number}", program).shown()[larger.number]
    return drop_vertex(shown, new, ends) if len(corners) > 1 else shown


def planar_embedding(lists: Lists, ends: Ends, names: Optional[Sequence[Hashable]] = None, subdivide: bool = False) -> nx.PlanarEmbedding:
    """The embedding of networkx with these lists, of the whole graph or of a block. Its nodes are the vertices' numbers, or
    `names[v]` where names are given. networkx has no parallel edges: with `subdivide` each edge but the least of a parallel
    class gets a new node `("edge", E)` on it; without it, ValueError names the edge."""
    bent = _later_parallel_edges(ends)
    if bent and not subdivide:
        raise ValueError(f"edge {min(bent)} is parallel to another one, and networkx.PlanarEmbedding takes no parallel edges")
    name = (lambda vertex: vertex) if names is None else names.__getitem__
    clockwise: dict[Hashable, list[Hashable]] = {}
    for vertex, edges in lists.items():
        clockwise[name(vertex)] = [("edge", edge) if edge in bent else name(_other(ends[edge], vertex)) for edge in reversed(edges)]
    for edge in bent:
        clockwise["edge", edge] = [name(vertex) for vertex in ends[edge]]
    embedding = nx.PlanarEmbedding()
    embedding.add_nodes_from(clockwise)     # set_data adds only those with edges
    embedding.set_data(clockwise)
    return embedding


def _later_parallel_edges(ends: Ends) -> set[int]:
    """The edges whose ends are those of a lesser edge."""
    seen: set[tuple[int, int]] = set()
    later = set()
    for edge in sorted(ends):
        if ends[edge] in seen:
            later.add(edge)
        seen.add(ends[edge])
    return later


def _other(ends: tuple[int, int], vertex: int) -> int:
    return ends[1] if vertex == ends[0] else ends[0]


def lists_of(embedding: nx.PlanarEmbedding, ends: Ends) -> Lists:
    """The rotation system that an embedding of networkx has, for `take` and `euler`: the way back from `planar_embedding`. The
    embedding's nodes are the vertices' numbers, and no two edges are parallel. Edges that `ends` lacks are left out."""
    edge_between = {frozenset(pair): edge for edge, pair in ends.items()}
    lists = {}
    for vertex in sorted(embedding.nodes):
        clockwise = [edge_between.get(frozenset((vertex, other))) for other in embedding.neighbors_cw_order(vertex)]
        lists[vertex] = tuple(edge for edge in reversed(clockwise) if edge is not None)
    return lists


def drop_vertex(lists: Lists, vertex: int, ends: Ends) -> Lists:
    """The rotation system without this vertex and its edges; what is plane stays so."""
    return {other: tuple(edge for edge in edges if vertex not in ends[edge]) for other, edges in lists.items() if other != vertex}
