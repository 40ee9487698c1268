"""Random graphs from a seed for the tests: small, of many kinds, some planar and some not."""
from __future__ import annotations

import random
from typing import Callable, Iterator

import networkx as nx

ODD_NAMES = ['say "hi"', "R&D", "C#", "[x]", "é", "a\nblock 0: 1\nok", "", "&quot;", "tab\there", "日本", "graph 1 1", "\\"]


def scattered(draw: random.Random) -> nx.Graph:
    """Any simple graph."""
    vertices = draw.randint(1, 11)
    most = vertices * (vertices - 1) // 2
    return nx.gnm_random_graph(vertices, draw.randint(0, min(most, 2 * vertices + 3)), seed=draw.randrange(2 ** 32))


def triangulation(draw: random.Random) -> nx.Graph:
    """New vertices put into triangles, and some edges left out again."""
    graph = nx.complete_graph(3)
    faces = [(0, 1, 2), (0, 1, 2)]
    for vertex in range(3, draw.randint(4, 14)):
        a, b, c = faces.pop(draw.randrange(len(faces)))
        graph.add_edges_from([(a, vertex), (b, vertex), (c, vertex)])
        faces += [(a, b, vertex), (b, c, vertex), (a, c, vertex)]
    graph.remove_edges_from([edge for edge in list(graph.edges) if draw.random() < 0.2])
    return graph


def with_parallels(draw: random.Random) -> nx.MultiGraph:
    """Some edges of another graph several times."""
    graph = nx.MultiGraph(draw.choice([scattered, triangulation, series_parallel])(draw))
    for first, last in list(graph.edges()):
        for _ in range(draw.choice([0, 0, 0, 1, 2])):
            graph.add_edge(*draw.sample([first, last], 2))
    return graph


def series_parallel(draw: random.Random) -> nx.MultiGraph:
    """An edge, and each time one of its edges subdivided or doubled."""
    edges = [(0, 1)]
    vertices = 2
    for _ in range(draw.randint(1, 12)):
        place = draw.randrange(len(edges))
        first, last = edges[place]
        if draw.random() < 0.5:
            edges[place] = (first, vertices)
            edges.append((vertices, last))
            vertices += 1
        else:
            edges.append((first, last))
    return nx.MultiGraph(edges)


def subdivided(draw: random.Random) -> nx.Graph:
    """K5, K3,3, the Petersen graph, K6 or the cube, with some edges subdivided."""
    graph = draw.choice([nx.complete_graph(5), nx.complete_bipartite_graph(3, 3), nx.petersen_graph(), nx.complete_graph(6), nx.cubical_graph()])
    for first, last in list(graph.edges):
        if draw.random() < 0.3:
            graph.remove_edge(first, last)
            nx.add_path(graph, [first, len(graph), last])
    return graph


def glued(draw: random.Random) -> nx.MultiGraph:
    """Several graphs, each with a vertex of the ones before it as its own, or beside them; and vertices without edges."""
    whole = nx.MultiGraph()
    for _ in range(draw.randint(2, 4)):
        part = nx.MultiGraph(draw.choice([triangulation, series_parallel, subdivided, lambda _: nx.path_graph(2)])(draw))
        names = dict(zip(part.nodes, range(1 + max(whole.nodes, default=-1), 1000)))
        if len(whole) and draw.random() < 0.8:
            names[draw.choice(list(part.nodes))] = draw.choice(list(whole.nodes))
        whole.add_nodes_from(names.values())
        whole.add_edges_from((names[first], names[last]) for first, last in part.edges())
    whole.add_nodes_from(("alone", place) for place in range(draw.randint(0, 2)))
    return whole


KINDS: list[Callable[[random.Random], nx.Graph]] = [scattered, triangulation, with_parallels, series_parallel, subdivided, glued]


def renamed(draw: random.Random, graph: nx.Graph) -> nx.Graph:
    """The same graph with its vertices and edges in another order, and some of them with odd names."""
    vertices = list(graph.nodes)
    draw.shuffle(vertices)
    odd = iter(draw.sample(ODD_NAMES, len(ODD_NAMES)))
    names = {vertex: next(odd, place) if draw.random() < 0.3 else place for place, vertex in enumerate(vertices)}
    other = graph.__class__()
    other.add_nodes_from(names.values())
    edges = [tuple(draw.sample([names[first], names[last]], 2)) for first, last in graph.edges()]
    draw.shuffle(edges)
    other.add_edges_from(edges)
    return other


def graphs(total: int, seed: int) -> Iterator[nx.Graph]:
    """This many graphs, of each kind in turn."""
    draw = random.Random(seed)
    for place in range(total):
        yield renamed(draw, KINDS[place % len(KINDS)](draw))
