"""A drawing of a rotation system without crossings, as SVG. Needs networkx.

Of parallel edges the least is a straight line. Each other one gets a bend of its own, placed like a vertex in the middle of the
edge, and is drawn as an arc: straight from both ends towards the bend, and there a curve. The corner that the curve cuts off
holds no vertex and no bend, so that an arc meets no other edge either."""
from __future__ import annotations

import html
import re
from dataclasses import dataclass
from fractions import Fraction
from typing import Hashable, Optional

import networkx as nx

from spqr_client import planar_embedding
from spqr_report import Ends, Lists

Point = tuple[int, int]
UNIT = (48, 64)             # how wide and high a step of the grid is
MARGIN = 60
MOST_WIDE = 1600
CUTS = [Fraction(1, 2 ** power) for power in range(12)]


@dataclass(frozen=True)
class Layout:
    """Where everything is on the grid, y upwards: the vertices, and the bends of the edges that are arcs."""
    vertices: dict[int, Point]
    bends: dict[int, Point]


def layout(lists: Lists, ends: Ends) -> Layout:
    """A straight-line drawing by networkx of this plane rotation system, in which the lists are counterclockwise: one component
    beside the other."""
    graph = nx.Graph()
    graph.add_nodes_from(lists)
    graph.add_edges_from(ends.values())
    drawn = Layout({}, {})
    left = 0
    for component in nx.connected_components(graph):
        own = {edge: pair for edge, pair in ends.items() if pair[0] in component}
        places = nx.combinatorial_embedding_to_pos(planar_embedding({vertex: lists[vertex] for vertex in component}, own, subdivide=True))
        for name, (x, y) in places.items():
            place = (int(x) + left, int(y))
            if isinstance(name, tuple):
                drawn.bends[name[1]] = place
            else:
                drawn.vertices[name] = place
        left = 2 + max(x for x, _ in [*drawn.vertices.values(), *drawn.bends.values()])
    return drawn


def layout_of_points(text: str, ends: Ends) -> Layout:
    """The drawing of the lines `point V X Y` of a text, whatever its other lines are. Edges that are parallel to a lesser one
    bend to the left and to the right of it in turn."""
    vertices = {int(v): (int(x), int(y)) for v, x, y in re.findall(r"^point (\d+) (\d+) (\d+)$", text, re.MULTILINE)}
    beside: dict[tuple[int, int], int] = {}
    bends = {}
    for edge in sorted(ends):
        turn = beside[ends[edge]] = beside.get(ends[edge], -1) + 1
        if turn:
            (x, y), (z, w) = (vertices[end] for end in ends[edge])
            side = turn if turn % 2 else -turn
            bends[edge] = ((x + z) // 2 - side * (w - y) // 4, (y + w) // 2 + side * (z - x) // 4)
    return Layout(vertices, bends)


def svg(drawn: Layout, ends: Ends, labels: dict[int, str], edge_labels: Optional[dict[int, str]] = None) -> str:
    """The drawing as SVG. Each straight edge is a `line`, each arc a `path`, with the edge's number as `data-edge`."""
    frame = _Frame([*drawn.vertices.values(), *drawn.bends.values()])
    corners = {edge: [drawn.vertices[ends[edge][0]], bend, drawn.vertices[ends[edge][1]]] for edge, bend in drawn.bends.items()}
    others = [*drawn.vertices.values(), *drawn.bends.values()]
    lines = [frame.head()]
    for edge, (low, high) in sorted(ends.items()):
        name = (edge_labels or {}).get(edge, "")
        if edge in corners:
            lines.append(frame.arc(edge, corners[edge], _cut(corners[edge], others), name))
        else:
            lines.append(frame.line(edge, drawn.vertices[low], drawn.vertices[high], name))
    for edge, name in sorted((edge_labels or {}).items()):
        lines.append(frame.text(_middle(edge, ends, drawn), name, "edge"))
    for vertex, place in sorted(drawn.vertices.items()):
        lines.append(frame.vertex(vertex, place, labels.get(vertex, str(vertex))))
    return "\n".join([*lines, "</svg>", ""])


def _middle(edge: int, ends: Ends, drawn: Layout) -> tuple[Fraction, Fraction]:
    """The middle of a straight edge; a point near the bend of an arc."""
    (x, y), (z, w) = (drawn.vertices[end] for end in ends[edge])
    middle = Fraction(x + z, 2), Fraction(y + w, 2)
    if edge not in drawn.bends:
        return middle
    bend = drawn.bends[edge]
    return (bend[0] + middle[0]) / 2, (bend[1] + middle[1]) / 2


def _cut(corner: list[Point], others: list[Point]) -> Fraction:
    """How much of the two sides of a corner a curve may cut off: the triangle so cut off has none of the other points in it."""
    (a, b), (x, y), (c, d) = corner
    for part in CUTS:
        first = (x + (a - x) * part, y + (b - y) * part)
        last = (x + (c - x) * part, y + (d - y) * part)
        if not any(_inside(point, first, (x, y), last) for point in others if point not in corner):
            return part
    return Fraction(0)


def _inside(point: Point, first: tuple, second: tuple, third: tuple) -> bool:
    """Whether a point is in a triangle or on its border."""
    turns = [_turn(first, second, point), _turn(second, third, point), _turn(third, first, point)]
    return min(turns) >= 0 or max(turns) <= 0


def _turn(first: tuple, second: tuple, third: tuple) -> Fraction:
    """Above 0 where the three points turn to the left, below 0 to the right, 0 where they are on a line."""
    return (second[0] - first[0]) * (third[1] - first[1]) - (second[1] - first[1]) * (third[0] - first[0])


def text_of(label: str) -> str:
    """A label as text of XML: on one line, characters that XML does not have replaced."""
    clean = "".join(letter if letter.isprintable() else " " if letter.isspace() else "\ufffd" for letter in label)
    return html.escape(clean.encode("utf-8", "replace").decode("utf-8"))


class _Frame:
    """The picture's coordinates: whole numbers, y downwards."""

    def __init__(self, points: list[Point]) -> None:
        self.left = min((x for x, _ in points), default=0)
        self.top = max((y for _, y in points), default=0)
        right = max((x for x, _ in points), default=0)
        bottom = min((y for _, y in points), default=0)
        self.width = (right - self.left) * UNIT[0] + 2 * MARGIN
        self.height = (self.top - bottom) * UNIT[1] + 2 * MARGIN

    def at(self, point: tuple) -> str:
        x, y = self.place(point)
        return f"{x} {y}"

    def place(self, point: tuple) -> tuple[str, str]:
        x, y = (point[0] - self.left) * UNIT[0] + MARGIN, (self.top - point[1]) * UNIT[1] + MARGIN
        return tuple(str(float(one)) if one % 1 else str(int(one)) for one in (x, y))

    def head(self) -> str:
        shown = min(self.width, MOST_WIDE)
        return (f'<svg xmlns="http://www.w3.org/2000/svg" viewBox="0 0 {self.width} {self.height}" width="{shown}" height="{self.height * shown // self.width}">\n'
                "<style>line, path { stroke: #555; stroke-width: 2; fill: none } circle { fill: #fff; stroke: #000; stroke-width: 2 }\n"
                "text { font: 14px sans-serif; text-anchor: middle; paint-order: stroke; stroke: #fff; stroke-width: 4 } .edge { font-size: 11px; fill: #06c }</style>")

    def line(self, edge: int, first: Point, last: Point, name: str) -> str:
        (x, y), (z, w) = self.place(first), self.place(last)
        return f'<line data-edge="{edge}" x1="{x}" y1="{y}" x2="{z}" y2="{w}"><title>{text_of(f"{edge} {name}".strip())}</title></line>'

    def arc(self, edge: int, corner: list[Point], part: Fraction, name: str) -> str:
        """From the first end straight towards the bend, a curve at the bend, and straight to the last end."""
        (a, b), (x, y), (c, d) = corner
        first = (x + (a - x) * part, y + (b - y) * part)
        last = (x + (c - x) * part, y + (d - y) * part)
        way = f"M {self.at((a, b))} L {self.at(first)} Q {self.at((x, y))} {self.at(last)} L {self.at((c, d))}"
        return f'<path data-edge="{edge}" d="{way}"><title>{text_of(f"{edge} {name}".strip())}</title></path>'

    def text(self, point: tuple, label: str, kind: str) -> str:
        x, y = self.place(point)
        return f'<text class="{kind}" x="{x}" y="{y}">{text_of(label)}</text>'

    def vertex(self, vertex: int, point: Point, label: str) -> str:
        x, y = self.place(point)
        return (f'<circle data-vertex="{vertex}" cx="{x}" cy="{y}" r="6"/>'
                f'<text x="{x}" y="{int(float(y)) - 12}">{text_of(label)}</text>')
