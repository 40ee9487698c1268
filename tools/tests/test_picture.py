"""Pictures are well-formed XML with all labels, in which no two edges meet but at a common end; trees are DOT."""
from __future__ import annotations

import re
import subprocess
import sys
import tempfile
import unittest
import xml.etree.ElementTree as ET
from fractions import Fraction
from pathlib import Path
from typing import Iterator

import networkx as nx

import spqr_client as spqr
from drawing import MARGIN, UNIT, layout, layout_of_points, svg
from graphs import graphs

TOOLS = Path(__file__).resolve().parent.parent
EXAMPLES = TOOLS.parent / "examples"
SPACE = "{http://www.w3.org/2000/svg}"
Point = tuple[Fraction, Fraction]
STEPS = 6


def tool(name: str, *words: object) -> subprocess.CompletedProcess:
    return subprocess.run([sys.executable, TOOLS / name, *map(str, words)], capture_output=True, check=False)


def edges_of(picture: ET.Element) -> dict[int, list[Point]]:
    """Of each edge of a picture the points along it: the two ends of a line, and some points of an arc."""
    found = {}
    for line in picture.iter(f"{SPACE}line"):
        x, y, z, w = (Fraction(line.attrib[name]) for name in ("x1", "y1", "x2", "y2"))
        found[int(line.attrib["data-edge"])] = [(x, y), (z, w)]
    for path in picture.iter(f"{SPACE}path"):
        numbers = list(map(Fraction, re.findall(r"[\d.]+", path.attrib["d"])))
        start, first, bend, last, end = zip(numbers[::2], numbers[1::2])
        curve = []
        for step in range(STEPS + 1):
            t = Fraction(step, STEPS)
            curve.append(tuple((1 - t) ** 2 * a + 2 * t * (1 - t) * b + t ** 2 * c for a, b, c in zip(first, bend, last)))
        found[int(path.attrib["data-edge"])] = [start, *curve, end]
    return found


def turn(a: Point, b: Point, c: Point) -> Fraction:
    return (b[0] - a[0]) * (c[1] - a[1]) - (b[1] - a[1]) * (c[0] - a[0])


def between(a: Point, b: Point, c: Point) -> bool:
    """Whether c, on the line of a and b, is on the segment."""
    return min(a[0], b[0]) <= c[0] <= max(a[0], b[0]) and min(a[1], b[1]) <= c[1] <= max(a[1], b[1])


def meet(a: Point, b: Point, c: Point, d: Point) -> bool:
    """Whether two segments have a point in common."""
    turns = turn(a, b, c), turn(a, b, d), turn(c, d, a), turn(c, d, b)
    if turns[0] * turns[1] < 0 and turns[2] * turns[3] < 0:
        return True
    return any(one == 0 and between(*segment, point) for one, segment, point in
               ((turns[0], (a, b), c), (turns[1], (a, b), d), (turns[2], (c, d), a), (turns[3], (c, d), b)))


def crossings(edges: dict[int, list[Point]]) -> Iterator[tuple[int, int]]:
    """Pairs of edges that meet elsewhere than at a common end."""
    names = sorted(edges)
    for place, first in enumerate(names):
        for second in names[place + 1:]:
            common = {edges[first][0], edges[first][-1]} & {edges[second][0], edges[second][-1]}
            for a, b in zip(edges[first], edges[first][1:]):
                for c, d in zip(edges[second], edges[second][1:]):
                    if a != b and c != d and meet(a, b, c, d) and not _only_at(common, a, b, c, d):
                        yield first, second


def _only_at(common: set[Point], a: Point, b: Point, c: Point, d: Point) -> bool:
    """Whether two segments that meet do so in one of these points alone."""
    shared = common & {a, b} & {c, d}
    if len(shared) != 1:
        return False
    (here,) = shared
    one, other = (b if a == here else a), (d if c == here else c)
    return turn(here, one, other) != 0 or not (between(here, one, other) or between(here, other, one))


class Pictures(unittest.TestCase):

    def setUp(self) -> None:
        folder = tempfile.TemporaryDirectory()
        self.addCleanup(folder.cleanup)
        self.folder = Path(folder.name)

    def check(self, picture: ET.Element, ends: spqr.Ends, vertices: int) -> None:
        """All vertices and edges are there, edges go from vertex to vertex, and none meets another one."""
        places = {int(circle.attrib["data-vertex"]): (Fraction(circle.attrib["cx"]), Fraction(circle.attrib["cy"])) for circle in picture.iter(f"{SPACE}circle")}
        edges = edges_of(picture)
        self.assertEqual((len(places), len(set(places.values())), set(edges)), (vertices, vertices, set(ends)))
        for edge, points in edges.items():
            self.assertEqual({points[0], points[-1]}, {places[end] for end in ends[edge]})
            for vertex, place in places.items():
                if vertex not in ends[edge]:
                    self.assertFalse(any(turn(a, b, place) == 0 and between(a, b, place) for a, b in zip(points, points[1:]) if a != b))
        self.assertEqual(list(crossings(edges)), [])

    def test_random_graphs(self) -> None:
        drawn = 0
        for place, graph in enumerate(graphs(72, 7)):
            with self.subTest(graph=place):
                try:
                    report, lists = spqr.embed(graph)
                except spqr.NotPlanar:
                    continue
                text = svg(layout(lists, report.ends()), report.ends(), {vertex: str(name) for vertex, name in enumerate(graph.nodes)})
                self.check(ET.fromstring(text), report.ends(), len(graph))
                drawn += 1
        self.assertGreater(drawn, 30)

    def test_examples(self) -> None:
        for name in ("floor_plan", "each_command", "three_edges_are_a_bond", "read_from_yed", "read_from_graphviz", "empty"):
            with self.subTest(example=name):
                ran = tool("picture", EXAMPLES / f"{name}.gml")
                self.assertEqual(ran.returncode, 0, ran.stderr)
                report = spqr.run((EXAMPLES / f"{name}.gml").read_bytes())
                self.check(ET.fromstring(ran.stdout), report.ends(), len(report.ids))

    def test_one_block_after_a_script(self) -> None:
        target = self.folder / "block.svg"
        ran = tool("picture", EXAMPLES / "floor_plan.gml", target, "--block", 0, "--script", EXAMPLES / "floor_plan.spqr", "--edges")
        self.assertEqual((ran.returncode, ran.stdout), (0, b""), ran.stderr)
        picture = ET.fromstring(target.read_bytes())
        report = spqr.run((EXAMPLES / "floor_plan.gml").read_bytes())
        self.check(picture, report.blocks[0].ends(), len(report.blocks[0].vertices()))
        texts = [text.text for text in picture.iter(f"{SPACE}text")]
        self.assertEqual(set(texts), {"Hall", "Living room", "Kitchen", "Dining room", "Corridor", "Bedroom", "Study", "Garden", *map(str, range(15))})

    def test_labels(self) -> None:
        graph = self.folder / "labels.gml"
        graph.write_bytes('graph [ node [ id 0 label "<a & b> &quot;c&quot;" ] node [ id 1 label "two\nlines\x01é" ] node [ id -7 ] edge [ source 0 target 1 ] ]'.encode())
        picture = ET.fromstring(tool("picture", graph).stdout)
        self.assertEqual([text.text for text in picture.iter(f"{SPACE}text")], ['<a & b> "c"', "two lines\ufffdé", "-7"])
        graph.write_bytes(graph.read_bytes().decode().encode("latin-1"))
        self.assertIn("two lines\ufffdé".encode(), tool("picture", graph).stdout)

    def test_points_of_a_file(self) -> None:
        points = self.folder / "points"
        points.write_text("ok\ndraw 0 4\npoint 0 2 1\npoint 1 0 0\npoint 2 4 0\npoint 3 2 2\nok\n")
        picture = ET.fromstring(tool("picture", EXAMPLES / "k4.gml", "--points", points).stdout)
        self.check(picture, spqr.run((EXAMPLES / "k4.gml").read_bytes()).ends(), 4)
        heights = {circle.attrib["data-vertex"]: int(circle.attrib["cy"]) for circle in picture.iter(f"{SPACE}circle")}
        self.assertLess(heights["3"], heights["0"], "y is upwards")
        drawn = layout_of_points("point 0 0 0\npoint 1 8 0\n", {0: (0, 1), 1: (0, 1), 2: (0, 1)})
        self.assertEqual(len(set(drawn.bends.values())), 2)

    def test_points_of_the_program(self) -> None:
        graph = (EXAMPLES / "k4.gml").read_bytes()
        answer = spqr.run(graph, "draw 0").answers[0]
        picture = ET.fromstring(tool("picture", EXAMPLES / "k4.gml").stdout)
        self.check(picture, spqr.run(graph).ends(), 4)
        places = {int(circle.attrib["data-vertex"]): (int(circle.attrib["cx"]), int(circle.attrib["cy"])) for circle in picture.iter(f"{SPACE}circle")}
        left, top = min(x for x, _ in answer.points.values()), max(y for _, y in answer.points.values())
        self.assertEqual(places, {vertex: ((x - left) * UNIT[0] + MARGIN, (top - y) * UNIT[1] + MARGIN) for vertex, (x, y) in answer.points.items()})

    def test_what_cannot_be_drawn(self) -> None:
        for words, said in [((EXAMPLES / "k5_certificate.gml",), b"subdivision of K5 at"), ((EXAMPLES / "loop.gml",), b"refused graph loop 2"),
                            ((EXAMPLES / "k4.gml", "--block", 1), b"no block 1"), ((self.folder / "nothing",), b"No such file")]:
            ran = tool("picture", *words)
            self.assertEqual((ran.returncode, ran.stdout), (1, b""))
            self.assertIn(said, ran.stderr)
            self.assertEqual(ran.stderr.count(b"\n"), 1)


class Trees(unittest.TestCase):

    def test_examples(self) -> None:
        for path in sorted(EXAMPLES.glob("*.gml"))[::4]:
            if path.with_suffix(".status").exists():
                continue
            with self.subTest(example=path.stem):
                ran = tool("tree", path)
                self.assertEqual(ran.returncode, 0, ran.stderr)
                report = spqr.run(path.read_bytes())
                links = sum(spqr.tree_of(block).number_of_edges() for block in report.blocks) + spqr.block_cut_tree(report).number_of_edges()
                text = re.sub(r'"(?:[^"\\]|\\.)*"', '""', ran.stdout.decode())
                self.assertEqual(text.count(" -- "), links)
                self.assertEqual(text.count("{"), text.count("}"))

    def test_labels(self) -> None:
        with tempfile.TemporaryDirectory() as folder:
            graph = Path(folder, "labels.gml")
            graph.write_bytes(b'graph [ node [ id 0 label "a &quot;b\\" ] node [ id 1 ] edge [ source 0 target 1 ] ]')
            text = tool("tree", graph, "--block", 0).stdout.decode()
        self.assertIn('label="0 B (block)\\na \\"b\\\\ 1\\nedges 0"', text)


if __name__ == "__main__":
    unittest.main()
