"""The client against networkx, on graphs from a seed: what the program reports, and what the client makes of it."""
from __future__ import annotations

import math
import unittest
from collections import Counter
from pathlib import Path
from typing import Any, Iterator

import networkx as nx

import spqr_client as spqr
from drawing import layout
from graphs import graphs
from spqr_client import Block, Document, Ends, Faces, Listed, ListedWhole, Lists, Named, Node, Report, Whole

TOTAL = 200
SEED = 44
LISTED = 12
LISTED_WHOLE = 60
EXAMPLES = Path(__file__).resolve().parent.parent.parent / "examples"


def script_on(report: Report) -> str:
    lines = ["gml"]
    for block in report.blocks:
        if block.is_planar:
            lines += [f"{word} {block.number}" for word in ("show", "faces", "count")] + [f"list {block.number} {LISTED}"]
    return "\n".join(lines)


class OnGraphs(unittest.TestCase):
    """Each test looks at all graphs; the program has run on each of them once for its head and once for a script."""
    named: list[Named]
    graphs: list[nx.Graph]
    where = ""

    def _formatMessage(self, message: Any, standard: str) -> str:
        """What unittest prints of a failure, with the graph at which a test was."""
        return f"{self.where}: {super()._formatMessage(message, standard)}"

    @classmethod
    def setUpClass(cls) -> None:
        cls.graphs = list(graphs(TOTAL, SEED))
        cls.named = [spqr.run_graph(graph, script_on(spqr.run_graph(graph).report)) for graph in cls.graphs]

    def each(self) -> Iterator[tuple[nx.Graph, Named]]:
        for place, (graph, named) in enumerate(zip(self.graphs, self.named)):
            self.where = f"graph {place}"
            yield graph, named

    def each_block(self) -> Iterator[tuple[Report, Block]]:
        for _, named in self.each():
            for block in named.report.blocks:
                yield named.report, block

    def each_planar(self) -> Iterator[tuple[Report, Block, dict[type, Any]]]:
        """Each planar block with its answers by their types."""
        for report, block in self.each_block():
            if block.is_planar:
                own = [one.answer for one in report.answered if one.command.block == block.number]
                yield report, block, {type(answer): answer for answer in own}

    def test_names_and_ends(self) -> None:
        for graph, named in self.each():
            self.assertEqual(list(named.vertices), list(graph.nodes))
            self.assertEqual(named.report.edge_count, graph.number_of_edges())
            self.assertEqual(named.report.ids, tuple(range(len(graph))))
            ends = named.report.ends()
            self.assertEqual(sorted(ends), list(range(graph.number_of_edges())))
            for edge, names in enumerate(named.edges):
                self.assertEqual({named.vertices[end] for end in ends[edge]}, set(names[:2]))
                self.assertLess(*ends[edge])

    def test_whole_graph_is_the_graph(self) -> None:
        for graph, named in self.each():
            whole = spqr.whole_graph(named.report)
            self.assertEqual([named.vertices[vertex] for vertex in whole.nodes], list(graph.nodes))
            pairs = Counter(frozenset((named.vertices[low], named.vertices[high])) for low, high in whole.edges())
            self.assertEqual(pairs, Counter(map(frozenset, graph.edges())))

    def test_planarity(self) -> None:
        for graph, named in self.each():
            self.assertEqual(named.report.is_planar, nx.check_planarity(nx.Graph(graph))[0])
        for _, block in self.each_block():
            self.assertEqual(block.is_planar, nx.check_planarity(nx.Graph(spqr.block_graph(block)))[0])

    def test_both_kinds_are_tried(self) -> None:
        certificates = Counter(block.certificate.kind if block.certificate else "planar" for named in self.named for block in named.report.blocks)
        self.assertEqual(set(certificates), {"K5", "K33", "planar"})
        self.assertGreater(min(certificates.values()), 5)

    def test_blocks_and_cut_vertices(self) -> None:
        for graph, named in self.each():
            simple = nx.Graph(graph)
            name = named.vertices.__getitem__
            self.assertEqual({frozenset(map(name, block.vertices())) for block in named.report.blocks},
                             set(map(frozenset, nx.biconnected_components(simple))))
            self.assertEqual({name(vertex) for vertex in named.report.cuts}, set(nx.articulation_points(simple)))

    def test_block_cut_tree(self) -> None:
        for graph, named in self.each():
            tree = spqr.block_cut_tree(named.report)
            self.assertTrue(not tree or nx.is_forest(tree))
            self.assertEqual(nx.number_connected_components(tree), sum(len(part) > 1 for part in nx.connected_components(graph)))
            self.assertTrue(all(tree.degree(node) > 1 for node in tree if node[0] == "cut"))

    def test_skeletons(self) -> None:
        for _, block in self.each_block():
            for node in block.nodes:
                graph = spqr.skeleton(node)
                self.assertEqual(tuple(graph.nodes), node.vertices)
                self.assertEqual(graph.number_of_edges(), len(node.items))
                self.assertTrue(_is_of_kind(node, graph), node)

    def test_trees(self) -> None:
        for _, block in self.each_block():
            tree = spqr.tree_of(block)
            self.assertTrue(nx.is_tree(tree))
            self.assertEqual(sorted(item.key for node in block.nodes for item in node.items if not item.is_virtual), list(block.edges))
            for first, last, link in tree.edges(data=True):
                kinds = {tree.nodes[first]["kind"], tree.nodes[last]["kind"]}
                self.assertNotIn(kinds, ({"P"}, {"S"}))
                self.assertEqual(link["keys"], {first: _least_beyond(tree, first, last), last: _least_beyond(tree, last, first)})

    def test_certificates(self) -> None:
        for report, block in self.each_block():
            if block.certificate:
                self.assertTrue(_is_subdivision(block, report.ends()), block.certificate)

    def test_faces_are_those_of_networkx(self) -> None:
        for report, block, answers in self.each_planar():
            lists, ends = report.shown()[block.number], block.ends()
            self.assertEqual(set(answers[Faces].faces), _faces(lists, ends))

    def test_shown_is_plane(self) -> None:
        for report, block, _ in self.each_planar():
            spqr.planar_embedding(report.shown()[block.number], block.ends(), subdivide=True).check_structure()

    def test_whole_embedding_is_plane(self) -> None:
        for graph, named in self.each():
            if not named.report.is_planar:
                continue
            whole, ends = spqr.whole_lists(named.report), named.report.ends()
            for vertex, edges in whole.items():
                self.assertEqual(sorted(edges), sorted(edge for edge, pair in ends.items() if vertex in pair))
            embedding = spqr.planar_embedding(whole, ends, named.vertices, subdivide=True)
            embedding.check_structure()
            self.assertEqual(set(embedding.nodes) - {("edge", edge) for edge in ends}, set(graph.nodes))
            euler = spqr.run_graph(graph, f"euler {spqr.text_of_lists(whole)}").report.answers[0]
            self.assertTrue(euler.is_plane)
            self.assertEqual(euler.components, nx.number_connected_components(graph))

    def test_lists_have_no_repetition(self) -> None:
        for report, block, answers in self.each_planar():
            members = [report.shown()[block.number]] + [member.lists for member in answers[Listed].members]
            self.assertEqual(len({spqr.text_of_lists(member) for member in members}), len(members))
            self.assertEqual(len(members), min(answers[spqr.Count].members, LISTED + 1))
            self.assertEqual(answers[Listed].more, answers[spqr.Count].members > LISTED + 1)
            for member in members:
                spqr.planar_embedding(member, block.ends(), subdivide=True).check_structure()

    def test_count_is_the_product(self) -> None:
        for _, block, answers in self.each_planar():
            choices = [2 if node.kind == "R" else math.factorial(len(node.items) - 1) if node.kind == "P" else 1 for node in block.nodes]
            self.assertEqual(answers[spqr.Count].members, math.prod(choices))

    def test_components(self) -> None:
        """The members of a component are plane, different, and as many as blocks and arrangements have together."""
        for graph, named in self.each():
            if not named.report.is_planar:
                continue
            parts = sorted(nx.connected_components(spqr.whole_graph(named.report)), key=min)
            script = [f"whole {c}\nlistwhole {c} {LISTED_WHOLE}" for c in range(len(parts))] + [f"whole {len(parts)}"]
            *answers, last = spqr.run_graph(graph, "\n".join(script)).report.answers
            self.assertEqual(last, spqr.Error(14, ()))
            for place, part in enumerate(parts):
                first, listed = answers[2 * place:2 * place + 2]
                self.assertEqual((type(first), type(listed), first.component), (Whole, ListedWhole, place))
                texts = [spqr.text_of_lists(member.lists) for member in (first, *listed.members)]
                count = _members(named.report, part)
                ends = {edge: pair for edge, pair in named.report.ends().items() if pair[0] in part}
                self.assertEqual((len(set(texts)), len(texts), listed.more), (len(texts), min(count, LISTED_WHOLE + 1), count > LISTED_WHOLE + 1))
                for member in (first, *listed.members):
                    self.assertEqual(set(member.lists), part)
                    spqr.planar_embedding(member.lists, ends, subdivide=True).check_structure()

    def test_document_is_the_graph(self) -> None:
        for graph, named in self.each():
            text = next(answer.text for answer in named.report.answers if isinstance(answer, Document))
            back = nx.parse_gml(text.decode("ascii").replace("graph [", "graph [\n  multigraph 1", 1), label="id")
            self.assertEqual(nx.number_of_nodes(back), len(graph))
            self.assertEqual([back.nodes[vertex]["label"] for vertex in back], [str(name) for name in graph.nodes])
            self.assertEqual(Counter(map(frozenset, back.edges())), Counter(frozenset(pair) for pair in named.report.ends().values()))

    def test_back_from_networkx(self) -> None:
        """An embedding that networkx has found is taken, and it is the one that is shown then."""
        for graph, named in self.each():
            ends = named.report.ends()
            if not named.report.is_planar or len(set(ends.values())) < len(ends):
                continue
            found = nx.check_planarity(spqr.whole_graph(named.report))[1]
            lists = spqr.lists_of(found, ends)
            self.assertEqual(spqr.planar_embedding(lists, ends).adj, found.adj)
            script = f"euler {spqr.text_of_lists(lists)}\n"
            for block in named.report.blocks:
                own = {vertex: tuple(edge for edge in lists[vertex] if edge in block.edges) for vertex in block.vertices()}
                script += f"take {block.number} {spqr.text_of_lists(own)}\nshow {block.number}\n"
            report = spqr.run_graph(graph, script).report
            self.assertTrue(report.answers[0].is_plane)
            self.assertNotIn(spqr.Error, map(type, report.answers))
            for block in report.blocks:
                ours = spqr.planar_embedding(report.shown()[block.number], block.ends())
                own = {vertex: [edge for edge in lists[vertex] if edge in block.edges] for vertex in block.vertices()}
                self.assertEqual(ours.adj, spqr.planar_embedding(own, block.ends()).adj)

    def test_drawn_counterclockwise(self) -> None:
        """In a drawing by networkx, with y upwards, the edges around each vertex come in the order of the lists."""
        for report, block, _ in self.each_planar():
            lists, ends = report.shown()[block.number], block.ends()
            drawn = layout(lists, ends)
            for vertex, edges in lists.items():
                toward = [drawn.bends.get(edge) or drawn.vertices[sum(ends[edge]) - vertex] for edge in edges]
                here = drawn.vertices[vertex]
                angles = [math.atan2(y - here[1], x - here[0]) for x, y in toward]
                falls = sum(angles[place] <= angles[place - 1] for place in range(len(angles)))
                self.assertEqual(falls, 1)


def _members(report: Report, part: set[int]) -> int:
    """How many plane rotation systems a component has: of its blocks, and of each the arrangements at its cut vertices. k blocks with d1,
    .., dk of the D edges at a vertex have d1 * .. * dk * (D - 1) * .. * (D - k + 2) arrangements there."""
    total = 1
    blocks = [block for block in report.blocks if set(block.vertices()) <= part]
    for node in (node for block in blocks for node in block.nodes):
        total *= 2 if node.kind == "R" else math.factorial(len(node.items) - 1) if node.kind == "P" else 1
    for vertex in part:
        degrees = [sum(vertex in pair for pair in block.ends().values()) for block in blocks if vertex in block.vertices()]
        total *= math.prod(degrees) * math.prod(sum(degrees) - 1 - place for place in range(len(degrees) - 2)) if len(degrees) > 1 else 1
    return total


def _is_of_kind(node: Node, graph: nx.MultiGraph) -> bool:
    simple = nx.Graph(graph)
    if node.kind == "R":
        return graph.number_of_edges() == simple.number_of_edges() and len(simple) > 3 and nx.node_connectivity(simple) >= 3
    if node.kind == "S":
        return len(simple) >= 3 and graph.number_of_edges() == len(simple) and nx.is_connected(simple) and all(degree == 2 for _, degree in graph.degree)
    return len(simple) == 2 and (graph.number_of_edges() >= 3) == (node.kind == "P")


def _least_beyond(tree: nx.Graph, node: int, neighbor: int) -> int:
    """The least edge of the nodes on the other side of a link."""
    rest = tree.copy()
    rest.remove_edge(node, neighbor)
    beyond = nx.node_connected_component(rest, neighbor)
    return min(item.key for other in beyond for item in tree.nodes[other]["items"] if not item.is_virtual)


def _is_subdivision(block: Block, ends: Ends) -> bool:
    """A certificate by its definition: paths of the block, for the right pairs of branch vertices, that meet only at their ends."""
    found = block.certificate
    branch = found.branch
    if found.kind == "K5":
        wanted = {frozenset((a, b)) for a in branch for b in branch if a != b}
    else:
        wanted = {frozenset((a, b)) for a in branch[:3] for b in branch[3:]}
    inner: list[int] = []
    for path in found.paths:
        here = path.first
        for edge in path.edges:
            if edge not in block.edges or here not in ends[edge]:
                return False
            here = sum(ends[edge]) - here
            inner.append(here)
        if inner.pop() != path.last:
            return False
    edges = [edge for path in found.paths for edge in path.edges]
    return (len(set(branch)) == len(branch) == (5 if found.kind == "K5" else 6) and len(set(inner)) == len(inner)
            and not set(inner) & set(branch) and len(set(edges)) == len(edges)
            and Counter(frozenset((path.first, path.last)) for path in found.paths) == Counter(wanted))


def _faces(lists: Lists, ends: Ends) -> set[tuple[tuple[int, int], ...]]:
    """The faces as `traverse_face` has them: pairs of a vertex and the edge by which it is left, from the least on."""
    embedding = spqr.planar_embedding(lists, ends, subdivide=True)
    straight = {pair: edge for edge, pair in sorted(ends.items(), reverse=True)}
    faces, marked = set(), set()
    for first, last in embedding.edges:
        if (first, last) in marked:
            continue
        around = embedding.traverse_face(first, last, marked)
        pairs = []
        for here, there in zip(around, around[1:] + around[:1]):
            if not isinstance(here, tuple):
                pairs.append((here, there[1] if isinstance(there, tuple) else straight[min(here, there), max(here, there)]))
        least = pairs.index(min(pairs))
        faces.add(tuple(pairs[least:] + pairs[:least]))
    return faces


class Alone(unittest.TestCase):
    """What needs no random graph."""

    def test_examples_are_read(self) -> None:
        for output in sorted(EXAMPLES.glob("*.out")):
            script = output.with_suffix(".spqr")
            if script.exists() and not output.with_suffix(".status").exists():
                with self.subTest(example=output.name):
                    report = spqr.read_report(output.read_bytes(), script.read_bytes())
                    self.assertEqual(len(report.answers), len(spqr.commands_of(script.read_bytes())))

    def test_labels_that_look_like_a_report(self) -> None:
        data = b'graph [ node [ id 7 label "\nblock 0: 1\nok\nend\n" ] ]'
        report = spqr.run(data, "gml\nundo\ngml")
        self.assertEqual(report.ids, (7,))
        self.assertEqual([type(answer) for answer in report.answers], [Document, spqr.Error, Document])
        self.assertIn(b"\nblock 0: 1\nok\nend\n", report.answers[0].text)

    def test_a_report_that_is_cut_off(self) -> None:
        whole, script = (EXAMPLES / "each_command.out").read_bytes(), (EXAMPLES / "each_command.spqr").read_bytes()
        for length in range(0, len(whole), 7):
            with self.assertRaises(spqr.ReportError):
                spqr.read_report(whole[:length], script)
        with self.assertRaises(spqr.ReportError):
            spqr.read_report(whole + b"ok\n", script)

    def test_refusals(self) -> None:
        for data, script, status, line in [(b"graph [", "", 4, "refused gml end 7"), (b"", "", 5, "refused graph none"),
                                           (b"graph [ ]", "shwo 0", 6, "refused script line 1")]:
            with self.assertRaises(spqr.Refused) as caught:
                spqr.run(data, script)
            self.assertEqual((caught.exception.status, caught.exception.line), (status, line))

    def test_no_program(self) -> None:
        for path in ("/nowhere/spqr", "/bin/false"):
            with self.assertRaises(spqr.ProgramError):
                spqr.run(b"graph [ ]", program=path)

    def test_loops_and_parallel_edges(self) -> None:
        with self.assertRaises(ValueError):
            spqr.gml_of(nx.Graph([("a", "a")]))
        report, lists = spqr.embed(nx.MultiGraph([(0, 1), (0, 1)]))
        with self.assertRaises(ValueError):
            spqr.planar_embedding(lists, report.ends())
        arcs = spqr.run_graph(nx.DiGraph([(0, 1), (1, 0), (1, 2), (2, 0)]), "count 0").report
        self.assertEqual([node.kind for node in arcs.blocks[0].nodes], ["P", "S"])

    def test_not_planar(self) -> None:
        with self.assertRaises(spqr.NotPlanar) as caught:
            spqr.embed(nx.complete_graph(5))
        self.assertEqual(caught.exception.block.certificate.kind, "K5")

    def test_moves_are_commands(self) -> None:
        data = (EXAMPLES / "floor_plan.gml").read_bytes()
        moves = spqr.run(data, "convert 0 rank 47").answers[0].moves
        script = "\n".join([*(move.command for move in moves), "rank 0"])
        self.assertEqual(spqr.run(data, script).answers[-1], spqr.Rank(47))

    def test_moves_of_components_are_commands(self) -> None:
        """From the start of an example to each other member, by the lines of `convertwhole`."""
        data = (EXAMPLES / "components_converted.gml").read_bytes()
        members = spqr.run(data, "listwhole 0 10000").answers[0].members
        self.assertEqual(len(members), 23)
        kinds = set()
        for member in members:
            moves = spqr.run(data, f"convertwhole 0 {spqr.text_of_lists(member.lists)}").answers[0].moves
            kinds |= set(map(type, moves))
            answers = spqr.run(data, "\n".join([*(move.command for move in moves), "whole 0"])).answers
            self.assertEqual(answers, (*[spqr.Ok()] * len(moves), member))
        self.assertEqual(kinds, {spqr.Move, spqr.Regroup})

    def test_components_and_blocks_of_commands(self) -> None:
        script = b"show 3\nwhole 1\nregroup 4 0 1\nlistwhole 2 5\neuler\nundo\n"
        self.assertEqual([(one.block, one.component) for one in spqr.commands_of(script)],
                         [(3, None), (None, 1), (None, None), (None, 2), (None, None), (None, None)])

    def test_a_face_with_vertices(self) -> None:
        """For all pairs and some triples of the house: the face is there, or no member of the whole list has it."""
        data = (EXAMPLES / "floor_plan.gml").read_bytes()
        report = spqr.run(data)
        every = spqr.run(data, "show 0\nlist 0 100")
        members = [every.answers[0].lists, *(member.lists for member in every.answers[1].members)]
        reached = [[{vertex for vertex, _ in face} for face in _faces(lists, report.blocks[0].ends())] for lists in members]
        for corners in [(2, 5), (2, 5, 7), (5, 7), (3, 6), (2, 7), (0, 4, 5), (2,), (3, 5, 6)]:
            with self.subTest(corners=corners):
                possible = any(set(corners) <= face for faces in reached for face in faces)
                try:
                    lists = spqr.face_with(report, 0, corners)
                except spqr.NotPlanar as fault:
                    self.assertFalse(possible)
                    self.assertIn(len(report.ids), fault.block.certificate.branch + tuple(fault.block.vertices()))
                    continue
                self.assertTrue(any(set(corners) <= {vertex for vertex, _ in face} for face in _faces(lists, report.blocks[0].ends())))
                self.assertEqual(spqr.run(data, f"take 0 {spqr.text_of_lists(lists)}").answers[0], spqr.Ok())


if __name__ == "__main__":
    unittest.main()
