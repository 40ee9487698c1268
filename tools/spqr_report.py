"""The report that `spqr run` prints, read into values. Standard library alone.

`read_report(report, script)` takes the bytes of a whole report and the bytes of the script that it answers. Vertices, edges,
blocks and nodes are the program's numbers, from 0. A rotation system is a dict from a vertex to the tuple of its edges,
counterclockwise with y upwards, as the program prints it (type `Lists`).

The report is read by lengths, never by looking for a line: the answer of `gml` has raw bytes of the graph file in it, and a
label with line ends can look like any line of a report. docs/FORMATS.md has every line that is printed."""
from __future__ import annotations

from dataclasses import dataclass
from typing import Callable, Optional, Union

Lists = dict[int, tuple[int, ...]]
Ends = dict[int, tuple[int, int]]

ON_COMPONENTS = ("whole", "nextwhole", "listwhole", "convertwhole")


class ReportError(ValueError):
    """The bytes are not a report that this module knows, or not one on this script."""


@dataclass(frozen=True)
class Item:
    """An edge of a skeleton: an edge of the graph, or a virtual edge that two nodes of the tree share."""
    key: int                # the edge; of a virtual edge the least edge of the block beyond it
    low: int                # the lesser end
    high: int               # the greater end
    node: Optional[int]     # the node with which a virtual edge is shared; None for an edge of the graph

    @property
    def is_virtual(self) -> bool:
        return self.node is not None


@dataclass(frozen=True)
class Node:
    """A node of the tree of a block: a bond (P), a polygon (S), a triconnected graph (R), or a block of one or two edges (B)."""
    number: int
    kind: str
    vertices: tuple[int, ...]
    items: tuple[Item, ...]


@dataclass(frozen=True)
class Path:
    """A path of a certificate, along its edges from the first vertex to the last."""
    first: int
    last: int
    edges: tuple[int, ...]


@dataclass(frozen=True)
class Certificate:
    """A subdivision of K5 or K3,3: the branch vertices (of K33 three of one side, then three of the other) and the paths."""
    kind: str
    branch: tuple[int, ...]
    paths: tuple[Path, ...]


@dataclass(frozen=True)
class Block:
    """A block with its edges, its tree, and its certificate where it is not planar."""
    number: int
    edges: tuple[int, ...]
    nodes: tuple[Node, ...]
    certificate: Optional[Certificate]

    @property
    def is_planar(self) -> bool:
        return self.certificate is None

    def ends(self) -> Ends:
        """The ends of each edge, the lesser first: those of the items that are edges of the graph."""
        return {item.key: (item.low, item.high) for node in self.nodes for item in node.items if not item.is_virtual}

    def vertices(self) -> tuple[int, ...]:
        return tuple(sorted({vertex for node in self.nodes for vertex in node.vertices}))


@dataclass(frozen=True)
class Euler:
    """The answer of `euler`."""
    vertices: int
    edges: int
    faces: int
    components: int
    is_plane: bool


@dataclass(frozen=True)
class Rotation:
    """The answer of `show`, and a member that `list` prints."""
    block: int
    lists: Lists


@dataclass(frozen=True)
class Faces:
    """The answer of `faces`: along each face the pairs of a vertex and the edge by which it is left."""
    block: int
    faces: tuple[tuple[tuple[int, int], ...], ...]


@dataclass(frozen=True)
class Listed:
    """The answer of `list`; `more` where another member follows these."""
    block: int
    members: tuple[Rotation, ...]
    more: bool


@dataclass(frozen=True)
class Whole:
    """The answer of `whole`, and a member that `listwhole` prints: the rotation system of a component."""
    component: int
    lists: Lists


@dataclass(frozen=True)
class ListedWhole:
    """The answer of `listwhole`; `more` where another member follows these."""
    component: int
    members: tuple[Whole, ...]
    more: bool


@dataclass(frozen=True)
class Count:
    members: int


@dataclass(frozen=True)
class Rank:
    rank: int


@dataclass(frozen=True)
class Move:
    """A flip, without keys, or a permute, of a node of a block. `command` is the line of a script that makes it."""
    block: int
    node: int
    keys: Optional[tuple[int, ...]]

    @property
    def command(self) -> str:
        if self.keys is None:
            return f"flip {self.block} {self.node}"
        return " ".join(map(str, ("permute", self.block, self.node, *self.keys)))


@dataclass(frozen=True)
class Regroup:
    """The edges around a cut vertex in another order. `command` is the line of a script that makes it."""
    vertex: int
    edges: tuple[int, ...]

    @property
    def command(self) -> str:
        return " ".join(map(str, ("regroup", self.vertex, *self.edges)))


@dataclass(frozen=True)
class Moves:
    """The answer of `convert` and of `convertwhole`; only the latter has lines that regroup."""
    moves: tuple[Union[Move, Regroup], ...]


@dataclass(frozen=True)
class Longest:
    """The answer of `longest`: the greatest length of a face, and moves that lead to one; they are not made."""
    length: int
    moves: tuple[Move, ...]


@dataclass(frozen=True)
class Drawing:
    """The answer of `draw`: the point of each vertex of the block, x to the right and y upwards."""
    block: int
    points: dict[int, tuple[int, int]]


@dataclass(frozen=True)
class Document:
    """The answer of `gml`: the graph file in the written layout."""
    text: bytes


@dataclass(frozen=True)
class Ok:
    """The answer of a command that changed something and prints nothing else."""


@dataclass(frozen=True)
class End:
    """The answer of `next` and `nextwhole` at the last member."""


@dataclass(frozen=True)
class Error:
    """The answer of a command that cannot be carried out."""
    code: int
    numbers: tuple[int, ...]


Answer = Union[Euler, Rotation, Faces, Listed, Whole, ListedWhole, Count, Rank, Moves, Longest, Drawing, Document, Ok, End, Error]


@dataclass(frozen=True)
class Command:
    """A command of a script: the number of its line, from 1, and its words."""
    line: int
    words: tuple[str, ...]

    @property
    def block(self) -> Optional[int]:
        """The block that the command names, where it names one."""
        named = len(self.words) > 1 and self.words[0] not in ("euler", "regroup", *ON_COMPONENTS)
        return int(self.words[1]) if named else None

    @property
    def component(self) -> Optional[int]:
        """The component that the command names, where it names one."""
        named = len(self.words) > 1 and self.words[0] in ON_COMPONENTS
        return int(self.words[1]) if named else None


@dataclass(frozen=True)
class Answered:
    """A command and its answer."""
    command: Command
    answer: Answer


@dataclass(frozen=True)
class Report:
    """A whole report: the head, and the answer of each command of the script in order."""
    ids: tuple[int, ...]        # of each vertex, its id in the graph file
    edge_count: int
    cuts: tuple[int, ...]       # the cut vertices
    blocks: tuple[Block, ...]
    answered: tuple[Answered, ...]

    @property
    def answers(self) -> tuple[Answer, ...]:
        return tuple(one.answer for one in self.answered)

    @property
    def is_planar(self) -> bool:
        return all(block.is_planar for block in self.blocks)

    def ends(self) -> Ends:
        """The ends of each edge of the graph, the lesser first."""
        return {edge: ends for block in self.blocks for edge, ends in block.ends().items()}

    def shown(self) -> dict[int, Lists]:
        """For each block that `show` printed, what it printed last."""
        return {answer.block: answer.lists for answer in self.answers if isinstance(answer, Rotation)}


def commands_of(script: bytes) -> tuple[Command, ...]:
    """The commands of a script, without its comments and empty lines. Whether each is one is not looked at."""
    commands = []
    for number, line in enumerate(script.split(b"\n"), 1):
        text = line.removesuffix(b"\r").strip(b" \t")
        if text and not text.startswith(b"#"):
            words = text.replace(b"\t", b" ").decode("utf-8", "replace").split(" ")
            commands.append(Command(number, tuple(word for word in words if word)))
    return tuple(commands)


def lists_of_text(text: str) -> Lists:
    """A rotation system as it is written in scripts and reports: `0: 0 1; 1: 1 0`."""
    entries = [entry.partition(":") for entry in text.split(";") if entry.strip()]
    return {int(vertex): tuple(map(int, edges.split())) for vertex, _, edges in entries}


def text_of_lists(lists: Lists) -> str:
    """The text of a rotation system, for `euler`, `take`, `convert .. to` and `convertwhole`."""
    return "; ".join(" ".join([f"{vertex}:", *map(str, lists[vertex])]) for vertex in sorted(lists))


class _Reader:
    """The bytes of a report and how many of them have been read."""

    def __init__(self, data: bytes) -> None:
        self.data = data
        self.place = 0

    def take(self, length: int) -> bytes:
        taken = self.data[self.place:self.place + length]
        if len(taken) < length:
            raise ReportError(f"the report ends after {len(self.data)} bytes, within the answer of gml")
        self.place += length
        return taken

    def line(self) -> str:
        """The next line, read."""
        end = self.data.find(b"\n", self.place)
        if end < 0:
            raise ReportError(f"the report ends after {len(self.data)} bytes, before a line end")
        text = self.data[self.place:end].decode("ascii", "replace")
        self.place = end + 1
        return text

    def words(self, first: str) -> list[str]:
        """The words of the next line after its first one, which must be this one."""
        start = self.place
        words = self.line().split(" ")
        if words[0] != first:
            raise ReportError(f"byte {start} of the report: a line `{first} ..` was expected, and it is `{' '.join(words)[:60]}`")
        return words[1:]

    def next_word(self) -> str:
        """The first word of the next line, which stays unread; empty at the end."""
        end = self.data.find(b"\n", self.place)
        return self.data[self.place:end].split(b" ")[0].decode("ascii", "replace") if end >= 0 else ""

    @property
    def is_done(self) -> bool:
        return self.place == len(self.data)


def read_report(report: bytes, script: bytes) -> Report:
    """Reads a whole report on a graph and this script. Fails with ReportError where it is not one."""
    reader = _Reader(report)
    try:
        return _report(reader, script)
    except (ValueError, IndexError) as fault:
        if isinstance(fault, ReportError):
            raise
        raise ReportError(f"before byte {reader.place} of the report: {fault}") from fault


def _report(reader: _Reader, script: bytes) -> Report:
    vertex_count, edge_count = map(int, reader.words("graph"))
    ids = tuple(int(reader.words("vertex")[1]) for _ in range(vertex_count))
    cuts = []
    while reader.next_word() == "cut":
        cuts.append(int(reader.words("cut")[0]))
    blocks = []
    while reader.next_word() == "block":
        blocks.append(_block(reader))
    answered = tuple(Answered(command, _answer(reader, command)) for command in commands_of(script))
    if not reader.is_done:
        raise ReportError(f"byte {reader.place} of the report: more lines than the script has commands")
    return Report(ids, edge_count, tuple(cuts), tuple(blocks), answered)


def _block(reader: _Reader) -> Block:
    number, *edges = reader.words("block")
    nodes = []
    while reader.next_word() == "node":
        nodes.append(_node(reader))
    if reader.next_word() == "planar":
        reader.line()
        certificate = None
    else:
        certificate = _certificate(reader)
    return Block(int(number.rstrip(":")), tuple(map(int, edges)), tuple(nodes), certificate)


def _node(reader: _Reader) -> Node:
    words = reader.words("node")
    bar = words.index("|")
    return Node(int(words[0]), words[1], tuple(map(int, words[2:bar])), tuple(map(_item, words[bar + 1:])))


def _item(word: str) -> Item:
    key, _, rest = word.partition(":")
    ends, at, node = rest.partition("@")
    low, high = ends.split("-")
    return Item(int(key), int(low), int(high), int(node) if at else None)


def _certificate(reader: _Reader) -> Certificate:
    _, kind, *branch = reader.words("nonplanar")
    return Certificate(kind, tuple(map(int, branch)), tuple(_path(reader) for _ in range(10 if kind == "K5" else 9)))


def _path(reader: _Reader) -> Path:
    first, last, *edges = reader.words("path")
    return Path(int(first), int(last.rstrip(":")), tuple(map(int, edges)))


def _answer(reader: _Reader, command: Command) -> Answer:
    word = reader.next_word()
    if word not in _ANSWERS:
        raise ReportError(f"line {command.line} of the script: byte {reader.place} of the report is not an answer: `{word[:60]}`")
    return _ANSWERS[word](reader, command)


def _rotation(reader: _Reader) -> Rotation:
    before, _, text = reader.line().partition("|")
    return Rotation(int(before.split()[1]), lists_of_text(text))


def _whole(reader: _Reader) -> Whole:
    before, _, text = reader.line().partition("|")
    return Whole(int(before.split()[1]), lists_of_text(text))


def _euler(reader: _Reader, _: Command) -> Euler:
    *numbers, plane = reader.words("euler")
    return Euler(*map(int, numbers), plane == "plane")


def _faces(reader: _Reader, _: Command) -> Faces:
    block, total = map(int, reader.words("faces"))
    faces = []
    for _ in range(total):
        pairs = (pair.split("-") for pair in reader.words("face"))
        faces.append(tuple((int(vertex), int(edge)) for vertex, edge in pairs))
    return Faces(block, tuple(faces))


def _listed(reader: _Reader, _: Command) -> Listed:
    block, total = map(int, reader.words("list"))
    members = tuple(_rotation(reader) for _ in range(total))
    return Listed(block, members, reader.line() == "more")


def _listed_whole(reader: _Reader, _: Command) -> ListedWhole:
    component, total = map(int, reader.words("listwhole"))
    members = tuple(_whole(reader) for _ in range(total))
    return ListedWhole(component, members, reader.line() == "more")


def _moves(reader: _Reader, command: Command) -> Moves:
    total = int(reader.words("moves")[0])
    lines = [reader.line().split(" ") for _ in range(total)]
    if command.component is not None:
        return Moves(tuple(_whole_move(words) for words in lines))
    return Moves(tuple(_move(words, command.block) for words in lines))


def _whole_move(words: list[str]) -> Union[Move, Regroup]:
    """A line of `convertwhole`: a move with its block, or the edges around a vertex."""
    if words[0] == "regroup":
        return Regroup(int(words[1]), tuple(map(int, words[2:])))
    return _move([words[0], *words[2:]], int(words[1]))


def _longest(reader: _Reader, command: Command) -> Longest:
    length = int(reader.words("longest")[0])
    total = int(reader.words("moves")[0])
    return Longest(length, tuple(_move(reader.line().split(" "), command.block) for _ in range(total)))


def _drawing(reader: _Reader, _: Command) -> Drawing:
    block, total = map(int, reader.words("draw"))
    lines = [tuple(map(int, reader.words("point"))) for _ in range(total)]
    return Drawing(block, {vertex: (x, y) for vertex, x, y in lines})


def _move(words: list[str], block: Optional[int]) -> Move:
    if block is None:
        raise ReportError("moves answer a command without a block")
    keys = tuple(map(int, words[2:])) if words[0] == "permute" else None
    return Move(block, int(words[1]), keys)


def _error(reader: _Reader, _: Command) -> Error:
    code, *numbers = map(int, reader.words("error"))
    return Error(code, tuple(numbers))


def _bare(value: Answer) -> Callable[[_Reader, Command], Answer]:
    def read(reader: _Reader, _: Command) -> Answer:
        reader.line()
        return value
    return read


_ANSWERS: dict[str, Callable[[_Reader, Command], Answer]] = {
    "euler": _euler,
    "rotation": lambda reader, _: _rotation(reader),
    "faces": _faces,
    "list": _listed,
    "whole": lambda reader, _: _whole(reader),
    "listwhole": _listed_whole,
    "count": lambda reader, _: Count(int(reader.words("count")[0])),
    "rank": lambda reader, _: Rank(int(reader.words("rank")[0])),
    "moves": _moves,
    "longest": _longest,
    "draw": _drawing,
    "gml": lambda reader, _: Document(reader.take(int(reader.words("gml")[0]))),
    "ok": _bare(Ok()),
    "end": _bare(End()),
    "error": _error,
}
