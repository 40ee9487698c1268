"""Reads and writes GML as docs/FORMATS.md has it, with the place of each pair in the file. Standard library alone."""
from __future__ import annotations

import bisect
import html
import re
from dataclasses import dataclass, field
from typing import Iterator, Optional, Union

KEY = re.compile(rb"[A-Za-z][A-Za-z0-9_]*")
INTEGER = re.compile(rb"[+-]?[0-9]+")
NUMBER = re.compile(rb"[+-]?(?:(?:[0-9]+\.?[0-9]*|\.[0-9]+)(?:[eE][+-]?[0-9]+)?|(?i:inf|nan))")
TOKEN = re.compile(rb"""[ \t-\r]+|\#[^\r\n]*|(?P<open>\[)|(?P<close>\])|(?P<string>"[^"]*")|(?P<word>[^ \t-\r\[\]"\#]+)""", re.VERBOSE)
LINE_END = re.compile(rb"\r\n|\r|\n")
MOST_AROUND = 31            # a list is inside at most this many other lists
INTEGER_RANGE = (-2 ** 63, 2 ** 63 - 1)
START = b"spqrRotation"     # the key of the edges at a node, in the order in which a session starts


@dataclass
class Pair:
    """A key and its value: the bytes of a number, the bytes between the quotes of a string, or the pairs of a list. `at` is where
    the key begins in the file, `value_at` where the value does."""
    key: bytes
    kind: str                                   # "number", "string" or "list"
    value: Union[bytes, "list[Pair]"]
    at: int = 0
    value_at: int = 0

    @property
    def pairs(self) -> "list[Pair]":
        """The pairs of a list; none of another value."""
        return self.value if isinstance(self.value, list) else []

    @property
    def text(self) -> bytes:
        """The bytes of a number or of a string; none of a list."""
        return self.value if isinstance(self.value, bytes) else b""

    def first(self, key: bytes) -> Optional["Pair"]:
        """The first pair of a list with this key."""
        return next((pair for pair in self.pairs if pair.key == key), None)

    def lists(self, key: bytes) -> "list[Pair]":
        """The pairs of a list with this key whose values are lists."""
        return [pair for pair in self.pairs if pair.key == key and pair.kind == "list"]


@dataclass
class Scan:
    """How far a file could be read. `fault` is the token that does not fit (None where the file is a document or ends too early),
    `open` are the lists that are still open, `key` the key that has no value yet, `last` the pair that was read last."""
    top: Pair
    open: list[Pair] = field(default_factory=list)
    key: Optional[Pair] = None
    last: Optional[Pair] = None
    fault: Optional[int] = None
    is_whole: bool = False


def scan(data: bytes) -> Scan:
    """Reads a file as far as it is a document."""
    found = Scan(Pair(b"", "list", []))
    place = 0
    while place < len(data):
        token = TOKEN.match(data, place)
        if token is None or (token.lastgroup and not _fits(found, token.lastgroup, token.group())):
            found.fault = place
            return found
        if token.lastgroup:
            _add(found, token.lastgroup, token.group(), place)
        place = token.end()
    found.is_whole = not found.open and found.key is None
    return found


def _fits(found: Scan, kind: str, text: bytes) -> bool:
    """Whether this token may follow what was read."""
    if found.key is not None:
        return kind == "string" or (kind == "open" and len(found.open) <= MOST_AROUND) or (kind == "word" and NUMBER.fullmatch(text) is not None)
    return (kind == "close" and bool(found.open)) or (kind == "word" and KEY.fullmatch(text) is not None)


def _add(found: Scan, kind: str, text: bytes, place: int) -> None:
    if kind == "close":
        found.last = found.open.pop()
    elif found.key is None:
        found.key = Pair(text, "", b"", place)
    else:
        pair, found.key = found.key, None
        pair.value_at = place
        pair.kind = {"open": "list", "string": "string", "word": "number"}[kind]
        pair.value = [] if kind == "open" else text.strip(b'"')
        (found.open[-1] if found.open else found.top).pairs.append(pair)
        found.last = pair
        if kind == "open":
            found.open.append(pair)


def words_after_strings(data: bytes) -> list[int]:
    """Where a word directly follows a string, without a gap. GML allows it, but mostly a quote was meant to be inside a string."""
    places, end_of_string = [], -1
    for token in TOKEN.finditer(data):
        if token.lastgroup == "word" and token.start() == end_of_string:
            places.append(token.start())
        end_of_string = token.end() if token.lastgroup == "string" else -1
    return places


def graph_lists(top: Pair) -> list[Pair]:
    """The lists `graph` of a document."""
    return top.lists(b"graph")


def whole_number(pair: Optional[Pair]) -> Optional[int]:
    """The value of an integer from -2^63 to 2^63 - 1; None for everything else."""
    if pair is None or pair.kind != "number" or not INTEGER.fullmatch(pair.text):
        return None
    digits = pair.text.lstrip(b"+-").lstrip(b"0") or b"0"
    if len(digits) > 19:
        return None
    value = -int(digits) if pair.text.startswith(b"-") else int(digits)
    return value if INTEGER_RANGE[0] <= value <= INTEGER_RANGE[1] else None


def edges_at_nodes(graph: Pair) -> list[list[int]]:
    """The edges at each node of a graph whose ids and ends are right, increasing."""
    places = {whole_number(node.first(b"id")): place for place, node in enumerate(graph.lists(b"node"))}
    found: list[list[int]] = [[] for _ in places]
    for number, edge in enumerate(graph.lists(b"edge")):
        for key in (b"source", b"target"):
            found[places[whole_number(edge.first(key))]].append(number)
    return found


def labels(data: bytes, name: bytes = b"node") -> list[Optional[str]]:
    """The label of each node (or edge) of an accepted graph file, in order: decoded as UTF-8, else as Latin-1, entities such as
    `&quot;` replaced by their characters. None for one without a label."""
    graphs = graph_lists(scan(data).top)
    found = []
    for one in graphs[0].lists(name) if graphs else []:
        label = one.first(b"label")
        found.append(None if label is None or label.kind == "list" else html.unescape(decoded(label.text)))
    return found


def decoded(text: bytes) -> str:
    """Bytes as text: UTF-8 where they are, else Latin-1."""
    try:
        return text.decode("utf-8")
    except UnicodeDecodeError:
        return text.decode("latin-1")


def written(pairs: list[Pair], depth: int = 0) -> Iterator[bytes]:
    """The lines of the written layout: two spaces of indent for each list around a pair."""
    indent = b"  " * depth
    for pair in pairs:
        if pair.kind == "list":
            yield indent + pair.key + b" [\n"
            yield from written(pair.pairs, depth + 1)
            yield indent + b"]\n"
        elif pair.kind == "string":
            yield indent + pair.key + b' "' + pair.text + b'"\n'
        else:
            yield indent + pair.key + b" " + pair.text + b"\n"


@dataclass(frozen=True)
class Place:
    """A place in a file: line and column from 1, columns counted in characters, the text of the line, and how it is shown: at most
    some 70 characters around the place, with the column of the place in these."""
    line: int
    column: int
    text: str
    shown: str
    mark: int


class Lines:
    """The lines of a file, which end with LF, CR LF or CR."""

    def __init__(self, data: bytes) -> None:
        self.data = data
        self.starts = [0] + [end.end() for end in LINE_END.finditer(data)]

    def number(self, at: int) -> int:
        """The number of the line, from 1, in which byte `at` is."""
        return bisect.bisect_right(self.starts, at)

    def place(self, at: int) -> Place:
        """The place of byte `at`."""
        line = self.number(at)
        start = self.starts[line - 1]
        end = self.starts[line] if line < len(self.starts) else len(self.data)
        text = self.data[start:end].rstrip(b"\r\n")
        before = text[:at - start].decode("utf-8", "replace")
        whole = before + text[at - start:].decode("utf-8", "replace")
        left = max(0, len(before) - 40)
        shown = "".join(letter if letter.isprintable() else " " if letter == "\t" else "?" for letter in whole[left:left + 70])
        return Place(line, len(before) + 1, whole, shown, len(before) - left)
