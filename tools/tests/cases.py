"""45 graph files that the program refuses, each of a kind that tools and people write, for the tests of `explain` and `clean`.

Of each: its kind, its bytes, a word of the explanation, and the line that the explanation names (None for the file as a whole).
Where `clean` makes a graph of it: the numbers of vertices and edges, and something that must be in the text. Else the reason."""
from __future__ import annotations

import gzip
from dataclasses import dataclass
from typing import Optional


@dataclass(frozen=True)
class Case:
    kind: str
    data: bytes
    line: Optional[int]
    said: str
    size: Optional[tuple[int, int]]     # vertices and edges after `clean`; None where it makes no graph
    kept: str                           # what the cleaned file has in it; the reason where there is none


def two(inside: str, after: str = "", before: str = "") -> bytes:
    """An edge of two nodes, the first with these pairs, on line 2."""
    return f"{before}graph [\n  node [ id 0 {inside} ]\n  node [ id 1 ]\n  edge [ source 0 target 1 ]\n{after}]\n".encode()


def ids(first: str, second: str) -> bytes:
    return f"graph [\n  node [ id {first} ]\n  node [ id {second} ]\n  edge [ source {second} target {first} ]\n]\n".encode()


PLAIN = two('label "é"').decode()
DEEP = "graph [ node [ id 0 " + "a [ " * 31 + "] " * 31 + "] ]"
MANY = b"graph [\n" + b"".join(b"node [ id %d ]\n" % vertex for vertex in range(20_001)) + b"]\n"

CASES = [
    Case("loop", two("", "  edge [ source 1 target 1 ]\n"), 5, "is a loop", (2, 1), "target 1"),
    Case("loop, with ids of edges", two("", "  edge [ id 9 source 0 target 0 ]\n  edge [ id 1 source 1 target 0 ]\n"), 5, "edge 1 (counted", (2, 2), "id 1"),
    Case("loop, of equal ids", two("", "  edge [ source 1 target +01 ]\n"), 5, "is a loop", (2, 1), "target 1"),
    Case("quotes", two('label "say "hi there" now"'), 2, "a quote inside a string", (2, 1), "say &quot;hi there&quot; now"),
    Case("quotes, an odd number", two('label "5" tall"'), 2, "an odd number of quotes", (2, 1), "5&quot; tall"),
    Case("quotes, doubled", two('label "say ""hi"" now"'), 2, "a quote inside a string", (2, 1), "say &quot;&quot;hi&quot;&quot; now"),
    Case("quotes, with a backslash", two('label "say \\"hi\\" now"'), 2, "a quote inside a string", (2, 1), "say &quot;hi&quot; now"),
    Case("quotes, one missing", two('label "hall'), 2, "an odd number of quotes", (2, 1), 'label "hall"'),
    Case("quotes, single", two("label 'hall way'"), 2, "double quotes", (2, 1), 'label "hall way"'),
    Case("name with a blank", two('my attr "x"'), 2, "a key with a blank", (2, 1), 'my_attr "x"'),
    Case("name with a blank, of a number", two("Modularity Class 3"), 2, "a key with a blank", (2, 1), "Modularity_Class 3"),
    Case("name with a hyphen", two('line-style "dashed"'), 2, "`line-style` is not a key", (2, 1), 'line_style "dashed"'),
    Case("name with a colon", two('dc:title "x"'), 2, "`dc:title` is not a key", (2, 1), 'title "x"'),
    Case("name that begins with _", two('_nx_name "x"'), 2, "`_nx_name` is not a key", (2, 1), 'key_nx_name "x"'),
    Case("name not in ASCII", two("größe 3"), 2, "is not a key", (2, 1), "gr_"),
    Case("comma in a number", two("x 1,5"), 2, "a decimal comma", (2, 1), "x 1.5"),
    Case("commas between pairs", b'graph [\n  node [ id 0, label "a" ], node [ id 1 ]\n]\n', 2, "comma", (2, 0), 'label "a"'),
    Case("semicolons", b"graph [\n  node [ id 0; x 2; ];\n]\n", 2, "semicolon", (1, 0), "x 2"),
    Case("equals signs", b"graph [\n  node [ id = 0 ]\n  node [ id=1 ]\n]\n", 2, "between a key and its value", (2, 0), "id 1"),
    Case("colons", b"graph [\n  node [ id: 0 ]\n  node [ id: 1 ]\n]\n", 2, "after a key", (2, 0), "id 1"),
    Case("color", two("graphics [ fill #ff0000 ]"), 2, "`#` begins a comment", (2, 1), 'fill "#ff0000"'),
    Case("bare word", two("fixed true"), 2, "`true` is not a value", (2, 1), 'fixed "true"'),
    Case("bare words", two("label living room"), 2, "not a value of `label`", (2, 1), 'label "living room"'),
    Case("bare date", two("date 2020-01-31"), 2, "is not a number", (2, 1), 'date "2020-01-31"'),
    Case("several numbers", two("at 1 2 3"), 2, "a second value", (2, 1), 'at "1 2 3"'),
    Case("no value", two("label"), 2, "has no value", (2, 1), 'label ""'),
    Case("text ids", ids('"n0"', '"n1"'), 2, "without quotes", (2, 1), 'label "n1"'),
    Case("bare text ids", ids("n0", "n1"), 2, "`n0` is not a value", (2, 1), 'label "n1"'),
    Case("ids with a point", ids("0.0", "1.0"), 2, "write 0", (2, 1), "id 1\n"),
    Case("ids out of range", ids("9223372036854775808", "0"), 2, "from -9223372036854775808", (2, 1), "id 1\n"),
    Case("no id", b'graph [\n  node [ label "a" ]\n  node [ label "b" ]\n  edge [ source "a" target "b" ]\n]\n', 2, "has no `id`", (2, 1), "target 1"),
    Case("same id", two("", "  node [ id 0 ]\n"), 5, "has the `id` of node 0", (2, 1), "id 1"),
    Case("unknown end", two("", "  edge [ source 0 target 7 ]\n"), 5, "the id of no node", (3, 2), "id 7"),
    Case("from and to", b"graph [\n  node [ id 0 ]\n  node [ id 1 ]\n  edge [ from 0 to 1 ]\n]\n", 4, "`from` is not `source`", (2, 1), "target 1"),
    Case("byte order mark", b"\xef\xbb\xbf" + PLAIN.encode(), 1, "byte order mark", (2, 1), "é"),
    Case("UTF-16", PLAIN.encode("utf-16"), 1, "UTF-16", (2, 1), "é"),
    Case("prose before", b"A graph of two rooms, by hand.\n" + PLAIN.encode(), 1, "not a value of `A`", (2, 1), "é"),
    Case("comments of another language", PLAIN.replace("\n  node", "\n  // a room\n  node", 1).encode(), 2, "comment of another language", (2, 1), "é"),
    Case("Graph, Node, Edge and ID", PLAIN.replace("graph", "Graph").replace("node", "Node").replace("edge", "EDGE").replace(" id ", " ID ").encode(),
         1, "lower case", (2, 1), "é"),
    Case("empty", b"", None, "the file is empty", None, "no list `graph`"),
    Case("GraphML", b'<?xml version="1.0"?>\n<graphml><graph edgedefault="undirected"/></graphml>\n', 1, "XML", None, "XML"),
    Case("DOT", b"graph G {\n  a -- b;\n}\n", 1, "DOT", None, "DOT"),
    Case("JSON", b'{"nodes": [{"id": 0}], "links": []}\n', 1, "JSON", None, "JSON"),
    Case("compressed", gzip.compress(PLAIN.encode(), mtime=0), 1, "compressed", None, "compressed"),
    Case("too large", MANY, None, "20,001 vertices", None, "20,001 vertices"),
]

MORE = [
    Case("bracket missing", PLAIN.rstrip().removesuffix("]").encode(), 1, "is not closed", (2, 1), "é"),
    Case("bracket too many", PLAIN.encode() + b"]\n", 6, "one too many", (2, 1), "é"),
    Case("too deep", DEEP.encode(), 1, "lists inside each other", (1, 0), "a ["),
    Case("two graphs", b"graph [ ]\n" + PLAIN.encode(), 1, "graph list 1", (2, 1), "é"),
    Case("graph in a list", b"file [\n" + PLAIN.encode() + b"]\n", 2, "inside another list", (2, 1), "é"),
    Case("no graph around nodes", b"node [ id 0 ]\nnode [ id 1 ]\nedge [ source 0 target 1 ]\n", 1, "no list `graph`", (2, 1), "target 1"),
    Case("UTF-16 without a mark", PLAIN.encode("utf-16-be"), 1, "UTF-16", (2, 1), "é"),
    Case("UTF-32", PLAIN.encode("utf-32"), 1, "UTF-32", (2, 1), "é"),
    Case("no-break space", PLAIN.replace("id 0", "id\u00a00").encode(), 2, "", (2, 1), "é"),
    Case("percent comments", b"% two rooms\n" + PLAIN.encode(), 1, "", (2, 1), "é"),
    Case("edge without an end", two("", "  edge [ source 0 ]\n"), 5, "has no `target`", (2, 1), "target 1"),
    Case("quoted ids", ids('"0"', '"1"'), 2, "without quotes", (2, 1), "id 1\n"),
    Case("list of edges", b"0 1\n1 2\n", 1, "a list of edges", None, "list of edges"),
    Case("only comments", b"# nothing\n", None, "only white space and comments", None, "no list `graph`"),
]
