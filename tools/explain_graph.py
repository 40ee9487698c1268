"""Where and why the program refuses a graph file: hints for `tools/explain`. Standard library alone."""
from __future__ import annotations

import re
from dataclasses import dataclass
from typing import Optional

from gml_text import KEY, MOST_AROUND, NUMBER, START, Pair, Scan, edges_at_nodes, graph_lists, scan, whole_number, words_after_strings

CLEAN = "tools/clean FILE OUT does this"


@dataclass(frozen=True)
class Finding:
    """Something to say about a file: the byte at which it is (None for the file as a whole), what is there, and what to do."""
    at: Optional[int]
    what: str
    hint: str


OTHER_FORMATS = [
    (rb"\x1f\x8b|BZh|PK\x03\x04|\xfd7zXZ", "a compressed file", "unpack it first"),
    (rb"\x7fELF|\x89PNG|%PDF|\xff\xd8\xff", "not text", "give a GML file"),
    (rb"\s*<", "XML (GraphML, GEXF, or a page of the web)", "read it with networkx and write GML with networkx.write_gml"),
    (rb"\s*\{", "JSON", "read it with networkx and write GML with networkx.write_gml"),
    (rb"\s*\*(?i:vertices|network)", "a Pajek file", "read it with networkx.read_pajek and write GML with networkx.write_gml"),
    (rb"\s*(?:strict\s+)?(?i:di)?graph\b[^\[\"]*\{", "a DOT file", "Graphviz has a program for this: gv2gml FILE"),
    (rb"\s*(?:[0-9]+[ \t,]+[0-9]+[^\n]*\n)", "a list of edges", "read it with networkx.read_edgelist and write GML with networkx.write_gml"),
]


def encoding_fault(data: bytes) -> Optional[Finding]:
    """A byte order mark, or another encoding than one that extends ASCII."""
    if data.startswith(b"\xef\xbb\xbf"):
        return Finding(0, "a byte order mark (EF BB BF)", f"save the file as UTF-8 without one; {CLEAN}")
    for mark, name in ((b"\xff\xfe\0\0", "UTF-32"), (b"\0\0\xfe\xff", "UTF-32"), (b"\xff\xfe", "UTF-16"), (b"\xfe\xff", "UTF-16")):
        if data.startswith(mark):
            return Finding(0, f"the file is in {name}", f"save it as UTF-8; {CLEAN}")
    if b"\0" in data[:200] and not any(re.match(start, data) for start, _, _ in OTHER_FORMATS):
        return Finding(data.index(b"\0"), "a byte 0: the file is in UTF-16 or not text", f"save it as UTF-8; {CLEAN}")
    return None


def document_fault(data: bytes, at: int) -> Finding:
    """Why the file is not a document, where the program reports `at`."""
    encoding = encoding_fault(data)
    if encoding:
        return encoding
    found = scan(data)
    if not any(pair.kind == "list" for pair in found.top.pairs):
        for start, name, hint in OTHER_FORMATS:
            if re.match(start, data):
                return Finding(at, f"the file looks like {name}", hint)
    if found.fault is None:
        return _early_end(data, at, found)
    return _value_fault(data, at, found) if found.key is not None else _key_fault(data, at, found)


def _early_end(data: bytes, at: int, found: Scan) -> Finding:
    if found.key is not None:
        return _value_fault(data, at, found)
    inner = found.open[-1] if found.open else None
    if inner is None:
        return Finding(at, "the file ends too early", "is the file whole?")
    return Finding(inner.at, f"the list `{_name(inner)}` that begins here is not closed", f"a `]` is missing; {CLEAN}")


def _name(pair: Pair) -> str:
    return pair.key.decode("ascii", "replace")


def _value_fault(data: bytes, at: int, found: Scan) -> Finding:
    """A key was read, and no value follows."""
    key = found.key
    name = _name(key)
    gap = data[key.at + len(key.key):] if found.fault is None else data[key.at + len(key.key):found.fault]
    comment = re.match(rb"[ \t]*#([^\r\n]*)", gap)
    if comment:
        return Finding(key.at + len(key.key) + comment.start(1) - 1, f"the key `{name}` has no value: `#` begins a comment",
                       f'write the value in quotes: {name} "#{comment.group(1).decode("utf-8", "replace").strip()[:30]}"; {CLEAN}')
    rest = data[found.fault if found.fault is not None else len(data):]
    if rest.startswith(b'"'):
        return _open_string(data, found.fault, name)
    if rest.startswith(b"]") or not rest:
        return Finding(key.at, f"the key `{name}` has no value", f'write one, or the empty string `""`; {CLEAN}')
    if rest.startswith(b"["):
        return Finding(at, f"more than {MOST_AROUND + 1} lists inside each other", f"leave the innermost out; {CLEAN}")
    return _bad_value(data, at, found, rest)


def _open_string(data: bytes, quote: int, name: str) -> Finding:
    for line in re.finditer(rb"[^\r\n]+", data):
        if line.group().count(b'"') % 2:
            return Finding(line.start() + line.group().rindex(b'"'), "an odd number of quotes on this line: a string is not closed, or has a quote inside it",
                           f"close it, or write &quot; for a quote inside a string; {CLEAN}")
    return Finding(quote, f"the string that begins here, the value of `{name}`, is not closed",
                   f"is its second quote missing, or is there a quote inside an earlier string? write &quot; there; {CLEAN}")


def _bad_value(data: bytes, at: int, found: Scan, rest: bytes) -> Finding:
    key = found.key
    name = _name(key)
    word = re.match(rb'[^ \t-\r\[\]"#]*', rest).group()
    text = word.decode("utf-8", "replace")[:30]
    if _follows_string(data, found):
        return Finding(at, "a quote inside a string ends the string", f"write &quot; for a quote inside a string; {CLEAN}")
    if re.fullmatch(rb"[=:]+[^ ]*", word):
        return Finding(at, f"`{text}` between a key and its value", f"only white space is between them; {CLEAN}")
    if re.fullmatch(rb"[+-]?[0-9]+,[0-9]+[,;]?", word):
        return Finding(at, "a decimal comma", f"write a point; {CLEAN}")
    if re.fullmatch(rb".*[,;]", word):
        return Finding(at, f"`{text}`: a comma or semicolon after a value", f"pairs have only white space between them; {CLEAN}")
    if word.startswith(b"'"):
        return Finding(at, "a single quote", f'strings are in double quotes, "like this"; {CLEAN}')
    if re.match(rb"[ \t]+(?:[\"\[]|[+-]?[0-9.])", rest[len(word):]) and KEY.match(word):
        return Finding(at, f"`{name} {text}`: a key with a blank in it", f"write `{name}_{text}`; {CLEAN}")
    if not word.isascii() and word.replace(b"\xc2\xa0", b" ").strip() != word:
        return Finding(at, "a no-break space", f"use a common space; {CLEAN}")
    if word[:1].isdigit() or word[:1] in b"+-.":
        return Finding(at, f"`{text}` is not a number", f"a number is like 12, -0.5 or 1e-3; write other text in quotes; {CLEAN}")
    return Finding(at, f"`{text}` is not a value of `{name}`", f'a value is a number, a "string" in quotes, or a list in `[` `]`; {CLEAN}')


def _key_fault(data: bytes, at: int, found: Scan) -> Finding:
    """A pair was read, and no key and no `]` follows."""
    rest = data[found.fault:]
    word = re.match(rb'[^ \t-\r\[\]"#]*', rest).group()
    text = word.decode("utf-8", "replace")[:30]
    if not found.top.pairs and not found.open and re.match(rb"[%*/;-]", word):
        return Finding(at, "a line that is neither GML nor a comment", f"a comment begins with `#`; {CLEAN}")
    if rest.startswith(b"]"):
        return Finding(at, "a `]` without a list", f"there is one too many; {CLEAN}")
    if _follows_string(data, found) or rest.startswith(b'"'):
        return Finding(at, "a quote inside a string ends the string", f"write &quot; for a quote inside a string; {CLEAN}")
    if re.match(rb"[,;]", word):
        return Finding(at, "a comma or semicolon between pairs", f"pairs have only white space between them; {CLEAN}")
    if re.match(rb"//|/\*|--|%", word):
        return Finding(at, "a comment of another language", f"a comment begins with `#`; {CLEAN}")
    if b"\xc2\xa0" in word:
        return Finding(at, "a no-break space", f"use a common space; {CLEAN}")
    if found.last is not None and found.last.kind == "number" and word and NUMBER.fullmatch(word):
        return Finding(at, f"a second value `{text}` of `{_name(found.last)}`", f"a key has one value; write several in quotes; {CLEAN}")
    if rest.startswith(b"[") or not word:
        return Finding(at, "a list without a key", "write its key before it")
    if word.endswith((b":", b"=")) and KEY.fullmatch(word[:-1]):
        return Finding(at, f"`{text}`: `{text[-1]}` after a key", f"a key and its value have only white space between them; {CLEAN}")
    return Finding(at, f"`{text}` is not a key", f"a key is a letter of ASCII, then letters, digits and `_`; {CLEAN}")


def _follows_string(data: bytes, found: Scan) -> bool:
    """Whether the pair before the fault has a string that is directly followed by a letter or a quote."""
    parent = found.open[-1] if found.open else found.top
    if found.last is None or found.last is not (parent.pairs[-1] if parent.pairs else None) or found.last.kind != "string":
        return False
    after = data[found.last.value_at + len(found.last.text) + 2:][:1]
    line = re.match(rb"[^\r\n]*", data[found.last.value_at:]).group()
    return bool(after.strip(b" \t\r\n]#")) or line.count(b'"') > 2 and found.key is not None


def suspicions(data: bytes) -> list[Finding]:
    """What an accepted file may not mean as it is read."""
    return [Finding(at, "a word directly follows a string and is read as a key", f"was a quote meant to be inside the string? write &quot; for it; {CLEAN}")
            for at in words_after_strings(data)]


GRAPH_HINT = "the file needs exactly one pair `graph [ .. ]` that is not inside another list, in lower case"


def no_graph(data: bytes) -> list[Finding]:
    """Each cause for which a document has no list `graph`."""
    top = scan(data).top
    if not top.pairs:
        what = "the file has only white space and comments" if data.strip() else "the file is empty"
        return [Finding(None, what, GRAPH_HINT)]
    findings = []
    for pair in top.pairs:
        if pair.key == b"graph":
            findings.append(Finding(pair.value_at, "this `graph` is not a list", GRAPH_HINT))
        elif pair.key.lower() in (b"graph", b"digraph") and pair.kind == "list":
            findings.append(Finding(pair.at, f"`{_name(pair)}` is not `graph`", f"write `graph` in lower case; {CLEAN}"))
    findings += [Finding(pair.at, "this graph is inside another list", f"{GRAPH_HINT}; {CLEAN}") for pair in _inner_graphs(top)]
    if not findings and (top.lists(b"node") or top.lists(b"edge")):
        findings.append(Finding(top.pairs[0].at, "nodes and edges are in no list `graph`", f"put `graph [` before them and `]` after them; {CLEAN}"))
    return findings or [Finding(None, "no pair of the file has the key `graph`", GRAPH_HINT)]


def _inner_graphs(top: Pair) -> list[Pair]:
    found, lists = [], [pair for pair in top.pairs if pair.kind == "list"]
    while lists:
        inner = lists.pop()
        found += inner.lists(b"graph")
        lists += [pair for pair in inner.pairs if pair.kind == "list"]
    return sorted(found, key=lambda pair: pair.at)


def graph_fault(data: bytes, rule: str, number: int) -> list[Finding]:
    """Where the graph of a document breaks this rule of the table in FORMATS; `number` is the one that the program reports."""
    if rule == "none":
        return no_graph(data)
    graphs = graph_lists(scan(data).top)
    if rule == "more":
        return [Finding(pair.at, f"graph list {place} of the file", f"{GRAPH_HINT}; tools/clean FILE OUT keeps one")
                for place, pair in enumerate(graphs, 1)]
    if rule in ("vertices", "edges"):
        most = {"vertices": 20_000, "edges": 50_000}[rule]
        return [Finding(None, f"the graph has {number:,} {rule}", f"the program takes at most {most:,}; give it a part of the graph")]
    if rule in ("node-no-id", "node-bad-id", "same-id"):
        return [_node_fault(graphs[0], rule, number)]
    if rule == "start-vertex":
        return [_start_fault(graphs[0], number)]
    if rule == "start-genus":
        text = graphs[0].lists(b"node")[0].first(START)
        return [Finding(text.value_at, f"the orders of the edges of block {number}, which begin here, are those of no drawing in the plane",
                        "leave `spqrRotation` out of one node: then the file has no start")]
    return [_edge_fault(graphs[0], rule, number)]


def _start_fault(graph: Pair, number: int) -> Finding:
    text = graph.lists(b"node")[number].first(START)
    edges = " ".join(map(str, edges_at_nodes(graph)[number]))
    return Finding(text.value_at, f"the `spqrRotation` of node {number} (counted from 0, in the order of the file) does not have the edges there, each once",
                   f"write these numbers in a cyclic order: {edges[:60]}; or leave the key out of one node: then the file has no start; {CLEAN} (it leaves out all)")


def _node_fault(graph: Pair, rule: str, number: int) -> Finding:
    nodes = graph.lists(b"node")
    node, given = nodes[number], nodes[number].first(b"id")
    which = f"node {number} (counted from 0, in the order of the file)"
    if rule == "node-no-id" or given is None:
        other = next((pair for pair in node.pairs if pair.key.lower() == b"id"), None)
        hint = f"`{_name(other)}` is not `id`: write it in lower case" if other else "give each node an `id`, a whole number of its own"
        return Finding(node.at, f"{which} has no `id`", f"{hint}; {CLEAN}")
    if rule == "node-bad-id":
        return Finding(given.value_at, f"the `id` of {which} is not a whole number", f"{_number_hint(given)}; {CLEAN}")
    value = whole_number(given)
    earlier = next(place for place, other in enumerate(nodes) if whole_number(other.first(b"id")) == value)
    return Finding(given.value_at, f"{which} has the `id` of node {earlier}", f"each node needs an `id` of its own; {CLEAN} (it keeps the first)")


def _number_hint(given: Pair) -> str:
    if given.kind == "list":
        return "a list is not an `id`"
    if given.kind == "string":
        return "an `id` is a whole number without quotes; text belongs in `label`"
    if re.fullmatch(rb"[+-]?[0-9]+", given.text):
        return "whole numbers are from -9223372036854775808 to 9223372036854775807"
    if re.fullmatch(rb"[+-]?[0-9]+\.0*", given.text):
        return f"a number with a point is not a whole number: write {given.text.split(b'.')[0].decode('ascii')}"
    return "write a whole number"


def _edge_fault(graph: Pair, rule: str, number: int) -> Finding:
    edge = graph.lists(b"edge")[number]
    which = f"edge {number} (counted from 0, in the order of the file; its own `id` does not count)"
    ends = {key: edge.first(key) for key in (b"source", b"target")}
    if rule == "loop":
        return Finding(edge.at, f"{which} is a loop: both ends are {ends[b'source'].text.decode('ascii')}", f"leave it out, which changes no embedding of the rest; {CLEAN}")
    if rule == "edge-no-end":
        missing = next(key for key, pair in ends.items() if pair is None).decode("ascii")
        other = next((pair for pair in edge.pairs if pair.key.lower() in (missing.encode(), {"source": b"from", "target": b"to"}[missing])), None)
        hint = f"`{_name(other)}` is not `{missing}`" if other else "an edge needs `source` and `target`, each the id of a node"
        return Finding(edge.at, f"{which} has no `{missing}`", f"{hint}; {CLEAN}")
    if rule == "edge-bad-end":
        wrong = next(pair for pair in ends.values() if whole_number(pair) is None)
        return Finding(wrong.value_at, f"the `{_name(wrong)}` of {which} is not a whole number", f"{_number_hint(wrong)}; {CLEAN}")
    known = {whole_number(node.first(b"id")) for node in graph.lists(b"node")}
    wrong = next(pair for pair in ends.values() if whole_number(pair) not in known)
    return Finding(wrong.value_at, f"the `{_name(wrong)}` of {which} is the id of no node", f"add a node with `id {wrong.text.decode('ascii')}`, or leave the edge out; {CLEAN} (it adds the node)")

