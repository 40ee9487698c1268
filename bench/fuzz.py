#!/usr/bin/env python3
"""fuzz.py PROGRAM N SEED: runs the program on N pairs of a graph file and a script that are made from those of examples/ by
changes, and compares each status and each refusal line with what a plain slow reader of the grammar has.

Each run has 1 GiB of memory and 10 seconds of a processor (two minutes by the clock). What is required, by the reader below: the line of a refusal with its status, or a report;
of a report the lines of the vertices are compared, how many answers there are and of which kind, and what `gml` writes: the
document with some start in the plane. A third of the small graphs have texts of starts at their nodes, good ones and bad ones.
Nothing may be on standard error, and every eleventh run is made twice. Prints a summary and ends with 1 where something differs;
the files of the first difference are then in bench/data."""
import collections
import functools
import glob
import multiprocessing
import os
import random
import re
import resource
import subprocess
import sys
import tempfile
import time

import head_of
from embeddings import Block, Composed, faces, from_least, is_plane, numbered
from report_of import written

HERE = os.path.dirname(os.path.abspath(__file__))
GRAPH_LIMIT, SCRIPT_LIMIT = 16777216, 1048576
MEMORY, SECONDS, PATIENCE, WORKERS = 2 ** 30, 10, 120, 2


# The grammar of graph files, on whole texts. A run is what a document begins with up to the end of some item.

GAP = rb"[\t-\r ]*(?:#[^\r\n]*(?![^\r\n])[\t-\r ]*)*"
ENDS = rb"(?![^\t-\r \[\]\"#])"
KEY = rb"[A-Za-z][A-Za-z0-9_]*" + ENDS
NUMBER = rb"[+-]?(?:(?:[0-9]+\.?[0-9]*|\.[0-9]+)(?:[eE][+-]?[0-9]+)?|(?i:inf|nan))" + ENDS
ITEM = re.compile(GAP + rb"(?:(?P<close>\])|(?P<key>" + KEY + rb")" + GAP
                  + rb"(?:(?P<open>\[)|(?P<text>\"[^\"]*\"|" + NUMBER + rb")))")
LAST_GAP = re.compile(GAP)

# One of these behind a front gives a run: it ends a number, begins and ends a value, ends a string, or ends a special.
ENDINGS = b"", b"0", b"\n0", b'"', b"nf", b"f", b"an", b"n"


def items_of(text):
    """The pairs, how many lists are open behind them, and where the last item that the grammar allows ends. A list is a Python list."""
    pairs, outer, at = [], [], 0
    while match := ITEM.match(text, at):
        if match["close"] and outer:
            pairs = outer.pop()
        elif match["open"] and len(outer) < 32:
            pairs.append((match["key"], []))
            outer.append(pairs)
            pairs = pairs[-1][1]
        elif match["text"]:
            pairs.append((match["key"], match["text"]))
        else:
            break
        at = match.end()
    return outer[0] if outer else pairs, len(outer), at


def run_of(text):
    """The pairs and how many lists are open behind them, where the text is a run; else None."""
    pairs, open_lists, at = items_of(text)
    return (pairs, open_lists) if LAST_GAP.fullmatch(text, at) else None


def is_front(text):
    return any(run_of(text + ending) for ending in ENDINGS)


def longest_front(text):
    """A run is a front, and what a front begins with is one; so halving finds it."""
    front, other = items_of(text)[2], len(text) + 1
    while other - front > 1:
        middle = (front + other) // 2
        front, other = (middle, other) if is_front(text[:middle]) else (front, middle)
    return front


# The graph of a document.

def whole(word):
    """The number of an integer token within the range; else None."""
    if isinstance(word, bytes) and re.fullmatch(rb"[+-]?[0-9]+", word) and -2 ** 63 <= int(word) < 2 ** 63:
        return int(word)
    return None


def first(pairs, key):
    return next((value for name, value in pairs if name == key), None)


START = b"spqrRotation"
MOST = 60


def graph_list(pairs):
    return next(value for key, value in pairs if key == b"graph" and isinstance(value, list))


def nodes_of(pairs):
    return [value for key, value in graph_list(pairs) if key == b"node" and isinstance(value, list)]


def lists_at(pairs, ends):
    """The numbers at each vertex by the texts of the nodes; None where the file has no start; or the words of the refusal."""
    texts = [first(node, START) for node in nodes_of(pairs)]
    if not texts or not all(isinstance(text, bytes) and text.startswith(b'"') for text in texts):
        return None
    at, lists = [[] for _ in texts], []
    for e, pair in enumerate(ends):
        for v in pair:
            at[v].append(e)
    for v, text in enumerate(texts):
        if not re.fullmatch(rb"[\t-\r ]*(?:[0-9]+(?:[\t-\r ]+[0-9]+)*[\t-\r ]*)?", text[1:-1]):
            return f"start-vertex {v}"
        numbers = [int(number) for number in re.findall(rb"[0-9]+", text)]
        if sorted(numbers) != at[v]:
            return f"start-vertex {v}"
        lists.append(numbers)
    return lists


def rotation_in(block, lists):
    return {v: from_least([e for e in lists[v] if e in block.edges]) for v in block.vertices}


def blocks_of(ends):
    return [Block(part) for part in (head_of.blocks(numbered(ends)) if ends else [])]


def start_of(pairs, ends):
    """The words of the refusal of the texts at the nodes; None where they are accepted or not read."""
    lists = lists_at(pairs, ends)
    if lists is None or isinstance(lists, str):
        return lists
    for number, block in enumerate(blocks_of(ends)):
        rotation = rotation_in(block, lists)
        if not is_plane(block, rotation) and Composed(block).planar:
            return f"start-genus {number} {len(block.vertices)} {len(block.edges)} {len(faces(block.edges, rotation))}"
    return None


def with_texts(pairs, texts):
    """The document with these values in its nodes: in place of the first value under the key of starts, else at the end."""
    graph, left, found = graph_list(pairs), iter(texts), []
    for key, value in graph:
        if key == b"node" and isinstance(value, list):
            place = next((i for i, (name, _) in enumerate(value) if name == START), len(value))
            value = value[:place] + [(START, next(left))] + value[place + 1:]
        found.append((key, value))
    return [(key, found if value is graph else value) for key, value in pairs]


def wrong_start(pairs, text, ends):
    """None where the text is this document with a start as it is written; else what is wrong."""
    run = run_of(text)
    if run is None or run[1]:
        return "no document is written back"
    texts = [first(node, START) for node in nodes_of(run[0])]
    if len(texts) != len(nodes_of(pairs)) or run[0] != with_texts(pairs, texts):
        return "another document is written back"
    lists = lists_at(run[0], ends) if texts else []
    if not isinstance(lists, list):
        return f"the document that is written has {lists or 'no start'}"
    if texts != [b'"%s"' % b" ".join(b"%d" % number for number in numbers) for numbers in lists]:
        return "numbers are written in another way"
    return wrong_orders(lists, ends) if len(ends) <= MOST else None


def wrong_orders(lists, ends):
    """None where the lists are block by block, those of a planar block in the plane and from the least edge on, others increasing."""
    wanted = [[] for _ in lists]
    for number, block in enumerate(blocks_of(ends)):
        rotation = rotation_in(block, lists)
        if not is_plane(block, rotation):
            if Composed(block).planar:
                return f"the start that is written for block {number} is not in the plane"
            rotation = block.at
        for v in block.vertices:
            wanted[v] += rotation[v]
    return None if wanted == lists else "numbers are written in another order"


def graph_of(pairs):
    """The ids and the ends of the edges, or the words of the refusal."""
    graphs = [value for key, value in pairs if key == b"graph" and isinstance(value, list)]
    if len(graphs) != 1:
        return "more" if graphs else "none"
    nodes, edges = ([value for name, value in graphs[0] if name == key and isinstance(value, list)] for key in (b"node", b"edge"))
    if len(nodes) > 20000:
        return f"vertices {len(nodes)}"
    if len(edges) > 50000:
        return f"edges {len(edges)}"
    ids = {}
    for k, node in enumerate(nodes):
        if first(node, b"id") is None:
            return f"node-no-id {k}"
        if whole(first(node, b"id")) is None:
            return f"node-bad-id {k}"
        if whole(first(node, b"id")) in ids:
            return f"same-id {k}"
        ids[whole(first(node, b"id"))] = k
    ends = []
    for k, edge in enumerate(edges):
        values = [first(edge, b"source"), first(edge, b"target")]
        numbers = [whole(value) for value in values]
        if None in values:
            return f"edge-no-end {k}"
        if None in numbers:
            return f"edge-bad-end {k}"
        if not all(number in ids for number in numbers):
            return f"unknown-end {k}"
        if numbers[0] == numbers[1]:
            return f"loop {k}"
        ends.append(tuple(ids[number] for number in numbers))
    return list(ids), ends


# The script. In the forms N is a number below 2^32, T one from 1 to 10,000, R one below 2^128, _ blanks.

FORMS = ["euler", "euler_ROT", "take_N", "take_N_ROT", "convert_N_to", "convert_N_to_ROT", "convert_N_rank_R", "goto_N_R", "list_N_T", "undo",
         "redo", "gml", "listwhole_N_T", "convertwhole_N", "convertwhole_N_ROT"] + [
             word + "_N" for word in ("show", "faces", "mirror", "first", "next", "count", "rank", "longest", "draw", "whole", "nextwhole")] + [
                 word + "_N_N" for word in ("flip", "lock", "unlock")] + [r"permute_N_N(?:_N)+", r"regroup_N(?:_N)+"]
ENTRY = r"\d+~:~(?:\d+(?:_\d+)*)?"


def pattern_of(form):
    rotation = rf"(?P<rotation>{ENTRY}(?:~;~{ENTRY})*)"
    text = form.replace("ROT", "%").replace("N", r"\d+").replace("R", r"(?P<rank>\d+)").replace("T", r"(?P<total>\d+)").replace("%", rotation)
    return re.compile(("~" + text + "~").replace("~", r"[ \t]*").replace("_", r"[ \t]+").replace(r"\d", "[0-9]").encode())


PATTERNS = [(form.split("_")[0], pattern_of(form)) for form in FORMS]


def word_of(line):
    """The word of the command on a line; else None."""
    for word, pattern in PATTERNS:
        if match := pattern.fullmatch(line):
            *others, last = [int(number) for number in re.findall(rb"[0-9]+", line)] or [0]
            vertices = [int(v) for v in re.findall(rb"([0-9]+)[ \t]*:", line)]
            parts = match.groupdict()
            lasts = range(2 ** 128) if "rank" in parts else range(1, 10001) if "total" in parts else range(2 ** 32)
            good = last in lasts and all(number < 2 ** 32 for number in others) and all(v < w for v, w in zip(vertices, vertices[1:]))
            return word if good else None
    return None


def words_of(text):
    """The words of the commands, or the number of the first line that is none."""
    lines = text.split(b"\n")
    words = []
    for place, line in enumerate(lines if lines[-1] else lines[:-1], 1):
        line = line[:-1] if line.endswith(b"\r") else line
        if not re.fullmatch(rb"[ \t]*(?:#.*)?", line, re.DOTALL):
            words.append(word_of(line))
            if words[-1] is None:
                return place
    return words


# What is due.

def due(graph, script):
    """The status and the line of the refusal; or 0, the document, the ids, the ends of the edges and the words."""
    if len(graph) > GRAPH_LIMIT:
        return 3, "long graph"
    run = run_of(graph)
    if run is None or run[1]:
        at = longest_front(graph)
        return 4, f"gml {'end' if at == len(graph) else 'bad'} {at}"
    found = graph_of(run[0])
    if isinstance(found, str):
        return 5, f"graph {found}"
    if start := start_of(run[0], found[1]):
        return 5, f"graph {start}"
    if len(script) > SCRIPT_LIMIT:
        return 3, "long script"
    words = words_of(script)
    if isinstance(words, int):
        return 6, f"script line {words}"
    return 0, run[0], *found, words


ANSWERS = {"euler": "euler", "show": "rotation", "faces": "faces", "list": "list", "count": "count", "rank": "rank", "convert": "moves", "longest": "longest", "draw": "draw", "gml": "gml",
           "whole": "whole", "listwhole": "listwhole", "convertwhole": "moves"}
HEAD = "cut ", "block ", "node ", "planar ", "nonplanar ", "path "


def wrong_report(out, pairs, ids, ends, words):
    """None where the report may be one of these; else what is wrong."""
    place = 0

    def line():
        nonlocal place
        end = out.find(b"\n", place)
        found, place = out[place:end].decode("ascii"), end + 1
        return found if end >= 0 else "no line"

    for wanted in [f"graph {len(ids)} {len(ends)}"] + [f"vertex {v} {number}" for v, number in enumerate(ids)]:
        if line() != wanted:
            return f"no line {wanted}"
    while out[place:place + 10].decode("ascii").startswith(HEAD):
        line()
    for number, word in enumerate(words):
        answer = line().split()
        if answer[0] not in (ANSWERS.get(word, "ok"), "error") and not (word in ("next", "nextwhole") and answer[0] == "end"):
            return f"command {number}, {word}, is answered by {answer[0]}"
        if answer[0] == "gml":
            text, place = out[place:place + int(answer[1])], place + int(answer[1])
            if wrong := wrong_start(pairs, text, ends):
                return wrong
        elif answer[0] in ("faces", "list", "listwhole", "moves", "longest", "draw"):
            answer = line().split() if word == "longest" else answer
            kinds = {"faces": ("face",), "list": ("rotation",), "listwhole": ("whole",), "draw": ("point",),
                     "moves": ("flip", "permute", "regroup") if word == "convertwhole" else ("flip", "permute")}[answer[0]]
            if not all(line().split()[0] in kinds for _ in range(int(answer[-1]))):
                return f"command {number}, {word}, has too few lines"
            if word in ("list", "listwhole") and line() not in ("more", "end"):
                return f"command {number}, {word}, does not end"
    return None if place == len(out) else "more is printed"


# The changes.

EXAMPLES = [(open(name, "rb").read(), open(name[:-3] + "spqr", "rb").read()) for name in sorted(glob.glob(os.path.join(HERE, "../examples/*.gml")))]
LONG = 4096
SCRIPT_LINES = sorted({line for _, script in EXAMPLES for line in script.splitlines()})
BYTES = b'\0\t\n\v\f\r "#[]+-._:;eE09aZ\x7f\x80\xc3\xfe\xff'
NUMBERS = [str(n).encode() for p in (0, 5, 31, 32, 63, 64, 127, 128) for n in (2 ** p - 1, 2 ** p, 2 ** p + 1)] + [
    b"10000", b"10001", b"0000", b"007", b"20000", b"1" * 500, b"0" * 5000 + b"1", b"9" * 5000]
TOKENS = {
    "graph": [b"[", b"]", b'""', b'"', b"#", b"# x\r", b"graph", b"node", b"edge", b"id", b"source", b"target", b"directed", b"graph [ ]", b"graph 3",
              b"node [ ]", b"node 5", b"edge [ ]", b"edge [ source 0 ]", b"inf", b"-NaN", b"+InF", b"in", b"1.5e", b"1.5e3", b".5", b"5.", b".", b"1e+",
              b"+", b"-0", b"+007", b"0.0", b"a", b"a_1", b"a-1", b"\xef\xbb\xbf", b"a " * 400 + b"1"],
    "script": [b":", b";", b"0:", b"0: 0", b"; 9:", b"rank", b"to", b"#", b"\r", b"euler", b"take", b"convert", b"permute", b"list", b"shwo", b"Show",
               b"whole 0", b"regroup", b"nextwhole 0", b"listwhole", b"convertwhole",
               b"show 0 0", b" ", b"\t"] + SCRIPT_LINES,
}
TOKEN = re.compile(rb'"[^"]*"|[\[\]:;]|#[^\r\n]*|[ \t]+|[\r\n]+|[^ \t\r\n\[\]"#:;]+')


def some_number(draw):
    number = draw.choice(NUMBERS + [str(draw.randrange(9)).encode()] * len(NUMBERS))
    return draw.choice([b"", b"", b"-", b"+"]) + number


def nested(draw):
    depth = draw.choice([1, 2, 30, 31, 32, 33, 34, 3000])
    return b"a[" * depth + draw.choice([b"", b"b 1"]) + b"]" * draw.choice([depth, depth, depth - 1, depth + 1])


def change_bytes(draw, text, kind):
    a = draw.randrange(len(text) + 1)
    b = min(len(text), a + draw.choice([1, 1, 2, 8, 40]))
    some = bytes([draw.choice(BYTES)]) if draw.random() < 0.8 else bytes([draw.randrange(256)])
    return draw.choice([text[:a] + some + text[a + 1:], text[:a] + some + text[a:], text[:a] + text[b:], text[:b] + text[a:], text[:a] + some * (b - a) + text[b:]])


def change_tokens(draw, text, kind):
    tokens = TOKEN.findall(text) or [b""]
    a, b = draw.randrange(len(tokens)), draw.randrange(len(tokens))
    some = draw.choice([some_number, lambda d: d.choice(TOKENS[kind])])(draw)
    way = draw.randrange(6)
    if way == 0:
        tokens[a], tokens[b] = tokens[b], tokens[a]
    elif way == 1:
        tokens[a] = some
    elif way == 2:
        tokens[a] += b" " + some + b" "
    elif way == 3:
        tokens[a] = b""
    elif way == 4:
        tokens[a] += draw.choice([b"", b" "]) + tokens[a]
    else:
        tokens[a] = tokens[b]
    return b"".join(tokens)


def change_numbers(draw, text, kind):
    """One number becomes another, often one that is already there."""
    places = list(re.finditer(rb"-?[0-9]+", text))
    if not places:
        return text + some_number(draw)
    place, other = draw.choice(places), draw.choice(places)
    return text[:place.start()] + draw.choice([other[0], other[0], some_number(draw)]) + text[place.end():]


def change_lines(draw, text, kind):
    lines = text.split(b"\n")
    a, b = draw.randrange(len(lines)), draw.randrange(len(lines))
    if kind == "script" and draw.random() < 0.6:
        lines.insert(a, draw.choice(SCRIPT_LINES))
    else:
        lines[a], lines[b] = draw.choice([(lines[b], lines[a]), (lines[a] + b"\n" + lines[a], lines[b]), (b"", lines[b])])
    return b"\n".join(lines)


def change_whole(draw, text, kind):
    a = draw.randrange(len(text) + 1)
    other = draw.choice(EXAMPLES)[kind == "script"]
    return draw.choice([text[:a], text[a:], text.replace(b"\n", b"\r\n"), text.replace(b"\n", b"\r"), text.replace(b"\n", b" "), text + other,
                        text[:a] + other[a:], b"\xef\xbb\xbf" + text, text[:a] + nested(draw) + text[a:], text.replace(b" ", b"\t\v"), text.upper()])


CHANGES = [change_bytes, change_tokens, change_tokens, change_numbers, change_lines, change_whole]


def changed(draw, text, kind):
    for _ in range(draw.choice([1, 1, 1, 2, 2, 3, 5])):
        text = draw.choice(CHANGES)(draw, text, kind)
    return text


@functools.lru_cache(maxsize=None)
def known(graph):
    """The document, the ends of its edges and its blocks with their lists, where it is small and accepted; else None."""
    run = run_of(graph)
    found = graph_of(run[0]) if run and not run[1] else "none"
    if isinstance(found, str) or len(found[1]) > MOST:
        return None
    return run[0], found[1], [(block, Composed(block)) for block in blocks_of(found[1])]


def started(draw, graph):
    """The graph with texts at its nodes: most often a start in the plane, or one wrong in one place."""
    found = known(graph)
    if found is None:
        return graph
    pairs, ends, blocks = found
    lists = [[] for _ in nodes_of(pairs)]
    tangled = draw.random() < 0.2
    for block, way in blocks:
        free = tangled or not way.planar
        rotation = block.at if free else way.compose(way.choices_at(draw.randrange(way.count()), [()] * len(block.nodes)))
        for v in block.vertices:
            numbers = draw.sample(rotation[v], len(rotation[v])) if free else list(rotation[v])
            place = draw.randrange(len(numbers))
            lists[v] += numbers[place:] + numbers[:place]
    texts = [b'"%s"' % b" ".join(b"%d" % number for number in numbers) for numbers in lists]
    if texts and draw.random() < 0.3:
        texts[draw.randrange(len(texts))] = draw.choice([b"0", b'""', b'"0"', b'"-1"', b'"4294967296"', b'"0  1"', [(START, b'"0"')], draw.choice(texts)])
    return written(with_texts(pairs, texts))


def large(draw, graph, script):
    """Files at the limits of bytes, of vertices and of edges, and one more."""
    more = draw.randrange(2)
    pad = draw.choice([b" ", b"\n", b"#"])
    way = draw.randrange(4)
    if way == 0:
        return graph + b"\n" + pad * (GRAPH_LIMIT + more - len(graph) - 1), script
    if way == 1:
        return graph, script + b"\n" + pad * (SCRIPT_LIMIT + more - len(script) - 1)
    if way == 2:
        return b"graph [" + b"".join(b"node [ id %d ]" % v for v in range(20000 + more)) + b"]", script
    return b"graph [ node [ id 0 ] node [ id 1 ]" + b"edge [ source 0 target 1 ]" * 50001 + b"]", script


def pair(draw):
    graph, script = draw.choice([files for files in EXAMPLES if len(files[0]) < LONG or draw.random() < 0.1])
    if draw.random() < 0.3:
        script = draw.choice(EXAMPLES)[1]
    if draw.random() < 0.001:
        return large(draw, graph, script)
    if draw.random() < 0.35:
        graph = started(draw, graph)
    way = draw.choices(["graph", "script", "both", "neither"], [40, 35, 20, 5])[0]
    if way in ("graph", "both"):
        graph = changed(draw, graph, "graph")
    if way in ("script", "both"):
        script = changed(draw, script, "script")
    return graph, script


# The runs.

def seconds_of_runs():
    used = resource.getrusage(resource.RUSAGE_CHILDREN)
    return used.ru_utime + used.ru_stime


def called(graph, script):
    """The status, what is printed, and what stands on standard error; the status of a run that takes too long is none."""
    start, words = seconds_of_runs(), [PROGRAM, "run", graph, script]
    try:
        done = subprocess.run(words, stdin=subprocess.DEVNULL, stdout=subprocess.PIPE, stderr=subprocess.PIPE, timeout=PATIENCE)
    except subprocess.TimeoutExpired:
        return None, b"", b""
    return done.returncode if seconds_of_runs() - start < SECONDS else None, done.stdout, done.stderr


def judged(got, wanted):
    """None where what a run gave is what is due; else what is wrong."""
    status, out, err = got
    if status is None:
        return "it runs too long"
    if not 0 <= status <= 8:
        return f"status {status}, which is none"
    if err:
        return f"on standard error stands {err[:80]!r}"
    if status != wanted[0]:
        return f"status {status}, wanted {wanted[0]} {wanted[1] if wanted[0] else ''}; it printed {out[:80]!r}"
    if status:
        return None if out == f"refused {wanted[1]}\n".encode() else f"it printed {out[:80]!r}, wanted refused {wanted[1]}"
    return wrong_report(out, *wanted[1:])


def case(number):
    """What is due in the run of this number, how many answers there were, and what is wrong."""
    draw = random.Random(f"{SEED} {number}")
    texts = pair(draw)
    names = [os.path.join(FOLDER, f"{os.getpid()}.{kind}") for kind in ("gml", "spqr")]
    for name, text in zip(names, texts):
        with open(name, "wb") as file:
            file.write(text)
    wanted, got = due(*texts), called(*names)
    wrong = judged(got, wanted)
    again = called(*names) if number % 11 == 0 else got
    if again != got:
        wrong = f"of two runs one gives {got[0], got[1][:80], got[2][:80]} and one {again[0], again[1][:80], again[2][:80]}"
    kind = re.sub(r"( \d+)+$", "", wanted[1]) if wanted[0] else "report"
    return number, wanted[0], kind, len(wanted[-1]) if wanted[0] == 0 else 0, wrong


def prepare():
    os.nice(5)
    resource.setrlimit(resource.RLIMIT_AS, (MEMORY, MEMORY))
    sys.set_int_max_str_digits(0)


def keep(number, wrong):
    draw = random.Random(f"{SEED} {number}")
    os.makedirs(f"{HERE}/data", exist_ok=True)
    for text, kind in zip(pair(draw), ("gml", "spqr")):
        with open(f"{HERE}/data/fuzz_{SEED}_{number}.{kind}", "wb") as file:
            file.write(text)
    print(f"run {number}: {wrong}; its files are bench/data/fuzz_{SEED}_{number}.gml and .spqr", flush=True)


def main():
    start = time.perf_counter()
    statuses, kinds, answers, differences = collections.Counter(), collections.Counter(), 0, 0
    with multiprocessing.Pool(WORKERS, prepare) as pool:
        for number, status, kind, found, wrong in pool.imap_unordered(case, range(TOTAL), 25):
            statuses[status] += 1
            kinds[kind] += 1
            answers += found
            if wrong:
                differences += 1
                if differences == 1:
                    keep(number, wrong)
            if sum(statuses.values()) % 10000 == 0:
                print(f"{sum(statuses.values())} runs, {differences} differences, {time.perf_counter() - start:.0f} s", file=sys.stderr, flush=True)
    print("; ".join(f"{kind} {count}" for kind, count in sorted(kinds.items())))
    print(f"{TOTAL} runs from seed {SEED}: " + ", ".join(f"{count} with status {status}" for status, count in sorted(statuses.items()))
          + f"; {answers} answers; {len(range(0, TOTAL, 11))} runs made twice; {differences} differences; {time.perf_counter() - start:.0f} s")
    sys.exit(differences > 0)


if __name__ == "__main__":
    if len(sys.argv) != 4:
        sys.exit(__doc__)
    PROGRAM, TOTAL, SEED = os.path.abspath(sys.argv[1]), int(sys.argv[2]), int(sys.argv[3])
    with tempfile.TemporaryDirectory(dir="/dev/shm" if os.path.isdir("/dev/shm") else None) as FOLDER:
        main()
