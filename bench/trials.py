#!/usr/bin/env python3
"""trials.py: random graphs and scripts of embedding commands, for the slow report and for the program.

  trials.py N SEED               makes N, and compares the report by trying all rotation systems with the one by composing
  trials.py N SEED PROGRAM..     runs the program's words with `run GRAPH SCRIPT` on each too, and compares what it prints
  trials.py --commands show,gml N SEED ..   the same, with scripts of these commands alone

A graph has one to three blocks, some sharing a vertex, and lone vertices; or components of up to five blocks, so small that all their
rotation systems are tried, some with a block that is not planar. Two of three files have a text at each node or at most nodes: a start
in the plane, one that is not, one that is no list of the edges, or none. A script has all commands on embeddings and on components, most
with numbers and lists that fit, and now and then a line that is no command; what `gml` writes after it is read back as the same
session. How often each line was printed is the last line of the output. Files go to bench/data; the first that differs stays there."""
import os
import random
import subprocess
import sys

import report_of
from components import options
from embeddings import is_block, numbered, rotation_total, text_of
from whole_lists import random_graph

# Each as often as it is to be drawn.
NAMES = ("show faces flip flip permute permute mirror first next next list count rank goto convert convert_to take lock lock unlock undo undo redo longest longest draw draw euler gml gml "
         "whole whole whole whole regroup regroup regroup regroup nextwhole nextwhole nextwhole listwhole convertwhole convertwhole convertwhole").split()
ON_VERTICES = "whole", "regroup", "nextwhole", "listwhole", "convertwhole"
# Commands on a block that is not there, where more than the block is named.
NO_BLOCK = {"flip": "flip {} 0", "lock": "lock {} 0", "unlock": "unlock {} 0", "permute": "permute {} 0 0", "list": "list {} 1",
            "goto": "goto {} 0", "convert": "convert {} rank 0", "convert_to": "convert {} to 0: 0", "take": "take {} 0: 0"}
NO_COMMAND = ["whole", "whole 0 0", "whole 4294967296", "whole -1", "Whole 0", "regroup", "regroup 0", "regroup 0 0,1", "regroup 0: 0 1", "regroup 0 4294967296",
              "nextwhole", "nextwhole 0 1", "listwhole 0", "listwhole 0 0", "listwhole 0 10001", "listwhole 0 1 1", "convertwhole", "convertwhole 0 to 0: 0",
              "convertwhole 0 0 1", "convertwhole 0 1: 0; 0: 0", "convertwhole 0 0: 0;", "convertwhole 0: 0", "list 0 0", "regroupwhole 0", "next whole 0"]
DATA = os.path.join(os.path.dirname(os.path.abspath(__file__)), "data")
HARD = ["01 02 03 04 12 13 14 23 24 34", "03 04 05 13 14 15 23 24 25", "03 04 05 13 14 15 23 24 26 65",
        "01 02 03 12 13 23 04 05 14 15 45", "02 03 12 13 23 04 05 14 15 45", "01 02 03 12 13 23", "02 12 03 13 04 14 01", "01 01 01 01"]


def block(chance):
    if chance.random() < 0.3:
        return [(int(pair[0]), int(pair[1])) for pair in chance.choice(HARD).split()]
    while True:
        n = chance.randint(2, 6)
        pairs = [tuple(chance.sample(range(n), 2)) for _ in range(chance.randint(max(n, 2) - 1, 10))]
        if {x for pair in pairs for x in pair} == set(range(n)) and is_block(numbered(pairs)):
            degrees = {v: [e for e, pair in enumerate(pairs) if v in pair] for v in range(n)}
            if rotation_total(degrees) <= 3000:
                return pairs


def small_components(chance):
    """Components that are tried as a whole; some have K5 or K3,3 on a vertex."""
    n, edges = random_graph(chance)
    if n < 60 and chance.random() < 0.15:
        pairs = [(int(pair[0]), int(pair[1])) for pair in chance.choice(HARD[:2]).split()]
        places = list(range(n, n + 1 + max(max(pair) for pair in pairs)))
        if chance.random() < 0.7:
            places[chance.randrange(len(places))] = chance.randrange(n)
        edges = edges + [(places[a], places[b]) for a, b in pairs]
        left = sorted({x for pair in edges for x in pair} | set(range(n)))
        edges, n = [(left.index(a), left.index(b)) for a, b in edges], len(left)
    return edges, n


def few_blocks(chance):
    edges, n = [], 0
    for _ in range(chance.randint(1, 3)):
        pairs = block(chance)
        size = 1 + max(max(pair) for pair in pairs)
        places = list(range(n, n + size))
        if n and chance.random() < 0.6:
            places[chance.randrange(size)] = chance.randrange(n)
        edges += [(places[a], places[b]) for a, b in pairs]
        n += size
    return edges, n + chance.randint(0, 1)


def graph(chance):
    edges, n = few_blocks(chance) if chance.random() < 0.4 else small_components(chance)
    chance.shuffle(edges)
    ids = chance.sample(range(-50, 50), n)
    text = "graph [\n" + "".join(f"  node [ id {i} ]\n" for i in ids)
    return text + "".join(f"  edge [ source {ids[a]} target {ids[b]} ]\n" for a, b in edges) + "]\n"


# Starts: texts put into the nodes of a document.

WRONG = [b"-1", b"+0", b"4294967295", b"4294967296", b"1.0", b"0x1", b"\0", b"00000000000000000000000000000000000007"]
BLANKS = [b" "] * 20 + [b"\t", b"\n", b"\v", b"\f", b"\r", b"  "]


def merged(chance, lists):
    """The lists in one, each in its order, mixed."""
    left, out = [list(reversed(numbers)) for numbers in lists], []
    while any(left):
        out.append(chance.choice([numbers for numbers in left if numbers]).pop())
    return out


def orders(chance, session, plane):
    """The numbers at each vertex: in planar blocks of some member where `plane` says so, else in any order."""
    kept = []
    for block, lists in zip(session.blocks, session.lists):
        if lists.planar and plane:
            kept.append(lists.member(chance.randrange(lists.count(None, ())), session.family[len(kept)][0], frozenset()))
        else:
            kept.append({v: chance.sample(at, len(at)) for v, at in block.at.items()})
    for v in range(len(session.ids)):
        turned = [list(rotation[v]) for rotation in kept if v in rotation]
        for place, numbers in enumerate(turned):
            first = chance.randrange(len(numbers))
            turned[place] = numbers[first:] + numbers[:first]
        yield merged(chance, turned)


def text_of_numbers(chance, numbers):
    text = chance.choice([b"", b"", b"", b" ", b"\n\t"])
    for number in numbers:
        text += b"0" * chance.choice([0] * 20 + [1, 9]) + b"%d" % number + chance.choice(BLANKS)
    return b'"%s"' % (text if chance.random() < 0.2 else text.strip())


def damaged(chance, text, edges):
    words = text[1:-1].split()
    way, place = chance.randrange(4), chance.randrange(len(words) + 1)
    if way == 0 and words:
        words[place % len(words)] = chance.choice(words)
    elif way == 1 and words:
        del words[place % len(words)]
    elif way == 2:
        words.insert(place, b"%d" % chance.randrange(edges + 1))
    else:
        words.insert(place, chance.choice(WRONG))
    return b'"%s"' % b" ".join(words)


def with_start(chance, pairs):
    """The document with texts in its nodes, most of them before what was there."""
    session = report_of.Session(*report_of.graph_of(pairs), pairs, True)
    way = chance.choice(["plane", "plane", "plane", "any", "damaged", "damaged", "missing"])
    texts = [text_of_numbers(chance, numbers) for numbers in orders(chance, session, way != "any")]
    for v in chance.sample(range(len(texts)), min(len(texts), chance.randint(1, 2))) if way == "damaged" else []:
        texts[v] = damaged(chance, texts[v], len(session.ends))
    gone = chance.randrange(len(texts)) if way == "missing" else None
    found, v = [], 0
    for key, value in report_of.lists_under(pairs, b"graph")[0]:
        if key == b"node":
            first = (report_of.START, texts[v])
            later = [(report_of.START, chance.choice([b"1", b'"x"', [(b"a", b"1")], texts[v]]))]
            if v == gone:
                first, later = chance.choice([(None, []), ((report_of.START, b"0"), [first]), ((report_of.START, [first]), [first])])
            some = ([first] if first else []) + (later if first is None or v == gone or chance.random() < 0.2 else [])
            value = some + value if chance.random() < 0.5 else value + some
            v += 1
        found.append((key, value))
    return [(b"graph", found)] + ([(report_of.START, b'"0"')] if chance.random() < 0.1 else [])


def given(chance, session, b):
    """A rotation system for `take`: a member, a random one, or a wrong one."""
    blk, lists = session.blocks[b], session.lists[b]
    if lists.planar and chance.random() < 0.6:
        now, locked = session.family[b]
        held = chance.choice([locked, frozenset()])
        return text_of(lists.member(chance.randrange(lists.count(now, held)), now, held))
    order = {v: chance.sample(at, len(at)) for v, at in blk.at.items()}
    if chance.random() < 0.2:
        order[chance.choice(list(order))] = [chance.randrange(12)]
    if chance.random() < 0.1:
        del order[chance.choice(list(order))]
    return "; ".join(f"{v}: {' '.join(map(str, at))}".rstrip() for v, at in sorted(order.items()))


def turned(chance, order):
    place = chance.randrange(max(len(order), 1))
    return list(order[place:]) + list(order[:place])


def arrangement(chance, orders):
    """Any arrangement of the edges of these blocks."""
    found = []
    while len(found) < sum(map(len, orders.values())):
        found.append(chance.choice(options(found, orders)))
    return found


def numbers_at(chance, session, v):
    """A list for `regroup`: an arrangement, edges mixed or blocks mixed, or wrong numbers."""
    whole = session.component_of.get(v)
    here = session.at.get(v, [])
    if whole and whole.planar and v in whole.cuts and chance.random() < 0.6:
        edges = arrangement(chance, whole.orders(v, session.state_of(whole)[0]))
    elif whole and whole.planar and chance.random() < 0.7:
        orders = whole.orders(v, session.state_of(whole)[0])
        if chance.random() < 0.5:
            edges = merged(chance, [turned(chance, order) for order in orders.values()])
        else:
            edges = arrangement(chance, {b: tuple(reversed(order)) if chance.random() < 0.5 else order for b, order in orders.items()})
    else:
        edges = chance.sample(here, len(here))
    if edges and chance.random() < 0.1:
        edges[chance.randrange(len(edges))] = chance.randrange(len(session.ends) + 1)
    if chance.random() < 0.05:
        edges = chance.choice([edges[:-1], edges + edges[:1], edges + [0]])
    return turned(chance, edges) or [chance.choice([0, 7])]


def system(chance, session, whole):
    """A rotation system for `convertwhole`: a member, a random one, or a wrong one."""
    entries = {v: chance.sample(at, len(at)) for v, at in whole.at.items()}
    if whole.planar and chance.random() < 0.7:
        parts, _, locks = session.state_of(whole)
        for b in whole.blocks if chance.random() < 0.8 else []:
            held = chance.choice([locks[b], frozenset()])
            parts[b] = whole.lists[b].member(chance.randrange(whole.lists[b].count(parts[b], held)), parts[b], held)
        entries = whole.system(parts, {v: arrangement(chance, whole.orders(v, parts)) for v in whole.cuts})
    if chance.random() < 0.1:
        entries[chance.choice([chance.choice(whole.vertices), len(session.ids)])] = [chance.randrange(12)]
    if chance.random() < 0.05 or len(whole.vertices) == 1 and chance.random() < 0.5:
        del entries[chance.choice(list(entries))]
    return "; ".join(f"{v}: {' '.join(map(str, turned(chance, at)))}".rstrip() for v, at in sorted(entries.items()))


def on_vertices(chance, session, name):
    """A command on a component, or at a vertex."""
    if name == "regroup":
        cuts = [v for whole in session.components for v in whole.cuts]
        v = chance.choice(cuts) if cuts and chance.random() < 0.8 else chance.randrange(len(session.ids) + 1)
        return f"regroup {v} {' '.join(map(str, numbers_at(chance, session, v)))}"
    c = chance.randrange(len(session.components))
    cut = [whole.number for whole in session.components if whole.cuts]
    c = len(session.components) if chance.random() < 0.03 else chance.choice(cut) if cut and chance.random() < 0.6 else c
    if name == "convertwhole":
        return f"convertwhole {c} {system(chance, session, session.components[c]) if c < len(session.components) else '0: 0'}".rstrip()
    return f"{name} {c}" + (f" {chance.choice([1, 2, 3, 5, 40])}" if name == "listwhole" else "")


def line(chance, session, names):
    """A command for the session's state."""
    blocks = len(session.blocks)
    b = chance.randrange(blocks) if blocks and chance.random() < 0.97 else blocks
    name = chance.choice(names)
    if name in ("undo", "redo", "gml"):
        return name
    if name in ON_VERTICES:
        return on_vertices(chance, session, name)
    if name == "euler":
        order = {v: chance.sample(at, len(at)) for v, at in session.at.items()}
        if chance.random() < 0.1:
            order[chance.randrange(len(order) + 1)] = [chance.randrange(12)]
        return "euler " + "; ".join(f"{v}: {' '.join(map(str, at))}".rstrip() for v, at in sorted(order.items()))
    if b == blocks:
        return NO_BLOCK.get(name, name + " {}").format(b)
    nodes = session.blocks[b].nodes
    k = chance.randrange(len(nodes)) if chance.random() < 0.95 else len(nodes)
    fit = [i for i, node in enumerate(nodes) if node.kind in {"flip": "R", "permute": "P"}.get(name, "PR")]
    if fit and chance.random() < 0.8:
        k = chance.choice(fit)
    if name in ("flip", "lock", "unlock"):
        return f"{name} {b} {k}"
    if name == "permute":
        keys = list(nodes[k].keys) if k < len(nodes) else [0]
        chance.shuffle(keys)
        if chance.random() < 0.1:
            keys[0] = keys[-1]
        return f"permute {b} {k} {' '.join(map(str, keys))}"
    if name == "list":
        return f"list {b} {chance.randint(1, 4)}"
    if name in ("goto", "convert"):
        now, locked = session.family[b]
        rank = chance.randrange(session.lists[b].count(now, locked) + 1) if session.lists[b].planar else 0
        return f"goto {b} {rank}" if name == "goto" else f"convert {b} rank {rank}"
    if name == "convert_to":
        return f"convert {b} to {given(chance, session, b)}"
    if name == "take":
        return f"take {b} {given(chance, session, b)}"
    return f"{name} {b}"


def same_session(session, text):
    """Whether a text is read as this session without its locks and its history, and written as it is."""
    pairs = report_of.document(text)
    other = report_of.Session(*report_of.graph_of(pairs), pairs, True)
    same = (session.ids, session.ends, [rotation for rotation, _ in session.family]) == (other.ids, other.ends, [rotation for rotation, _ in other.family])
    return same and other.step(("gml",))[1] == text


def step(session, c, path):
    """Makes a step. The lines that `convertwhole` answers lead to the same rotation system, as commands."""
    before = session.family, session.cuts, session.earlier[:], session.later[:]
    lines = session.step(c)
    if c[0] == "convertwhole":
        after, shown = (session.family, session.cuts, session.earlier, session.later), session.step(("whole", c[1]))
        session.family, session.cuts, session.earlier, session.later = before
        for text in lines[1:]:
            session.step(report_of.command(text))
        if session.step(("whole", c[1])) != shown:
            sys.exit(f"the lines of convertwhole lead elsewhere: {path}")
        session.family, session.cuts, session.earlier, session.later = after


def script(chance, path, names):
    pairs = report_of.document(open(path, "rb").read())
    try:
        session = report_of.Session(*report_of.graph_of(pairs), pairs, True)
    except report_of.RefusedGraph:
        return chance.choice(["", "show 0\n", "no command\n"])
    lines = []
    for _ in range(30):
        text = line(chance, session, names)
        lines.append(text)
        try:
            step(session, report_of.command(text), path)
        except report_of.Refused:
            pass
    if not same_session(session, session.step(("gml",))[1]):
        sys.exit(f"what gml writes is not read back: {path}")
    if chance.random() < 0.02:
        lines.insert(chance.randrange(len(lines) + 1), chance.choice(NO_COMMAND))
    return "".join(text + "\n" for text in lines)


def main():
    words, names = sys.argv[1:], NAMES
    if words[:1] == ["--commands"]:
        wanted = words[1].split(",") if len(words) > 1 else []
        names, words = [name for name in NAMES if name in wanted], words[2:]
        if not names or set(wanted) - set(NAMES):
            sys.exit(f"the commands are {', '.join(dict.fromkeys(NAMES))}")
    if len(words) < 2:
        sys.exit(__doc__)
    chance, program = random.Random(int(words[1])), words[2:]
    os.makedirs(DATA, exist_ok=True)
    graph_file, script_file = os.path.join(DATA, "trial.gml"), os.path.join(DATA, "trial.spqr")
    answers = {}
    for trial in range(int(words[0])):
        pairs = report_of.document(graph(chance).encode())
        with open(graph_file, "wb") as out:
            out.write(report_of.written(pairs if trial % 3 == 0 else with_start(chance, pairs)))
        with open(script_file, "w") as out:
            out.write(script(chance, graph_file, names))
        lines = report_of.report(graph_file, script_file, False)
        if lines != report_of.report(graph_file, script_file, True):
            sys.exit(f"trial {trial}: the two slow ways differ on {graph_file}")
        for text in lines:
            if isinstance(text, str):
                word = " ".join(text.split()[:2]) if text.startswith("error") else " ".join(text.split()[1:3]) if text.startswith("refused") else text.split()[0]
                answers[word] = answers.get(word, 0) + 1
        if program:
            done = subprocess.run(program + ["run", graph_file, script_file], stdout=subprocess.PIPE)
            wrong = report_of.compare(lines, done.stdout, graph_file)
            if wrong or done.returncode != (5 if lines[0].startswith("refused graph") else 6 if lines[0].startswith("refused script") else 0):
                sys.exit(f"trial {trial}, status {done.returncode}: {wrong}")
    print(f"{words[0]} trials; lines: " + ", ".join(f"{word} {count}" for word, count in sorted(answers.items())))


main()
