#!/usr/bin/env python3
"""round_trip.py PROGRAM GRAPH ..: what goes into the program comes out again, on each graph that it accepts.

From the nodes of the trees in the head the edges of each block come back, with their ends, and from the blocks the edges of the graph;
from the document that `gml` writes the graph comes back, and after all blocks have been mirrored their present embeddings. Ends with 1
where one does not."""
import os
import re
import subprocess
import sys
import tempfile

from report_of import document, graph_of


def printed(program, graph, script):
    with tempfile.NamedTemporaryFile("w", suffix=".spqr") as file:
        file.write(script)
        file.flush()
        ran = subprocess.run([program, "run", graph, file.name], stdout=subprocess.PIPE)
    return ran.stdout if ran.returncode == 0 else None


def edges_of_trees(head):
    """For each block the edges that the head names, and the edges that the nodes of its tree have, with their ends."""
    blocks, nodes = {}, {}
    block = None
    for line in head.decode().splitlines():
        words = line.split()
        if words[0] == "block":
            block = int(words[1][:-1])
            blocks[block], nodes[block] = [int(word) for word in words[2:]], {}
        elif words[0] == "node":
            for item in words[words.index("|") + 1:]:
                key, a, b = re.fullmatch(r"(\d+):(\d+)-(\d+)(?:@\d+)?", item).groups()
                if "@" not in item:
                    assert int(key) not in nodes[block], line
                    nodes[block][int(key)] = (int(a), int(b))
    return blocks, nodes


def comes_back(program, graph):
    report = printed(program, graph, "gml\n")
    if report is None:
        return None
    with open(graph, "rb") as file:
        ids, ends = graph_of(document(file.read()))
    place = re.search(rb"^gml (\d+)\n", report, re.M)
    head, text = report[:place.start()], report[place.end():]
    blocks, nodes = edges_of_trees(head)
    sorted_ends = [tuple(sorted(pair)) for pair in ends]
    same_blocks = all(sorted(nodes[b]) == blocks[b] and all(nodes[b][e] == sorted_ends[e] for e in blocks[b]) for b in blocks)
    same_graph = sorted(sum(blocks.values(), [])) == list(range(len(ends))) and len(text) == int(place.group(1)) and graph_of(document(text)) == (ids, ends)
    return same_blocks and same_graph and starts_there(program, graph, head, len(blocks))


def starts_there(program, graph, head, blocks):
    """Whether a session on the document that `gml` writes sets out where that which wrote it was."""
    mirrors, shows = ("".join(f"{word} {b}\n" for b in range(blocks)) for word in ("mirror", "show"))
    left = printed(program, graph, mirrors + shows + "gml\n")
    answers = left[len(head):].split(b"\n", blocks)[-1]
    with tempfile.NamedTemporaryFile(suffix=".gml") as file:
        file.write(re.search(rb"^gml \d+\n(.*)", answers, re.M | re.S).group(1))
        file.flush()
        return left.startswith(head) and printed(program, file.name, shows + "gml\n") == head + answers


def main():
    program, passed, failed = os.path.abspath(sys.argv[1]), 0, 0
    for graph in sys.argv[2:]:
        answer = comes_back(program, graph)
        if answer:
            passed += 1
        elif answer is not None:
            failed += 1
            print(f"round trip: {graph} does not come back")
    print(f"round trips: {passed} passed, {failed} failed")
    return 1 if failed or not passed else 0


sys.exit(main())
