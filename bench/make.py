#!/usr/bin/env python3
"""make.py: inputs for the benchmarks, each from a seed, so that a figure can be measured again.

  make.py graph SEED VERTICES EDGES NAME    NAME.gml: a random multigraph without loops; NAME.spqr: `euler` of a random
                                            rotation system of it
  make.py strings|nested|numbers BYTES NAME NAME.gml: a document of about BYTES bytes: one vertex, and pairs with long
                                            strings, with lists nested 32 deep, or with numbers
  make.py grown EDGES SEED NAME             NAME.gml: a planar block of about EDGES edges, grown from K4 by subdividing an
                                            edge, doubling it, putting a path of two edges beside it, or gluing a K4 on it
  make.py bundle EDGES NAME                 NAME.gml: two vertices and EDGES edges between them
  make.py path|star VERTICES NAME           NAME.gml: a path, or the edges from one vertex to all others
  make.py triangulation VERTICES SEED NAME  NAME.gml: a triangulation, each new vertex in a face and then some edges flipped
"""
import random
import sys


def write_graph(vertices, ends, name):
    with open(name + ".gml", "w") as file:
        file.write("graph [\n")
        for vertex in range(vertices):
            file.write(f"  node [\n    id {vertex}\n    label \"vertex {vertex}\"\n  ]\n")
        for first, second in ends:
            file.write(f"  edge [\n    source {first}\n    target {second}\n  ]\n")
        file.write("]\n")


def graph(seed, vertices, edges, name):
    draw = random.Random(seed)
    ends = []
    for _ in range(edges):
        first = draw.randrange(vertices)
        second = draw.randrange(vertices - 1)
        ends.append((first, second + (second >= first)))
    write_graph(vertices, ends, name)
    order = [[] for _ in range(vertices)]
    for edge, (first, second) in enumerate(ends):
        order[first].append(edge)
        order[second].append(edge)
    for edges_here in order:
        draw.shuffle(edges_here)
    entries = (f"{vertex}: {' '.join(map(str, edges_here))}" for vertex, edges_here in enumerate(order) if edges_here)
    with open(name + ".spqr", "w") as file:
        file.write("euler " + "; ".join(entries) + "\n")


def document(kind, size, name):
    head, tail = "graph [ node [ id 0 ] ]\n", ""
    pair = {
        "strings": 'label "' + "a string of many bytes, with [ brackets ] and # signs in it; " * 4 + '"\n',
        "nested": "".join(f"k{depth} [ " for depth in range(32)) + "x 1" + " ]" * 32 + "\n",
        "numbers": "x 1234567890 y -12.5e+3 z 0\n",
    }[kind]
    with open(name + ".gml", "w") as file:
        file.write(head + pair * ((size - len(head) - len(tail)) // len(pair)) + tail)
    with open(name + ".spqr", "w") as file:
        file.write("euler\n")


def grown(edges, seed, name):
    state = seed
    ends = [(0, 1), (0, 2), (0, 3), (1, 2), (1, 3), (2, 3)]
    vertices = 4
    while len(ends) < edges:
        state = (state * 6364136223846793005 + 1442695040888963407) % 2**64
        edge = (state // 2**32) % len(ends)
        state = (state * 6364136223846793005 + 1442695040888963407) % 2**64
        operation = state // 2**62
        u, w = ends[edge]
        if operation == 0:
            ends[edge] = (u, vertices)
            ends.append((vertices, w))
            vertices += 1
        elif operation == 1:
            ends.append((u, w))
        elif operation == 2:
            ends += [(u, vertices), (vertices, w)]
            vertices += 1
        else:
            y, z = vertices, vertices + 1
            ends += [(u, y), (u, z), (w, y), (w, z), (y, z)]
            vertices += 2
    write_graph(vertices, ends, name)
    open(name + ".spqr", "w").close()


def triangulation(vertices, seed, name):
    draw = random.Random(seed)
    faces = [(0, 1, 2), (0, 2, 1)]
    for vertex in range(3, vertices):
        a, b, c = faces.pop(draw.randrange(len(faces)))
        faces += [(a, b, vertex), (b, c, vertex), (c, a, vertex)]
    third = {}
    for a, b, c in faces:
        third.update({(a, b): c, (b, c): a, (c, a): b})
    for _ in range(4 * vertices):
        a, b = draw.choice(sorted(third))
        c, d = third[a, b], third[b, a]
        if (c, d) in third or (d, c) in third or c == d:
            continue
        del third[a, b], third[b, a]
        third.update({(a, d): c, (d, c): a, (c, a): d, (d, b): c, (b, c): d, (c, d): b})
    ends = sorted((a, b) for a, b in third if a < b)
    draw.shuffle(ends)
    write_graph(vertices, ends, name)
    open(name + ".spqr", "w").close()


def main():
    words = sys.argv[1:]
    if words[0] == "graph":
        graph(int(words[1]), int(words[2]), int(words[3]), words[4])
    elif words[0] == "grown":
        grown(int(words[1]), int(words[2]), words[3])
    elif words[0] == "bundle":
        write_graph(2, [(0, 1)] * int(words[1]), words[2])
        open(words[2] + ".spqr", "w").close()
    elif words[0] == "path":
        write_graph(int(words[1]), [(v - 1, v) for v in range(1, int(words[1]))], words[2])
        open(words[2] + ".spqr", "w").close()
    elif words[0] == "star":
        write_graph(int(words[1]), [(0, v) for v in range(1, int(words[1]))], words[2])
        open(words[2] + ".spqr", "w").close()
    elif words[0] == "triangulation":
        triangulation(int(words[1]), int(words[2]), words[3])
    else:
        document(words[0], int(words[1]), words[2])


main()
