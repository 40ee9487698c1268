#!/usr/bin/env python3
"""starts.py PROGRAM: times files with a start beside the same files without one, and `gml` on both.

  starts.py make         writes the inputs alone, to bench/data/start_NAME.gml and start_NAME_none.gml

The inputs: a grid of 20,000 vertices with diagonals, 50,000 edges in one block, whose start has the edges by their directions; a star
of 10,000 double edges, 10,000 blocks at one vertex, whose edges are mixed there; and two vertices with an edge, whose texts end with 1,000,000
blanks each. A row has vertices and edges; seconds of the head without a start and with one, and their ratio; seconds with `gml` on
both; and peak memory in MiB: best of five runs."""
import os
import random
import subprocess
import sys
import time

DATA = os.path.join(os.path.dirname(os.path.abspath(__file__)), "data")
LIMIT = 60


def grid(width, height, diagonals):
    """Edges to the right, up and, from the first squares, across; at each vertex its edges by direction."""
    ends, around = [], [dict() for _ in range(width * height)]

    def join(a, b, there, back):
        around[a][there], around[b][back] = len(ends), len(ends)
        ends.append((a, b))

    for v in range(width * height):
        x, y = v % width, v // width
        if x + 1 < width:
            join(v, v + 1, 0, 4)
        if y + 1 < height:
            join(v, v + width, 2, 6)
        if x + 1 < width and y + 1 < height and diagonals:
            join(v, v + width + 1, 1, 5)
            diagonals -= 1
    return width * height, ends, [[at[way] for way in sorted(at)] for at in around]


def star(leaves):
    ends = [(0, v) for v in range(1, leaves + 1)] * 2
    hub = list(range(2 * leaves))
    random.Random(1).shuffle(hub)
    return leaves + 1, ends, [hub] + [[v, v + leaves] for v in range(leaves)]


def inputs():
    yield "grid", *grid(100, 200, 10300), ""
    yield "star", *star(10000), ""
    yield "blanks", 2, [(0, 1)], [[0], [0]], " " * 1000000


def write(name, vertices, ends, texts):
    with open(f"{DATA}/{name}.gml", "w") as file:
        file.write("graph [\n")
        for v in range(vertices):
            file.write(f"node [ id {v} spqrRotation \"{texts[v]}\" ]\n" if texts else f"node [ id {v} ]\n")
        file.write("".join(f"edge [ source {a} target {b} ]\n" for a, b in ends) + "]\n")


def made():
    """Each input written with a start and without."""
    os.makedirs(DATA, exist_ok=True)
    for name, script in (("empty", ""), ("gml", "gml\n")):
        with open(f"{DATA}/start_{name}.spqr", "w") as file:
            file.write(script)
    for name, vertices, ends, orders, after in inputs():
        write(f"start_{name}", vertices, ends, [" ".join(map(str, order)) + after for order in orders])
        write(f"start_{name}_none", vertices, ends, None)
        yield name, vertices, ends


def timed(program, name, script, times=5):
    best, peak = None, 0
    for _ in range(times):
        start = time.perf_counter()
        process = subprocess.Popen([program, "run", f"{DATA}/{name}.gml", f"{DATA}/start_{script}.spqr"], stdout=subprocess.DEVNULL)
        while not os.waitid(os.P_PID, process.pid, os.WEXITED | os.WNOHANG | os.WNOWAIT):
            if time.perf_counter() - start > LIMIT:
                process.kill()
                process.wait()
                return float("nan"), float("nan")
            time.sleep(0.001)
        seconds = time.perf_counter() - start
        _, status, usage = os.wait4(process.pid, 0)
        if status:
            sys.exit(f"{name}: status {os.waitstatus_to_exitcode(status)}")
        best, peak = seconds if best is None else min(best, seconds), max(peak, usage.ru_maxrss / 1024)
    return best, peak


def main():
    if sys.argv[1:] == ["make"]:
        for name, vertices, ends in made():
            print(f"bench/data/start_{name}.gml", vertices, len(ends))
        return
    if len(sys.argv) != 2:
        sys.exit(__doc__)
    program = os.path.abspath(sys.argv[1])
    print(f"{'input':<10}{'vertices':>9}{'edges':>8}{'none s':>9}{'start s':>9}{'ratio':>7}{'none gml':>10}{'start gml':>10}{'MiB':>7}")
    for name, vertices, ends in made():
        none, _ = timed(program, f"start_{name}_none", "empty")
        start, _ = timed(program, f"start_{name}", "empty")
        none_gml, _ = timed(program, f"start_{name}_none", "gml")
        start_gml, peak = timed(program, f"start_{name}", "gml")
        print(f"{name:<10}{vertices:>9}{len(ends):>8}{none:>9.3f}{start:>9.3f}{start / none:>7.2f}{none_gml:>10.3f}{start_gml:>10.3f}{peak:>7.0f}", flush=True)


if __name__ == "__main__":
    main()
