#!/usr/bin/env python3
"""commands.py PROGRAM: times scripts of embedding commands on graphs that are hard for them (see bench/commands)."""
import os
import random
import subprocess
import sys
import time

PROGRAM = os.path.abspath(sys.argv[1])
DATA = os.path.join(os.path.dirname(os.path.abspath(__file__)), "data")
LIMIT = 60


def write(name, vertices, ends, lines):
    with open(f"{DATA}/{name}.gml", "w") as file:
        file.write("graph [\n" + "".join(f"node [ id {v} ]\n" for v in range(vertices)))
        file.write("".join(f"edge [ source {a} target {b} ]\n" for a, b in ends) + "]\n")
    with open(f"{DATA}/{name}.spqr", "w") as file:
        file.write("\n".join(lines) + "\n")
    with open(f"{DATA}/{name}_head.spqr", "w"):
        pass


def run(graph, script):
    start = time.perf_counter()
    process = subprocess.Popen([PROGRAM, "run", graph, script], stdout=subprocess.DEVNULL)
    while True:
        done, status, usage = os.wait4(process.pid, os.WNOHANG)
        if done:
            return time.perf_counter() - start, usage.ru_maxrss / 1024, os.waitstatus_to_exitcode(status)
        if time.perf_counter() - start > LIMIT:
            process.kill()
            os.wait4(process.pid, 0)
            return None, None, None
        time.sleep(0.001)


def row(name, commands):
    graph = f"{DATA}/{name}.gml"
    head, _, _ = run(graph, f"{DATA}/{name}_head.spqr")
    if head is None:
        print(f"{name:<24} the head alone takes more than {LIMIT} s", flush=True)
        return
    whole, peak, status = run(graph, f"{DATA}/{name}.spqr")
    if whole is None:
        print(f"{name:<24}{head:>9.3f}  the script takes more than {LIMIT} s", flush=True)
        return
    print(f"{name:<24}{head:>9.3f}{whole:>9.3f}{commands:>8}{(whole - head) / commands * 1e6:>11.1f}{peak:>8.0f}  status {status}", flush=True)


def wheel_and_k4(rim):
    """A wheel whose hub is 0 and K4 beside it on the edge of the hub to rim vertex 1: one bond between two triconnected nodes."""
    ends = [(0, v) for v in range(1, rim + 1)] + [(v, v % rim + 1) for v in range(1, rim + 1)]
    a, b = rim + 1, rim + 2
    return rim + 3, ends + [(0, a), (0, b), (1, a), (1, b), (a, b)]


def grown(edges, seed):
    """The made graph of this size: an edge is divided, doubled, has a path of two put beside it, or a K4 without an edge."""
    state, ends, vertices = seed, [(0, 1), (0, 2), (0, 3), (1, 2), (1, 3), (2, 3)], 4
    while len(ends) < edges:
        state = (state * 6364136223846793005 + 1442695040888963407) % 2**64
        edge = (state // 2**32) % len(ends)
        state = (state * 6364136223846793005 + 1442695040888963407) % 2**64
        operation, (u, w) = state // 2**62, ends[edge]
        if operation == 0:
            ends[edge] = (u, vertices)
            ends.append((vertices, w))
            vertices += 1
        elif operation == 1:
            ends.append((u, w))
        elif operation == 2:
            ends += [(u, vertices), (vertices, w)]
            vertices += 1
        else:
            y, z = vertices, vertices + 1
            ends += [(u, y), (u, z), (w, y), (w, z), (y, z)]
            vertices += 2
    return vertices, ends


def hub(spokes):
    """A wheel whose spokes are doubled: a hub of degree 2 * spokes and as many bonds as spokes."""
    return spokes + 1, [(0, v) for v in range(1, spokes + 1) for _ in range(2)] + [(v, v % spokes + 1) for v in range(1, spokes + 1)]


def rigid_nodes(name):
    """The triconnected nodes of block 0, read off the head."""
    head = subprocess.run([PROGRAM, "run", f"{DATA}/{name}.gml", f"{DATA}/{name}_head.spqr"], capture_output=True, text=True, check=True).stdout
    return [line.split()[1] for line in head.split("block 1")[0].splitlines() if line.startswith("node ") and line.split()[2] == "R"]


def main():
    os.makedirs(DATA, exist_ok=True)
    print(f"{'input':<24}{'head s':>9}{'whole s':>9}{'lines':>8}{'us/line':>11}{'MiB':>8}")
    vertices, ends = wheel_and_k4(5000)
    for name, node in (("flip_large", 1), ("flip_small", 2)):
        write(name, vertices, ends, [f"flip 0 {node}"] * 10000)
        row(name, 10000)
    for edges in (200, 2000, 20000):
        vertices, ends = grown(edges, 1)
        write(f"list_{edges}", vertices, ends, ["list 0 1000"])
        row(f"list_{edges}", 1)
    draw = random.Random(1)
    vertices, ends = grown(20000, 1)
    for name, lines in (("rank_20000", ["rank 0"] * 100), ("goto_20000", [f"goto 0 {draw.randrange(2**64)}" for _ in range(100)]),
                        ("convert_20000", [f"convert 0 rank {draw.randrange(2**64)}" for _ in range(100)]), ("next_20000", ["next 0"] * 100)):
        write(name, vertices, ends, lines)
        row(name, 100)
    write("moves_20000", vertices, ends, [])
    rigid = rigid_nodes("moves_20000")
    for name, lines in (("flip_20000", [f"flip 0 {k}" for k in rigid[:2000]]), ("undo_20000", [f"flip 0 {rigid[-1]}"] + ["undo", "redo"] * 500), ("mirror_20000", ["mirror 0"] * 100)):
        write(name, vertices, ends, lines)
        row(name, len(lines))
    vertices, ends = hub(5000)
    write("hub_list", vertices, ends, ["list 0 1000"])
    row("hub_list", 1)


main()
