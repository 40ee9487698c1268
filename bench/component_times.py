#!/usr/bin/env python3
"""component_times.py PROGRAM [KIND ..]: times the commands on components, on graphs with large cut vertices or with many of them.

  --size N    the full size, 20,000 vertices where it is left out; the other one is half of it

The kinds: `edges` at one vertex; `triangles` at one vertex; `k4` with one common vertex; a `cactus` of triangles at random; a `path`;
and a `sun`, a cycle with an edge at each vertex. Each row is a script, timed beside the same script without its last part: the
difference is what this part takes, in milliseconds of the processor, least of three runs, at half and at full size, and the growth; with
it are how many commands the part has, and the peak memory in MiB at full size. Of the answers only the last line is looked at."""
import os
import random
import subprocess
import sys

from kinds import path

DATA = os.path.join(os.path.dirname(os.path.abspath(__file__)), "data")
TIMES = 3


# The kinds. Each has the vertices, the ends of the edges and, of the first member of the component, the edges around each vertex; the
# last member is its mirror image, since at each vertex the blocks have their edges one after the other.


def ends_around(vertices, ends):
    around = [[] for _ in range(vertices)]
    for e, pair in enumerate(ends):
        for v in pair:
            around[v].append(e)
    return around


def edges(n):
    ends = [(0, v) for v in range(1, n)]
    return n, ends, ends_around(n, ends)


def triangles(n):
    count = (n - 1) // 2
    ends = [pair for t in range(count) for pair in ((0, 2 * t + 1), (2 * t + 1, 2 * t + 2), (2 * t + 2, 0))]
    return 2 * count + 1, ends, ends_around(2 * count + 1, ends)


def k4(n):
    count = (n - 1) // 4
    ends, around = [], [[]] + [None] * (3 * count)
    for t in range(count):
        a, b, c, e = 3 * t + 1, 3 * t + 2, 3 * t + 3, 6 * t
        ends += [(0, a), (0, b), (0, c), (a, b), (a, c), (b, c)]
        around[0] += [e, e + 1, e + 2]
        around[a], around[b], around[c] = [e, e + 4, e + 3], [e + 1, e + 3, e + 5], [e + 2, e + 5, e + 4]
    return 3 * count + 1, ends, around


def cactus(n):
    count, draw, ends = (n - 1) // 2, random.Random(1), []
    for t in range(count):
        foot = draw.randrange(2 * t + 1)
        ends += [(foot, 2 * t + 1), (2 * t + 1, 2 * t + 2), (2 * t + 2, foot)]
    return 2 * count + 1, ends, ends_around(2 * count + 1, ends)


def a_path(n):
    ends = path(n)[1]
    return n, ends, ends_around(n, ends)


def sun(n):
    half = n // 2
    ends = [(v, (v + 1) % half) for v in range(half)] + [(v, half + v) for v in range(half)]
    return 2 * half, ends, ends_around(2 * half, ends)


KINDS = {"edges": edges, "triangles": triangles, "k4": k4, "cactus": cactus, "path": a_path, "sun": sun}


def numbers(order):
    return " ".join(map(str, order))


def mirrored(order):
    return order[:1] + order[:0:-1]


def system(around):
    return "; ".join(f"{v}: {numbers(order)}" for v, order in enumerate(around))


def regroups(kind, around):
    """Lists for the vertex 0: what is asked, the line, and its answer."""
    here = around[0]
    yield "regroup, accepted", f"regroup 0 {numbers(here if kind == 'k4' else mirrored(here))}", "ok"
    if kind == "triangles":
        last = len(here) // 2 - 1
        yield "regroup, first two cross", f"regroup 0 {numbers([here[0], here[2], here[1], here[3]] + here[4:])}", "error 17 0 1"
        yield "regroup, last two cross", f"regroup 0 {numbers(here[:-4] + [here[-4], here[-2], here[-3], here[-1]])}", f"error 17 {last - 1} {last}"
    if kind == "k4":
        yield "regroup, an order changes", f"regroup 0 {numbers(here[:-3] + [here[-3], here[-1], here[-2]])}", f"error 16 {len(here) // 3 - 1}"


def rows(kind, around):
    """What is timed: its name, the lines before it, its lines, and the last line that is printed then."""
    only = kind == "path"
    moves = "nextwhole 0"
    yield "whole, 10 times", [], ["whole 0"] * 10, None
    yield "nextwhole, 1,000 times", [], [moves] * 1000, "end" if only else None
    if not only:
        yield "undo of these", [moves] * 1000, ["undo"] * 1000, "ok"
        yield "redo of these", [moves] * 1000 + ["undo"] * 1000, ["redo"] * 1000, "ok"
    yield "listwhole 0 1000", [], ["listwhole 0 1000"], "end" if only else "more"
    last = f"convertwhole 0 {system(around if only else list(map(mirrored, around)))}"
    yield "convertwhole to the last", [], [last, "listwhole 0 1"], "end"
    yield "undo of it", [last], ["undo"], "ok"
    if kind in ("edges", "triangles", "k4"):
        for name, line, answer in regroups(kind, around):
            yield f"{name}, 5 times", [], [line] * 5, answer
        accepted = next(regroups(kind, around))[1]
        yield "undo of a regroup, 5 times", [accepted] * 5, ["undo"] * 5, "ok"
    change = "flip 0 0" if kind == "k4" else "mirror 0"
    yield f"{change}, 1,000 times", [], [change] * 1000, "ok"
    yield f"{change} after nextwhole", [moves] * 100, [change], "ok"
    if kind == "k4":
        yield "lock and unlock, 1,000 times", [], ["lock 0 0", "unlock 0 0"] * 500, "ok"


def write(name, text):
    with open(f"{DATA}/{name}", "w") as file:
        file.write(text)
    return f"{DATA}/{name}"


def run(graph, script):
    """Seconds of the processor and MiB of one run, and its last line."""
    process = subprocess.Popen([PROGRAM, "run", graph, script], stdout=subprocess.PIPE)
    last = b""
    while piece := process.stdout.read(1 << 20):
        last = (last + piece)[-400:]
    process.stdout.close()
    _, status, usage = os.wait4(process.pid, 0)
    if status:
        return None, usage.ru_maxrss / 1024, f"status {os.waitstatus_to_exitcode(status)}"
    return usage.ru_utime + usage.ru_stime, usage.ru_maxrss / 1024, last.decode("ascii", "replace").split("\n")[-2]


def least(graph, script):
    """The least seconds of some runs, the memory of the last one, and its last line."""
    best = peak = line = None
    for _ in range(TIMES):
        seconds, peak, line = run(graph, script)
        if seconds is None:
            return None, peak, line
        best = seconds if best is None else min(best, seconds)
    return best, peak, line


def measured(name, size, kind):
    """For each row its name, how many commands it has, its milliseconds, MiB, and what is wrong or None."""
    vertices, ends, around = KINDS[kind](size)
    graph = write(f"{name}.gml", "graph [\n" + "".join(f"node [ id {v} ]\n" for v in range(vertices)) + "".join(f"edge [ source {a} target {b} ]\n" for a, b in ends) + "]\n")
    bases = {}
    for what, before, lines, answer in rows(kind, around):
        key = tuple(before)
        if key not in bases:
            bases[key] = least(graph, write(f"{name}_before.spqr", "".join(line + "\n" for line in before)))
        whole, peak, line = least(graph, write(f"{name}.spqr", "".join(line + "\n" for line in before + lines)))
        wrong = line if whole is None or answer is not None and line != answer else None
        yield what, len(lines), None if whole is None or bases[key][0] is None else 1000 * (whole - bases[key][0]), peak, wrong


def main():
    global PROGRAM
    words, size = sys.argv[1:], 20000
    if "--size" in words:
        place = words.index("--size")
        size = int(words[place + 1])
        words = words[:place] + words[place + 2:]
    if not words or set(words[1:]) - set(KINDS):
        sys.exit(__doc__)
    PROGRAM = os.path.abspath(words[0])
    os.makedirs(DATA, exist_ok=True)
    print(f"{'kind':<10}{'what':<34}{'commands':>9}{'half ms':>10}{'full ms':>10}{'growth':>8}{'MiB':>7}")
    failed = False
    for kind in words[1:] or KINDS:
        half = measured(f"component_{kind}_half", size // 2, kind)
        for (what, count, first, _, wrong), (_, _, second, peak, other) in zip(half, measured(f"component_{kind}_full", size, kind)):
            shown = [f"{ms:>10.1f}" if ms is not None else f"{'':>10}" for ms in (first, second)]
            growth = f"{second / first:>8.2f}" if first and second and first > 0.5 else f"{'':>8}"
            failed = failed or bool(wrong or other)
            print(f"{kind:<10}{what:<34}{count:>9}{shown[0]}{shown[1]}{growth}{peak:>7.0f}" + (f"  WRONG: {wrong or other}" if wrong or other else ""), flush=True)
    sys.exit(failed)


if __name__ == "__main__":
    main()
