#!/usr/bin/env python3
"""large.py PROGRAM [NAME ..]: times the head of large graphs of many kinds, and a session of 1,000 mixed commands.

For each kind a graph of half the size and of the whole size (20,000 vertices or 50,000 edges), planar, and for some kinds the same with
two to four edges more that cross. A row has vertices and edges, seconds of reading the file alone (with a loop after its edges, for
which it is refused), seconds of the head, how many times as long as reading alone and as at half the size it took, peak memory in MiB, and
the last line. Seconds are those of the processor, least of eleven runs in alternation."""
import os
import random
import subprocess
import sys
import tempfile
import threading

from kinds import (bipartite, bundle, bundles, cactus, cycle, grid, grown, ladder, nest, path, series_parallel, star, triangulation, wheel)

PROGRAM = os.path.abspath(sys.argv[1])
DATA = os.path.join(os.path.dirname(os.path.abspath(__file__)), "data")
LIMIT = 60


KINDS = [cycle, path, star, ladder, nest, bundle, bundles, cactus, bipartite, wheel, series_parallel, grown, grid, triangulation]
# Edges that make a graph of a kind nonplanar, by its number of vertices: one, or as many as it needs.
CROSSED = {
    ladder: lambda n: [(1, n // 2 - 2), (n // 2 + 3, n - 5)],
    nest: lambda n: [(0, n - 1), (5, n // 2), (9, n // 3)],
    bipartite: lambda n: [(0, 1), (2, n // 2), (n // 2, n - 1), (n - 1, 2)],
    wheel: lambda n: [(1, n // 2), (n // 4, 3 * n // 4)],
    series_parallel: lambda n: [(n - 1, n // 2), (n // 3, n // 4), (7, n - 9)],
    grown: lambda n: [(5, n - 1), (n // 2, n // 3)],
    grid: lambda n: [(0, n - 1), (int(n**0.5) * 3 + 5, n - int(n**0.5) * 4)],
    triangulation: lambda n: [(3, n - 1), (4, n - 2), (5, n - 3)],
}


def write(name, vertices, ends):
    with open(f"{DATA}/{name}.gml", "w") as file:
        file.write("graph [\n" + "".join(f"node [ id {v} ]\n" for v in range(vertices)))
        file.write("".join(f"edge [ source {a} target {b} ]\n" for a, b in ends) + "]\n")


def run(name, script):
    """A run: seconds of the processor, and the last line of the output."""
    with tempfile.TemporaryFile() as out:
        process = subprocess.Popen([PROGRAM, "run", f"{DATA}/{name}.gml", script], stdout=out)
        timer = threading.Timer(LIMIT, process.kill)
        timer.start()
        _, status, usage = os.wait4(process.pid, 0)
        timer.cancel()
        process.returncode = os.waitstatus_to_exitcode(status)
        if process.returncode < 0:
            return LIMIT, f"ended by signal {-process.returncode}"
        out.seek(max(0, out.seek(0, os.SEEK_END) - 200))
        return usage.ru_utime + usage.ru_stime, out.read().splitlines()[-1][:28].decode()


def peak(name, script):
    """The peak memory of a run in MiB: that of a process of its own, since a child begins with the memory of the one that starts it."""
    line = f"import os,subprocess;p=subprocess.Popen({[PROGRAM, 'run', f'{DATA}/{name}.gml', script]!r},stdout=subprocess.DEVNULL);print(os.wait4(p.pid,0)[2].ru_maxrss)"
    return int(subprocess.run([sys.executable, "-c", line], stdout=subprocess.PIPE).stdout) / 1024


def timed(runs, times=11):
    """Each of the runs so many times, in alternation: of each the run with the least seconds. One that takes too long ends this."""
    rounds = []
    while len(rounds) < times and not any(seconds == LIMIT for one in rounds for seconds, _ in one):
        rounds.append([run(*one) for one in runs])
    return [min(column) for column in zip(*rounds)]


def main():
    os.makedirs(DATA, exist_ok=True)
    with open(f"{DATA}/empty.spqr", "w"):
        pass
    print(f"{'input':<24}{'vertices':>9}{'edges':>8}{'read s':>8}{'head s':>8}{'/ read':>8}{'growth':>8}{'MiB':>7}  last line")
    for kind in KINDS:
        if sys.argv[2:] and kind.__name__ not in sys.argv[2:]:
            continue
        for crossed in ([False, True] if kind in CROSSED else [False]):
            before = None
            for size in (10000, 20000):
                vertices, ends = kind(size)
                ends = ends + (CROSSED[kind](vertices) if crossed else [])
                name = f"large_{kind.__name__}{'_crossed' if crossed else ''}_{size}"
                write(name, vertices, ends)
                write(name + "_loop", vertices, ends + [(0, 0)])
                (read, _), (head, last) = timed([(name + "_loop", f"{DATA}/empty.spqr"), (name, f"{DATA}/empty.spqr")])
                growth = f"{head / before:>8.2f}" if before else f"{'':>8}"
                held = peak(name, f"{DATA}/empty.spqr") if head < LIMIT else 0
                print(f"{name[6:]:<24}{vertices:>9}{len(ends):>8}{read:>8.3f}{head:>8.3f}{head / read:>8.2f}{growth}{held:>7.0f}  {last}", flush=True)
                before = head
    mixed()


def mixed():
    """1,000 commands that change and read on the made graph of 20,000 edges."""
    vertices, ends = grown(20000)
    write("large_mixed", vertices, ends)
    draw, lines = random.Random(2), []
    for _ in range(125):
        lines += ["next 0", "rank 0", f"goto 0 {draw.randrange(2**100)}", "mirror 0", "undo", f"flip 0 {draw.randrange(10000)}", f"lock 0 {draw.randrange(10000)}", "count 0"]
    with open(f"{DATA}/mixed.spqr", "w") as file:
        file.write("\n".join(lines) + "\n")
    [(seconds, last)] = timed([("large_mixed", f"{DATA}/mixed.spqr")])
    print(f"{'1,000 mixed commands':<24}{vertices:>9}{len(ends):>8}{'':>8}{seconds:>8.3f}{'':>16}{peak('large_mixed', f'{DATA}/mixed.spqr'):>7.0f}  {last}", flush=True)


main()
