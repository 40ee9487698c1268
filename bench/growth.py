#!/usr/bin/env python3
"""growth.py PROGRAM [--runs N] [KIND ..]: by which factor each command takes longer on a block of twice the size.

For each kind of bench/kinds.py whose graph is one block, or those named, at 10,000 and at 20,000 vertices: processor time of one command
on block 0, in milliseconds, at both sizes, their quotient, and the time by that of `faces` at the greater size. The time of a command is
that of a script with so many that they take a tenth of a second, less that of a script with one, by the number of commands between; of
both the least of N runs (5 if none is given), the two sizes by turns. Of changing commands there are `mirror`, alone and with `first` or
`undo` after it, and `flip` of the greatest triconnected node. `permute` of the greatest bond to the reverse order, and `take` and
`convert` of the mirror image, where a script has room for both rotations, are timed with the command that leads back, as one.

Stop other work. Times can grow by more than instructions do, where the smaller input fits into a cache and the greater does not, or where
pages are taken anew for a long answer."""
import os
import subprocess
import sys

import kinds

DATA = os.path.join(os.path.dirname(os.path.abspath(__file__)), "data")
SIZES = 10000, 20000
KINDS = "cycle ladder nest bundle bundles bipartite wheel hub fan series_parallel grown grid triangulation".split()
# A script is at most a mebibyte.
MOST_BYTES = 1 << 20
PLAIN = "faces 0", "show 0", "longest 0", "mirror 0", "mirror 0\nundo", "mirror 0\nfirst 0", "first 0", "next 0", "list 0 5", "count 0", "rank 0", "gml"


def write(name, text):
    path = f"{DATA}/growth_{name}"
    with open(path, "w") as file:
        file.write(text)
    return path


def graph(kind, size):
    vertices, ends = getattr(kinds, kind)(size)
    lines = "".join(f"node [ id {v} ]\n" for v in range(vertices)) + "".join(f"edge [ source {a} target {b} ]\n" for a, b in ends)
    return write(f"{kind}_{size}.gml", f"graph [\n{lines}]\n")


def seconds(program, path, script):
    process = subprocess.Popen([program, "run", path, script], stdout=subprocess.DEVNULL)
    _, status, usage = os.wait4(process.pid, 0)
    process.returncode = os.waitstatus_to_exitcode(status)
    if process.returncode:
        sys.exit(f"{path} {script}: status {process.returncode}")
    return usage.ru_utime + usage.ru_stime


def answers(program, path, commands):
    ran = subprocess.run([program, "run", path, write("once.spqr", commands)], capture_output=True, text=True, check=True)
    return ran.stdout.split("\n")


def changes(program, path):
    """Scripts of changing commands that fit this graph, by name; all but `flip` lead back."""
    lines = answers(program, path, "show 0\nmirror 0\nshow 0\n")
    here, there = [line.split("|")[1].strip() for line in lines if line.startswith("rotation 0 ")]
    made = {"take": f"take 0 {there}\ntake 0 {here}", "convert": f"convert 0 to {there}\nconvert 0 to {here}"}
    greatest = {}
    for line in lines:
        if line.startswith("node "):
            head, items = (part.split() for part in line.split("|"))
            if len(items) > len(greatest.get(head[2], ("", ""))[1]):
                greatest[head[2]] = head[1], items
    if "R" in greatest:
        made["flip"] = f"flip 0 {greatest['R'][0]}"
    if "P" in greatest:
        node, items = greatest["P"]
        keys = [item.split(":")[0] for item in items]
        made["permute"] = "\n".join(f"permute 0 {node} {' '.join(order)}" for order in (keys[::-1], keys))
    return made


def many(program, path, command, number):
    """A script with one of this command, or without it where there is no room for two; one with so many more that they take a tenth of a
    second; and how many more they are."""
    room = (MOST_BYTES - 8) // (len(command) + 1)
    first = min(room - 1, 1)
    base = write(f"base_{number}.spqr", "count 0\n" + f"{command}\n" * first)
    count, least = 1, seconds(program, path, base)
    while True:
        script = write(f"many_{number}.spqr", "count 0\n" + f"{command}\n" * (first + count))
        if first + count == min(room, 20000) or seconds(program, path, script) - least > 0.1:
            return base, script, count
        count = min(4 * count, min(room, 20000) - first)


def times(program, paths, commands, runs):
    """Milliseconds of one command on each graph; the commands are those of each."""
    scripts = [many(program, path, command, number) for number, (path, command) in enumerate(zip(paths, commands))]
    least = [[float("inf")] * 2 for _ in paths]
    for _ in range(runs):
        for own, path, two in zip(least, paths, scripts):
            own[:] = [min(before, seconds(program, path, script)) for before, script in zip(own, two)]
    return [max(more - base, 0) / count * 1000 for (base, more), (_, _, count) in zip(least, scripts)]


def main(program, *words):
    runs = 5
    if words[:1] == ("--runs",):
        runs, words = int(words[1]), words[2:]
    os.makedirs(DATA, exist_ok=True)
    print(f"{'kind':<16}{'command':<18}{'ms':>9}{'twice':>9}{'growth':>8}{'by faces':>10}")
    for kind in words or KINDS:
        paths = [graph(kind, size) for size in SIZES]
        each = [changes(program, path) for path in paths]
        rows = [(command.replace("\n", ", "), [command] * 2) for command in PLAIN]
        rows += [(name, [own[name] for own in each]) for name in each[0] if name in each[1]]
        faces = None
        for name, commands in rows:
            if any(len(command) + 9 > MOST_BYTES for command in commands):
                continue
            half, whole = times(program, paths, commands, runs)
            faces = faces or whole
            growth = f"{whole / half:.2f}" if half else "-"
            by_faces = f"{whole / faces:.2f}" if faces else "-"
            print(f"{kind:<16}{name:<18}{half:>9.4f}{whole:>9.4f}{growth:>8}{by_faces:>10}", flush=True)


if __name__ == "__main__":
    if len(sys.argv) < 2:
        sys.exit(__doc__)
    main(os.path.abspath(sys.argv[1]), *sys.argv[2:])
