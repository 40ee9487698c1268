#!/usr/bin/env python3
"""whole_lists.py: the plane rotation systems of a component, by trying all, and the built program of bench/whole compared with them.

  whole_lists.py rows                     the lists of some small components, printed
  whole_lists.py random PROGRAM N SEED    PROGRAM on N random components: lists, walks from any member on, with locks, regroup, set
  whole_lists.py refuse PROGRAM SHIM      each allocation of PROGRAM refused in turn, by the library SHIM (bench/refuse.c)
  whole_lists.py times PROGRAM            processor times on a hub of triangles, a path and a tree of triangles

A rotation system of the component is kept where V - E + F = 2 and, in each block, the choices at the locked nodes are those that
are wanted (embeddings.py has nodes and choices). The order: choices block after block, then lists at the cut vertices. Nothing here
uses how blocks are put together at a cut vertex; crossing blocks are four edges that alternate."""
import os
import random
import subprocess
import sys
from itertools import combinations, permutations, product

import embeddings
import head_of
from embeddings import from_least


class Component:
    """The component of a graph with this least vertex: its vertices, edges by number, blocks by number, cut vertices."""

    def __init__(self, vertices, pairs, start):
        inside, waiting = {start}, [start]
        for v in waiting:
            for a, b in pairs:
                for x, y in ((a, b), (b, a)):
                    if x == v and y not in inside:
                        inside.add(y)
                        waiting.append(y)
        self.vertices = sorted(inside)
        self.edges = {e: pair for e, pair in enumerate(pairs) if pair[0] in inside}
        self.at = {v: sorted(e for e, pair in self.edges.items() if v in pair) for v in self.vertices}
        every = head_of.blocks([(e, a, b) for e, (a, b) in enumerate(pairs)]) if pairs else []
        self.blocks = {n: block for n, block in enumerate(every) if block[0][0] in self.edges}
        self.block_of = {e: n for n, block in self.blocks.items() for e, _, _ in block}
        self.trees = {n: embeddings.Block(block) for n, block in self.blocks.items()}
        self.cuts = [v for v in self.vertices if len({self.block_of[e] for e in self.at[v]}) > 1]

    def is_plane(self, rotation):
        if not self.edges:
            return True
        return len(self.vertices) - len(self.edges) + len(embeddings.faces(self.edges, rotation)) == 2

    def part(self, n, rotation):
        """What a rotation system leaves of itself on block n."""
        mine = self.trees[n].edges
        return {v: from_least([e for e in rotation[v] if e in mine]) for v in self.trees[n].vertices}

    def choices(self, rotation):
        return {n: embeddings.choices(self.trees[n], self.part(n, rotation)) for n in self.blocks}

    def members(self):
        """All plane rotation systems in order, each with the choices of its blocks."""
        if not self.edges:
            return [({self.vertices[0]: ()}, {})]
        found = []
        for rotation in embeddings.all_rotations(self.at):
            if self.is_plane(rotation):
                found.append((rotation, self.choices(rotation)))
        return sorted(found, key=lambda m: ([m[1][n] for n in sorted(m[1])], [m[0][v] for v in self.cuts]))

    def keeps(self, member, present, locks):
        return all(member[1][n][k] == present[1][n][k] for n, k in locks)

    def refusal(self, rotation, v, edges):
        """Why these edges are no arrangement at v, beside the rotation system; None where they are one."""
        if sorted(edges) != self.at[v]:
            return f"bad {v}"
        here = sorted({self.block_of[e] for e in edges})
        for n in here:
            if from_least([e for e in edges if self.block_of[e] == n]) != from_least([e for e in rotation[v] if self.block_of[e] == n]):
                return f"order {n}"
        for b, c in combinations(here, 2):
            if any(self.block_of[w] == self.block_of[y] == b and self.block_of[x] == self.block_of[z] == c
                   for four in combinations(edges, 4) for w, x, y, z in (four, four[1:] + four[:1])):
                return f"cross {b} {c}"
        return None


def text(rotation):
    return "; ".join(f"{v}:" + "".join(f" {e}" for e in order) for v, order in sorted(rotation.items()))


ROWS = [
    ("two triangles and an edge in a chain", 7, "01 12 20 03 34 40 45"),
    ("a vertex without edges beside it", 7, "01 12 20 03 34 40 45"),
    ("K4 with a triangle on a vertex", 6, "01 02 03 12 13 23 04 45 50"),
    ("two triangles and an edge on one vertex", 6, "01 12 20 03 34 40 05"),
    ("two K4 on one vertex", 7, "01 02 03 12 13 23 04 05 06 45 46 56"),
    ("three triangles on one vertex", 7, "01 12 20 03 34 40 05 56 60"),
]


def pairs_of(words):
    return [(int(pair[0]), int(pair[1])) for pair in words.split()]


def rows():
    for i, (name, vertices, words) in enumerate(ROWS):
        component = Component(vertices, pairs_of(words), 6 if i == 1 else 0)
        members = component.members()
        print(f"{name}: {len(members)}, cut vertices {component.cuts}")
        for rotation, _ in members[:40]:
            print("  " + text(rotation))


# Random components, and the program on them.

SHAPES = [
    [(0, 1)],
    [(0, 1)],
    [(0, 1)] * 2,
    [(0, 1)] * 3,
    [(0, 1)] * 4,
    [(0, 1), (1, 2), (2, 0)],
    [(0, 1), (1, 2), (2, 0)],
    [(0, 1), (1, 2), (2, 0), (0, 1)],
    [(0, 1), (1, 2), (2, 3), (3, 0)],
    [(0, 1), (1, 2), (2, 3), (3, 0), (0, 2)],
    [(0, 1), (0, 2), (0, 3), (1, 2), (1, 3), (2, 3)],
    [(0, 2), (2, 1), (0, 3), (3, 1), (0, 4), (4, 1)],
]


def grown(chance, most):
    """Blocks of these shapes, each put on a vertex that is there, so that not too many rotation systems are to be tried."""
    pairs, count = [], 1
    for _ in range(chance.randint(1, 5)):
        shape = chance.choice(SHAPES)
        size = 1 + max(max(pair) for pair in shape)
        foot, here = chance.randrange(size), chance.randrange(count)
        name = {foot: here}
        for x in range(size):
            if x != foot:
                name[x] = count + len(name) - 1
        more = pairs + [(name[a], name[b]) for a, b in shape]
        degrees = {}
        for pair in more:
            for x in pair:
                degrees[x] = degrees.get(x, 0) + 1
        if embeddings.rotation_total({x: range(d) for x, d in degrees.items()}) > most:
            continue
        pairs, count = more, count + size - 1
    return count, pairs


def random_graph(chance):
    """Some components with their vertices and edges mixed."""
    vertices, pairs = 0, []
    for most in chance.choice(((6000,), (6000, 4), (6000, 50, 2), (1, 3000), (1, 1, 3000, 6))):
        count, more = (1, []) if most == 1 else grown(chance, most)
        pairs += [(vertices + a, vertices + b) for a, b in more]
        vertices += count
    names = list(range(vertices))
    chance.shuffle(names)
    pairs = [(names[a], names[b]) if chance.random() < 0.5 else (names[b], names[a]) for a, b in pairs]
    chance.shuffle(pairs)
    return vertices, pairs


class Calls:
    """The program, asked line by line."""

    def __init__(self, path):
        self.process = subprocess.Popen([path], stdin=subprocess.PIPE, stdout=subprocess.PIPE, text=True)

    def ask(self, line):
        self.process.stdin.write(line + "\n")
        self.process.stdin.flush()
        return self.process.stdout.readline().rstrip("\n")

    def nanoseconds(self):
        """The processor time of the program so far."""
        with open(f"/proc/{self.process.pid}/schedstat") as file:
            return int(file.read().split()[0])


class Script:
    """What the program is asked, and each line that it must answer with the place of its question."""

    def __init__(self):
        self.lines, self.wanted = [], []

    def ask(self, line, *answers):
        self.lines.append(line)
        self.wanted += [(answer, len(self.lines) - 1) for answer in answers]

    def listed(self, n, members):
        self.ask(f"list {n}", f"list {len(members)}", *map(shown, members))


def shown(member):
    return "whole " + text(member[0])


def graph_line(vertices, pairs):
    return f"graph {vertices}" + "".join(f" {a} {b}" for a, b in pairs)


def walk_all(script, members, i, chance):
    """From member i, where it stands, through all that follow: lists of some lengths, steps, and the end."""
    left = len(members) - 1 - i
    for n in sorted({0, 1, left + 1} | ({max(left - 1, 0), left, chance.randrange(left + 2)} if left < 100 else {chance.randrange(100)})):
        script.listed(n, members[i + 1:i + 1 + n])
    script.ask("whole", shown(members[i]))
    while i < len(members) - 1:
        if left < 100:
            script.ask("next", "ok")
            i += 1
        else:
            step = min(chance.randint(1, 1 + left // 20), len(members) - 1 - i)
            script.ask(f"walk {step}", f"walk {step}")
            i += step
        script.ask("whole", shown(members[i]))
    for _ in range(2):
        script.ask("next", "end")
        script.ask("whole", shown(members[-1]))
    script.listed(10000, [])


def turned(chance, order):
    cut = chance.randrange(len(order))
    return list(order[cut:]) + list(order[:cut])


def regroup(script, word, v, edges, answer):
    script.ask("edges " + " ".join(map(str, edges)), "edges")
    script.ask(f"{word} {v}", answer)


def go_to(script, component, line, number, members, wanted, locks):
    """Leads the blocks to the parts of a member, locks nodes, and makes the first arrangements."""
    script.ask(line, "graph")
    for n in component.blocks:
        own = sorted({m[1][n] for m in members})
        for _ in range(own.index(wanted[1][n])):
            script.ask(f"lead {n}", "ok")
    for n, k in locks:
        script.ask(f"lock {n} {k}", "ok")
    script.ask(f"component {number}", f"component {len(component.cuts)}")
    script.ask("whole", shown(next(m for m in members if m[1] == wanted[1])))


def try_lists(script, component, members, wanted, chance):
    """Wrong lists and right ones at each cut vertex; at the end the member stands there."""
    present = dict(next(m for m in members if m[1] == wanted[1])[0])
    told = []
    for v in component.cuts:
        here = component.at[v]
        for _ in range(4):
            edges = chance.choice((chance.sample(here, len(here)), here[:-1], here + here[:1], [chance.choice(here) for _ in here]))
            wrong = component.refusal(present, v, edges)
            regroup(script, chance.choice(("regroup", "set")), v, edges, wrong or "ok")
            told.append((wrong or "ok").split()[0])
            if wrong is None:
                present[v] = from_least(edges)
            script.ask("whole", "whole " + text(present))
        regroup(script, chance.choice(("regroup", "set")), v, turned(chance, wanted[0][v]), "ok")
        present[v] = wanted[0][v]
    for v in component.vertices:
        if v not in component.cuts:
            regroup(script, "regroup", v, component.at[v], "none")
    script.ask("whole", shown(wanted))
    return told


def compare(path, count, seed):
    chance = random.Random(seed)
    script = Script()
    done = total = cut = locked = longest = 0
    told = {}
    while cut < count:
        vertices, pairs = random_graph(chance)
        line = graph_line(vertices, pairs)
        seen, parts = set(), []
        for v in range(vertices):
            if v not in seen:
                parts.append(Component(vertices, pairs, v))
                seen |= set(parts[-1].vertices)
        for number, component in enumerate(parts):
            members = component.members()
            script.ask(line, "graph")
            script.ask(f"first {number}", f"component {len(component.cuts)}")
            script.ask(f"component {number}", f"component {len(component.cuts)}")
            walk_all(script, members, 0, chance)
            for _ in range(3):
                wanted = chance.choice(members)
                nodes = [(n, k) for n in component.blocks for k in range(len(component.trees[n].nodes))]
                locks = chance.sample(nodes, chance.randint(0, len(nodes)))
                go_to(script, component, line, number, members, wanted, locks)
                for word in try_lists(script, component, members, wanted, chance):
                    told[word] = told.get(word, 0) + 1
                kept = [m for m in members if component.keeps(m, wanted, locks)]
                walk_all(script, kept, kept.index(wanted), chance)
                locked += len({n for n, k in locks if component.trees[n].nodes[k].kind in "PR"}) > 1
            script.ask(f"component {len(parts)}", "none")
            done, total, cut, longest = done + 1, total + len(members), cut + bool(component.cuts), max(longest, len(members))
    run = subprocess.run([path], input="\n".join(script.lines) + "\n", stdout=subprocess.PIPE, text=True)
    found = run.stdout.splitlines()
    for i, (answer, question) in enumerate(script.wanted):
        if i == len(found) or found[i] != answer:
            graph = next(line for line in reversed(script.lines[:question + 1]) if line.startswith("graph"))
            sys.exit(f"WRONG: {graph}: {script.lines[question]} answers {found[i] if i < len(found) else None!r}, not {answer!r}")
    if len(found) != len(script.wanted) or run.returncode:
        sys.exit(f"WRONG: {len(found)} lines for {len(script.wanted)}, status {run.returncode}")
    print(f"{done} components, {cut} of them with cut vertices, {total} members, at most {longest} of one component, {locked} walks with locks at two blocks; "
          f"{len(found)} lines as they must be; lists at cut vertices: {told}")


# Memory.

# K4 with a triangle on a vertex. Each call that takes memory twice, so that it succeeds once where one allocation is refused.
SCRIPT = """graph 6 0 1 0 2 0 3 1 2 1 3 2 3 0 4 4 5 5 0
graph 6 0 1 0 2 0 3 1 2 1 3 2 3 0 4 4 5 5 0
component 0
whole
component 0
whole
count 100
list 4
whole
edges 1 2 0 8 6
regroup 0
whole
regroup 0
whole
list 4
edges 0 2 1 6 8
regroup 0
whole
regroup 0
whole
edges 8 1 6 2 0
regroup 0
whole
edges 6 8 1 2 0
set 0
whole
set 0
whole
next
whole
next
whole
list 3
first 0
whole""".split("\n")


def expected(command, state, component, members):
    """What a command answers, and the state after it: whether there is a graph, the present member, and the edges."""
    graph, i, edges = state
    word, *numbers = command.split()
    if word == "graph":
        return ["graph"], (True, None, edges)
    if word == "edges":
        return ["edges"], (graph, i, [int(e) for e in numbers])
    if word in ("component", "first"):
        if not graph:
            return ["none"], state
        return ["component 1"], (graph, 0, edges) if word == "component" else state
    if i is None:
        return ["none"], state
    if word == "whole":
        return [shown(members[i])], state
    if word in ("list", "count"):
        found = members[i + 1:i + 1 + int(numbers[0])]
        return [f"list {len(found)}"] + [shown(m) for m in found if word == "list"], state
    if word == "next":
        return (["ok"], (graph, i + 1, edges)) if i + 1 < len(members) else (["end"], state)
    wrong = component.refusal(members[i][0], 0, edges)
    if wrong:
        return [wrong], state
    changed = dict(members[i][0])
    changed[0] = from_least(edges)
    return ["ok"], (graph, [m[0] for m in members].index(changed), edges)


def refusing(path, shim, number, script):
    surroundings = dict(os.environ, LD_PRELOAD=shim, REFUSED=number)
    done = subprocess.run([path], input="\n".join(script) + "\n", capture_output=True, text=True, env=surroundings)
    return done.stdout.splitlines(), done.returncode, done.stderr


def refuse(path, shim):
    """Each allocation refused in turn, alone, and with all later ones: each answer is `memory` and nothing changed, or right. The
    program itself may end where it can't read a line."""
    numbers = [int(x) for x in SCRIPT[0].split()[2:]]
    component = Component(6, list(zip(numbers[::2], numbers[1::2])), 0)
    members = component.members()
    _, status, errors = refusing(path, shim, "0", SCRIPT)
    asked = int(errors.split()[-1])
    wrong = status != 0
    for mark in ("", "+"):
        missed = {}
        ended = 0
        for number in range(1, asked + 1):
            lines, status, errors = refusing(path, shim, f"{number}{mark}", SCRIPT)
            state, place = (False, None, []), 0
            for command in SCRIPT:
                if place == len(lines):
                    break
                if lines[place] == "memory":
                    missed[command.split()[0]] = missed.get(command.split()[0], 0) + 1
                    place += 1
                    continue
                answer, state = expected(command, state, component, members)
                if lines[place:place + len(answer)] != answer[:len(lines) - place]:
                    wrong += 1
                    print(f"allocation {number}{mark} refused: {command!r} answers {lines[place:place + len(answer)]}")
                    break
                place += len(answer)
            else:
                wrong += place != len(lines)
            ended += status != 0
            wrong += (status != 0) != ("OutOfMemory" in errors)
        print(f"{asked} allocations, each refused in turn{' with all later ones' if mark else ' alone'}: calls out of memory {missed}; the program ended {ended} times")
    steps = [int(refusing(path, shim, "0", SCRIPT + [f"walk {n}"])[2].split()[-1]) for n in (1, 7)]
    print(f"allocations of a run with 1 and with 7 further steps: {steps[0]}, {steps[1]}")
    sys.exit(wrong > 0 or steps[0] != steps[1])


# Times.


def hub(n):
    return 2 * n + 1, [pair for t in range(n) for pair in ((0, 2 * t + 1), (2 * t + 1, 2 * t + 2), (2 * t + 2, 0))]


def line(n):
    return n, [(v, v + 1) for v in range(n - 1)]


def triangle_tree(n):
    draw, pairs = random.Random(1), []
    for t in range(n):
        foot = draw.randrange(2 * t + 1)
        pairs += [(foot, 2 * t + 1), (2 * t + 1, 2 * t + 2), (2 * t + 2, foot)]
    return 2 * n + 1, pairs


def milliseconds(calls, question, wanted, times=5):
    best = None
    for _ in range(times):
        # what the last answer took is free again after another one
        calls.ask("walk 0")
        before = calls.nanoseconds()
        answer = calls.ask(question)
        took = (calls.nanoseconds() - before) / 1e6
        if wanted is not None and answer != wanted:
            sys.exit(f"WRONG: {question} answers {answer}, not {wanted}")
        best = took if best is None else min(best, took)
    return best


def times(path):
    """A row for each graph and call: milliseconds of the processor at half and at full size, the best of five or of one, and the growth."""
    print(f"{'graph':<12}{'call':<22}{'half':>10}{'full':>10}{'growth':>8}")
    for name, kind, sizes in (("hub", hub, (4999, 9999)), ("path", line, (10000, 20000)), ("cactus", triangle_tree, (4999, 9999))):
        rows = {}
        for size in sizes:
            vertices, pairs = kind(size)
            calls = Calls(path)
            calls.ask(graph_line(vertices, pairs))
            word, cuts = calls.ask("component 0").split()
            last = f"walk {0 if kind is line else 1000}"
            rows.setdefault("Cuts::first", []).append(milliseconds(calls, "first 0", f"component {cuts}"))
            rows.setdefault("whole", []).append(milliseconds(calls, "order", f"order {vertices}"))
            rows.setdefault("next_whole x 1000", []).append(milliseconds(calls, "walk 1000", last, 1))
            for n in (10, 100, 1000):
                rows.setdefault(f"list_after {n}", []).append(milliseconds(calls, f"count {n}", f"list {0 if kind is line else n}", 1))
            if kind is hub:
                at = calls.ask("component 0") and [e for e in range(3 * size) if e % 3 != 1]
                lists = {
                    "regroup accepted": (at[::-1], "ok"),
                    "regroup, first cross": ([at[0], at[2], at[1], at[3]] + at[4:], "cross 0 1"),
                    "regroup, last cross": (at[:-4] + [at[-4], at[-2], at[-3], at[-1]], f"cross {size - 2} {size - 1}"),
                }
                for what, (edges, answer) in lists.items():
                    calls.ask("edges " + " ".join(map(str, edges)))
                    rows.setdefault(what, []).append(milliseconds(calls, "regroup 0", answer))
            calls.process.stdin.close()
            calls.process.wait()
        for what, (half, full) in rows.items():
            print(f"{name:<12}{what:<22}{half:>10.2f}{full:>10.2f}{full / half:>8.2f}", flush=True)


def main():
    words = sys.argv[1:]
    if words == ["rows"]:
        rows()
    elif words[:1] == ["random"] and len(words) == 4:
        compare(words[1], int(words[2]), int(words[3]))
    elif words[:1] == ["refuse"] and len(words) == 3:
        refuse(words[1], os.path.abspath(words[2]))
    elif words[:1] == ["times"] and len(words) == 2:
        times(words[1])
    else:
        sys.exit(__doc__)


if __name__ == "__main__":
    main()
