#!/usr/bin/env python3
"""members.py PROGRAM: on each small block, each plane rotation system, found by trying all, is taken by `take`, and its rank is its place.

The blocks are all multigraph blocks of up to 4 vertices and 7 edges, in some orders of their edges. On each the program is asked for
the list after the first member, which must be the others in order; then each member is taken by `take`, from the last to the first,
and asked for its rank; and the moves that `convert` prints from the last to it must be those of the definition."""
import os
import random
import subprocess
import sys
import tempfile
from itertools import combinations, combinations_with_replacement

from embeddings import Block, full_list, is_block, moves_between, numbered, text_of


def wanted(block):
    """Script and answers for a block in the plane."""
    members = full_list(block)
    lines, answers = ["list 0 10000"], [f"list 0 {len(members) - 1}"]
    answers += [f"rotation 0 | {text_of(r)}" for r in members[1:]] + ["end"]
    for rank in reversed(range(len(members))):
        lines += [f"take 0 {text_of(members[rank])}", "rank 0"]
        answers += ["ok", f"rank {rank}"]
    for rank, member in enumerate(members):
        moves = moves_between(block, members[-1], member)
        lines += [f"goto 0 {len(members) - 1}", f"convert 0 to {text_of(member)}", "rank 0"]
        answers += ["ok", f"moves {len(moves)}"] + [" ".join([m[0], str(m[1])] + [str(key) for key in (m[2] if len(m) > 2 else ())]) for m in moves] + [f"rank {rank}"]
    return lines, answers, len(members)


def main():
    program, chance, blocks, taken, wrong = os.path.abspath(sys.argv[1]), random.Random(1), 0, 0, 0
    folder = tempfile.mkdtemp()
    for n in range(2, 5):
        places = list(combinations(range(n), 2))
        for m in range(1, 8):
            for pairs in combinations_with_replacement(places, m):
                if {x for pair in pairs for x in pair} != set(range(n)) or not is_block(numbered(pairs)):
                    continue
                orders = {pairs, tuple(reversed(pairs)), tuple(chance.sample(pairs, m))} if n > 2 else {pairs}
                for order in sorted(orders):
                    lines, answers, members = wanted(Block(numbered(order)))
                    with open(f"{folder}/g", "w") as file:
                        file.write("graph [" + "".join(f" node [ id {v} ]" for v in range(n)) + "".join(f" edge [ source {a} target {b} ]" for a, b in order) + " ]")
                    with open(f"{folder}/s", "w") as file:
                        file.write("\n".join(lines) + "\n")
                    printed = subprocess.run([program, "run", f"{folder}/g", f"{folder}/s"], stdout=subprocess.PIPE, check=True).stdout.decode().splitlines()
                    blocks, taken = blocks + 1, taken + members
                    if printed[-len(answers):] != answers:
                        wrong += 1
                        print("WRONG", order, [pair for pair in zip(printed[-len(answers):], answers) if pair[0] != pair[1]][:3])
    print(f"members: {blocks} blocks, {taken} plane rotation systems taken in, listed, ranked and led to; {wrong} blocks wrong")
    return 1 if wrong else 0


sys.exit(main())
