#!/usr/bin/env python3
"""below.py NAME..: these crates and all crates of the repository that they depend on, by crates.txt, one a line."""
import sys

named = {}
with open("crates.txt", encoding="utf-8") as lines:
    for line in lines:
        if ":" in line and not line.startswith("#"):
            name, below = line.split(":")
            named[name.strip()] = below.split()

found = set()
left = sys.argv[1:]
while left:
    name = left.pop()
    if name in named and name not in found:
        found.add(name)
        left.extend(named[name])
print("\n".join(sorted(found)))
