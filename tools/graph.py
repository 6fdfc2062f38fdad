#!/usr/bin/env python3
"""What crates.txt names that a crate's files don't, and how many ways lead down from each crate.

`rt ci` walks the ways below a crate each time it asks what is below it, without remembering where it has been: a name too many in a
line doubles the ways of every crate above.

    tools/graph.py          libraries that a crate's line names and its files don't; exit status 1 if there is one
    tools/graph.py --ways   also the number of ways below each crate, the most first
ROOT in the environment is another copy of the repository to look at.
"""
import functools
import os
import re
import sys

ROOT = os.environ.get("ROOT", os.path.dirname(os.path.dirname(os.path.abspath(__file__))))


def lines():
    with open(f"{ROOT}/crates.txt", encoding="utf-8") as it:
        rows = [row.split(":", 1) for row in it if ":" in row and not row.startswith("#")]
    return {name: named.split() for name, named in rows}


def words(crate):
    """Returns the words of the files that a check of the crate reads."""
    found = set()
    for part in ("src", "specs", "proofs"):
        for at, _, names in os.walk(f"{ROOT}/crates/{crate}/{part}"):
            for name in names:
                with open(f"{at}/{name}", encoding="utf-8") as it:
                    found |= set(re.findall(r"\w+", it.read()))
    return found


def main():
    graph = lines()

    @functools.lru_cache(maxsize=None)
    def ways(crate):
        return 1 + sum(ways(it) for it in graph[crate] if it in graph)

    many = []
    for crate, named in graph.items():
        known = words(crate)
        many += [(crate, it) for it in named if it not in known]
    for crate, it in many:
        print(f"{crate} doesn't name {it}")
    if "--ways" in sys.argv:
        for crate in sorted(graph, key=lambda it: -ways(it)):
            print(f"{ways(crate):>12,} {crate}")
    return 1 if many else 0


if __name__ == "__main__":
    sys.exit(main())
