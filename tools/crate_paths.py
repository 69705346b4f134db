#!/usr/bin/env python3
"""Counts the paths of crates.txt: `rt` walks them all several times before it proves anything, so each name that a line can lose counts.

usage: crate_paths.py             prints how many paths there are, and the edges that cost most: those which another crate's re-export could spare
       crate_paths.py --most N    exits 1 where there are more than N"""
import sys

from reached_paths import listed


def paths_from(edges):
    """How many paths begin at each crate, itself among them."""
    found = {}

    def count(crate):
        if crate not in found:
            found[crate] = 1 + sum(count(it) for it in edges[crate])
        return found[crate]

    for crate in edges:
        count(crate)
    return found


def paths_to(edges):
    """How many paths end at each crate, itself among them."""
    above = {crate: [it for it in edges if crate in edges[it]] for crate in edges}
    return paths_from(above)


def reached_from(edges):
    """What stands below each crate, itself among it."""
    found = {}

    def reach(crate):
        if crate not in found:
            found[crate] = {crate}.union(*(reach(it) for it in edges[crate]))
        return found[crate]

    for crate in edges:
        reach(crate)
    return found


def main():
    named = listed()
    edges = {crate: [it for it in uses if it in named] for crate, uses in named.items()}
    down = paths_from(edges)
    paths = sum(down.values())
    if sys.argv[1:2] == ["--most"] and len(sys.argv) == 3:
        if paths > int(sys.argv[2]):
            sys.exit(f"crates.txt has {paths:,} paths, and at most {int(sys.argv[2]):,} are wanted: tools/crate_paths.py lists the edges that cost most")
        return
    if sys.argv[1:]:
        sys.exit(__doc__)
    up, reached = paths_to(edges), reached_from(edges)
    print(f"{len(edges)} crates, {sum(map(len, edges.values())):,} edges, {paths:,} paths")
    costs = [
        (up[crate] * down[it], crate, it)
        for crate in edges
        for it in edges[crate]
        if any(it in reached[other] for other in edges[crate] if other != it)
    ]
    for cost, crate, it in sorted(costs, reverse=True)[:20]:
        print(f"{cost:>12,}  {crate}: {it}")


if __name__ == "__main__":
    main()
