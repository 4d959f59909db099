#!/usr/bin/env python3
"""Counts the paths in crates.txt from a crate to all below it, as rt hashes sources along each of them. With no name it
tells gf_command's, and the edges without which they would be fewest."""
import functools
import pathlib
import sys

ROOT = pathlib.Path(__file__).resolve().parent.parent


def read_graph():
    """The crates of the repository that each of its crates names."""
    lines = [it.split(":") for it in (ROOT / "crates.txt").read_text().splitlines() if ":" in it]
    names = {name.split()[0] for name, _ in lines}
    return {name.split()[0]: [it for it in used.split() if it in names] for name, used in lines}


def count_paths(graph, top):
    """How many paths lead from the crate to one below it, or to itself."""

    @functools.cache
    def paths(crate):
        return 1 + sum(paths(it) for it in graph[crate])

    return paths(top)


def without(graph, crate, used):
    """The graph without one edge."""
    return {**graph, crate: [it for it in graph[crate] if it != used]}


if __name__ == "__main__":
    top = sys.argv[1] if len(sys.argv) > 1 else "gf_command"
    graph = read_graph()
    all_paths = count_paths(graph, top)
    print(f"{top}: {all_paths} paths")
    edges = [(count_paths(without(graph, crate, used), top), crate, used) for crate in graph for used in graph[crate]]
    for left, crate, used in sorted(edges)[:8]:
        print(f"{all_paths - left:6} by {crate} -> {used}")
