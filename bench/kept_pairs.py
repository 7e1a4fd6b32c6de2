#!/usr/bin/env python3
"""Counts the kept pairs of generated cells, apart from the program: kept_pairs.py

A cell has five by five points, and on each a metal joint, a poly joint, a diffusion contact or nothing, by its number.
For each of twelve cells and each axis it prints the edges, the size and the kept pairs of a first pass, which
crates/run_tests has typed in. It tries all pairs of items, and for each candidate all items between.
"""
import sys

# The spacing of two classes, in units of the grid, under the technology that comes with the program. Every node is a
# net of its own.
SPACING = {("M", "M"): 6, ("P", "P"): 4, ("Dc", "Dc"): 6, ("P", "Dm"): 2, ("Dm", "P"): 2, ("C", "C"): 4}
MARGIN = {"M": 6, "P": 4, "Dc": 6, "Dm": 2, "C": 4}
# The squares of a node, by class and half size.
METAL, POLY = [("M", 3)], [("P", 2)]
CONTACT = [("M", 4), ("C", 2), ("Dm", 4), ("Dc", 4)]
WIDEST = 6


def nodes_of(number):
    """The nodes of a cell: their squares, columns and rows."""
    nodes, bits = [], number
    for row in range(5):
        for col in range(5):
            bits = (bits * 1103515245 + 12345) % 2**32
            kind = bits >> 16 & 3
            if kind < 3:
                nodes.append(([METAL, POLY, CONTACT][kind], col, row))
    return nodes


def gap(a, b):
    return max(b[0] - a[1], a[0] - b[1], 0)


def first_pass(nodes, along, across):
    """The edges, the size and the kept pairs of a first pass; axes are 1 for x and 2 for y."""
    items = [(name, half, n) for n, node in enumerate(nodes) for name, half in node[0]]
    pitch = 2 * max(half for _, half, _ in items) + WIDEST

    def span(item, axis):
        centre = pitch * (nodes[item[2]][axis] + 1)
        return centre - item[1], centre + item[1]

    spacings = {}
    for i, a in enumerate(items):
        for j, b in enumerate(items):
            spacing = SPACING.get((a[0], b[0]))
            if a[2] == b[2] or spacing is None or gap(span(a, across), span(b, across)) >= spacing:
                continue
            if span(a, along)[1] + spacing <= span(b, along)[0]:
                spacings[i, j] = spacing
    kept = [
        (i, j)
        for (i, j), spacing in spacings.items()
        if not any(
            (i, k) in spacings and (k, j) in spacings and spacings[i, k] + 2 * between[1] + spacings[k, j] >= spacing
            for k, between in enumerate(items)
        )
    ]
    # The least places of the nodes.
    places = [max(MARGIN[name] + half for name, half in node[0]) for node in nodes]
    for _ in nodes:
        for i, j in kept:
            (_, half, a), (_, other, b) = items[i], items[j]
            places[b] = max(places[b], places[a] + half + spacings[i, j] + other)
    size = max(places[n] + half + MARGIN[name] for name, half, n in items)
    # One edge for the size, two margins an item, and the kept pairs.
    return 1 + 2 * len(items) + len(kept), size, len(kept)


if __name__ == "__main__":
    if sys.argv[1:2] in (["--help"], ["-h"]):
        print(__doc__.strip())
        sys.exit()
    for number in range(12):
        nodes = nodes_of(number)
        print(number, *first_pass(nodes, 1, 2), *first_pass(nodes, 2, 1))
