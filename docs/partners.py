#!/usr/bin/env python3
"""Draws who talks to whom on a board of 1 to 96 nodes.

python3 docs/partners.py NODES > partners.svg

A board of up to 16 nodes is drawn with arrows, a larger one as a table with a row for each node.
"""
import sys

sys.dont_write_bytecode = True
import played
import svg

DRAWN = 16  # nodes of the largest board that is drawn with arrows
COLUMN = 130  # width of a node's column there
CELL, ROW = 156, 24  # a cell of the table
PART, STRIP = 32, 34  # rows between two lines of column heads, and the height of such a line


# ---- The tree

def run_words(run):
    return f"node {run[0]}" if len(run) == 1 else f"{run[0]} to {run[-1]}"


def tree(nodes):
    """The runs of a board, the root on top, a column for each node."""
    rows = played.runs(played.places(nodes))
    column, height, left = 110, 70, 130
    top = len(rows) - 1
    parts = []
    for k, row in enumerate(rows):
        y = 50 + (top - k) * height
        parts.append(svg.text(16, y + 26, f"dimension {k}", "strong"))
        for run in row:
            x, width = left + run[0] * column, len(run) * column
            if k < top:
                above = next(r for r in rows[k + 1] if run[0] in r)
                parent = left + (above[0] + above[-1] + 1) * column // 2
                parts.append(svg.line(parent, y - height + 40, x + width // 2, y, "edge"))
            parts.append(svg.box(x + 6, y, width - 12, 40, "box", 6))
            parts.append(svg.text(x + width // 2, y + 25, run_words(run), "middle"))
    title = f"The tree of a board of {nodes}"
    return svg.picture(title, left + nodes * column + 20, 50 + len(rows) * height, parts)


# ---- Legend

def both_ways(x1, x2, y):
    """A frame each way: one line, with a head at either end."""
    return svg.line(x1, y, x2, y, "first", "firstbare") + svg.line(x2, y, x1, y, "first", "firstbare")


def legend(y):
    entries = [(both_ways(18, 70, y), "neighbours: each sends its frame to the other, in pass 2 as in pass 1"),
               (svg.line(72, y + 22, 18, y + 22, "first", "firstopenbare"),
                "a messenger sends the same frame to the hermit beside it, which sends none"),
               (svg.box(16, y + 36, 56, 16, "box", 6), "a run: nodes whose counts are together before the step")]
    return [part for i, (drawn, words) in enumerate(entries) for part in (drawn, svg.text(84, y + 22 * i + 5, words))]


# ---- Small boards: arrows

def arc(x1, x2, y, height):
    """A frame each way between two neighbours: one curve, drawn from either end with a head."""
    middle = (x1 + x2) // 2
    return [svg.path(f"M{a} {y}Q{middle} {y - height} {b} {y}", "first", "firstnode") for a, b in ((x1, x2), (x2, x1))]


def place_words(place):
    return place.words.replace("hermit, ", "hermit,\n").replace(" and ", "\n").split("\n")


def partners_in(board, row, k, x_of, y):
    """One dimension: runs as boxes, nodes, an arc for each pair of neighbours, an arrow with an open head to each hermit."""
    parts = [svg.box(x_of(run[0]) - 52, y - 26, (run[-1] - run[0]) * COLUMN + 104, 52, "box", 10) for run in row]
    arcs, hermits, nodes = [], [], []
    for a in sorted(a for a, dimension in board if dimension == k):
        place = board[a, k]
        if place.kind in ("neighbour", "messenger") and a < place.awaited:
            arcs += arc(x_of(a), x_of(place.awaited), y, 30 + 32 * (place.awaited - a))
        if place.hermit is not None:
            hermits.append(svg.line(x_of(a), y, x_of(place.hermit), y, "first", "firstopennode"))
        nodes += [svg.circle(x_of(a), y, 15, "node"), svg.text(x_of(a), y + 5, a, "strong", "middle")]
        nodes += [svg.text(x_of(a), y + 46 + 17 * i, words, "middle") for i, words in enumerate(place_words(place))]
    return parts + arcs + hermits + nodes


def with_arrows(board, nodes):
    """The dimensions of a board from the first step down, and in each who talks to whom."""
    rows = played.runs(board)
    parts, y = legend(56), 120
    for k in range(played.dimensions(board)):
        spans = [p.awaited - a for (a, d), p in sorted(board.items()) if d == k and p.awaited is not None]
        y += 30 + 16 * max(spans) + 15
        parts += [svg.text(16, y + 5, f"dimension {k}", "strong")]
        parts += partners_in(board, rows[k], k, lambda a: 170 + COLUMN * a, y)
        y += 100
    return parts, max(620, COLUMN * nodes + 120), y


# ---- Large boards: a table

def cell(place, x, y):
    """A node's partners in a dimension, each with its arrow: from the node, which is at the left of it, and to the node."""
    if place.awaited is None:
        return [svg.text(x + 10, y + 5, "alone")]
    if place.kind == "hermit":
        return [svg.line(x + 44, y, x + 9, y, "first", "firstopenbare"), svg.text(x + 50, y + 5, place.awaited)]
    parts = [both_ways(x + 9, x + 43, y), svg.text(x + 50, y + 5, place.awaited)]
    if place.hermit is not None:
        parts += [svg.line(x + 80, y, x + 110, y, "first", "firstopenbare"), svg.text(x + 118, y + 5, place.hermit)]
    return parts


def as_table(board, nodes):
    """A row for each node, a column for each dimension, and a box around the cells of each run."""
    count = played.dimensions(board)
    width, top = 140 + count * CELL, 170

    def y_of(node):
        return top + node * ROW + node // PART * STRIP

    def x_of(k):
        return 70 + k * CELL

    parts = legend(56)
    for k, row in enumerate(played.runs(board)[:count]):
        parts += [svg.box(x_of(k), y_of(run[0]) - 11, CELL - 10, y_of(run[-1]) - y_of(run[0]) + 22, "box", 5) for run in row]
    for node in range(nodes):
        y = y_of(node)
        if node % 2:
            parts.append(svg.box(0, y - ROW // 2, width, ROW, "stripe"))
        if node % PART == 0:
            parts += [svg.text(16, y - 20, "node", "strong")]
            parts += [svg.text(x_of(k) + 12, y - 20, f"dimension {k}", "strong") for k in range(count)]
        parts += [svg.text(16, y + 5, node, "strong"), svg.text(x_of(count) + 12, y + 5, node, "strong")]
        parts += [part for k in range(count) for part in cell(board[node, k], x_of(k), y)]
    return parts, width, y_of(nodes - 1) + 26


# ---- Any board

def partners(nodes):
    board = played.places(nodes)
    title = f"Who talks to whom on a board of {nodes}"
    if not board:
        return svg.picture(title, 620, 80, [svg.text(16, 60, "A board of one node has no partners and no dimensions.")])
    parts, width, height = (with_arrows if nodes <= DRAWN else as_table)(board, nodes)
    return svg.picture(title, width, height, parts)


def partners_of(words):
    most = played.header()["OCB_NODES"]
    if not (words.isascii() and words.isdecimal() and 1 <= int(words) <= most):
        raise played.Trouble(f"a board has 1 to {most} nodes, not {ascii(words)}")
    return partners(int(words))


if __name__ == "__main__":
    svg.command("partners", "NODES", partners_of)
