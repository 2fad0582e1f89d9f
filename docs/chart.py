#!/usr/bin/env python3
"""Draws a script as it is played: time goes down, a row for each event.

python3 docs/chart.py SCRIPT > chart.svg

An arrow leaves its sender's row, goes down beside the sender's line while its item is under way, and crosses to the receiver in
the row of the delivery. No other node has a mark in that row, so no arrow runs over another node's mark.
"""
import pathlib
import sys
from collections import namedtuple

sys.dont_write_bytecode = True
import played
import svg
import wording

ROW = 20  # height of an event's row
PART = 40  # rows between two lines of node numbers
STRIP = 26  # height of such a line
LEFT = 110  # width of the script's column
RIGHT = 370  # width of the answers' column
ENTRY = 285  # width of a legend's entry
SLOT = 9  # distance of arrows that go down side by side
SLOTS = 24  # so many go down side by side; any more share
NEAR, FAR = 28, 36  # distance of a slot from its sender's line, and from the receiver's, where the arrow head is

# An item's way through the rows shown: where it is sent and where it is delivered, None where that is not shown.
Way = namedtuple("Way", "item sent reached")

# Where things are: the lines shown, the places of nodes from left to right, where the rows begin, and the whole width.
Layout = namedtuple("Layout", "first last nodes top width")


# ---- Where things are

def y_of(layout, line):
    row = line - layout.first
    return layout.top + ROW // 2 + row * ROW + row // PART * STRIP


def bottom(layout):
    return y_of(layout, layout.last) + ROW // 2 + 6


def ways(shown, events, under_way):
    """The items that are sent or delivered in the rows shown."""
    lines = {e.line for e in shown}
    reached = {(e.item.line, e.item.target): e.line for e in events if e.item is not None and e.answer != 7}
    items = [e.item for e in events if e.item is not None and e.answer != 7] + under_way
    found = []
    for item in sorted(items, key=lambda i: (i.line, i.target)):
        end = reached.get((item.line, item.target))
        if item.line in lines or end in lines:
            found.append(Way(item, item.line if item.line in lines else None, end if end in lines else None))
    return found


def side(item):
    return 1 if item.target > item.source else -1


def slots(all_ways, first):
    """The slot of each way, and how many there are by node and side. Ways in one slot are under way one after the other."""
    taken, found = {}, []
    for way in all_ways:
        start = first - 1 if way.sent is None else way.sent
        end = start if way.reached is None else way.reached
        ends = taken.setdefault((way.item.source, side(way.item)), [])
        free = next((i for i, last in enumerate(ends) if last < start), len(ends))
        ends[free:free + 1] = [end]
        found.append(free % SLOTS)
    return found, {key: min(len(ends), SLOTS) for key, ends in taken.items()}


def gap(counts, left, least):
    """The distance of a node's line from the next one's: room for the slots of both."""
    right_going, left_going = (counts.get(key, 0) for key in ((left, 1), (left + 1, -1)))
    return max(least, 2 * NEAR + SLOT * (right_going + left_going), NEAR + FAR + SLOT * max(right_going, left_going))


def node_places(nodes, counts):
    """How far to the right each node's line is, and where the answers' column begins."""
    least = max(80, 400 // nodes)
    found = [LEFT + least // 2]
    for left in range(nodes - 1):
        found.append(found[-1] + gap(counts, left, least))
    return found, found[-1] + least // 2


# ---- Lines, arrows and marks

def lanes(layout, shown, events):
    """A line for each node, thick while it is busy."""
    parts = []
    for node, x in enumerate(layout.nodes):
        earlier = [e for e in events if e.node == node and e.line < layout.first]
        busy, y = (earlier[-1].busy if earlier else 1), layout.top - 8
        turns = [(e.busy, y_of(layout, e.line)) for e in shown if e.node == node] + [(None, bottom(layout))]
        for now, at in turns:
            if now != busy:
                parts.append(svg.line(x, y, x, at, "busy" if busy else "idle"))
                busy, y = now, at
    return parts


def stroke(item):
    """The classes of an item's stroke, and the name of its arrow head: an open one where it is a frame to the hermit."""
    if item.frame is None:
        return item.kind, item.kind + "mark"
    name = "first" if item.frame.data[0] == 1 else "second"
    hermit = item.target in item.frame.receivers[1:]
    return name + (" again" if item.frame.before else ""), name + ("openmark" if hermit else "mark")


def way_words(way):
    item = way.item
    end = "still under way" if way.reached is None else f"delivered in line {way.reached}"
    return f"{wording.item(item)}, {item.source} to {item.target}: {end}"


def arrow(layout, way, slot):
    """The arrow of an item that is delivered; of one that is still under way its beginning, with a ring at the end."""
    style, head = stroke(way.item)
    out = side(way.item)
    x, to = layout.nodes[way.item.source], layout.nodes[way.item.target]
    down = x + out * (NEAR + SLOT * slot)
    if way.sent is None:
        start = f"M{down} {layout.top - 8}"
    else:
        y = y_of(layout, way.sent)
        start = f"M{x} {y}Q{down} {y} {down} {y + 9}"
    if way.reached is None:
        return svg.group(way_words(way), svg.path(start, style), svg.circle(down, y + 9, 3, style + " ring"))
    end = y_of(layout, way.reached)
    return svg.group(way_words(way), svg.path(f"{start}V{end - 9}Q{down} {end} {down + out * 9} {end}H{to}", style, head))


def mark_kind(events, at):
    """Which mark an event has."""
    answer = events[at].answer
    if answer in (7, 21, 22, 23, 24):
        return {7: "early", 21: "waits", 22: "moves on", 23: "leaves", 24: "dropped"}[answer]
    if answer in (0, 20):
        return "falls back" if played.fell_back(events, at) else "done"
    return "refused"


def mark(kind, x, y):
    return {
        "done": svg.circle(x, y, 5, "mark"),
        "waits": svg.circle(x, y, 5, "mark hollow"),
        "moves on": svg.path(f"M{x - 6} {y - 4}H{x + 6}L{x} {y + 6}z", "mark"),
        "falls back": svg.path(f"M{x - 6} {y + 4}H{x + 6}L{x} {y - 6}z", "mark"),
        "leaves": svg.box(x - 14, y - 3, 28, 6, "mark"),
        "early": svg.path(f"M{x - 7} {y}L{x} {y - 7}L{x + 7} {y}L{x} {y + 7}z", "mark hollow"),
        "dropped": svg.box(x - 5, y - 5, 10, 10, "mark hollow"),
        "refused": svg.path(f"M{x - 6} {y - 6}L{x + 6} {y + 6}M{x - 6} {y + 6}L{x + 6} {y - 6}", "cross"),
    }[kind]


# ---- Columns, heads and legend

def row(layout, events, at):
    """An event's row: the script at the left, the mark, and what was printed at the right."""
    event = events[at]
    y, x = y_of(layout, event.line), layout.width - RIGHT
    strong = ("strong",) if event.frame is not None and event.frame.before else ()
    turn, dimension = event.step
    parts = [svg.text(12, y + 5, event.line, "mono"), svg.text(48, y + 5, event.text, "mono"),
             mark(mark_kind(events, at), layout.nodes[event.node], y),
             svg.text(x + 28, y + 5, event.node, "mono", *strong),
             svg.text(x + 68, y + 5, wording.short(events, at), *strong),
             svg.text(x + 232, y + 5, f"({turn}, {dimension}, {event.flag})", "mono")]
    return svg.group(f"line {event.line}: {wording.event(events, at).replace('**', '')}", *parts)


def bands(layout):
    """Every second row shaded, and a line of node numbers after every part."""
    parts = []
    for line in range(layout.first, layout.last + 1):
        y = y_of(layout, line)
        if line % 2 == 0:
            parts.append(svg.box(0, y - ROW // 2, layout.width, ROW, "band"))
        if line > layout.first and (line - layout.first) % PART == 0:
            parts += [svg.text(x + 7, y - ROW // 2 - 8, node, "strong") for node, x in enumerate(layout.nodes)]
    return parts


def titles(layout):
    x, y = layout.width - RIGHT, layout.top - 18
    columns = [(12, "line"), (48, "script"), (x + 16, "node"), (x + 68, "answer"), (x + 232, "pass, dim, flag")]
    found = [svg.text(at, y, title, "strong") for at, title in columns]
    return found + [svg.text(at, y, f"node {node}", "strong", "middle") for node, at in enumerate(layout.nodes)]


def legend_entries():
    """What each stroke and each mark is: a drawing about a place, and words."""
    def sample(name, head=""):
        return lambda x, y: svg.line(x - 22, y, x + 22, y, name, head)

    def shape(kind):
        return lambda x, y: mark(kind, x, y)

    def open_end(x, y):
        return svg.line(x - 22, y, x + 16, y, "first") + svg.circle(x + 19, y, 3, "first ring")

    return [
        (sample("job", "jobbare"), "job"), (sample("note", "notebare"), "note"),
        (sample("first", "firstbare"), "frame of pass 1"), (sample("second", "secondbare"), "frame of pass 2"),
        (sample("first again", "firstbare"), "frame sent again"),
        (sample("first", "firstopenbare"), "messenger's frame to the hermit"), (open_end, "still under way at the end"),
        (sample("busy"), "node is busy"), (sample("idle"), "node is idle"),
        (shape("done"), "done, or frame sent"), (shape("waits"), "waits"),
        (shape("moves on"), "moves on"), (shape("falls back"), "falls back"),
        (shape("leaves"), "leaves the cycle"), (shape("early"), "early: stays on its link"),
        (shape("dropped"), "late: dropped"), (shape("refused"), "refused: nothing changes"),
    ]


def legend(y, width):
    """The legend, in as many columns as fit, and where it ends."""
    entries = legend_entries()
    rows = -(-len(entries) // ((width - 12) // ENTRY))
    parts = []
    for at, (draw, meaning) in enumerate(entries):
        x, place = 12 + at // rows * ENTRY, y + at % rows * 22
        parts += [draw(x + 24, place), svg.text(x + 56, place + 5, meaning)]
    return parts, y + rows * 22


# ---- The chart

def draw(play, title, first=2, last=10 ** 6):
    """The chart of a played script, or of its lines from first to last."""
    size, events, under_way = play
    shown = [e for e in events if first <= e.line <= last]
    all_ways = ways(shown, events, under_way)
    placed, counts = slots(all_ways, first)
    nodes, right = node_places(size, counts)
    parts, y = legend(56, right + RIGHT)
    layout = Layout(first, shown[-1].line if shown else first, nodes, y + 40, right + RIGHT)
    parts += bands(layout) + titles(layout) + lanes(layout, shown, events)
    parts += [arrow(layout, way, slot) for way, slot in zip(all_ways, placed)]
    parts += [row(layout, events, at) for at, e in enumerate(events) if first <= e.line <= last]
    return svg.picture(title, layout.width, bottom(layout) + 14, parts)


def chart(path, title="", first=2, last=10 ** 6):
    """The chart of a script, or of its lines from first to last."""
    play = played.play(path)
    return draw(play, title or f"{pathlib.Path(path).name}, on a board of {play.size}", first, last)


if __name__ == "__main__":
    svg.command("chart", "SCRIPT", chart)
