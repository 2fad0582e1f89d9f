"""Tests chart.py and partners.py: what has to be in their pictures, where arrows may not run, and the line for each mistake.

python3 docs/test_pictures.py    wants what tests/c/run and tests/scripts/run build
"""
import pathlib
import re
import shutil
import subprocess
import sys
import tempfile
import xml.etree.ElementTree

sys.dont_write_bytecode = True
import chart
import partners
import played

SVG = "{http://www.w3.org/2000/svg}"
EVENT = re.compile(r"line (\d+): .+")
ITEM = re.compile(r"(job|note|frame) of line (\d+), (\d+) to (\d+): (still under way|delivered in line (\d+))")

# The answers of a rehearsal; crowded, which takes 512 items, has a script of its own.
ANSWERS = {0, 3, 4, 7, 12, 16, 20, 21, 22, 23}
CROWDED = 15

# Scripts at the borders, beside those of the repository.
BORDERS = {"one_node": "nodes 1\ni 0\nb 0\n", "no event & <none>": "nodes 16\n",
           "far_ends": "nodes 16\ns 0 15\ns 15 0\ni 7\nb 7\nd 0 15\nd 15 0\n",
           "notes": "nodes 2\nt 0 0\nt 0 1\nt 0 1\ns 0 1\nd 0 1\ni 1\nd 0 1\nd 0 1\nt 1 0\ni 0\nt 0 1\nb 0\nd 1 0\n"}

# What the script "notes" says of its deliveries: a job makes a node busy, a note leaves it as it was.
NOTED = {6: "the note of line 3 reaches 1, which stays busy", 8: "the note of line 4 reaches 1, which stays idle",
         9: "the job of line 5 reaches 1, which is busy", 14: "the note of line 10 reaches 0, which stays idle"}

# What is handed to chart.py, and the line it ends with; the script's name stands for {}.
STOPS = [("nodes 2\ni 0\nx 0\n", "{} stops at line 3 (17, script): 'x 0'"),
         ("nodes 17\n", "{} stops at line 1 (1, board): 'nodes 17'"),
         ("", "{} stops at line 1 (17, script): ''"),
         ("nodes 2\ni 0", "{} stops at line 2 (17, script): 'i 0'"),
         ("nodes 2\n" + "i 0\n" * 1100, "{} is too long (17, script: 4,096 bytes are the most)")]


def hold(fact, words):
    if not fact:
        raise played.Trouble(words)


def groups(picture):
    """The titled groups of a picture by their titles, with their elements; it is well-formed XML."""
    found = [(g.findtext(f"{SVG}title"), list(g)[1:]) for g in xml.etree.ElementTree.fromstring(picture).iter(f"{SVG}g")]
    hold(len(found) == len(dict(found)), "two groups have one title")
    return dict(found)


def texts(elements):
    return [e.text for e in elements if e.tag == f"{SVG}text"]


def corners(steps):
    """The points that a path goes through or turns at."""
    found = []
    for letter, words in re.findall(r"([MLQVH])([-\d ]+)", steps):
        values = [int(word) for word in words.split()]
        if letter == "H":
            found.append((values[0], found[-1][1]))
        elif letter == "V":
            found.append((found[-1][0], values[0]))
        else:
            found += zip(values[::2], values[1::2])
    return found


def middle(element):
    """How far to the right the middle of a mark is."""
    if element.tag == f"{SVG}circle":
        return int(element.get("cx"))
    if element.tag == f"{SVG}rect":
        return int(element.get("x")) + int(element.get("width")) // 2
    places = [x for x, _ in corners(element.get("d"))]
    return (min(places) + max(places)) // 2


def distance(point, start, end):
    """How far a point is from a line that goes straight across or straight down, by its larger part."""
    parts = [max(min(a, b) - p, p - max(a, b), 0) for p, a, b in zip(point, start, end)]
    return max(parts)


# ---- Charts

def sent_items(path):
    """The items that a script sends, as the C player prints them: kind, line, ends."""
    found, line, script = [], 1, path.read_text(encoding="utf-8").splitlines()
    for printed in played.output("target/c/play", path.read_bytes(), "details")[1:]:
        words = printed.split()
        if words[0] == "clause":
            continue
        if printed.startswith("frame to "):
            receivers = printed[len("frame to "):].split(":")[0].split()
            found += [("frame", line, node, int(to)) for to in receivers]
            continue
        line, node = line + 1, int(words[0])
        if script[line - 1][0] in "st" and words[1] == "0":
            kind = "job" if script[line - 1][0] == "s" else "note"
            found.append((kind, line, node, int(script[line - 1].split()[2])))
    return found


def check_events(name, found, script, printed, columns):
    """Every event has its row, with the script, the answer and the position, and its mark on its node's line."""
    rows = {int(match[1]): found[title] for title in found if (match := EVENT.fullmatch(title))}
    hold(sorted(rows) == list(range(2, len(script) + 1)), f"{name}: not every event has a row")
    for line, elements in rows.items():
        node, answer, _, turn, dimension, flag, _ = printed[line - 1].split()
        number, text, at, words, position = texts(elements)
        stands = (number, text, at, words.split()[0], position)
        wanted = (str(line), script[line - 1], node, answer, f"({turn}, {dimension}, {flag})")
        hold(stands == wanted, f"{name}, line {line}: {stands} is not {wanted}")
        marks = [e for e in elements if e.tag != f"{SVG}text"]
        hold(len(marks) == 1 and middle(marks[0]) == columns[int(node)], f"{name}, line {line}: the mark is not at {node}")
    return {line: (columns[int(printed[line - 1].split()[0])], int(rows[line][0].get("y")) - 5) for line in rows}


def check_items(name, found, path, printed, places):
    """Every item has its arrow, from its sender to its receiver; it runs over no mark but those at its ends."""
    arrows = {match.groups(): found[title] for title in found if (match := ITEM.fullmatch(title))}
    items = [(kind, int(line), int(a), int(b)) for kind, line, a, b, _, _ in arrows]
    hold(sorted(items) == sorted(sent_items(path)), f"{name}: arrows and items differ")
    script = path.read_text(encoding="utf-8").splitlines()
    deliveries = [n for n, (text, line) in enumerate(zip(script, printed), 1)
                  if text[0] == "d" and line.split()[1] not in ("7", "16")]
    hold(sorted(int(key[5]) for key in arrows if key[5]) == deliveries, f"{name}: arrows and deliveries differ")
    for (kind, line, _, _, _, end), elements in arrows.items():
        hold(kind in ("frame", elements[0].get("class")), f"{name}: the {kind} of line {line} is not drawn as one")
        points = corners(elements[0].get("d"))
        ends = [int(at) for at in (line, end) if at]
        hold(points[0] == places[ends[0]], f"{name}: the item of line {line} starts elsewhere")
        hold(end is None or points[-1] == places[ends[1]], f"{name}: the item of line {line} ends elsewhere")
        near = [at for at, place in places.items() if at not in ends
                and any(distance(place, a, b) < 10 for a, b in zip(points, points[1:]))]
        hold(not near, f"{name}: the arrow of line {line} runs over the marks of lines {near}")


def check_chart(path, picture):
    """A script's picture has all of its events and items; gives the kinds of its events, and its answers."""
    script = path.read_text(encoding="utf-8").splitlines()
    printed = played.output("target/bin/rehearse", path.read_bytes())
    found = groups(picture)
    heads = xml.etree.ElementTree.fromstring(picture).iter(f"{SVG}text")
    columns = [int(e.get("x")) for e in heads if re.fullmatch(r"node \d+", e.text)]
    places = check_events(path.name, found, script, printed, columns)
    check_items(path.name, found, path, printed, places)
    return {text[0] for text in script[1:]}, {int(line.split()[1]) for line in printed[1:]}


def check_notes(path):
    """What a delivery did to its receiver is said from what was printed before and after it."""
    found = groups(chart.chart(path))
    for line, words in NOTED.items():
        hold(f"line {line}: {words}" in found, f"{path.name}, line {line}: not said: {words}")


def check_answers():
    """Every number of the header is drawn, the refusals with one mark; what no script is answered is put into a played one."""
    play = played.play(played.SCRIPTS / "every_answer")
    events = play.events
    at = next(i for i, e in enumerate(events) if e.item is not None)
    marks = {}
    for number, word in played.names().items():
        changed = events[:at] + [events[at]._replace(answer=number)] + events[at + 1:]
        found = groups(chart.draw(play._replace(events=changed), "an answer"))
        elements = next(found[title] for title in found if title.startswith(f"line {events[at].line}:"))
        wanted = "frame in" if number == 0 else word
        hold(re.fullmatch(rf"{number} .*{wanted}.*", texts(elements)[3]), f"{number}, {word} is not drawn")
        mark = next(e for e in elements if e.tag != f"{SVG}text")
        marks.setdefault(xml.etree.ElementTree.tostring(mark), set()).add(number)
    refused = set(range(1, 18)) - {7}
    hold(sorted(map(sorted, marks.values())) == sorted([[0, 20], [7], [21], [22], [23], [24], sorted(refused)]),
         f"answers with the same mark: {sorted(map(sorted, marks.values()))}")


# ---- Who talks to whom

def drawn_places(nodes, found):
    """What a picture says of each node, dimension by dimension: below the node, or in the node's row."""
    axis, other = ("x", "y") if nodes <= partners.DRAWN else ("y", "x")
    said = {}
    for node in range(nodes):
        at = next(e.get(axis) for e in found if e.text == str(node) and "strong" in e.get("class", ""))
        line = sorted((int(e.get(other)), e.text) for e in found if e.get(axis) == at)
        said[node] = " ".join(text for _, text in line)
    return said


def wanted_places(nodes, lines):
    """The same from the program's lines."""
    said = {}
    for node in range(nodes):
        words = [line.split(" ", 3)[3] for line in lines if line.split()[1] == str(node)]
        if nodes <= partners.DRAWN:
            said[node] = " ".join(f"{node} {word.replace(' and ', ' ')}" for word in words)
        else:
            cells = " ".join("alone" if word == "alone" else " ".join(re.findall(r"\d+", word)) for word in words)
            said[node] = f"{node} {cells} {node}"
    return said


def check_partners(nodes):
    """Every place is in the picture, and an arrow head for each frame that goes to a node, besides those of the legend."""
    lines = played.output("target/c/places", b"", str(nodes))[1:]
    tree = xml.etree.ElementTree.fromstring(partners.partners(nodes))
    if nodes == 1:
        return
    said, wanted = drawn_places(nodes, list(tree.iter(f"{SVG}text"))), wanted_places(nodes, lines)
    for node in range(nodes):
        hold(said[node] == wanted[node], f"a board of {nodes}: {said[node]!r} is not {wanted[node]!r}")
    heads = [e.get("marker-end") for e in tree.iter() if e.get("marker-end")]
    found = [sum("open" in head for head in heads), sum("open" not in head for head in heads)]
    neighbours, messengers = (sum(word in line for line in lines) for word in ("neighbour", "messenger"))
    each = 1 if nodes <= partners.DRAWN else 2  # the table has every arrow in both of its nodes' rows
    hold(found == [each * messengers + 1, each * neighbours + 2], f"a board of {nodes}: {found} open and other heads")


def check_boards():
    """The program boards and the library, through places, give the same partners."""
    lines = played.output("target/bin/boards")
    for nodes in (5, 6):
        hold(played.places_in(lines, nodes) == played.places(nodes), f"boards and places differ on a board of {nodes}")


# ---- The commands

def run(root, name, *words):
    command = [sys.executable, str(root / "docs" / f"{name}.py"), *words]
    return subprocess.run(command, stdout=subprocess.PIPE, stderr=subprocess.PIPE, check=False, encoding="utf-8")


def refuse(root, name, words, line):
    """A command ends with status 1 and one line, and draws nothing."""
    done = run(root, name, *words)
    hold((done.returncode, done.stdout, done.stderr) == (1, "", f"{line}\n"),
         f"{name} {words}: not status 1 and {line!r} but status {done.returncode} and {done.stderr!r}")


def check_mistakes(folder):
    """The line for each mistake."""
    refuse(played.ROOT, "chart", [], "python3 docs/chart.py SCRIPT > chart.svg")
    refuse(played.ROOT, "chart", ["no/such"], "chart: no/such: No such file or directory")
    refuse(played.ROOT, "chart", [str(folder)], f"chart: {folder}: Is a directory")
    for text, line in STOPS:
        (folder / "stops").write_text(text, encoding="utf-8")
        refuse(played.ROOT, "chart", [str(folder / "stops")], "chart: " + line.format(folder / "stops"))
    refuse(played.ROOT, "partners", [], "python3 docs/partners.py NODES > partners.svg")
    for words in ("0", "97", "-1", "5.0", "many", ""):
        refuse(played.ROOT, "partners", [words], f"partners: a board has 1 to 96 nodes, not {words!r}")


def check_not_built(folder):
    """The line for each program that is not built yet, in a copy of the repository without them."""
    (folder / "docs").mkdir()
    for path in [*played.ROOT.glob("docs/*.py"), played.ROOT / "include" / "ocb.h"]:
        copy = folder / path.relative_to(played.ROOT)
        copy.parent.mkdir(exist_ok=True)
        shutil.copy(path, copy)
    script = [str(played.SCRIPTS / "worked")]
    refuse(folder, "partners", ["5"], "partners: target/c/places is not built yet: bash tests/c/run builds it")
    refuse(folder, "chart", script, "chart: target/bin/rehearse is not built yet: python3 tests/make.py rehearse builds it")
    (folder / "target" / "bin").mkdir(parents=True)
    shutil.copy(played.ROOT / "target" / "bin" / "rehearse", folder / "target" / "bin")
    refuse(folder, "chart", script, "chart: target/c/play is not built yet: bash tests/c/run builds it")


def check_commands():
    """The commands write what the functions draw."""
    for name, word, drawn in (("chart", str(played.SCRIPTS / "every_answer"), chart.chart(played.SCRIPTS / "every_answer")),
                              ("partners", "17", partners.partners(17))):
        done = run(played.ROOT, name, word)
        hold((done.returncode, done.stdout, done.stderr) == (0, drawn, ""), f"{name} {word}: {done.stderr!r}")


def test(folder):
    for name, text in BORDERS.items():
        (folder / name).write_text(text, encoding="utf-8")
        check_chart(folder / name, chart.chart(folder / name))
    check_notes(folder / "notes")
    paths = sorted(path for path in played.SCRIPTS.iterdir() if path.is_file())
    met = {path.name: check_chart(path, chart.chart(path)) for path in paths}
    hold(met["every_answer"] == (set("sibd"), ANSWERS), f"scripts/every_answer has {met['every_answer']}")
    hold(set().union(*(letters for letters, _ in met.values())) == set("stibd"), "the scripts have not every letter of a line")
    hold(CROWDED in met["crowded"][1], f"scripts/crowded is not answered {CROWDED}")
    check_answers()
    sizes = [*range(1, 19), 64, 65, 95, 96]
    for nodes in sizes:
        check_partners(nodes)
    check_boards()
    check_commands()
    check_mistakes(folder)
    check_not_built(folder)
    print(f"pictures: {len(met) + len(BORDERS)} scripts and {len(sizes)} boards drawn")


if __name__ == "__main__":
    try:
        with tempfile.TemporaryDirectory() as made:
            test(pathlib.Path(made))
    except played.Trouble as trouble:
        sys.exit(f"pictures: {trouble}")
