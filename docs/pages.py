#!/usr/bin/env python3
"""Makes docs/pictures and the made parts of docs/BARRIER.md and docs/RECORDINGS.md from what the programs print today.

python3 docs/pages.py make     writes them
python3 docs/pages.py check    remakes them in memory and ends with status 1 at the first difference

A made part of a page stands between two comments, <!-- made: KIND WORDS --> and <!-- end -->; the function KIND
makes it. Wants what tests/c/run and tests/scripts/run build: target/bin, target/c and target/staticlib.
"""
import itertools
import re
import sys

sys.dont_write_bytecode = True
import played
import wording
from chart import chart
from partners import partners as partners_picture
from partners import tree

PAGE = played.ROOT / "docs" / "BARRIER.md"
RECORDINGS = played.ROOT / "docs" / "RECORDINGS.md"
COST = played.ROOT / "docs" / "COST.md"
PICTURES = played.ROOT / "docs" / "pictures"
# README's, written by tests/explorer/browser.mjs; fonts differ from machine to machine, so it is not made again to be compared
SCREENSHOT = PICTURES / "explorer_of_five.png"
MADE = re.compile(r"(<!-- made: ([^>]*) -->)(.*?)(<!-- end -->)", re.DOTALL)
NUMBERED = re.compile(r"^\| (\d+) \| `(OCB_\w+)` \| ([a-z ]+) \|", re.MULTILINE)
CODE_LIMIT = 32 * 1024  # bytes of code; a bound, since a compiler's next version moves the number itself
PATH = re.compile(r"`((?:crates|docs|include|scripts|tests)/[\w./]+)`")


def table(titles, rows):
    lines = [titles, ["---"] * len(titles), *rows]
    return "\n\n" + "".join("| " + " | ".join(str(cell) for cell in row) + " |\n" for row in lines) + "\n"


# ---- The made parts

def events_of(name):
    return played.play(played.SCRIPTS / name).events


def trace(name, first="1", last="999999", node=""):
    """The lines of a script with what they print and the same in words; of one node only where it is named."""
    events = events_of(name)
    rows = [(event.line, f"`{event.text}`", f"`{event.printed}`", wording.event(events, at))
            for at, event in enumerate(events)
            if int(first) <= event.line <= int(last) and node in ("", str(event.node))]
    return table(["Line", "Script", "Printed", "In words"], rows)


def partners(nodes):
    """Who talks to whom, a row for each node and a column for each dimension."""
    board = played.places(int(nodes))
    count = played.dimensions(board)
    rows = [[node] + [board[node, k].words for k in range(count)] for node in range(int(nodes))]
    return table(["Node"] + [f"Dimension {k}" for k in range(count)], rows)


def shells(nodes):
    """The shells of every node: in each dimension the run of the node that it awaits."""
    board = played.places(int(nodes))
    rows = played.runs(board)
    count = played.dimensions(board)

    def shell(node, k):
        awaited = board[node, k].awaited
        return "none" if awaited is None else wording.joined(next(run for run in rows[k] if awaited in run))

    cells = [[node] + [shell(node, k) for k in range(count)] for node in range(int(nodes))]
    return table(["Node"] + [f"Shell {k}" for k in range(count)], cells)


def frame(name, line):
    """The frame that a line of a script sends, byte by byte."""
    sent = {e.line: e.frame.data for e in events_of(name) if e.frame is not None}
    if int(line) not in sent:
        raise played.Trouble(f"docs/BARRIER.md: line {line} of scripts/{name} sends no frame")
    data = sent[int(line)]
    heads = ["pass", "phase", "dimension", "sender"]
    rows = [(i, f"`{data[i]:02x}`", heads[i], data[i]) for i in range(4)]
    rows += [(f"{at} to {at + 3}", f"`{data[at:at + 4].hex(' ')}`", words, value)
             for words, at, value in played.fields(data)]
    return table(["Bytes", "In hex", "Field", "Value"], rows)


def lengths(name):
    """How many bytes the frames of each step have."""
    frames = [e.frame.data for e in events_of(name) if e.frame is not None]
    found = sorted({(data[0], data[2], len(data)) for data in frames})
    return table(["Step", "Bytes"], [(wording.step(step), size) for *step, size in found])


def again(name):
    """The frames of a script that repeat a step, with the fields that have changed since the frame before."""
    events = events_of(name)
    sent = {e.line: e for e in events if e.frame is not None}
    rows = []
    for line, event in sorted(sent.items()):
        if event.frame.before:
            old, new = (played.fields(e.frame.data) for e in (sent[event.frame.before], event))
            changes = [f"{words}: {was} → {now}" for (words, _, was), (_, _, now) in zip(old, new) if was != now]
            ends = f"{event.node} to {wording.joined(event.frame.receivers)}"
            rows.append((event.frame.before, line, ends, wording.step(event.step), ", ".join(changes)))
    return table(["Sent first in line", "Again in line", "From, to", "Step", "What has changed in it"], rows)


def waits(*names):
    """The waits of scripts: who waits where for whom, and the clause that is named."""
    rows = []
    for name in names:
        game = played.play(played.SCRIPTS / name)
        board = played.places(game.size)
        rows += [(f"`scripts/{name}`", e.line, e.node, wording.step(e.step), board[e.node, e.step[1]].awaited, e.clause)
                 for e in game.events if e.answer == 21]
    return table(["Script", "Line", "Node", "Waits in", "Awaits", "Clause"], rows)


def phases():
    """The program boards' lines about phase bytes."""
    lines = [line for line in played.output("target/bin/boards") if line.startswith("node in phase")]
    return "\n\n```\n" + "".join(line + "\n" for line in lines) + "```\n\n"


def frames_of(name):
    """How many frames a script puts on links, and their bytes; a frame to two receivers counts twice."""
    frames = [e.frame for e in events_of(name) if e.frame is not None]
    return (sum(len(f.receivers) for f in frames), sum(len(f.receivers) * len(f.data) for f in frames))


def costs():
    """What the barrier costs."""
    numbers = played.header()
    boards, longest = (5, numbers["OCB_NODES"]), numbers["OCB_FRAME_BYTES"]
    rows = [(f"state of a node, on a board of {nodes}", f"{words} words of 4 bytes: {4 * words} bytes")
            for nodes, words in zip(boards, played.state_words(boards))]
    rows += [("buffer for a frame", f"{longest} bytes, the longest frame of any board"),
             ("stack of a call, on a Cortex-M0", f"at most {numbers['OCB_STACK_BYTES']} bytes (`OCB_STACK_BYTES`)"),
             ("code of the C library, on x86-64", f"less than {CODE_LIMIT // 1024} KB")]
    if played.code_size() >= CODE_LIMIT:
        raise played.Trouble(f"docs/BARRIER.md: the C library has {played.code_size()} bytes of code")
    cycles = [("worked", "without messages"), ("empty_cycle_of_five", "without messages"),
              ("rollback_of_five", "with one job, which comes late")]
    for name, words in cycles:
        count, size = frames_of(name)
        rows.append((f"a cycle {words}, on a board of {played.play(played.SCRIPTS / name).size} (`scripts/{name}`)",
                     f"{count} frames on links, {size} bytes"))
    for nodes in (5, 6):
        awaiting = sum(place.awaited is not None for place in played.places(nodes).values())
        words = f"a cycle without messages, by the partners of a board of {nodes}: {awaiting} frames are awaited in a pass"
        rows.append((words, f"{2 * awaiting} frames on links"))
    return table(["What", "How much"], rows)


# ---- The made parts on recordings

def recorded(name):
    """The recording of a script."""
    return played.written("target/bin/record", played.read(played.SCRIPTS / name))


def two(data, at):
    return int.from_bytes(data[at:at + 2], "little")


def recording(name):
    """The recording of a script, byte by byte: its head, its table and its events with the lines that say the same."""
    data = recorded(name)
    rows = [(0, f"`{data[0]:02x}`", f"{data[0]} nodes"), (1, f"`{data[1]:02x}`", wording.count(data[1], "section"))]
    for at in range(2, 2 + 4 * data[1], 4):
        words = f"its body begins at {two(data, at)} and has {wording.count(two(data, at + 2), 'event')}"
        rows.append((f"{at} to {at + 3}", f"`{data[at:at + 4].hex(' ')}`", words))
    events = events_of(name)
    for at, event in zip(range(2 + 4 * data[1], len(data), 4), events, strict=True):
        if data[at + 3] != event.answer:
            raise played.Trouble(f"docs/RECORDINGS.md: the recording of scripts/{name} has another answer at byte {at + 3}")
        words = f"`{event.text}`, answered {event.answer} {played.names()[event.answer]}"
        rows.append((f"{at} to {at + 3}", f"`{data[at:at + 4].hex(' ')}`", words))
    return table(["Bytes", "In hex", "What"], rows)


def replays():
    """What replay prints for the recording of every script."""
    rows = []
    for path in sorted(path for path in played.SCRIPTS.iterdir() if path.is_file()):
        data = recorded(path.name)
        rows.append((f"`scripts/{path.name}`", len(data), f"`{played.output('target/bin/replay', data)[0]}`"))
    return table(["Script", "Bytes of its recording", "`replay` prints"], rows)


def limits():
    """The limits of a recording, by its header."""
    numbers = played.header("ocb_recording.h")
    rows = [("nodes of the board", f"1 to {numbers['OCB_RECORDING_NODES']} (`OCB_RECORDING_NODES`)"),
            ("sections", f"1 to {numbers['OCB_SECTIONS']} (`OCB_SECTIONS`)"),
            ("bytes in all", f"at most {numbers['OCB_RECORDING_LONGEST']:,} (`OCB_RECORDING_LONGEST`)")]
    return table(["What", "How many"], rows)


KINDS = {kind.__name__: kind for kind in (trace, partners, shells, frame, lengths, again, waits, phases, costs, recording,
                                          replays, limits)}


# ---- The page

def remade(match):
    kind, *words = match[2].split()
    if kind not in KINDS:
        raise played.Trouble(f"no made part is called '{kind}'")
    return match[1] + KINDS[kind](*words) + match[4]


def page(path):
    """A page with its made parts made anew."""
    text = path.read_text(encoding="utf-8")
    if len(MADE.findall(text)) != text.count("<!-- made:") or text.count("<!-- end -->") != text.count("<!-- made:"):
        raise played.Trouble(f"{path.relative_to(played.ROOT)}: a made part without its end")
    return MADE.sub(remade, text)


def check_names(text):
    """The page's names and limits are in the header, names with their numbers; no refusal is left out."""
    numbers = played.header()
    header = (played.ROOT / "include" / "ocb.h").read_text(encoding="utf-8")
    for name in re.findall(r"\b(?:OCB|ocb)_\w+", text):
        if name not in numbers and f" {name}(" not in header:
            raise played.Trouble(f"docs/BARRIER.md: include/ocb.h has no {name}")
    for limit in re.findall(r"\d+(?:,\d{3})+", text):
        if limit not in header:
            raise played.Trouble(f"docs/BARRIER.md: include/ocb.h has no limit {limit}")
    rows = NUMBERED.findall(text)
    for value, name, word in rows:
        if numbers[name] != int(value) or name != "OCB_" + word.upper().replace(" ", "_"):
            raise played.Trouble(f"docs/BARRIER.md: {value} {name} {word} is not what include/ocb.h says")
    if sorted(int(value) for value, _, _ in rows) != [0, *range(1, 18), *range(20, 25)]:
        raise played.Trouble("docs/BARRIER.md: not every answer and refusal stands once in its tables")


def check_recordings(text):
    """The names of the page on recordings are in the headers, its refusals with their numbers, and what it names is there."""
    numbers = {**played.header(), **played.header("ocb_recording.h")}
    heads = played.header_text() + played.header_text("ocb_recording.h")
    for name in re.findall(r"\b(?:OCB|ocb)_\w+", text):
        if name not in numbers and f" {name}(" not in heads and name != "ocb_recording":
            raise played.Trouble(f"docs/RECORDINGS.md: no header has {name}")
    rows = [(int(value), name) for value, name, _ in NUMBERED.findall(text)]
    if rows != [(numbers[name], name) for name in ("OCB_RECORDING", "OCB_DIFFERS")]:
        raise played.Trouble("docs/RECORDINGS.md: its refusals are not those of include/ocb_recording.h")
    places = numbers["OCB_PLACE_BYTES"] * numbers["OCB_PLACES"]
    if f"{numbers['OCB_PLACES']} places ({places:,} bytes" not in text:
        raise played.Trouble("docs/RECORDINGS.md: the places of a replay are not those of include/ocb_recording.h")
    if numbers["OCB_PLACE_BYTES"] != numbers["OCB_FRAME_BYTES"]:
        raise played.Trouble("include/ocb_recording.h: a place has not the bytes of the longest frame")
    check_named("docs/RECORDINGS.md", text)


def check_stack():
    """The header's bytes of stack are enough: no bound of docs/COST.md is above them."""
    tables = {match[2].strip(): match[3] for match in MADE.finditer(COST.read_text(encoding="utf-8"))}
    titles, _, *rows = [line.strip("| ").split(" | ") for line in tables["m0-stack"].strip().splitlines()]
    columns = [at for at, title in enumerate(titles) if title.startswith("library's bound")]
    most = max(int(row[at]) for row in rows for at in columns)
    if most > played.header()["OCB_STACK_BYTES"]:
        raise played.Trouble(f"include/ocb.h: a call takes up to {most} bytes by docs/COST.md, more than OCB_STACK_BYTES")


def check_limits():
    """The limits that stand in words are those of the header, and what follows from them."""
    numbers = played.header()
    nodes, longest, version = (numbers[name] for name in ("OCB_NODES", "OCB_FRAME_BYTES", "OCB_VERSION"))
    sends = int(re.search(r"sent out: ([\d,]+) sent", played.header_text())[1].replace(",", ""))
    taken, [words] = (nodes - 1) * sends, played.state_words([nodes])
    said = {
        "include/ocb.h": [f"Up to {nodes} nodes", f"taken full: {taken:,} taken"],
        "docs/BARRIER.md": [f"so {longest} at most", f"P is 0 or above {nodes}", f"{taken:,} taken in this cycle | {nodes - 1} nodes",
                            f"more than {nodes} nodes can send, {sends:,} each", f"every board of 1 to {nodes} nodes"],
        "docs/RULES.md": [f"A board has 1 to {nodes} nodes", f"| N | {nodes} |", f"| S | {sends:,} |", f"| (N − 1) · S | {taken:,} |",
                          f"| N · S | {nodes * sends:,} |", f"above N ({nodes})", f"or more ({sends:,})", f"or more ({taken:,})",
                          f"The longest frame of any board has {longest} bytes", f"a caller can see; it is {version}."],
        "targets/cortex-m0/README.md": [f"{words} ({4 * words} bytes) for 65 to {nodes}, the largest"],
    }
    for name, parts in said.items():
        text = " ".join((played.ROOT / name).read_text(encoding="utf-8").split())
        for part in parts:
            if part not in text:
                raise played.Trouble(f"{name}: by include/ocb.h it should say '{part}'")


def check_named(page, text):
    """What a page names is there."""
    for path in PATH.findall(text):
        if not (played.ROOT / path).exists():
            raise played.Trouble(f"{page}: there is no {path}")


def check_paths(text, pictures):
    """What the page names is there, and every picture is shown."""
    check_named("docs/BARRIER.md", text)
    shown = set(re.findall(r"\(pictures/(\w+)\.svg\)", text))
    if shown != set(pictures):
        raise played.Trouble(f"docs/BARRIER.md: made and shown pictures differ: {sorted(shown ^ set(pictures))}")


def pictures():
    """Every picture by its name."""
    rollback = played.SCRIPTS / "rollback_of_five"
    return {
        "tree_of_five": tree(5),
        "partners_of_five": partners_picture(5),
        "partners_of_six": partners_picture(6),
        "worked": chart(played.SCRIPTS / "worked", "Two nodes end a cycle"),
        "rollback_of_five": chart(rollback, "Five nodes: a job reaches node 0 after it has signed in"),
        "rollback_of_five_again": chart(rollback, "Five nodes: what node 0 sends again", 40, 61),
        "note_after_signing_in": chart(played.SCRIPTS / "note_after_signing_in",
                                       "Three nodes: a note reaches node 0 after it has signed in", 2, 27),
        "trap_of_four": chart(played.SCRIPTS / "trap_of_four", "Four nodes: why there is a second pass"),
    }


def wanted():
    """Every made file with the text it should have."""
    text, recordings = page(PAGE), page(RECORDINGS)
    made = pictures()
    check_names(text)
    check_recordings(recordings)
    check_stack()
    check_limits()
    check_paths(text, made)
    files = {PICTURES / f"{name}.svg": picture for name, picture in made.items()}
    files[PAGE], files[RECORDINGS] = text, recordings
    return files


def make():
    PICTURES.mkdir(exist_ok=True)
    for path, text in sorted(wanted().items()):
        path.write_text(text, encoding="utf-8")
    return "made"


def hold(path, text):
    """A file has the text that it should have."""
    found = path.read_bytes().decode("utf-8") if path.exists() else ""
    lines = itertools.zip_longest(found.split("\n"), text.split("\n"))
    for at, (old, new) in enumerate(lines, start=1):
        if old != new:
            name = path.relative_to(played.ROOT)
            raise played.Trouble(f"{name}, line {at}: stands\n  {old!r}\nbut the programs give\n  {new!r}")


def check():
    files = wanted()
    for path in sorted(PICTURES.glob("*")):
        if path not in files and path != SCREENSHOT:
            raise played.Trouble(f"{path.relative_to(played.ROOT)} is made by nothing")
    for path, text in sorted(files.items()):
        hold(path, text)
    return f"{len(files)} files are what the programs give"


def main(name, modes):
    """Makes or checks what a script of this folder makes."""
    command = f"python3 docs/{name}.py"
    if len(sys.argv) != 2 or sys.argv[1] not in modes:
        sys.exit(f"{command} {' | '.join(modes)}")
    try:
        print(f"{name}:", modes[sys.argv[1]]())
    except played.Trouble as trouble:
        sys.exit(f"{name}: {trouble}\nIf that is meant: {command} make, and read the page again.")


if __name__ == "__main__":
    main("pages", {"make": make, "check": check})
