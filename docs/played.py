"""What the programs of the repository print, as plain data: partners, and scripts as they were played.

Nothing here knows the rules of the barrier save how the links' lists go and how a frame's bytes lie.
"""
import functools
import pathlib
import re
import subprocess
import tempfile
from collections import namedtuple

ROOT = pathlib.Path(__file__).resolve().parent.parent
SCRIPTS = ROOT / "scripts"

# The programs, each with the command that builds it.
BUILDERS = {
    "target/bin/boards": "python3 tests/make.py boards",
    "target/bin/rehearse": "python3 tests/make.py rehearse",
    "target/bin/record": "python3 tests/make.py record",
    "target/bin/replay": "python3 tests/make.py replay",
    "target/c/places": "bash tests/c/run",
    "target/c/play": "bash tests/c/run",
}

# A node's place in a dimension; awaited and hermit are None where it has none.
Place = namedtuple("Place", "kind awaited hermit words")

# A frame that is sent: its receivers and bytes, and the script line that sent the same step before (0: none did).
Frame = namedtuple("Frame", "receivers data before")

# An item under way: the script line that sent it, its ends, its kind ("job", "note", "frame"), and its frame (None: it is none).
Item = namedtuple("Item", "line source target kind frame")

# The kind of message that a line of a script sends, by the line's letter.
MESSAGES = {"s": "job", "t": "note"}

# What is printed for a line of a script, and what the library tells besides: of a frame that is sent its receivers and bytes, of a
# wait its clause; else None.
Said = namedtuple("Said", "text receivers data clause")

# A line of a script with what it printed. frame: what was sent. item: what was delivered, or stayed for being early. clause: what
# a wait named.
Event = namedtuple("Event", "line text printed node answer phase step flag busy frame item clause")

# A script that was played: how many nodes its board has, its events, and the items under way at its end.
Play = namedtuple("Play", "size events under_way")

STOP = re.compile(r"stop (\d+) at line (\d+)")
PLACE = re.compile(r"(\d+) (\d+) (\d+) (alone|hermit, awaits (\d+)|neighbour of (\d+)(?: and messenger to (\d+))?)")


class Trouble(Exception):
    """Something is not as it should be; the text says what."""


def written(program, data=b"", *words):
    """The bytes that a program writes when it is handed bytes on its standard input."""
    path = ROOT / program
    if not path.exists():
        raise Trouble(f"{program} is not built yet: {BUILDERS[program]} builds it")
    done = subprocess.run([str(path), *words], input=data, stdout=subprocess.PIPE, check=False)
    if done.returncode != 0:
        raise Trouble(f"{program} ends with status {done.returncode}")
    return done.stdout


def output(program, data=b"", *words):
    """The lines that a program prints when it is handed bytes on its standard input."""
    return written(program, data, *words).decode().splitlines()


def whole(text):
    return None if text is None else int(text)


def places_in(lines, nodes):
    """The places of a board's nodes by (node, dimension), out of lines of the form that boards and places print."""
    found = {}
    for line in lines:
        match = PLACE.fullmatch(line)
        if match is None or int(match[1]) != nodes:
            continue
        kind = "messenger" if match[7] else match[4].split(",")[0].split()[0]
        awaited = whole(match[5] or match[6])
        found[int(match[2]), int(match[3])] = Place(kind, awaited, whole(match[7]), match[4])
    return found


def places(nodes):
    """The places of a board's nodes by (node, dimension), as the library gives them; a board of one has none."""
    return places_in(output("target/c/places", b"", str(nodes)), nodes)


def dimensions(board):
    return 1 + max((k for _, k in board), default=-1)


def runs(board):
    """The runs of every dimension, lowest first: a run and that of the node awaited make one run of the next."""
    size = 1 + max(a for a, _ in board)
    own = [(a,) for a in range(size)]
    rows = [sorted(set(own))]
    for k in range(dimensions(board)):
        awaited = [board[a, k].awaited for a in range(size)]
        own = [tuple(sorted(set(own[a] + (() if w is None else own[w])))) for a, w in enumerate(awaited)]
        rows.append(sorted(set(own)))
    return rows


def read(path):
    try:
        return pathlib.Path(path).read_bytes()
    except OSError as error:
        raise Trouble(f"{path}: {error.strerror}") from None


def stop_words(data, number, line):
    """What a script is stopped for, in words; line 0 is the script as a whole."""
    why = f"{number}, {names()[number]}"
    if line == 0:
        return f"is too long ({why}: 4,096 bytes are the most)"
    lines = data.decode("utf-8", "replace").split("\n")
    found = ascii(lines[line - 1][:40]) if line <= len(lines) else "nothing"
    return f"stops at line {line} ({why}): {found}"


def printed(path, data):
    """The lines that the program rehearse prints for a script."""
    lines = output("target/bin/rehearse", data)
    stop = STOP.fullmatch(lines[-1])
    if stop is not None:
        raise Trouble(f"{path} {stop_words(data, int(stop[1]), int(stop[2]))}")
    return lines


def printed_with_details(path, data):
    """The lines of a script, and what is said of each."""
    lines = printed(path, data)
    found = []
    for line in output("target/c/play", data, "details"):
        if line.startswith("frame to "):
            to, sent = line[len("frame to "):].split(":")
            found[-1] = found[-1]._replace(receivers=[int(x) for x in to.split()], data=bytes.fromhex(sent))
        elif line.startswith("clause "):
            found[-1] = found[-1]._replace(clause=int(line.split()[1]))
        else:
            found.append(Said(line, None, None, None))
    if [said.text for said in found] != lines:
        raise Trouble(f"{path}: rehearse and play print different lines")
    return data.decode().splitlines(), found


def delivered(items, parts, answer):
    """The item that a delivery meets; it goes off its link unless it is early."""
    ends = int(parts[1]), int(parts[2])
    item = next((i for i in items if (i.source, i.target) == ends), None)
    if item is not None and answer != 7:
        items.remove(item)
    return item


def play(path):
    """A script, played."""
    script, found = printed_with_details(path, read(path))
    items, events, sent = [], [], {}
    for line, (text, (said, to, data, clause)) in enumerate(zip(script[1:], found[1:]), start=2):
        parts = text.split()
        node, answer, phase, turn, dimension, flag, busy = (int(x) for x in said.split())
        frame = item = None
        if to is not None:
            key = (node, phase, data[0], data[2])
            frame = Frame(to, data, sent.get(key, 0))
            sent[key] = line
            items += [Item(line, node, receiver, "frame", frame) for receiver in to]
        elif parts[0] in MESSAGES and answer == 0:
            items.append(Item(line, node, int(parts[2]), MESSAGES[parts[0]], None))
        elif parts[0] == "d":
            item = delivered(items, parts, answer)
        events.append(Event(line, text, said, node, answer, phase, (turn, dimension), flag, busy, frame, item, clause))
    return Play(int(script[0].split()[1]), events, items)


def before(played, at):
    """The last event of the same node before the event at a place of the list; None where it has none."""
    return next((e for e in reversed(played[:at]) if e.node == played[at].node), None)


def fell_back(played, at):
    """Whether a delivery moved its node to an earlier step."""
    event, last = played[at], before(played, at)
    return event.item is not None and last is not None and event.phase == last.phase and event.step < last.step


def number(data, at):
    return int.from_bytes(data[at:at + 4], "little")


def fields(data):
    """The numbers of a frame as (name, first byte, value), in their order."""
    if data[0] == 2:
        names = ["T", "total sent"]
    else:
        shells = range(data[2], data[2] + (len(data) - 12) // 8)
        names = [f"sent to shell {m}" for m in shells] + [f"taken from shell {m}" for m in shells]
        names += ["total sent", "total taken"]
    return [(name, 4 + 4 * i, number(data, 4 + 4 * i)) for i, name in enumerate(names)]


def code_size():
    """The bytes of code and constants in the C library."""
    path = ROOT / "target" / "staticlib" / "libbarrier_c.a"
    if not path.exists():
        raise Trouble("the C library is not built yet: bash tests/c/run builds it")
    totals = subprocess.run(["size", "-t", str(path)], stdout=subprocess.PIPE, check=True).stdout.decode()
    return int(totals.splitlines()[-1].split()[0])


def header_text(name="ocb.h"):
    """A header without its first comment."""
    text = (ROOT / "include" / name).read_text(encoding="utf-8")
    return text[text.index("#ifndef OCB_"):]


def header(name="ocb.h"):
    """The numbers that a header gives to its names."""
    return {name: int(value) for name, value in re.findall(r"\b(OCB_\w+)(?: =)? (\d+)", header_text(name))}


@functools.cache
def names():
    """The words of answers and refusals by their numbers, from the names that include/ocb.h gives them."""
    found = re.findall(r"\bOCB_(?!AT_)(\w+) = (\d+)", header_text())
    return {int(value): name.lower().replace("_", " ") for name, value in found}


def macros(expressions):
    """The numbers that C expressions over the names of include/ocb.h give."""
    lines = "".join(f'printf("%d\\n", {words});' for words in expressions)
    text = f'#include <stdio.h>\n#include "ocb.h"\nint main(void) {{ {lines} return 0; }}\n'
    with tempfile.TemporaryDirectory() as folder:
        program = pathlib.Path(folder) / "numbers"
        compiler = ["gcc", "-std=c11", f"-I{ROOT / 'include'}", "-x", "c", "-", "-o", str(program)]
        subprocess.run(compiler, input=text.encode(), check=True)
        return [int(line) for line in output(program, b"")]


def state_words(boards):
    """The words of a state on boards of so many nodes."""
    return macros([f"OCB_STATE_WORDS({nodes})" for nodes in boards])
