"""The benchmark's tables: printed, and written to target/bench/tables, from where docs/cost.py takes them."""
import collections
import pathlib

ROOT = pathlib.Path(__file__).resolve().parent.parent.parent
OUT = ROOT / "target" / "bench"
TABLES = OUT / "tables"

CALLS = ["send", "take", "take_note", "idle", "frame_in", "barrier"]  # of a node's cycle, and so of the schedule
STATE_CALLS = [*CALLS, "fresh"]
FUNCTIONS = [*STATE_CALLS, "dimension", "place", "distance", "frame_write", "frame_read"]
NAMED = 5  # functions in a table of shares
TITLES = [call.replace("_", " ") for call in CALLS]

# What is measured, the library first: a side's name, and how its functions' names begin.
SIDES = {"library": "ocb_", "in_place": "inplace_", "compact": "compact_"}
NAMES = [side.replace("_", " ") for side in SIDES]
COMPARED = NAMES[0] + "".join(f" / {name} = ratio" for name in NAMES[1:])

# What code is measured: the whole library, and what a kernel calls.
ALL_CODE = f"all {len(FUNCTIONS)} functions"
STATE_CODE = f"{len(STATE_CALLS)} calls on a state"

# The sides by hand: what they are, and their files.
BY_HAND = {"in_place": ("version on a struct", "inplace.c"), "compact": ("version on the library's words", "compact.c")}


def compared(numbers):
    """The library's number beside each other side's, with the ratio."""
    first, *others = numbers
    return f"{first:.0f}" + "".join(f" / {other:.0f} = {first / other:.2f}" for other in others)


def text_of(titles, rows):
    lines = [titles, ["---"] * len(titles), *rows]
    return "".join("| " + " | ".join(str(cell) for cell in line) + " |\n" for line in lines)


def save(name, words, text):
    TABLES.mkdir(parents=True, exist_ok=True)
    (TABLES / f"{name}.md").write_text(text, encoding="utf-8")
    print(f"\n{words} ({name})\n\n{text}", end="", flush=True)


def table(name, words, titles, rows):
    """Writes and prints a table."""
    save(name, words, text_of(titles, rows))


def percent(part, whole):
    return f"{100 * part / whole:.0f}"


def shares(name, words, title, counts):
    """A table of where instructions go, for each row a counter by function; the functions that have most are named."""
    parts = [part for part, _ in sum(counts.values(), collections.Counter()).most_common(NAMED)]
    rows = []
    for row, count in counts.items():
        named = [count[part] for part in parts]
        rows.append([row, *(percent(part, count.total()) for part in (*named, count.total() - sum(named)))])
    table(name, words, [title, *parts, "the rest"], rows)
