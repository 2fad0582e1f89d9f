#!/usr/bin/env python3
"""Makes docs/explorer.html, a page that plays boards with the proved code: one file, which loads nothing.

python3 docs/explorer/make.py          builds the proved code as WebAssembly (targets/build.py wasm32), and writes the page
python3 docs/explorer/make.py join     writes it from what is built
python3 docs/explorer/make.py check    joins it in memory and ends with status 1 where docs/explorer.html is another

In the page are barrier.wasm and rehearse.wasm, the scripts of the repository, the words for answers and refusals from
docs/BARRIER.md, and from include/ocb.h the numbers, and where a state has its tallies and stored frames.
"""
import base64
import hashlib
import json
import pathlib
import re
import sys

sys.dont_write_bytecode = True
HERE = pathlib.Path(__file__).resolve().parent
sys.path[:0] = [str(HERE.parent), str(HERE.parent.parent / "targets")]
import played
import tools
import wasm

PAGE = played.ROOT / "docs" / "explorer.html"
BUILT = tools.OUT / "wasm32" / "Os"
CODE = ["library.js", "board.js", "sums.js", "plan.js", "address.js", "words.js", "drawing.js"]
NODES = 16  # of the largest board that rehearse plays
ROW = re.compile(r"^\| (\d+) \| `OCB_\w+` \| ([a-z ]+) \| (.*) \|$", re.MULTILINE)
LENT = re.compile(r"^#define OCB_REHEARSE_([A-Z]+) (\d+)", re.MULTILINE)
LINK = re.compile(r"\[([^\]]*)\]\([^)]*\)")


def read(name):
    return (HERE / name).read_text(encoding="utf-8")


def tables():
    """The answers and the refusals of docs/BARRIER.md by their numbers."""
    answers, refusals = {}, {}
    for number, word, rest in ROW.findall((played.ROOT / "docs" / "BARRIER.md").read_text(encoding="utf-8")):
        cells = [LINK.sub(r"\1", cell).replace("`", "").strip() for cell in rest.split(" | ")]
        if len(cells) == 1:
            answers[int(number)] = {"word": word, "what": cells[0]}
        else:
            refusals[int(number)] = {"word": word, "when": cells[0], "what": cells[1]}
    if sorted(answers) != [0, 20, 21, 22, 23, 24] or sorted(refusals) != list(range(1, 18)):
        raise played.Trouble("docs/BARRIER.md does not have the tables of answers and refusals that were looked for")
    return answers, refusals


def boards():
    """By the nodes of a board where its states have what, as the header's names say."""
    asked = {}
    for nodes in range(1, NODES + 1):
        shells = range((nodes - 1).bit_length())
        asked[nodes, "words"] = [f"OCB_STATE_WORDS({nodes})"]
        for name in ("sent", "taken", "first", "second"):
            asked[nodes, name] = [f"OCB_AT_{name.upper()}({nodes}, {k})" for k in shells]
    values = iter(played.macros([words for group in asked.values() for words in group]))
    found = {}
    for (nodes, name), group in asked.items():
        numbers = [next(values) for _ in group]
        found.setdefault(nodes, {})[name] = numbers[0] if name == "words" else numbers
    return found


def header():
    """The numbers that the header gives to its names."""
    more = ["OCB_SHELLS", "OCB_FIELD_WORDS"]
    return {**played.header(), **dict(zip(more, played.macros(more)))}


def lent():
    """What the rehearsal is lent, in bytes."""
    return {name.lower(): int(count) for name, count in LENT.findall((tools.HERE / "wasm32" / "rehearse.h").read_text(encoding="utf-8"))}


def data():
    answers, refusals = tables()
    files = {name: played.read(BUILT / name) for name in (wasm.LIBRARY, wasm.REHEARSAL)}
    sums = [f"{name}: {len(held):,} bytes, SHA-256 {hashlib.sha256(held).hexdigest()}." for name, held in files.items()]
    scripts = {path.name: path.read_text(encoding="utf-8") for path in sorted(played.SCRIPTS.iterdir()) if path.is_file()}
    found = {"header": header(), "boards": boards(), "answers": answers, "refusals": refusals, "scripts": scripts,
             "lent": lent(), "made": " ".join(sums)}
    found.update((name.split(".")[0], base64.b64encode(held).decode()) for name, held in files.items())
    return "const DATA = " + json.dumps(found, ensure_ascii=False).replace("</", "<\\/") + ";\n"


def page():
    text = read("page.html")
    parts = {"STYLE": read("style.css"), "CODE": data() + "".join(read(name) for name in CODE), "PAGE": read("page.js")}
    for name, inside in parts.items():
        before, after = text.split(f"/*{name}*/\n")
        text = before + inside + after
    return text


def act(word):
    if word == "make":
        tools.run([sys.executable, tools.HERE / "build.py", "wasm32"])
    made = page().encode("utf-8")
    if word != "check":
        PAGE.write_bytes(made)
    elif played.read(PAGE) != made:
        raise played.Trouble("docs/explorer.html is not what docs/explorer/make.py makes now: make it anew")
    print(f"explorer: docs/explorer.html, {len(made):,} bytes, {'as it is made now' if word == 'check' else 'made'}")


if __name__ == "__main__":
    asked = sys.argv[1:] or ["make"]
    if asked not in (["make"], ["join"], ["check"]):
        sys.exit("python3 docs/explorer/make.py [join|check]")
    try:
        act(*asked)
    except (played.Trouble, tools.Trouble) as trouble:
        sys.exit(f"explorer: {trouble}")
