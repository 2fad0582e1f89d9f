#!/usr/bin/env python3
"""Puts what the gate costs into docs/COST.md.

    python3 docs/gate.py run LOG MINUTES    LOG is what bash .ci/run printed in a clean clone, MINUTES how long it took
    python3 docs/gate.py alone [COUNT]      proves from nothing, one after the other, the crates that have the most text

The second wants the libraries as rt ci leaves them, and nothing running beside it.
"""
import os
import pathlib
import re
import sys
import time

ROOT = pathlib.Path(__file__).resolve().parent.parent
sys.path.insert(0, str(ROOT / "tests"))
sys.dont_write_bytecode = True
import make

PAGE = ROOT / "docs" / "COST.md"
DONE = re.compile(r"^rt: ok; .*; ((?:every proof|done in this run).*)$", re.MULTILINE)
REFUSED = re.compile(r"^rt: must-fail (\w+)/[\w.-]+: refused, as it must be", re.MULTILINE)
WRITTEN = re.compile(r"^(?:pub )?(?:extern \"C\" )?(?:const )?fn ", re.MULTILINE)


def files(crate):
    parts = [make.folder(crate) / part for part in ("src", "specs", "proofs")]
    return [path for part in parts for path in part.rglob("*") if path.suffix in (".rt", ".antt")]


def lines(crate):
    return sum(path.read_text(encoding="utf-8").count("\n") for path in files(crate))


def functions(crate):
    return sum(len(WRITTEN.findall(path.read_text(encoding="utf-8"))) for path in files(crate) if path.suffix == ".rt")


def table(edits):
    rows = [f"| {crate} | {functions(crate)} | {lines(crate)} | {edits.count(crate) or ''} |" for crate in make.DEPS]
    half = (len(rows) + 1) // 2
    left, right = rows[:half], rows[half:] + ["| | | | |"] * (2 * half - len(rows))
    return "\n".join(["| Crate | functions | lines | edits | | Crate | functions | lines | edits |", "|---" * 9 + "|",
                      *(f"{a} {b}" for a, b in zip(left, right))])


def put(name, words):
    page = PAGE.read_text(encoding="utf-8")
    found = re.search(rf"(?<=<!-- {name} -->\n\n).*?(?=\n\n<!-- {name}'s end -->)", page, re.DOTALL)
    if not found:
        sys.exit(f"docs/COST.md has no place for {name}")
    PAGE.write_text(page[:found.start()] + words + page[found.end():], encoding="utf-8")


def run(log, minutes):
    text = pathlib.Path(log).read_text(encoding="utf-8")
    edits, done = REFUSED.findall(text), DONE.search(text)
    if not done:
        sys.exit(f"{log} does not say that all passed")
    put("the gate", f"{table(edits)}\n\nThat run took {minutes} minutes on {os.cpu_count()} processors, for {len(make.DEPS)} crates with "
                    f"{sum(map(functions, make.DEPS)):,} functions,\n{len(edits)} must-fail edits, and the tests after them. Of it rt says: "
                    f"{done[1]}.")


def alone(count):
    longest = sorted(make.DEPS, key=lines, reverse=True)[:count]
    times = []
    for crate in longest:
        if not make.are_built(make.with_below(crate)[:-1]):
            sys.exit(f"{crate}: a library below it is not built: rt ci builds all")
        begun = time.monotonic()
        make.run(make.over_built("check", crate, 1), crate)
        times.append((time.monotonic() - begun, crate))
    rows = [f"| {crate} | {round(seconds)} | {lines(crate)} |" for seconds, crate in sorted(times, reverse=True)]
    put("alone", "\n".join(["| Crate | s, alone | lines |", "|---|---|---|", *rows]))


if __name__ == "__main__":
    if len(sys.argv) == 4 and sys.argv[1] == "run":
        run(sys.argv[2], sys.argv[3])
    elif len(sys.argv) in (2, 3) and sys.argv[1] == "alone":
        alone(int(sys.argv[2]) if len(sys.argv) == 3 else 12)
    else:
        sys.exit(__doc__)
