#!/usr/bin/env python3
"""Puts the benchmark's tables into docs/COST.md and targets/cortex-m0/README.md.

python3 docs/cost.py make     writes them
python3 docs/cost.py check    ends with status 1 at the first difference. The tables for x86-64 are passed over: callgrind's
                              counts move with the alignment of the stack

A made part stands between <!-- made: NAME --> and <!-- end -->, and is target/bench/tables/NAME.md, which tests/bench/run
writes (python3 tests/bench/cortex_m0.py those for the Cortex-M0 alone).
"""
import sys

sys.dont_write_bytecode = True
import pages
import played

PAGES = [played.ROOT / "docs" / "COST.md", played.ROOT / "targets" / "cortex-m0" / "README.md"]
TABLES = played.ROOT / "target" / "bench" / "tables"


def remade(match, prefix):
    name = match[2].strip()
    if not name.startswith(prefix):
        return match[0]
    path = TABLES / f"{name}.md"
    if not path.exists():
        raise played.Trouble(f"{path.relative_to(played.ROOT)} is not there: tests/bench/run writes it")
    return f"{match[1]}\n\n{path.read_text(encoding='utf-8')}\n{match[4]}"


def wanted(prefix):
    """The pages with their made parts, those whose names have a prefix, made anew."""
    for path in PAGES:
        text = path.read_text(encoding="utf-8")
        yield path, pages.MADE.sub(lambda match: remade(match, prefix), text)


def make():
    for path, text in list(wanted("")):
        path.write_text(text, encoding="utf-8")
    return "made"


def check():
    for path, text in wanted("m0-"):
        pages.hold(path, text)
    return "the Cortex-M0's figures are those measured"


if __name__ == "__main__":
    pages.main("cost", {"make": make, "check": check})
