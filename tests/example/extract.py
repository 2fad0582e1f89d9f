#!/usr/bin/env python3
"""Prints the example of a header as it stands there: python3 tests/example/extract.py include/ocb.h

The example is the part of the header's first comment that is set in, without the five blanks and the star before them.
Ends with status 1 where another line stands between its first line and its last.
"""
import pathlib
import sys

ROOT = pathlib.Path(__file__).resolve().parent.parent.parent
BEFORE = " *     "


def example(header):
    text = (ROOT / header).read_text(encoding="utf-8")
    lines = text[:text.index("*/")].split("\n")
    at = [number for number, line in enumerate(lines) if line.startswith(BEFORE)]
    for number in range(at[0], at[-1] + 1):
        line = lines[number]
        if not line.startswith(BEFORE) and line != " *":
            sys.exit(f"{header}:{number + 1}: this line stands inside the example: {line}")
        yield line[len(BEFORE):] + "\n"


if __name__ == "__main__":
    sys.stdout.writelines(example(sys.argv[1]))
