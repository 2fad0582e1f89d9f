#!/usr/bin/env python3
"""Holds the explorer's words for events to those of the pages: what tests/explorer/page.mjs wrote, against docs/wording.py."""
import json
import pathlib
import sys

sys.dont_write_bytecode = True
ROOT = pathlib.Path(__file__).resolve().parent.parent.parent
sys.path.insert(0, str(ROOT / "docs"))
import played
import wording


def main():
    count = 0
    for name, said in json.loads((ROOT / "target" / "explorer" / "words.json").read_text(encoding="utf-8")).items():
        events = played.play(played.SCRIPTS / name).events
        wanted = [[e.line, wording.event(events, at).replace("**", ""), wording.short(events, at)] for at, e in enumerate(events)]
        for one, other in zip(wanted, said):
            if one != other:
                sys.exit(f"explorer: {name}: the pages say {one}, the explorer {other}")
        if len(wanted) != len(said):
            sys.exit(f"explorer: {name}: {len(wanted)} events, and {len(said)} in the explorer")
        count += len(said)
    print(f"explorer: {count} events in the words of the pages")


if __name__ == "__main__":
    main()
