#!/usr/bin/env python3
"""Counts the places of docs/DESIGN-PASS.md in crates/*/src: `python3 tools/places.py [ROOT]` prints a line for each kind of place and its
count, `python3 tools/places.py list [ROOT]` each place as well."""
import collections
import glob
import os
import re
import sys

# a kind of place: its name, and what a line of it looks like
LINES = [
    ("1a variants of own enums for a refusal, a value or nothing", r"^    (Refused|Refuses|Is|To|Also|Nobody|None)(\(|,)"),
    ("1b flags and numbers that say whether the fields beside them count", r"^    (pub )?(ok|present): bool|^    (pub )?(why|mark): u32"),
    ("1c numbers for kinds, passes, clauses and answers in structs", r"^    (pub )?(kind|pass|clause|answer): u(8|32)"),
    ("1d results that are a refusal's number", r"^(pub )?fn \w+_no\b"),
    ("1e constants that stand for none", r"^pub const NO_\w+"),
    ("3a while loops", r"^ *while "),
    ("3b for loops over numbers", r"^ *for \w+ in .*\.\."),
    ("4a arms that answer true or false", r"=> (true|false),"),
    ("4b conversions as free functions", r"^(pub )?fn (number_of|letter_of|mark_of|kind_of|bit_of|whom_of|wide|low)\b"),
    ("6a arrays with a length beside them", r"^ *let mut \w+(: \[\w+; \d+\])? = \[.*; [\w: ]+\];"),
    ("6b two arrays side by side", r"^    pub (sent|taken): \["),
    ("7a matches on which step to run", r"^        \w+::\w+\(.*\) => \w+::\w+_act\("),
]


def sources(root):
    return sorted(glob.glob(os.path.join(root, "crates", "*", "src", "*.rt")))


def functions(root):
    for path in sources(root):
        text = open(path).read()
        for match in re.finditer(r"^( *)((?:pub )?(?:extern \"C\" )?fn (\w+).*?)^\1}\n", text, re.M | re.S):
            head, brace, body = match[2].partition("\n" + match[1] + "{\n")
            if brace:
                yield path, match[3], head, body


def crate(path):
    return path.split(os.sep)[-3]


def lines(root):
    for name, pattern in LINES:
        found = []
        for path in sources(root):
            for number, line in enumerate(open(path), 1):
                if re.search(pattern, line):
                    found.append(f"{crate(path)}:{number}: {line.strip()}")
        yield name, found


def twins(root):
    """Functions whose bodies differ in names and numbers alone."""
    groups = collections.defaultdict(list)
    for path, name, _, body in functions(root):
        rows = [row.strip() for row in body.split("\n") if row.strip() and not row.strip().startswith("//")]
        if len(rows) > 1:
            shape = re.sub(r"\b\d+\b", "0", re.sub(r"\b[A-Za-z_]\w*\b", "x", " ".join(rows)))
            groups[shape].append(f"{crate(path)}::{name}")
    return [" ".join(group) for group in groups.values() if len(group) > 1]


def parameters(root):
    """Three parameters, by name and type, that three functions or more of different crates or one take together."""
    sets = collections.defaultdict(set)
    for path, name, head, _ in functions(root):
        signature = re.split(r"\n *(?:requires|ensures)", head)[0]
        taken = tuple(re.findall(r"(\w+: [^,()]+?)(?:,|\)|\n)", signature))
        for at in range(len(taken) - 2):
            sets[taken[at:at + 3]].add(f"{crate(path)}::{name}")
    return [f"({', '.join(names)}) in {len(found)}" for names, found in sorted(sets.items()) if len(found) > 2]


def facts(root):
    """Facts that the `requires` of three functions or more share."""
    sets = collections.defaultdict(set)
    for path, name, head, _ in functions(root):
        clause = re.search(r"requires(?: \w+)? \{(.*?)\}\n", head + "\n", re.S)
        if clause:
            for fact in re.split(r"×", clause[1]):
                sets[re.sub(r"\s+", " ", fact).strip(" ()")].add(f"{crate(path)}::{name}")
    return [f"{fact} in {len(found)}" for fact, found in sorted(sets.items()) if len(found) > 2]


def proofs(root):
    """Answers that only say that the check is to search."""
    found = 0
    for path in glob.glob(os.path.join(root, "crates", "*", "proofs", "**", "*.antt"), recursive=True):
        found += len(re.findall(r"λ c( κs)?\. search rules\b|^\S+ c = search rules$", open(path).read(), re.M))
    return found


def main():
    arguments = sys.argv[1:]
    listed = arguments[:1] == ["list"]
    root = (arguments[1:] if listed else arguments) or ["."]
    kinds = list(lines(root[0]))
    kinds += [("2 functions that differ in names and numbers alone", twins(root[0]))]
    kinds += [("5a parameters that travel together", parameters(root[0])), ("5b facts in three contracts or more", facts(root[0]))]
    for name, found in sorted(kinds):
        print(f"{name}: {len(found)}")
        if listed:
            print("".join(f"    {place}\n" for place in found), end="")
    print(f"8 answers that are a search alone: {proofs(root[0])}")


if __name__ == "__main__":
    main()
