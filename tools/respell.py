#!/usr/bin/env python3
"""Spells the repository's own definitions and lemmas as the library does, after the kit's port.py: words in snake case, a prime as an
apostrophe. Run it once, at the top.

usage: respell.py [--list]      --list prints the names and changes nothing

Own names are those that files of specs/ and proofs/ declare: definitions, lemmas, fields, constructors and rule sets. Names of types and
modules stay, as do functions of src/, names of goals, and names that a file imports from the library. A name whose new spelling is
already another name of the repository, or one that the library has and a file uses beside it, stops the run.
"""
import glob
import os
import re
import sys

SEGMENT = re.compile(r"[^\s(){}\[\],;.«»\"]+")
EDITED = re.compile(r"(?m)^((?:old|new): )(.*)$")
USE = re.compile(r"(?m)^\s*(?:ghost\s+)?(?:pub )?use\s+([^\s{]+?)\.\{([^{}]*)\}")
ENDS = re.compile(r"(?<![^\s(){}\[\],;])--.*$", re.M)
DECLARED = re.compile(r"^ *(?:(?:abbrev|unfoldable|opaque|pub|ruleset|data|record)\s+)*([^\s(){}:|,;λ\[\]→×≡.]+)(?=\s*(?::\s|=\s|\())", re.M)
FIELDS = re.compile(r"^ +(?:pub )?([^\s(){}:=\[\]|,λ][^(){}:=\[\]|,λ]*?) : ", re.M)
BLOCK = re.compile(r"^(?:pub )?(?:data|record)\b[^\n]*\n((?: +[^\n]*\n|\n)*)", re.M)


def files():
    for folder, dirs, names in os.walk("crates"):
        dirs[:] = sorted(d for d in dirs if d != "out")
        for name in sorted(names):
            if name.endswith((".antt", ".rt")):
                yield os.path.join(folder, name)


def text_of(path):
    with open(path, encoding="utf-8") as file:
        return file.read()


def write(path, text, new):
    if new != text:
        with open(path, "w", encoding="utf-8") as file:
            file.write(new)


def spelled(name):
    """The name in snake case; one that begins with a capital keeps its capitals."""
    name = name.replace("\u2032", "'")
    parts = name.split("-")
    return "_".join(p if not p[:1].islower() else re.sub(r"(?<=[a-z0-9])([A-Z])", lambda m: "_" + m[1].lower(), p) for p in parts)


def declared(path, text):
    """Names that a file of specs/ or proofs/ declares, but for the answers to goals, whose types are named by 'tie.'."""
    code, found = ENDS.sub("", text), set()
    for m in DECLARED.finditer(code):
        if not re.match(r"\s*:\s*(?:tie|goal)\.", code[m.end(1) :]):
            found.add(m[1])
    for block in BLOCK.finditer(code):
        for m in FIELDS.finditer(block[1]):
            found.update(m[1].split())
    return found


def imported(text):
    """Names that a file takes from the library."""
    found = set()
    for m in USE.finditer(text):
        if not OWN.match(m[1]):
            found.update(n.split(" as ")[0].strip() for n in m[2].split(","))
    return found


def plainly_named(text):
    """Names in snake case that a file declares at the left edge, or takes from the repository's own proofs."""
    found = {m[1] for m in DECLARED.finditer(ENDS.sub("", text))}
    for m in USE.finditer(text):
        if OWN.match(m[1]) and ".proofs" in m[1]:
            found.update(n.split(" as ")[0].strip() for n in m[2].split(","))
    return found


def with_names(text, table, taken, is_source):
    """The text with its own names spelled anew; of a source only what stands in clauses and ghost items."""
    plainly = set() if is_source else plainly_named(text)

    def one(m):
        word, before = m[0], text[max(0, m.start() - 5) : m.start()]
        if word in taken or before.endswith(("tie.", "goal.")):
            return word
        if "-" not in word and word.islower() and (word not in plainly or before.endswith(".")):
            return word
        return table.get(word, word)

    def plain(part):
        nonlocal text
        text = part
        return SEGMENT.sub(one, part)

    def said(part):
        return COMMENT.sub(lambda m: table.get(m[0], m[0]) if not m[0].islower() or "-" in m[0] else m[0], part)

    if not is_source:
        out = []
        for line in text.split("\n"):
            at = ENDS.search(line)
            cut = at.start() if at else len(line)
            out.append(plain(line[:cut]) + said(line[cut:]))
        return "\n".join(out)
    out, clause, depth = [], False, 0
    for line in text.split("\n"):
        head = line.strip()
        if head.startswith("ghost use") or (clause and depth) or re.match(r"(?:requires|ensures|ghost)\b", head):
            clause = not head.startswith("ghost use") or not head.endswith(";") or clause
            out.append(plain(line))
            depth += line.count("{") - line.count("}")
            if depth <= 0:
                clause, depth = False, 0
        else:
            out.append(said(line) if head.startswith("//") else line)
    return "\n".join(out)


with open("crates.txt", encoding="utf-8") as lines:
    CRATES = [line.split(":")[0].split()[0] for line in lines if line.strip() and not line.startswith("#")]
OWN = re.compile(r"Rattle\.(?:%s)\." % "|".join(map(re.escape, CRATES)))
# in a comment a name has a capital inside, or stands between backquotes
COMMENT = re.compile(r"(?<![\w.-])[a-z]+[A-Z]\w*|(?<=`)[\w'-]+(?=`)")


def main(words):
    names, kept = {}, set()
    for path in files():
        if path.endswith(".antt"):
            for name in declared(path, text_of(path)):
                names.setdefault(name, set()).add(path)
    table = {n: spelled(n) for n in names if spelled(n) != n and re.search(r"\w", n)}
    by_new = {}
    for a, b in table.items():
        by_new.setdefault(b, {b} & set(names)).add(a)
    for b, olds in sorted(by_new.items()):
        if len(olds) > 1:
            # a definition keeps the plain name, and a lemma of that name gets an ending
            defined = {n for n in olds if any("/specs/" in p for p in names[n])} or {n for n in olds if "-" not in n and "_" not in n}
            lemmas = olds - defined
            if len(defined) > 1 or len(lemmas) > 1:
                print("fall together:", b, *sorted(olds), *sorted(p for n in olds for p in names[n]))
            for n in lemmas:
                table[n] = b + "_lem"
    if "--list" in words:
        for a in sorted(table):
            print(a, table[a], sorted(names[a])[0])
        return
    for path in files():
        text = text_of(path)
        taken = imported(text)
        write(path, text, with_names(text, table, taken, path.endswith(".rt")))
    for path in sorted(glob.glob("crates/*/must-fail/*.edit")):
        text = text_of(path)
        write(path, text, EDITED.sub(lambda m: m[1] + SEGMENT.sub(lambda w: table.get(w[0], w[0]) if w[0] != w[0].lower() or "-" in w[0] else w[0], m[2]), text))


main(sys.argv[1:])
