#!/usr/bin/env python3
"""Checks that docs/RULES.md is whole: python3 docs/rules.py

The rules of a chapter are numbered from 1 without a gap. Each has one line that says where it is defined and where it is
proved or tested: paths that exist, each followed by names that stand in it. The decisions that it names are in
docs/DECISIONS.md. A rule named in another text, in the form "rule F2", is one of the page's. The lines of HEADLINE stand. Prints a line for each fault,
and ends with status 1 where there is one.
"""
import functools
import os
import pathlib
import re
import sys
from collections import Counter

ROOT = pathlib.Path(__file__).resolve().parent.parent
PAGE = ROOT / "docs" / "RULES.md"
DECISIONS = ROOT / "docs" / "DECISIONS.md"
CHAPTERS = "TNFRHPSKC"
# what is promised and where it is proved: a crate of theorems passes whatever it still says, so each of these lines must stand
HEADLINE = {
    "crates/promises/specs/Promises.antt": [
        "pub any_input : AnyInput", "pub kinds : Kinds", "pub waits : Waits", "pub tree : (P : ℕ) → 1 ≤ P → P ≤ base.nodes → Tree P",
        "pub frames : (P : ℕ) → 1 ≤ P → P ≤ base.nodes → Frames P",
        "pub runs : (P : ℕ) → 1 ≤ P → P ≤ base.nodes → Runs P", "pub links : LinkBytes", "pub starred : All table",
        "pub rehearsals : EveryRehearsal", "pub texts : EveryTextFits", "pub any_recording : Recordings",
        "pub recordings : Survives", "pub replays : EveryReplay",
        "pub safe : (es : List Event) → Safe base P (run base P es)",
        "pub lives : (es : List Event) → NoLoss es → Lives base P (run base P es)",
        "pub facts : (es : List Event) → Facts base P (run base P es)",
        # each claim of the records
        "pub ours :", "pub stay :", "pub fresh :", "pub fresh_stays :", "pub sends :", "pub takes :",
        "pub idles :", "pub frames : (bs : List ℕ)", "pub steps :", "pub step_stays :", "pub dimensions :", "pub places :", "pub distances :",
        "pub notes :", "pub jobs :", "pub fails :", "pub lower :", "pub unstored :", "pub stored :",
        "pub dimension_stays :", "pub place_stays :", "pub distance_stays :", "pub writes :", "pub write_stays :",
        "pub reads :", "pub read_stays :", "pub fits :", "pub smallest :", "pub sent :", "pub awaits :",
        "pub neighbours :", "pub hermits :", "pub hermit_next :", "pub messengers :", "pub hermit_before :",
        "pub same_place :", "pub alones :", "pub near :", "pub nearer :", "pub below :", "pub symmetric :",
        "pub shells :", "pub alone_shells :", "pub same_shells :", "pub written_read :", "pub read_bytes :",
        "pub read_written :", "pub same_bytes :", "pub replays : (bs : List ℕ) (items : List Item) (bytes : List ℕ)", "pub replay_stays :"],
    "crates/promises/proofs/Whole.antt": ["pub promises : Promises"],
    "crates/runs/specs/Claim.antt": [
        "pub busy_send :", "pub busy_is :", "pub wakes :", "pub leaves_taken :", "pub leaves_idle :", "pub leaves_reached :",
        "pub left_send :", "pub left_take :", "pub record Demand3 : Type 0 where",
        # who wakes has taken a job; what is not taken any more is of any kind
        "→ (step L P w e).count a ≡ w.count a → TakeDone w Job a (w.count a) e",
        "pub left_take : (a : ℕ) → a < P → (n : ℕ) → n < w.count a → (kind : Kind) (b : ℕ) (e : Event)"],
    "crates/runs/proofs/Whole.antt": ["pub demand3 : Demand3"],
    "crates/rehearsed/proofs/Whole.antt": ["pub every_rehearsal : EveryRehearsal"],
    "crates/recording/specs/Laws.antt": ["pub written_good :", "pub written_read :", "pub read_good :", "pub read_written :"],
    "crates/recording/proofs/Survives.antt": ["pub survives : Survives"],
    "crates/replayed/specs/Run.antt": ["pub same : map (λ t. record { line = t.line; answer = t.answer }) told ≡ recorded r",
                                       "pub is_run : IsRun r.nodes told"],
    "crates/replayed/proofs/Whole.antt": ["pub every_replay : EveryReplay"],
    # the limits of the largest build, and every board to try
    "crates/starred/specs/Rows.antt": [
        "limit base.nodes 96", "∷ limit base.sends 65535", "∷ limit (taken_limit base) 6225825",
        "∷ limit (field_limit base) 6291360", "∷ limit width 7", "∷ dimension 1 (found 0)", "∷ dimension 2 (found 1)",
        "∷ dimension 3 (found 2)", "∷ dimension 5 (found 3)", "∷ dimension 96 (found 7)",
        "∷ dimension 0 (refused (number Refusal.Board))", "∷ dimension 97 (refused (number Refusal.Board))",
        "∷ place 6 0 2 (found alone)", "∷ place 6 1 2 (found (messenger 0 1))", "∷ place 6 2 2 (found (neighbour 5))",
        "∷ place 5 2 2 (found (hermit 3))", "∷ distance 6 1 2 (found 1)", "∷ distance 6 2 5 (found 2)", "∷ first_length 7 0 68",
        "∷ first_length 3 2 20", "∷ phases 0 255 Late", "∷ phases 255 0 Early"],
    "crates/layout/specs/Places.antt": ["most_words = 120"],
    "crates/under_way/specs/Frames.antt": ["place_size = 68"],
    "crates/starred/proofs/Starred.antt": ["pub starred : All table"],
    # the one walk, and the loop that carries it
    "crates/walked/specs/Laws.antt": [
        "pub before :", "pub sums :", "pub issued :", "pub sums_own :", "pub issued_own :", "pub sums_all :", "pub issued_all :",
        "pub sums_unread :", "pub issued_unread :", "pub sums_once :", "pub issued_once :", "pub sums_apart :", "pub issued_apart :",
        "pub in_order :"],
    "crates/walked/proofs/Walked.antt": ["pub one_walk : OneWalk"],
    "crates/scanned/specs/Pieces.antt": ["pub holds : Holds (unpacked ws) k l w.issued.0"],
    "crates/scan/proofs/walk/Proof.antt": [
        "(walked.ok ≡ true) × Carries (limits_of b) s sums₀ looks k at sums walked"],
    "crates.txt": ["promises:", "runs:", "rehearsed:", "starred:", "recording:", "replayed:", "walked:", "scan:"],
}
# where rules may be named
TEXTS = ["crates", "include", "tests", "targets", "docs", "README.md"]

# the heading of a chapter, or the beginning of a rule
BEGINS = re.compile(r"^(?:## ([A-Z]): |\*\*([A-Z])(\d+)\*\* )", re.MULTILINE)
# a rule's line: defined, then proved or tested
LINE = re.compile(r"^defined: .*; (?:proved|tested): .*$", re.MULTILINE)
QUOTED = re.compile(r"`([^`]+)`")
DECISION = re.compile(r"\[\*\*([^*]+)\*\*\]\(DECISIONS\.md\)")
# a reference may be broken at the end of a line, in a comment too
NAMED = re.compile(r"\b[Rr]ule(s?)(?:\s|//|--|[*#])+([A-Z]\d+)\b")
# what a file takes from others is not defined there
TAKEN = re.compile(r"^(?:ghost )?use [^;\n{]*(?:\{[^}]*\})?", re.MULTILINE)


# ---- The page

def rules(page):
    """The rules in order: chapter that it stands in, letter, number, text up to the next rule or chapter."""
    begins = [*BEGINS.finditer(page)]
    chapter = None
    for match, after in zip(begins, [*begins[1:], None]):
        if match[1]:
            chapter = match[1]
        else:
            yield chapter, match[2], int(match[3]), page[match.start():after.start() if after else len(page)]


def check_headline():
    for name, lines in HEADLINE.items():
        path = ROOT / name
        text = path.read_text(encoding="utf-8") if path.exists() else ""
        for line in lines:
            if not re.search(rf"^\s*{re.escape(line)}", text, re.MULTILINE):
                yield f"{name}: a headline is gone: {line}"


def check_numbers(page, found):
    chapters = "".join(match[1] for match in BEGINS.finditer(page) if match[1])
    if chapters != CHAPTERS:
        yield f"docs/RULES.md: its chapters are {', '.join(chapters)}, not {', '.join(CHAPTERS)}"
    reached = Counter()
    for chapter, letter, number, _ in found:
        reached[letter] += 1
        if letter != chapter:
            yield f"docs/RULES.md: {letter}{number} stands in chapter {chapter}"
        if number != reached[letter]:
            yield f"docs/RULES.md: {letter}{number} stands where {letter}{reached[letter]} is due"
    for letter in CHAPTERS:
        if not reached[letter]:
            yield f"docs/RULES.md: chapter {letter} has no rule"


# ---- A rule's line

@functools.lru_cache(maxsize=None)
def text_of(path):
    """What a file says of its own; of a folder, what its files say."""
    there = ROOT / path
    files = sorted(p for p in there.rglob("*") if p.is_file()) if there.is_dir() else [there]
    return "\n".join(TAKEN.sub("", file.read_text(encoding="utf-8", errors="replace")) for file in files)


def has_word(text, name):
    return re.search(rf"(?<![\w-]){re.escape(name)}(?![\w-])", text) is not None


def check_line(name, line):
    """Every path exists, and every name stands in the path that it follows."""
    for part in line.split("; "):
        path = None
        for quoted in QUOTED.findall(part):
            if "/" in quoted:
                path = quoted
                if not (ROOT / path).exists():
                    yield f"docs/RULES.md: {name}: there is no {path}"
            elif path is None:
                yield f"docs/RULES.md: {name}: {quoted} follows no file"
            elif (ROOT / path).exists() and not has_word(text_of(path), quoted):
                yield f"docs/RULES.md: {name}: {path} has no {quoted}"
        if path is None:
            yield f"docs/RULES.md: {name}: no file is named in '{part}'"


def check_decisions(name, text, titles):
    for title in (" ".join(found.split()) for found in DECISION.findall(text)):
        if title not in titles:
            yield f"docs/RULES.md: {name}: docs/DECISIONS.md has no entry '{title}'"


def check_rules(found):
    titles = re.findall(r"^- \*\*([^*]+?)\.?\*\*", DECISIONS.read_text(encoding="utf-8"), re.MULTILINE)
    for _, letter, number, text in found:
        name = f"{letter}{number}"
        lines = LINE.findall(text)
        if len(lines) != 1 or len(re.findall(r"^defined:", text, re.MULTILINE)) != 1:
            yield f"docs/RULES.md: {name} has not one line 'defined: ..; proved: ..' or '..; tested: ..'"
            continue
        yield from check_line(name, lines[0])
        yield from check_decisions(name, text, titles)


# ---- Rules named in texts

def texts():
    """The files in which rules may be named: no pictures, and nothing that a build has left."""
    for name in TEXTS:
        if (ROOT / name).is_file():
            yield ROOT / name
        for folder, folders, files in os.walk(ROOT / name):
            folders[:] = sorted(set(folders) - {"target", "__pycache__", "pictures"})
            yield from (pathlib.Path(folder) / file for file in sorted(files))


def check_named(known):
    for path in texts():
        text = path.read_text(encoding="utf-8", errors="replace")
        for match in NAMED.finditer(text):
            at = f"{path.relative_to(ROOT)}:{text.count(chr(10), 0, match.start()) + 1}"
            if match[2] not in known:
                yield f"{at}: docs/RULES.md has no rule {match[2]}"
            elif match[1]:
                yield f"{at}: {match[2]} is named after 'rules': write 'rule' before each number"


def main():
    page = PAGE.read_text(encoding="utf-8")
    found = [*rules(page)]
    known = {f"{letter}{number}" for _, letter, number, _ in found}
    faults = [*check_headline(), *check_numbers(page, found), *check_rules(found), *check_named(known)]
    for fault in faults:
        print(fault)
    if not faults:
        print(f"docs/RULES.md: {len(found)} rules, all in place")
    return 1 if faults else 0


if __name__ == "__main__":
    sys.exit(main())
