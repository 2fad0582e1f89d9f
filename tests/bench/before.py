"""Measures the library of another revision beside this one's, in one run: python3 tests/bench/before.py FOLDER

FOLDER has the other revision (git worktree add FOLDER REVISION). Its library is built there by its own commands, both are
played on the emulated Cortex-M0 with this revision's schedule, and tables of instructions are printed: before / after = ratio.
Calls beside the schedule are not made: they are next to limits, and the other revision may have others.
"""
import pathlib
import sys

sys.dont_write_bytecode = True
import cortex_m0
import sheet
import build
import tools

ALONE = ["-DSCHEDULE_ALONE"]


def archive_of(folder, level):
    return folder / cortex_m0.library(level).relative_to(tools.ROOT)


def compared(before, after):
    return f"{before:.0f} / {after:.0f} = {after / before:.2f}"


def print_level(level, before, after):
    for words, short, at in cortex_m0.WAYS:
        rows = []
        for board in cortex_m0.boards(after):
            keys = [("scheduled", board, "library", call) for call in sheet.CALLS]
            rows.append([board, *(compared(before[key][at], after[key][at]) for key in keys)])
        sheet.table(f"before{short}-{level}", f"Cortex-M0, -{level}: instructions per call, {words}: before / after = ratio",
                    ["P", *sheet.TITLES], rows)


def main(words):
    if len(words) != 1:
        sys.exit("usage: python3 tests/bench/before.py FOLDER")
    folder = pathlib.Path(words[0]).resolve()
    tools.run([sys.executable, folder / "targets" / "build.py", cortex_m0.NAME], cwd=folder)
    by_hand = cortex_m0.prepare([cortex_m0.NAME])
    for level in build.LEVELS:
        before = cortex_m0.measure(level, by_hand[level], archive_of(folder, level), ALONE)
        print_level(level, before, cortex_m0.measure(level, by_hand[level], words=ALONE))


if __name__ == "__main__":
    tools.main(lambda _: main(sys.argv[1:]), [])
