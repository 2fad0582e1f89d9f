"""Measures the library on an emulated Cortex-M0 and prints tables: python3 tests/bench/cortex_m0.py

Each call of the schedule is counted by instructions, beside the versions by hand that the same clang has compiled at the
same level; each call's stack is looked at, also of the mostly refused calls of targets/others.c. Instructions become time
by ARM's table of cycles. All numbers are the emulator's and the same at each run. Beside them stand the aims.
"""
import collections
import difflib
import re
import sys

sys.dont_write_bytecode = True
import aims
import cycles
import sheet
import stack

sys.path[:0] = [str(sheet.ROOT / "targets"), str(sheet.ROOT / "docs")]
import build
import emulate
import played
import retarget
import tools
from table import TARGETS

NAME = "cortex-m0"
OUT = sheet.OUT / NAME
MEMORY = OUT / "memory.o"
MHZ = 48
RAM = 64 * 1024
WAYS = [("average", "", 1), ("most", "-most", 2)]  # in words, in a table's name, and where it stands in a line
EXACT = ["-icount", "shift=10"]  # as measure.c has it
COPY = "call void @llvm.memmove."
TRACE = ["-singlestep", "-d", "exec,nochain", "-D"]


def library(level):
    return tools.OUT / NAME / level / build.ARCHIVE.name


def compile_by_hand(level):
    """The versions by hand, by the kit's clang as the library: {side: object}."""
    headers = tools.run([TARGETS[NAME].gcc[0], "-print-file-name=include"]).strip()
    made = {}
    for side, (_, file) in sheet.BY_HAND.items():
        made[side] = OUT / f"{side}.{level}.o"
        tools.run([tools.toolchain("clang"), *TARGETS[NAME].clang, *build.WORDS, *emulate.STRICT, "-nostdinc", "-isystem",
                   tools.HERE / "freestanding", "-isystem", headers, f"-{level}", "-c", emulate.BENCH / file, "-o",
                   made[side]])
    return made


def measure(level, by_hand, archive=None, words=()):
    """What measure.c, compiled with these words, prints of an archive, this tree's by default: {(what, board, side, function):
    [calls, average, most, deepest]}."""
    bench = ["measure.c", "timed.S", "board.c", "sides.c"]
    files = [*(emulate.BENCH / name for name in bench), tools.HERE / "others.c", *by_hand.values(), archive or library(level)]
    program = emulate.link(NAME, OUT / f"measure.{level}.elf", files, words=words)
    figures = {}
    for line in emulate.run(NAME, program, EXACT).splitlines():
        what, board, side, function, *numbers = line.split()
        figures[what, int(board), side, function] = [int(number) for number in numbers]
    return figures


def trace(level, by_hand):
    """A call of each function, instruction by instruction."""
    files = [emulate.BENCH / "sample.c", *by_hand.values(), library(level)]
    program = emulate.link(NAME, OUT / f"sample.{level}.elf", files)
    traced = OUT / f"sample.{level}.trace"
    emulate.run(NAME, program, [*TRACE, traced])
    return cycles.Traced(program, traced, tuple(sheet.SIDES.values()))


# ---- Tables

def boards(figures):
    return sorted({board for what, board, _, _ in figures if what == "scheduled"})


def print_instructions(level, figures):
    for words, short, at in WAYS:
        rows = [[board, *(sheet.compared([figures["scheduled", board, side, call][at] for side in sheet.SIDES])
                          for call in sheet.CALLS)] for board in boards(figures)]
        sheet.table(f"m0-instructions{short}-{level}", f"Cortex-M0, -{level}: instructions per call, {words}: {sheet.COMPARED}",
                    ["P", *sheet.TITLES], rows)


def most(figures, side, function, at):
    """The largest of a function's figures over all boards and the other calls."""
    return max((numbers[at] for (_, _, its, name), numbers in figures.items() if (its, name) == (side, function)), default="")


def bounds(level):
    try:
        return stack.bounds(library(level).with_name(f"{build.LIBRARY.name}.o"), stack.pushed(MEMORY))
    except stack.Unbounded as trouble:
        raise tools.Trouble(f"-{level}: {trouble}") from None


def check_bound(measured, bound):
    """No call that was played went deeper than the bound of its function."""
    for level, figures in measured.items():
        for name in sheet.FUNCTIONS:
            if most(figures, "library", name, 3) > bound[level][f"ocb_{name}"]:
                raise tools.Trouble(f"-{level}: ocb_{name} takes more stack than its bound")


def print_stack(measured, bound):
    titles = ["Function", *(f"{name}, -{level}" for name in sheet.NAMES for level in measured),
              *(f"library's bound, -{level}" for level in measured)]
    rows = [[f"`ocb_{name}`", *(most(figures, side, name, 3) for side in sheet.SIDES for figures in measured.values()),
             *(bound[level][f"ocb_{name}"] for level in measured)] for name in sheet.FUNCTIONS]
    sheet.table("m0-stack", "Cortex-M0: deepest stack of a call in bytes, refused calls included", titles, rows)
    enough = [f"{max(bound[level].values())} bytes at -{level}" for level in measured]
    sheet.save("m0-stack-most", "Cortex-M0: stack that is enough for any call", " and ".join(enough) + ".\n")


def limits():
    """The numbers that the header defines, by name."""
    found = re.findall(r"#define (OCB_\w+) (\d+)", retarget.HEADER.read_text(encoding="utf-8"))
    return {name: int(number) for name, number in found}


def print_node():
    """What a node needs of RAM while it makes a barrier call."""
    header = limits()
    boards = (5, header["OCB_NODES"])
    rows = []
    for level in build.LEVELS:
        call = max(bounds(level).values())
        for nodes, words in zip(boards, played.state_words(boards)):
            needs = [4 * words, header["OCB_FRAME_BYTES"], 4 * header["OCB_DETAIL_WORDS"], call]
            rows.append([f"-{level}", nodes, *needs, sum(needs), f"{100 * sum(needs) / RAM:.1f}"])
    sheet.table("m0-node", "Cortex-M0: RAM of a node in bytes",
                ["Level", "P", "state", "frame", "details", "stack of a call", "together",
                 f"in 100 of {RAM // 1024} KB"], rows)


def print_time(level, traced, figures):
    rows = []
    for call, title in zip(sheet.CALLS, sheet.TITLES):
        names = [prefix + call for prefix in sheet.SIDES.values()]
        counts, taken = [traced.counts[name].total() for name in names], [traced.cycles[name] for name in names]
        dearest, each = max(counts[0], most(figures, "library", call, 2)), taken[0] / counts[0]
        rows.append([title, *(f"{count}, {cycle}, {cycle / MHZ:.0f}" for count, cycle in zip(counts, taken)),
                     ", ".join(f"{taken[0] / other:.2f}" for other in taken[1:]), f"{each:.2f}",
                     f"{dearest}, {dearest * each / MHZ:.0f}"])
    sides = [f"{name}: instructions, cycles, µs" for name in sheet.NAMES]
    sheet.table(f"m0-time-{level}", f"Cortex-M0, -{level}: time of a call at {MHZ} MHz, by {cycles.SOURCE}",
                ["Call", *sides, "ratios of cycles", "cycles per instruction", "dearest call: instructions, µs"], rows)


def print_shares(traces):
    """Where the instructions of the library's traced calls go; the memory functions count as one."""
    memory = set(cycles.code(MEMORY)[1].values())
    counts = {f"-{level}": collections.Counter() for level in traces}
    for level, traced in traces.items():
        for call in sheet.CALLS:
            for name, count in traced.counts["ocb_" + call].items():
                counts[f"-{level}"]["memory functions" if name in memory else name] += count
    sheet.shares("m0-shares", "Cortex-M0: where the instructions of the traced calls go, in percent", "Level", counts)


def size(path):
    """Bytes of code and constants."""
    lines = tools.run(["arm-none-eabi-size", path]).splitlines()[1:]
    return sum(int(line.split()[0]) for line in lines)


def needed(level):
    """The library without what the calls on a state do not need."""
    made = OUT / f"state_calls.{level}"
    entries = [word for name in sheet.STATE_CALLS for word in ("-u", f"ocb_{name}")]
    tools.run(["arm-none-eabi-ld", "--gc-sections", "-e", "ocb_barrier", *entries, "--unresolved-symbols=ignore-all",
               library(level), "-o", made])
    return made


def print_code(by_hand):
    rows = [[f"library, {sheet.ALL_CODE}", *(size(library(level)) for level in by_hand)],
            [f"library, what the {sheet.STATE_CODE} need", *(size(needed(level)) for level in by_hand)],
            *([f"{words}, the same calls", *(size(made[side]) for made in by_hand.values())]
              for side, (words, _) in sheet.BY_HAND.items()),
            ["memory functions, `memory.S`, beside each", *[size(MEMORY)] * len(by_hand)]]
    sheet.table("m0-code", "Cortex-M0: code and constants in bytes", ["Code", *(f"-{level}" for level in by_hand)], rows)


def stack_aim(level, figures, bound):
    """The deepest of the library's calls on a state that were played, beside the bound of any such call."""
    deepest, call = max((most(figures, "library", call, 3), call) for call in sheet.STATE_CALLS)
    any_call = max(bound[f"ocb_{call}"] for call in sheet.STATE_CALLS)
    return aims.row(f"bytes of stack at -{level}, refused calls included", aims.STACK_BYTES, deepest,
                    f"{call.replace('_', ' ')}; bound of any call {any_call}")


def print_aims(measured, bound):
    rows = []
    for level, figures in measured.items():
        for words, _, at in WAYS:
            counts = {tuple(key): numbers[at] for (what, *key), numbers in figures.items() if what == "scheduled"}
            rows += aims.of_instructions(f"instructions at -{level}, {words}", counts)
        rows.append(stack_aim(level, figures, bound[level]))
    rows.append(aims.row(f"bytes of code of the {sheet.STATE_CODE} at -Os", aims.CODE_BYTES, size(needed("Os")), ""))
    aims.save("m0-aims", "Cortex-M0", rows)


def print_needs():
    names = sorted({line.split()[-1] for level in build.LEVELS
                    for line in tools.run(["arm-none-eabi-nm", "-u", library(level)]).splitlines() if " U " in line})
    sheet.save("m0-needs", "Cortex-M0: functions that the library calls", ", ".join(f"`{name}`" for name in names) + "\n")


def print_lines():
    """The lines of the module that are changed for the target, as a difference. The commonest copy stands for all."""
    old, new = ((folder / f"{build.LIBRARY.name}.ll").read_text(encoding="utf-8").splitlines()
                for folder in (build.MODULE, library("Os").parent))
    lines = [line for line in difflib.unified_diff(old, new, n=0, lineterm="")
             if not line.startswith(("---", "+++", "@@")) and line[1:] != "start:"]
    copies = list(zip(*([line for line in lines if line[0] == sign and COPY in line] for sign in "-+")))
    shown = [line for line in lines if COPY not in line] + list(collections.Counter(copies).most_common(1)[0][0])
    sheet.save("m0-lines", "Cortex-M0: lines of the module that differ", "```diff\n" + "\n".join(shown) + "\n```\n\n"
               f"And {len(copies) - 1} more copies likewise, of the {sum(COPY in line for line in old)} in the module.\n")


def print_tools():
    clang = tools.run([tools.toolchain("clang"), "--version"]).splitlines()[0]
    emulator = tools.run([TARGETS[NAME].emulator[0], "--version"]).splitlines()[0]
    sheet.save("m0-tools", "Measured with", f"{clang}; {emulator}; kit {tools.run(['rt', 'version']).strip()}\n")


def prepare(names):
    """Builds what is measured; the versions by hand: {level: {side: object}}."""
    tools.need(names)
    build.build(names)
    OUT.mkdir(parents=True, exist_ok=True)
    tools.run([*TARGETS[NAME].gcc, "-c", tools.HERE / NAME / "memory.S", "-o", MEMORY])
    return {level: compile_by_hand(level) for level in build.LEVELS}


def bench(names):
    by_hand = prepare(names)
    measured = {level: measure(level, by_hand[level]) for level in build.LEVELS}
    bound = {level: bounds(level) for level in build.LEVELS}
    print_tools()
    traces = {level: trace(level, by_hand[level]) for level in build.LEVELS}
    for level, figures in measured.items():
        print_instructions(level, figures)
        print_time(level, traces[level], figures)
    print_stack(measured, bound)
    print_node()
    print_code(by_hand)
    print_shares(traces)
    print_needs()
    print_lines()
    print_aims(measured, bound)
    check_bound(measured, bound)


if __name__ == "__main__":
    tools.main(lambda _: bench([NAME]), [])
