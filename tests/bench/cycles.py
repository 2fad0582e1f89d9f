"""Cycles of a Cortex-M0 for calls that were traced, instruction by instruction.

Each instruction has the cycles of ARM's table (Cortex-M0 Technical Reference Manual, r0p0, table 3-1), with memory that
answers at once and the multiplier of one cycle. A part whose ROM waits takes more.
"""
import bisect
import collections
import re
import subprocess

SOURCE = "the cycles of ARM's Cortex-M0 Technical Reference Manual (r0p0, table 3-1), memory that answers at once"
TRACED = re.compile(r"^Trace .*?\[[0-9a-f]+/([0-9a-f]+)/", re.M)
CONDITIONAL = re.compile(r"b(eq|ne|cs|cc|hs|lo|mi|pl|vs|vc|hi|ls|ge|lt|gt|le)\.n")


def code(program):
    """A program's instructions by address, and its functions' names by address."""
    instructions, functions = {}, {}
    listing = subprocess.run(["arm-none-eabi-objdump", "-d", "--no-show-raw-insn", program], check=True,
                             capture_output=True, text=True).stdout
    for line in listing.splitlines():
        if named := re.match(r"([0-9a-f]+) <(.*)>:", line):
            functions[int(named[1], 16)] = named[2]
        elif found := re.match(r"\s*([0-9a-f]+):\t(\S+)\s*(.*)", line):
            instructions[int(found[1], 16)] = (found[2], found[3])
    return instructions, functions


def cycles(name, operands, jumps):
    """ARM's table."""
    if name in ("push", "pop", "ldmia", "stmia"):
        listed = operands[operands.index("{") :].count(",") + 1
        return listed + (4 if name == "pop" and "pc" in operands else 1)
    if name.startswith(("ldr", "str")):
        return 2
    if name == "bl":
        return 4
    if name in ("bx", "blx", "b.n", "b.w", "b") or operands.startswith("pc"):
        return 3
    if CONDITIONAL.fullmatch(name):
        return 3 if jumps else 1
    return 1


class Traced:
    """What the calls of a traced program took, by the function that was called (the last call of each)."""

    def __init__(self, program, trace, prefixes):
        self.instructions, self.functions = code(program)
        self.starts = sorted(self.functions)
        self.counts = collections.defaultdict(collections.Counter)  # instructions, by the function that has them
        self.cycles = collections.Counter()
        path = [int(at, 16) for at in TRACED.findall(trace.read_text(encoding="utf-8"))]
        inside, back, before = None, None, 0
        for at, following in zip(path, path[1:] + [0]):
            if inside is None and self.functions.get(at, "").startswith(prefixes):
                inside, back = self.functions[at], before + 4  # behind the bl
                self.counts[inside].clear()
                self.cycles[inside] = 0
            elif at == back:
                inside, back = None, None
            if inside:
                self.counts[inside][self.name_at(at)] += 1
                self.cycles[inside] += cycles(*self.instructions[at], following != at + 2)
            before = at

    def name_at(self, at):
        return self.functions[self.starts[bisect.bisect_right(self.starts, at) - 1]]
