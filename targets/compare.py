"""Plays the C library on the targets, in emulators, and on x86-64, and compares all that its calls gave.

python3 targets/compare.py [long] [TARGET...]    all of table.py's targets by default

Boards of 1, 2, 5, 16, 61 and 96 nodes over whole cycles past phase 255, with jobs, notes and slow links, and between the
calls of a board others, to every exported function, on damaged states and frames, with words too few or too many (play.c,
others.c). The calls on a state are also held to the versions by hand of tests/bench. Each function must have been refused
for every reason that the header gives, and for no other. Before that the cores' memory functions are
tested, and example.c runs as a ROM image of the size that rom.ld has. WebAssembly has neither: a copy is an instruction
there, and nothing is put into a ROM. Instead rehearse.wasm plays the scripts, and must print what scripts/printed has.
"""
import re
import sys
import time

sys.dont_write_bytecode = True
import build
import emulate
import retarget
import tools
import wasm
from table import TARGETS, WebAssembly

PLAYED = [tools.HERE / "play.c", tools.HERE / "others.c",
          *(emulate.BENCH / name for name in ("board.c", "sides.c", "inplace.c", "compact.c"))]
REFUSALS = range(1, 18)
SCRIPTS = tools.ROOT / "scripts"


def on_x86_64(words):
    program = tools.OUT / "x86-64" / "play"
    program.parent.mkdir(parents=True, exist_ok=True)
    tools.run(["gcc", *emulate.STRICT, "-O2", *words, *PLAYED, emulate.BENCH / "host.c", build.ARCHIVE, "-o", program])
    return tools.run([program])


def refusals():
    """The refusals of each function by the header."""
    parts = re.findall(r"/\*((?:(?!/\*).)*?)\*/\s*uint32_t ocb_(\w+)\(", retarget.HEADER.read_text(encoding="utf-8"), re.S)
    lists = {name: re.search(r"Refusals: ([^.]*)\.", words)[1] for words, name in parts}
    return {name: {int(number) for number in re.findall(r"\d+", re.sub(r"\(.*?\)", "", words, flags=re.S))}
            for name, words in lists.items()}


def check_reach(text):
    """Every exported function was refused for each of the header's reasons, and for no other; how many calls there are."""
    answers = [line.split()[1:] for line in text.splitlines() if line.startswith("answered ")]
    found = {(name, int(number)) for name, number, _ in answers if int(number) in REFUSALS}
    wanted = {(name, number) for name, numbers in refusals().items() for number in numbers}
    for name, number in sorted(found ^ wanted):
        raise tools.Trouble(f"the header and what is played differ: ocb_{name} and refusal {number}")
    return sum(int(count) for _, _, count in answers)


def difference(ours, theirs):
    """The first line in which two plays differ."""
    lines = zip(ours.splitlines() + ["the end"], theirs.splitlines() + ["the end"])
    return next(f"x86-64 has '{one}', the target has '{other}'" for one, other in lines if one != other)


def play(name, level, words):
    """What the callers' program prints on a target."""
    folder = tools.OUT / name / level
    if isinstance(TARGETS[name], WebAssembly):
        program = wasm.link_callers(name, folder / "play.wasm", PLAYED, words)
        return wasm.run(name, "play.mjs", [folder / wasm.LIBRARY, program]).decode()
    program = emulate.link(name, folder / "play.elf", [*PLAYED, folder / build.ARCHIVE.name], words=words)
    return emulate.run(name, program)


def on_target(name, level, words, wanted):
    printed = play(name, level, words)
    if printed != wanted:
        raise tools.Trouble(f"{name}, -{level}: nodes of the board, calls, hash: {difference(wanted, printed)}")


def test_memory(name):
    program = emulate.link(name, tools.OUT / name / "memory_test.elf", [tools.HERE / "memory_test.c"])
    print(f"{name}: memory functions, {emulate.run(name, program).strip()}")


def run_example(name, level):
    """The example in memory as small as rom.ld has it."""
    library = tools.OUT / name / level / build.ARCHIVE.name
    places = {symbol: value for symbol, value in TARGETS[name].memory.items() if symbol.endswith("_at")}
    program = emulate.link(name, library.parent / "example.elf", [tools.HERE / "example.c", library], places)
    print(f"{name}, -{level}: example, {emulate.run(name, program).strip()}")


def play_scripts(name, level):
    """The rehearsal prints of each script what is kept of it."""
    scripts = sorted(path for path in SCRIPTS.iterdir() if path.is_file())
    for script in scripts:
        with script.open("rb") as given:
            printed = wasm.run(name, "rehearse.mjs", [tools.OUT / name / level / wasm.REHEARSAL], stdin=given)
        if printed != (SCRIPTS / "printed" / script.name).read_bytes():
            raise tools.Trouble(f"{name}, -{level}: {wasm.REHEARSAL} prints something else of {script.name}")
    print(f"{name}, -{level}: {wasm.REHEARSAL}, {len(scripts)} scripts played, printed as on x86-64")


def compare(names, words):
    tools.need(names)
    build.build(names)
    wanted = on_x86_64(words)
    calls = check_reach(wanted)
    for name in names:
        web = isinstance(TARGETS[name], WebAssembly)
        if not web:
            test_memory(name)
        for level in build.LEVELS:
            (play_scripts if web else run_example)(name, level)
            start = time.monotonic()
            on_target(name, level, words, wanted)
            print(f"{name}, -{level}: {calls} calls, all as on x86-64 ({time.monotonic() - start:.0f} s)", flush=True)


if __name__ == "__main__":
    more = ["-DLONG"] if sys.argv[1:2] == ["long"] else []
    tools.main(lambda names: compare(names, more), sys.argv[1 + len(more) :])
