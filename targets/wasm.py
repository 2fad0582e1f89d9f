"""Files of WebAssembly: the library's, the rehearsal's and that of the callers' program; and how they are run."""
import subprocess
import sys

sys.dont_write_bytecode = True
import emulate
import retarget
import tools
from table import TARGETS

LIBRARY, REHEARSAL = "barrier.wasm", "rehearse.wasm"

# The stack lies first, so that a call which needs more of it than there is writes below address 0, which traps. Without
# the custom sections a file is the same wherever it is made.
WORDS = ["--fatal-warnings", "--no-entry", "--stack-first", "--strip-all"]
STACKS = {LIBRARY: 1 << 16, REHEARSAL: 1 << 20}

# The callers' program is in the library's memory, above the library's stack: its data and then its own stack.
CALLERS = ["--fatal-warnings", "--no-entry", "--no-stack-first", f"--global-base={2 * STACKS[LIBRARY]}", "-z",
           f"stack-size={STACKS[REHEARSAL]}", "--import-memory", "--import-undefined", "--export=main", "--export=__global_base"]
FREE = ["-ffreestanding", "-fno-builtin", "-nostdinc", "-isystem", tools.HERE / "freestanding",
        "-Wno-unknown-attributes"]  # sides.c has one of gcc's, for measuring alone

CUSTOM, IMPORTS, EXPORTS = 0, 2, 7  # kinds of sections
FUNCTION = 0  # a kind of import


class Reader:
    """Bytes of a file, from the first to the last."""

    def __init__(self, data):
        self.data, self.at = data, 0

    def take(self, count):
        self.at += count
        return self.data[self.at - count : self.at]

    def number(self):
        byte = self.take(1)[0]
        return byte if byte < 128 else byte - 128 + 128 * self.number()

    def name(self):
        return self.take(self.number()).decode()


def sections(path):
    """The sections of a file: {kind: bytes}."""
    reader, found = Reader(path.read_bytes()), {}
    if reader.take(8) != b"\0asm\1\0\0\0":
        raise tools.Trouble(f"{path.name} is no WebAssembly")
    while reader.at < len(reader.data):
        kind = reader.number()
        found[kind] = reader.take(reader.number())
    return found


def imported(section):
    """The functions that a file has from outside, sorted; it may have nothing else."""
    reader, found = Reader(section), []
    for _ in range(reader.number()):
        found.append(f"{reader.name()}.{reader.name()}")
        if reader.number() != FUNCTION:
            raise tools.Trouble(f"{found[-1]} is imported and no function")
        reader.number()  # its type
    return sorted(found)


def exported(section):
    reader, found = Reader(section), []
    for _ in range(reader.number()):
        found.append(reader.name())
        reader.take(1)  # its kind
        reader.number()  # its place
    return sorted(found)


def check(path, imports, exports):
    """A file has these imports and exports and no others, and no section that could name where it was made."""
    found = sections(path)
    have = imported(found.get(IMPORTS, b"\0")), exported(found.get(EXPORTS, b"\0"))
    if have != (sorted(imports), sorted(exports)):
        raise tools.Trouble(f"{path.name} imports {', '.join(have[0]) or 'nothing'} and exports {', '.join(have[1])}")
    if CUSTOM in found:
        raise tools.Trouble(f"{path.name} has a custom section")


def link(path, words):
    """The kit's linker, which is one for WebAssembly by its first word."""
    tools.run([tools.toolchain("ld.lld"), "-flavor", "wasm", *words, "-o", path])
    return path


def link_exports(compiled, name, kind):
    """A file that exports what the header of its kind has, and needs nothing."""
    functions = ["__heap_base", *retarget.exports(kind)]
    path = link(compiled.with_name(name), [*WORDS, "-z", f"stack-size={STACKS[name]}",
                                           *(f"--export={function}" for function in functions), compiled])
    check(path, [], ["memory", *functions])
    return path


def link_library(compiled):
    return link_exports(compiled, LIBRARY, "library")


def link_rehearsal(compiled):
    return link_exports(compiled, REHEARSAL, "rehearsal")


def link_callers(name, path, files, words):
    """A program of C files that calls the functions of a library's file."""
    folder = path.parent / path.stem
    folder.mkdir(parents=True, exist_ok=True)
    headers = tools.run(["gcc", "-print-file-name=include"]).strip()  # stdint.h and the like, for any compiler
    objects = []
    for source in [*files, *(tools.HERE / file for file in ("memory.c", "memcmp.c", "semihost.c"))]:
        objects.append(folder / f"{source.stem}.o")
        tools.run([tools.toolchain("clang"), *TARGETS[name].clang, "--no-default-config", *emulate.STRICT, *FREE, "-isystem",
                   headers, "-O2", *words, "-c", source, "-o", objects[-1]])
    return link(path, [*CALLERS, *objects])


def run(name, script, files, **more):
    """The bytes that a script of the target's folder prints, run by the engine on files of WebAssembly."""
    command = [*TARGETS[name].engine, tools.HERE / name / script, *files]
    try:
        return tools.run_bytes(command, timeout=emulate.SECONDS, **more)
    except subprocess.TimeoutExpired:
        raise tools.Trouble(f"{files[-1].name} does not end") from None
