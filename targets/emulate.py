"""Programs for a core: compiled by its C compiler without a C library, and run in its emulator."""
import subprocess
import sys

sys.dont_write_bytecode = True
import tools
from table import TARGETS

BENCH = tools.ROOT / "tests" / "bench"
STRICT = ["-std=c11", "-Wall", "-Wextra", "-Wpedantic", "-Werror", f"-I{tools.ROOT / 'include'}", f"-I{BENCH}",
          f"-I{tools.HERE}"]
BARE = ["-ffreestanding", "-fno-builtin", "-nostdlib", "-isystem", tools.HERE / "freestanding", "-Wl,--gc-sections"]
CONSOLE = ["-display", "none", "-monitor", "none", "-serial", "none", "-chardev", "stdio,id=out", "-semihosting-config",
           "enable=on,target=native,chardev=out"]
SECONDS = 3600


def link(name, program, files, memory=None, words=()):
    """A program of C files and archives, with the target's start-up; memory: symbols for rom.ld, the table's by default."""
    target = TARGETS[name]
    symbols = target.memory if memory is None else memory
    places = [f"-Wl,--defsym={symbol}={value:#x}" for symbol, value in symbols.items()]
    sources = [tools.HERE / source for source in (*target.sources, "memcmp.c", "semihost.c")]
    program.parent.mkdir(parents=True, exist_ok=True)
    tools.run([*target.gcc, *STRICT, *BARE, "-O2", *places, "-T", tools.HERE / "rom.ld", *words, *sources, *files, "-lgcc",
               "-o", program])
    return program


def run(name, program, words=()):
    """What a program prints in the target's emulator."""
    command = [*TARGETS[name].emulator, *CONSOLE, *words, "-kernel", program]
    try:
        return tools.run(command, stdin=subprocess.DEVNULL, timeout=SECONDS)
    except subprocess.TimeoutExpired:
        raise tools.Trouble(f"{program.name} does not end") from None
