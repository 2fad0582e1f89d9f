"""The targets that the C library is built for and played on, beside x86-64: a row each.

A further core is a row here and a start-up file in its folder; retarget.py says what it asks of a target. clang is the
kit's, which builds the library. The programs that call it on a core, in an emulator, are built by a compiler that makers
have, so that the two are held to one calling convention. For WebAssembly the kit's clang builds both: there a file states
the types of its functions, and the engine holds each call to them.
"""
import dataclasses


@dataclasses.dataclass(frozen=True)
class Target:
    triple: str  # of the module, and its data layout as clang has it
    layout: str
    clang: tuple  # words for clang: the core
    packages: dict  # what is run, and the Debian package that has it


@dataclasses.dataclass(frozen=True)
class Core(Target):
    gcc: tuple  # the compiler of the programs, and its words
    emulator: tuple  # words before the program
    memory: dict  # symbols for rom.ld: where the emulated machine has memory, larger than a node needs
    sources: tuple  # start-up and memory functions, from the targets' folder


@dataclasses.dataclass(frozen=True)
class WebAssembly(Target):
    engine: tuple  # words before a script that runs a file of it


TARGETS = {
    "cortex-m0": Core(
        triple="thumbv6m-unknown-none-eabi",
        layout="e-m:e-p:32:32-Fi8-i64:64-v128:64:128-a:0:32-n32-S64",
        clang=("--target=thumbv6m-none-eabi", "-mcpu=cortex-m0", "-fshort-enums"),
        gcc=("arm-none-eabi-gcc", "-mcpu=cortex-m0", "-mthumb"),
        emulator=("qemu-system-arm", "-M", "microbit", "-global", "nrf51-soc.sram-size=8388608"),
        memory={"rom_bytes": 0x40000, "ram_bytes": 0x800000},
        sources=("cortex-m0/start.S", "cortex-m0/memory.S"),
        packages={"arm-none-eabi-gcc": "gcc-arm-none-eabi", "qemu-system-arm": "qemu-system-arm"},
    ),
    "riscv32imc": Core(
        triple="riscv32-unknown-none-elf",
        layout="e-m:e-p:32:32-i64:64-n32-S128",
        clang=("--target=riscv32-none-elf", "-march=rv32imc", "-mabi=ilp32"),
        gcc=("riscv64-unknown-elf-gcc", "-march=rv32imc", "-mabi=ilp32"),
        emulator=("qemu-system-riscv32", "-M", "virt", "-bios", "none"),
        memory={"rom_at": 0x80000000, "rom_bytes": 0x400000, "ram_at": 0x80400000, "ram_bytes": 0x800000},
        sources=("riscv32imc/start.S", "memory.c"),
        packages={"riscv64-unknown-elf-gcc": "gcc-riscv64-unknown-elf", "qemu-system-riscv32": "qemu-system-misc"},
    ),
    "wasm32": WebAssembly(
        triple="wasm32-unknown-unknown",
        layout="e-m:e-p:32:32-p10:8:8-p20:8:8-i64:64-i128:128-n32:64-S128-ni:1:10:20",
        # what engines have had since 2021: a copy is one instruction, so that the library needs nothing from outside
        clang=("--target=wasm32-unknown-unknown", "-mcpu=mvp", "-mbulk-memory", "-mbulk-memory-opt"),
        engine=("node",),
        packages={"node": "nodejs"},
    ),
}
