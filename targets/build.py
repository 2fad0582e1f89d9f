"""Builds the C library for other targets than x86-64: python3 targets/build.py [TARGET...], all of table.py's by default.

target/targets/TARGET/LEVEL/libbarrier_c.a is written, for include/ocb.h as it stands, at each level of LEVELS. It is
compiled by the kit's clang from the very module that the kit compiles to the x86-64 archive: that is built a second time
with a clang that keeps what it is given, and what comes out must be, byte for byte, the archive in use.

For WebAssembly barrier.wasm is written in its place, and rehearse.wasm beside it, the rehearsal, from a module that is kept
in the same way.
"""
import collections
import dataclasses
import pathlib
import sys
import tempfile

sys.dont_write_bytecode = True
sys.path.append(str(pathlib.Path(__file__).resolve().parent.parent / "tests"))
import make
import retarget
import tools
import wasm
from table import TARGETS, WebAssembly

LEVELS = ["Os", "O2"]
TARGET = tools.ROOT / "target"
ARCHIVE = TARGET / "staticlib" / "libbarrier_c.a"
MODULE = tools.OUT / "module"

# As the kit has them: sections that a linker can leave out, a trap for what cannot be reached, and passes that are left out.
# Beside the object stands how much stack each function takes, libbarrier_c.su.
WORDS = ["-ffunction-sections", "-fdata-sections", "-mllvm", "-trap-unreachable", "-mllvm", "-no-trap-after-noreturn",
         "-mllvm", "-disable-machine-licm", "-mllvm", "-disable-postra-machine-licm", "-mllvm", "-sink-common-insts=false",
         "--no-default-config", "-Werror", "-fstack-usage"]

# More for the library. The proved code is many functions that lend each other slices and structs, which are in memory where
# a function is not put into the one that calls it. At -Os few are, by clang's own measure of size: a larger one gives less
# stack, and fewer instructions in the dearest calls. At -O2 loops would be unrolled, which is a fifth of the code and a
# little stack for 3 or 4 in 100 of the instructions. docs/DECISIONS.md has how these words were picked.
MORE = {"Os": ["-mllvm", "-inline-threshold=1000"], "O2": ["-fno-unroll-loops"]}
KEEPING = """#!/bin/sh
for word in "$@"; do case $word in *.bc) cp "$word" "{kept}" ;; esac; done
exec "{clang}" "$@"
"""


@dataclasses.dataclass(frozen=True)
class Part:
    """What is built of a module."""
    kind: str  # as retarget.py has it
    crate: str
    name: str  # of what is made
    more: dict  # words for clang, by level


LIBRARY = Part("library", make.CRATES["barrier_c"], "barrier_c", MORE)
REHEARSAL = Part("rehearsal", "rehearse_c", "rehearse", dict.fromkeys(LEVELS, []))


def link_all(source, to, apart):
    """A folder of links to all that a folder has, apart from one name."""
    to.mkdir(parents=True)
    for path in source.iterdir():
        if path.name != apart:
            (to / path.name).symlink_to(path)


def keeping_toolchain(folder, kept):
    """A folder that is the kit's toolchain, with a clang that keeps the module it is given."""
    source = tools.kit() / "toolchain"
    kept.unlink(missing_ok=True)
    link_all(source, folder, "bin")
    link_all(source / "bin", folder / "bin", "clang")
    clang = folder / "bin" / "clang"
    clang.write_text(KEEPING.format(kept=kept, clang=source / "bin" / "clang"), encoding="utf-8")
    clang.chmod(0o755)
    return folder


def keep(part, kept):
    """Keeps the module that gives the archive in use."""
    in_use = make.archive(part.crate)
    with tempfile.TemporaryDirectory() as folder:
        again = pathlib.Path(folder) / in_use.name
        toolchain = keeping_toolchain(pathlib.Path(folder) / "toolchain", kept)
        make.run(make.build_words(part.crate, toolchain, again), part.crate)
        if again.read_bytes() != in_use.read_bytes():
            raise tools.Trouble(f"the module that was kept does not give {in_use.relative_to(tools.ROOT)}")


def capture(part):
    """The text of a part's module."""
    MODULE.mkdir(parents=True, exist_ok=True)
    kept, text = (MODULE / f"{part.name}.{ending}" for ending in ("bc", "ll"))
    keep(part, kept)
    tools.run([tools.toolchain("clang"), "--target=x86_64-unknown-linux-gnu", "-x", "ir", "-S", "-emit-llvm", "-Xclang",
               "-disable-llvm-passes", kept, "-o", text])
    return text.read_text(encoding="utf-8")


def retargeted(text, name, level, kind):
    try:
        return retarget.retarget(text, TARGETS[name], level, kind)
    except retarget.Refused as refused:
        raise tools.Trouble(f"retarget: {refused}") from None


def new_lines(text, made):
    return (collections.Counter(made.split("\n")) - collections.Counter(text.split("\n"))).total()


def compile_module(text, name, level, part):
    """The object of a target at a level, from a module for it."""
    folder = tools.OUT / name / level
    folder.mkdir(parents=True, exist_ok=True)
    made, compiled = folder / f"{part.name}.ll", folder / f"{part.name}.o"
    made.write_text(text, encoding="utf-8")
    words = [*TARGETS[name].clang, *WORDS, *part.more[level], f"-{level}"]
    tools.run([tools.toolchain("clang"), *words, "-c", "-x", "ir", made, "-o", compiled])
    return compiled


def pack(compiled):
    library = compiled.with_name(ARCHIVE.name)
    library.unlink(missing_ok=True)
    tools.run([tools.toolchain("llvm-ar"), "rcs", library, compiled])
    return library


def build_part(part, text, name, level, link):
    """A target's file of a part at a level."""
    made = retargeted(text, name, level, part.kind)
    path = link(compile_module(made, name, level, part))
    print(f"built: {path.relative_to(tools.ROOT)}: {TARGETS[name].triple}, -{level}, from the module of"
          f" {make.archive(part.crate).relative_to(tools.ROOT)}, {new_lines(text, made)} lines of it changed or added")


def build(names):
    web = {name for name in names if isinstance(TARGETS[name], WebAssembly)}
    make.make(LIBRARY.name)
    library = capture(LIBRARY)
    rehearsal = capture(REHEARSAL) if web else None
    for name in names:
        for level in LEVELS:
            build_part(LIBRARY, library, name, level, wasm.link_library if name in web else pack)
            if name in web:
                build_part(REHEARSAL, rehearsal, name, level, wasm.link_rehearsal)


if __name__ == "__main__":
    tools.main(build, sys.argv[1:])
