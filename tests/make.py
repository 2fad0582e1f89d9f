#!/usr/bin/env python3
"""Builds what the tests run and link: python3 tests/make.py NAME...

A program is put at target/bin/NAME, a C library at target/staticlib/libNAME.a; the C libraries are barrier_c and recording_c.

rt run and rt lib prove and build a crate and all below it. After rt ci there is less to do: it leaves the programs that it ran, and of
each library what the crates above it read, so that a C library is built in a minute. What it left is taken only where it is newer than
all that it was made of.
"""
import functools
import os
import pathlib
import shutil
import subprocess
import sys

ROOT = pathlib.Path(__file__).resolve().parent.parent
# The C libraries by their crates, where these have another name: no crate can be a library and a static library.
CRATES = {"barrier_c": "barrier_c_c"}


def listed():
    """What crates.txt names below each crate, and the static libraries."""
    deps, static = {}, set()
    for line in (ROOT / "crates.txt").read_text(encoding="utf-8").splitlines():
        head, colon, words = line.partition("#")[0].partition(":")
        if colon:
            name, *kind = head.split()
            deps[name] = words.split()
            static |= {name} if kind == ["staticlib"] else set()
    return deps, static


DEPS, STATIC = listed()


@functools.cache
def with_below(crate):
    """A crate and all below it, lowest first."""
    found = []
    for name in DEPS[crate]:
        found += [it for it in with_below(name) if it not in found]
    return [*found, crate]


def folder(crate):
    return ROOT / "crates" / crate


@functools.cache
def changed(crate):
    """When a file of a crate changed last."""
    parts = [folder(crate) / part for part in ("src", "specs", "proofs")]
    return max(path.stat().st_mtime_ns for part in parts if part.exists() for path in (part, *part.rglob("*")))


def is_newer(made, crates):
    """Whether something is there, and newer than crates.txt and each file of these crates."""
    lists = (ROOT / "crates.txt").stat().st_mtime_ns
    return made.exists() and made.stat().st_mtime_ns > max(lists, *map(changed, crates))


def run(words, crate):
    """Runs a command in a crate's folder, and shows what it says where it fails."""
    done = subprocess.run([str(word) for word in words], cwd=folder(crate), stdin=subprocess.DEVNULL, stdout=subprocess.PIPE,
                          stderr=subprocess.STDOUT, check=False)
    if done.returncode:
        sys.exit(f"{done.stdout.decode(errors='replace')}{crate}: {' '.join(map(str, words[:2]))} ends with status {done.returncode}")


def rlib(crate):
    return folder(crate) / "out" / "rlib" / f"{crate}.rlib"


def kit():
    return pathlib.Path(subprocess.run(["rt", "doc"], stdout=subprocess.PIPE, check=True).stdout.decode().strip()).parent


def over_built(command, crate, jobs):
    """The words of rattle that check or build a crate over the libraries below it as they stand built."""
    home = kit()
    main = "src/main.rt" if (folder(crate) / "src" / "main.rt").exists() else "src/lib.rt"
    words = [home / "bin" / "rattle", command, main, "--crate-name", crate, "--links", f"{crate}=", "--jobs", jobs,
             "--extern", f"std={home}/rlibs/std.rlib", "-L", f"dependency={home}/rlibs",
             "--antt-project", f"{home}/rattle/logic/antt-project.json", "--logic-built", f"{home}/logic_built"]
    for name in DEPS[crate]:
        words += ["--extern", f"{name}={rlib(name)}"]
    for name in with_below(crate)[:-1]:
        words += ["-L", f"dependency={rlib(name).parent}"]
    return words + (["--crate-type", "staticlib"] if crate in STATIC else [])


def build_words(crate, toolchain, to):
    """The words of rattle that prove a static library once more and compile it, as rt lib does."""
    return [*over_built("build", crate, 2), "--toolchain", toolchain, "--backend", "llvm", "-o", to]


def are_built(crates):
    return all(is_newer(rlib(crate), with_below(crate)) for crate in crates)


def archive(crate):
    """The archive of a static library."""
    made, crates = folder(crate) / "out" / f"lib{crate}.a", with_below(crate)
    if not is_newer(made, crates):
        if are_built(crates[:-1]):
            made.parent.mkdir(exist_ok=True)
            run(build_words(crate, kit() / "toolchain", made), crate)
        else:
            run(["rt", "lib"], crate)
    return made


def program(crate):
    made = folder(crate) / "out" / crate
    if not is_newer(made, with_below(crate)):
        # it is run on no input, and what it prints is of no interest here
        run(["rt", "run"], crate)
    return made


def put(made, to):
    """Copies a file to target; what runs or links the one there meanwhile goes on with that."""
    to.parent.mkdir(parents=True, exist_ok=True)
    shutil.copy(made, f"{to}.new")
    os.replace(f"{to}.new", to)


def make(name):
    crate = CRATES.get(name, name)
    if crate not in DEPS:
        sys.exit(f"no crate is called {crate}")
    if crate in STATIC:
        put(archive(crate), ROOT / "target" / "staticlib" / f"lib{name}.a")
    else:
        put(program(crate), ROOT / "target" / "bin" / name)


if __name__ == "__main__":
    if len(sys.argv) == 1:
        sys.exit(__doc__)
    for word in sys.argv[1:]:
        make(word)
