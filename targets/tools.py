"""What the targets' commands run: the kit's compiler, and Debian's packages: emulators, their compilers, node.

python3 targets/tools.py install [TARGET...]    installs the packages whose programs are missing, and says so; where that
                                                cannot be done, one line names them and the status is 1
"""
import os
import pathlib
import shutil
import subprocess
import sys

sys.dont_write_bytecode = True
from table import TARGETS

HERE = pathlib.Path(__file__).resolve().parent
ROOT = HERE.parent
OUT = ROOT / "target" / "targets"
APT = ["-qq", "-o", "DPkg::Lock::Timeout=120"]


class Trouble(Exception):
    """Something is not as it should be; the text says what, in a line."""


def run(words, **more):
    """What a command writes, as text; its own words where it fails."""
    return run_bytes(words, **more).decode()


def run_bytes(words, **more):
    words = [str(word) for word in words]
    try:
        done = subprocess.run(words, stdout=subprocess.PIPE, stderr=subprocess.PIPE, **more)
    except FileNotFoundError:
        raise Trouble(f"{words[0]} is missing") from None
    if done.returncode != 0:
        sys.stderr.write((done.stdout + done.stderr).decode(errors="replace"))
        raise Trouble(f"{pathlib.Path(words[0]).name} ended with status {done.returncode}")
    return done.stdout


def kit():
    """The kit's folder."""
    if not shutil.which("rt"):
        raise Trouble("rt is missing: the Rattle kit is not installed")
    if os.uname().machine != "x86_64":
        raise Trouble("the archive of rt lib, to which the targets are held, runs on x86-64 alone")
    return pathlib.Path(run(["rt", "doc"]).strip()).parent


def toolchain(name):
    return kit() / "toolchain" / "bin" / name


def chosen(words):
    """The targets that are named, or all."""
    for word in words:
        if word not in TARGETS:
            raise Trouble(f"no target is called {word}; there are {', '.join(TARGETS)}")
    return list(words) or list(TARGETS)


def packages_of(names):
    """The programs that the targets need, each with its Debian package."""
    return {program: package for name in names for program, package in TARGETS[name].packages.items()}


def missing(programs):
    """The Debian packages of programs that are not there."""
    return sorted({package for program, package in programs.items() if not shutil.which(program)})


def need(names):
    packages = missing(packages_of(names))
    if packages:
        raise Trouble(f"what runs the targets is missing: install the Debian packages {' '.join(packages)}")


def fetch(programs):
    """Installs the packages of programs that are not there; those that were missing, and those that still are."""
    packages = missing(programs)
    if packages:
        OUT.mkdir(parents=True, exist_ok=True)
        quiet = {**os.environ, "DEBIAN_FRONTEND": "noninteractive"}
        with open(OUT / "install.log", "w", encoding="utf-8") as log:
            for words in (["update"], ["install", "-y", "--no-install-recommends", *packages]):
                try:
                    subprocess.run(["apt-get", *APT, *words], env=quiet, stdin=subprocess.DEVNULL, stdout=log, stderr=log)
                except FileNotFoundError:
                    break
    return packages, missing(programs)


def install(names):
    packages, lacking = fetch(packages_of(names))
    if lacking:
        raise Trouble(f"what runs the targets cannot be had: apt-get does not install {' '.join(lacking)}"
                      " (target/targets/install.log says why)")
    if packages:
        print("targets: installed", *packages)


def main(act, words):
    """Runs a command's work on the targets that are named; a trouble that is expected is one line."""
    try:
        act(chosen(words))
    except Trouble as trouble:
        sys.exit(f"targets: {trouble}")


if __name__ == "__main__":
    if sys.argv[1:2] != ["install"]:
        sys.exit("python3 targets/tools.py install [TARGET...]")
    main(install, sys.argv[2:])
