#!/usr/bin/env python3
"""Finds a browser that tests/explorer/browser.mjs can speak to.

python3 tests/explorer/browser.py            prints its path, or nothing
python3 tests/explorer/browser.py install    installs Debian's package chromium where there is none; says so in a line, or that it cannot
"""
import pathlib
import shutil
import sys

sys.dont_write_bytecode = True
sys.path.insert(0, str(pathlib.Path(__file__).resolve().parent.parent.parent / "targets"))
import tools

NAMES = ["chromium", "chromium-browser", "google-chrome"]


def found():
    return next(filter(None, map(shutil.which, NAMES)), "")


def install():
    if not found():
        _, lacking = tools.fetch({"chromium": "chromium"})
        print("explorer: no browser can be had: apt-get does not install chromium" if lacking else "explorer: installed chromium")


if __name__ == "__main__":
    if sys.argv[1:] == ["install"]:
        install()
    elif sys.argv[1:]:
        sys.exit("python3 tests/explorer/browser.py [install]")
    else:
        print(found())
