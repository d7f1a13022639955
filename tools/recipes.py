#!/usr/bin/env python3
"""Runs the recipes of docs/USE.md and compares what they print with the page, which has README.md's recipe too.

Usage: recipes.py [PROGRAM]

A block ```verilog NAME or ```make NAME is a file of that name, a block ```sh is run by bash in the folder of all of them, and the block
```text after it is what it prints. `cec` there is the program, and CEC_TOOLS this folder. `needs:` names the commands that a block wants;
where one isn't installed it is left out with a line, and so is what stands on it. Status 1 where a block prints something else.
"""
import argparse
import os
import re
import shutil
import subprocess
import sys
import tempfile
from pathlib import Path

import house

PAGE = house.TOP / "docs" / "USE.md"
BLOCK = re.compile(r"^```(\w+)([^\n]*)\n(.*?)^```$", re.MULTILINE | re.DOTALL)


def blocks():
    """The page's blocks in order: kind, what stands behind it, text."""
    return [(found[1], found[2].strip(), found[3]) for found in BLOCK.finditer(PAGE.read_text())]


def missing(words):
    """The commands that a block needs and that aren't there."""
    needed = words.removeprefix("needs:").split() if words.startswith("needs:") else []
    return [name for name in needed if not shutil.which(name)]


def ran(text, folder, program):
    """What the commands print."""
    names = Path(folder, "names")
    names.mkdir(exist_ok=True)
    if not (names / "cec").exists():
        (names / "cec").symlink_to(program)
    path = {"PATH": f"{names}:{os.environ['PATH']}", "CEC_TOOLS": str(house.TOP / "tools")}
    done = subprocess.run(["bash", "-c", text], cwd=folder, env={**os.environ, **path}, capture_output=True, text=True, timeout=600, check=False)
    return done.stdout + done.stderr


def not_here():
    """The commands of README.md's recipe that no recipe of the page has."""
    lines = [line.strip() for line in (house.TOP / "README.md").read_text().splitlines()]
    run = "\n".join(text for kind, _, text in blocks() if kind == "sh").splitlines()
    return [line for line in lines if line.startswith(("yosys ", "cec ")) and line not in run]


def main():
    words = argparse.ArgumentParser(description=__doc__, formatter_class=argparse.RawDescriptionHelpFormatter)
    words.add_argument("program", nargs="?")
    program = house.program(words.parse_args().program)
    page, wrong, left_out, count = blocks(), 0, 0, 0
    with tempfile.TemporaryDirectory() as folder:
        for (kind, said, text), (after, _, wanted) in zip(page, [*page[1:], ("", "", "")]):
            if kind in ("verilog", "make"):
                Path(folder, said).write_text(text)
            if kind != "sh":
                continue
            count += 1
            absent = missing(said)
            if absent:
                left_out += 1
                print(f"left out, without {' '.join(absent)}: {text.splitlines()[0]}")
                continue
            printed = ran(text, folder, program)
            if printed != (wanted if after == "text" else ""):
                wrong += 1
                print(f"WRONG: {text}prints\n{printed}in place of\n{wanted if after == 'text' else ''}")
    for line in not_here():
        wrong += 1
        print(f"README.md has a recipe that docs/USE.md hasn't: {line}")
    print(f"{count} recipes, {left_out} left out, {wrong} wrong")
    return 1 if wrong else 0


if __name__ == "__main__":
    sys.exit(main())
