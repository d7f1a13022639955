#!/usr/bin/env python3
"""The walk of two passes at a board, with each of its allocations refused in turn.

Usage: board_memory.py

A program over the repository's crates, built by LLVM at -O2 with no proof, makes the walk `runner/board_walk.txt`, and makes each call
again that was refused memory. tools/fail_alloc.c is preloaded and refuses one allocation of each run. A refused turn has to be counted
as missed, to take one turn, to give the entry back and to change nothing else: then the walk ends as it does with memory enough, with
as many missed turns as calls that were refused. A run in which there was no memory for the board itself or for an entry says
`no memory`, or that an offer wasn't made. Status 1 where anything else was said, or where no turn was refused at all.
"""
import os
import re
import shutil
import subprocess
import sys
import tempfile
from pathlib import Path

from rounds import house
from crates import built

USES = ["lits", "netlist", "lemma_book", "board_lock", "worked_circuits"]
SPECS = house.TOP / "crates" / "board_rows" / "specs"
LINE = re.compile(r"answers (true|false) (true|false) turns (\d+) drawn (\d+) missed (\d+) refused (\d+) right (true|false)\n")


def ran(program, library, **refused):
    """What the program says where these allocations are refused."""
    environment = {**os.environ, "LD_PRELOAD": str(library), **refused}
    return subprocess.run([program], env=environment, stdout=subprocess.PIPE, timeout=60).stdout.decode()


def fault_in(said):
    """How many calls were refused in a run, and what is wrong with it, or none."""
    if said in ("no memory\n", ""):
        return 0, None
    found = LINE.fullmatch(said)
    if not found:
        return 0, "another line"
    turns, drawn, missed, refused = (int(found[k]) for k in (3, 4, 5, 6))
    if missed != refused or drawn != 2 or found[7] != "true":
        return refused, "a refused turn did something else"
    whole = found[1] == found[2] == "true" and turns == 4
    return refused, None if whole or (refused == 0 and turns < 4) else "another answer"


def main():
    if not shutil.which("rt"):
        print("skipped: the toolchain's command rt is not there")
        return 0
    with tempfile.TemporaryDirectory() as made:
        library, count = Path(made) / "fail_alloc.so", Path(made) / "count"
        subprocess.run(["cc", "-shared", "-fPIC", "-O2", "-o", library, str(house.TOP / "tools" / "fail_alloc.c"), "-ldl"], check=True)
        source = (Path(__file__).resolve().parent / "runner" / "board_walk.txt").read_text()
        program = built(made, "board_walk", source, USES, SPECS)
        whole = ran(program, library, FAIL_ALLOC_COUNT=str(count))
        calls, turned, wrong = int(count.read_text()), 0, 0
        if whole != "answers true true turns 4 drawn 2 missed 0 refused 0 right true\n":
            print(f"with memory enough: {whole!r}")
            wrong += 1
        for number in range(1, calls + 1):
            said = ran(program, library, FAIL_ALLOC_FROM=str(number), FAIL_ALLOC_LAST=str(number))
            refused, fault = fault_in(said)
            turned += refused
            if fault:
                wrong += 1
                print(f"{fault}: allocation {number}: {said!r}")
    print(f"{calls} allocations, each refused once: {turned} turns were missed, {wrong} wrong")
    return 1 if wrong or not turned else 0


if __name__ == "__main__":
    sys.exit(main())
