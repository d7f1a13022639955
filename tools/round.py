#!/usr/bin/env python3
"""Runs every script of bench/, fuzz/ and tools/ that judges or measures, once, as it is without further words; bench/large.py without the
pairs that take long. Only the one that has the prover try wrong bodies, fuzz/wrong_bodies.py, is left out: like the gate, it takes as
long as the proofs.

Usage: round.py [PROGRAM]

PROGRAM is the repository's own where it is left out. The scripts that measure run one after another, then the others as many side by
side as there are processors. Prints the seconds, the status and the last line of each, and then those of the whole round. Status 1
where a script's status isn't 0.
"""
import argparse
import os
import subprocess
import sys
import time
from concurrent.futures import ThreadPoolExecutor

import house

# What a script's words are where it runs the program.
FIRST, NAMED, NONE = ("{}",), ("--program", "{}"), ()

MEASURING = {
    "bench/run.py": FIRST,
    "bench/lrat.py": FIRST,
    "bench/solver.py": NAMED,
    "bench/sweep.py": NAMED,
    "bench/sim.py": NONE,
    "bench/board.py": NONE,
    "bench/edits.py": NAMED,
    "bench/lemmas.py": (*NAMED, "--sizes", "50000", "--copies", "32"),
    "bench/made_constrained.py": NAMED,
    "bench/workers.py": NAMED,
    "bench/large.py": (*NAMED, "--largest", "40000"),
}

JUDGING = {
    "fuzz/hostile.py": FIRST,
    "fuzz/script_faults.py": FIRST,
    "fuzz/workers.py": FIRST,
    "fuzz/wrong_search.py": NONE,
    "fuzz/workloads.py": FIRST,
    "fuzz/books.py": NONE,
    "fuzz/solver.py": NONE,
    "fuzz/classes.py": NONE,
    "fuzz/board_memory.py": NONE,
    "fuzz/memory.py": FIRST,
    "fuzz/reader.py": FIRST,
    "fuzz/proofs.py": FIRST,
    "fuzz/pairs.py": FIRST,
    "fuzz/structure.py": FIRST,
    "fuzz/scripts.py": FIRST,
    "fuzz/kept.py": NONE,
    "tools/real_aiger.py": FIRST,
    "tools/examples.py": FIRST,
    "tools/recipes.py": FIRST,
    "tools/believe.py": ("--check",),
}


def ran(script, words, program):
    """Runs a script, says how that went, and gives its status."""
    start = time.monotonic()
    command = [sys.executable, str(house.TOP / script), *(word.format(program) for word in words)]
    done = subprocess.run(command, stdin=subprocess.DEVNULL, stdout=subprocess.PIPE, stderr=subprocess.STDOUT, text=True, check=False)
    lines = done.stdout.splitlines() or [""]
    print(f"{time.monotonic() - start:6.1f} s  status {done.returncode}  {script}: {lines[-1]}", flush=True)
    return done.returncode


def main():
    words = argparse.ArgumentParser(description=__doc__, formatter_class=argparse.RawDescriptionHelpFormatter)
    words.add_argument("program", nargs="?")
    program = house.program(words.parse_args().program)
    start = time.monotonic()
    statuses = [ran(script, given, program) for script, given in MEASURING.items()]
    with ThreadPoolExecutor(os.cpu_count()) as pool:
        statuses += pool.map(lambda asked: ran(*asked, program), JUDGING.items())
    failed = sum(status != 0 for status in statuses)
    print(f"{time.monotonic() - start:6.1f} s  {len(statuses)} scripts, {failed} failed")
    return 1 if failed else 0


if __name__ == "__main__":
    sys.exit(main())
