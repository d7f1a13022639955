#!/usr/bin/env python3
"""Measures checks after edits: one script of many, beside checking each version anew, and beside ABC's `&cec` of each version.

Usage: edits.py [--program PROGRAM] [--gates N] [--edits N] [--anew N] [--seed N]

A random circuit of N gates (50,000), whose last 64 gates are outputs, is checked against itself with about half of the fanins swapped. A
script then has --edits edits (50) of the second circuit with a check behind each: at the outputs (a swap of an output gate's
fanins), at places drawn from all gates (a swap too), and sometimes a sign that is turned and turned back. The times of the script's checks
are those between its verdicts, as they are said, reading and pairing being part of the first. Of --anew versions (5) the same check
from files, and `&cec` of `berkeley-abc` where it is installed, are measured beside them. Prints a line for each kind of edit, the peak memory
of the script, and of one check. Status 1 where a verdict isn't the one that it has to be.
"""
import argparse
import os
import random
import shutil
import subprocess
import sys
import tempfile
import time
from pathlib import Path

sys.path.insert(0, str(Path(__file__).resolve().parents[1] / "tools"))
from aiger import binary, random_gates, swapped
from house import program
from statistics import median

INPUTS, OUTPUTS = 64, 64


def drawn_edits(rng, gates, count):
    """(kind, place, new gate) of so many edits; each is of the circuit as the ones before left it."""
    gates, made = list(gates), []
    while len(made) < count:
        kind = rng.choice(["output", "anywhere", "anywhere", "sign"])
        place = rng.randrange(len(gates) - OUTPUTS if kind == "output" else 0, len(gates))
        lhs, left, right = gates[place]
        if kind != "sign":
            gates[place] = (lhs, right, left)
            made.append((kind, place, gates[place]))
        elif len(made) + 1 < count:
            made += [("sign", place, (lhs, left ^ 1, right)), ("sign back", place, (lhs, left, right))]
    return made


def timed(command):
    """(seconds before each verdict that was said, the verdicts, peak memory in MB)."""
    begun, times, said = time.monotonic(), [], []
    running = subprocess.Popen(command, stdout=subprocess.PIPE, text=True)
    for line in running.stdout:
        if line.split()[0] in ("EQUIVALENT", "DIFFERENT", "UNDECIDED"):
            said.append(line.split()[0])
            times.append(time.monotonic() - begun)
            begun = time.monotonic()
    _, _, used = os.wait4(running.pid, 0)
    return times, said, used.ru_maxrss / 1000


def of_abc(first, second):
    """The seconds of `&cec`, or None where ABC isn't there."""
    if not shutil.which("berkeley-abc"):
        return None
    begun = time.monotonic()
    subprocess.run(["berkeley-abc", "-q", f"&cec {first} {second}"], capture_output=True, check=False)
    return time.monotonic() - begun


def versions(gates, edits):
    """The circuit's gates after each edit."""
    gates = list(gates)
    for _, place, gate in edits:
        gates[place] = gate
        yield list(gates)


def print_kinds(edits, times):
    """The times by kinds of edits."""
    for kind in sorted({kind for kind, _, _ in edits}):
        mine = [spent for (other, _, _), spent in zip(edits, times[1:]) if other == kind]
        print(f"{kind:12} {len(mine):3} edits: median {median(mine):.3f} s, most {max(mine):.3f} s, of the first check {median(mine) / times[0]:.2f}")


def print_anew(words, a, place, outputs, edits, gates):
    """Some versions from files, by the program and by ABC."""
    every = max(1, len(edits) // max(1, words.anew))
    mine, others, memory = [], [], []
    for at, version in enumerate(versions(gates, edits)):
        if at % every == 0 and len(mine) < words.anew:
            b = place / "version.aig"
            b.write_bytes(binary(INPUTS, outputs, version))
            times, _, used = timed([words.mine, "check", str(a), str(b)])
            mine.append(times[0])
            memory.append(used)
            others.append(of_abc(a, b))
    print(f"anew: median {median(mine):.3f} s, {max(memory):.0f} MB")
    print(f"&cec: median {median(others):.3f} s" if None not in others else "&cec: berkeley-abc isn't installed")


def words_given():
    parser = argparse.ArgumentParser(description=__doc__, formatter_class=argparse.RawDescriptionHelpFormatter)
    parser.add_argument("--program")
    for name, number in (("gates", 50_000), ("edits", 50), ("anew", 5), ("seed", 20261130)):
        parser.add_argument(f"--{name}", type=int, default=number)
    return parser.parse_args()


def main():
    words = words_given()
    words.mine = program(words.program)
    rng = random.Random(words.seed)
    first = random_gates(rng, INPUTS, words.gates)
    second = swapped(rng, first)
    outputs = [lhs for lhs, _, _ in first[-OUTPUTS:]]
    edits = drawn_edits(rng, second, words.edits)
    with tempfile.TemporaryDirectory() as folder:
        place = Path(folder)
        a, b, script = place / "a.aig", place / "b.aag", place / "script"
        a.write_bytes(binary(INPUTS, outputs, first))
        b.write_bytes(binary(INPUTS, outputs, second))
        script.write_text("".join(f"set b {lhs} {left} {right}\ncheck\n" for _, _, (lhs, left, right) in edits))
        times, said, used = timed([words.mine, "check", str(a), str(b), "--edits", str(script)])
        print(f"first check {times[0]:.3f} s, {len(edits)} more {sum(times[1:]):.3f} s, {used:.0f} MB")
        print_kinds(edits, times)
        print_anew(words, a, place, outputs, edits, second)
    wrong = len(said) != len(edits) + 1 or any(verdict == "UNDECIDED" for verdict in said)
    wrong = wrong or any(verdict != "EQUIVALENT" for (kind, _, _), verdict in zip(edits, said[1:]) if kind != "sign")
    raise SystemExit(1 if wrong else 0)


if __name__ == "__main__":
    main()
