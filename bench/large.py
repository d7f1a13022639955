#!/usr/bin/env python3
"""Measures large checks: the time and the memory of each, and how both grow.

Usage: large.py [--program PROGRAM] [--only PART ..] [--limit SECONDS] [--largest N] [--seed N] [--folder DIR]

self:     the permutation of SHA-3 (some 400,000 gates) and a random circuit of 1,000,000 gates, each against itself
rounds:   8 to 64 rounds of SHA-256's compression against themselves
copies:   16 to 512 adders side by side, ripple carry beside carry select
ands:     500 to 8,000 ANDs of 24 literals, chains beside trees: to simulation each is false, and a counterexample tells only few apart
decoders: of 10 to 15 bits, each output a chain beside each a product of two halves
workload: `cec self` of parities and comparators of 256 to 4,096 bits
inputs:   files that announce up to 4,000,000 inputs, which no gate names

Prints for each pair the gates of both sides, the seconds of the check with its two files written, the microseconds a gate and the growth
of that since the pair before, the peak memory in bytes a gate (of `inputs`: an input), and beside it the seconds of reading and writing
alone and of ABC's `&cec`, where `berkeley-abc` is installed. Reading and writing alone are a check of the same two circuits with the last
output of one negated, which a first pattern tells, so that the circuits are read and the CNF is written, and a copy of the proof's file.
--largest N leaves out pairs of more than N gates and inputs on both sides. Status 1 where a verdict isn't EQUIVALENT, or where a check
wasn't done within the limit.
"""
import argparse
import random
import re
import shutil
import subprocess
import sys
import tempfile
import time
from pathlib import Path

sys.path.insert(0, str(Path(__file__).resolve().parents[1] / "tools"))
import house
from aiger import binary, random_gates
from made_datapaths import copies
from made_hashes import compressed, permuted
from run import measured
from workload import Circuit, KINDS

def chained(c, literals):
    made = literals[0]
    for literal in literals[1:]:
        made = c.both(made, literal)
    return made


def halved(c, literals):
    """The AND of the literals as a tree."""
    while len(literals) > 1:
        literals = [c.both(p, q) for p, q in zip(literals[::2], literals[1::2])] + literals[len(literals) & ~1:]
    return literals[0]


def wide(rng, many):
    """So many ANDs of 24 literals of 256 inputs, as chains and as trees."""
    chosen = [[2 * (k + 1) + rng.randrange(2) for k in rng.sample(range(256), 24)] for _ in range(many)]
    pair = Circuit(256), Circuit(256)
    for c, join in zip(pair, (chained, halved)):
        c.outputs += [join(c, list(literals)) for literals in chosen]
    return pair


def decoder(bits):
    """Every AND of the inputs or their negations: a chain each, beside products of the two halves' ANDs."""
    a, b = Circuit(bits), Circuit(bits)
    literals = lambda c, low, high, code: [c.input(k) ^ (code >> (k - low) & 1 ^ 1) for k in range(low, high)]
    a.outputs += [chained(a, literals(a, 0, bits, code)) for code in range(1 << bits)]
    middle = bits // 2
    lower = [chained(b, literals(b, 0, middle, code)) for code in range(1 << middle)]
    upper = [chained(b, literals(b, middle, bits, code)) for code in range(1 << (bits - middle))]
    b.outputs += [b.both(lower[code & ((1 << middle) - 1)], upper[code >> middle]) for code in range(1 << bits)]
    return a, b


def random_circuit(rng, gates, ends=64):
    c = Circuit(64)
    c.gates = [(lhs, max(left, right), min(left, right)) for lhs, left, right in random_gates(rng, 64, gates)]
    c.outputs = [lhs for lhs, _, _ in c.gates[-ends:]]
    return c


def parts(rng):
    """For each part (name, size, a call that makes the pair)."""
    twice = lambda made: (made, made)
    yield "self", [("keccak", 400_000, lambda: twice(permuted())), ("random", 1_000_000, lambda: twice(random_circuit(rng, 1_000_000)))]
    yield "rounds", [("sha256", n, lambda n=n: twice(compressed(n))) for n in (8, 16, 32, 64)]
    yield "copies", [("copies", n, lambda n=n: copies(n)) for n in (16, 32, 64, 128, 256, 512)]
    yield "ands", [("ands", n, lambda n=n: wide(rng, n)) for n in (500, 1000, 2000, 4000, 8000)]
    yield "decoders", [("decoder", n, lambda n=n: decoder(n)) for n in range(10, 16)]
    yield "workload", [(kind, n, lambda kind=kind, n=n: KINDS[kind](n)) for kind in ("parity", "comparator") for n in (256, 512, 1024, 2048, 4096)]
    yield "inputs", [("inputs", n, lambda n=n: twice(Circuit(n))) for n in (1_000_000, 4_000_000)]


def negated(c):
    """The bytes of the circuit with its last output negated."""
    return binary(c.inputs, c.outputs[:-1] + [c.outputs[-1] ^ 1], c.gates) if c.outputs else c.binary()


def alone(program, folder, proof):
    """The seconds of reading and writing alone."""
    _, _, seconds, _ = measured([program, "check", "a.aig", "negated.aig", "--out", "rw"], folder)
    begun = time.perf_counter()
    shutil.copyfile(proof, folder / "copy")
    return seconds + time.perf_counter() - begun


def of_abc(folder, limit):
    """The seconds of `&cec`, or None where ABC isn't there, gives up or takes longer than the limit."""
    if not shutil.which("berkeley-abc"):
        return None
    command = ["timeout", str(limit), "berkeley-abc", "-q", "&cec a.aig b.aig"]
    begun = time.perf_counter()
    ran = subprocess.run(command, cwd=folder, capture_output=True, text=True, check=False)
    return time.perf_counter() - begun if re.search("equivalent", ran.stdout, re.IGNORECASE) else None


def told(number, form=".2f"):
    return "-" if number is None else format(number, form)


def row(words, folder, name, size, pair, before):
    """Measures a pair and prints its row. Gives the microseconds a gate, and whether all was as it has to be."""
    a, b = pair
    for file, made in (("a.aig", a.binary()), ("b.aig", b.binary()), ("negated.aig", negated(b))):
        (folder / file).write_bytes(made)
    gates = len(a.gates) + len(b.gates)
    command = ["self", name, str(size)] if name in KINDS else ["check", "a.aig", "b.aig"]
    _, said, seconds, _ = measured(["timeout", str(words.limit), words.mine, "check", "a.aig", "b.aig", "--out", "p"], folder)
    right = said.startswith("EQUIVALENT")
    _, _, plain, peak = measured(["timeout", str(words.limit), words.mine, *command], folder)
    each = seconds / max(gates, 1) * 1e6
    reading = alone(words.mine, folder, folder / "p.0.lrat") if right else None
    per = peak / (gates or size)
    print(f"{name:>10} {size:>9} {gates:>9} {seconds:>8.2f} {plain:>8.2f} {each:>8.2f} {told(each / before if before else None):>6} {per:>8.0f} "
          f"{told(reading):>8} {told(seconds / reading if reading else None):>6} {told(of_abc(folder, words.limit)):>8}  "
          f"{said.split(chr(10))[0][:20] if right else 'NOT DONE'}", flush=True)
    return each, right


def main():
    parser = argparse.ArgumentParser(description=__doc__, formatter_class=argparse.RawDescriptionHelpFormatter)
    parser.add_argument("--program", help="the built program, else the repository's own")
    parser.add_argument("--only", nargs="+", help="the parts to measure, else all")
    parser.add_argument("--folder", type=Path, help="where the files are made (else a folder that is removed)")
    parser.add_argument("--limit", type=int, default=120)
    parser.add_argument("--largest", type=int)
    parser.add_argument("--seed", type=int, default=20261130)
    words = parser.parse_args()
    words.mine, right = house.program(words.program), True
    print(f"seed {words.seed}")
    print(f"{'pair':>10} {'size':>9} {'gates':>9} {'files s':>8} {'plain s':>8} {'us/gate':>8} {'growth':>6} {'B/gate':>8} {'r+w s':>8} {'times':>6} "
          f"{'&cec s':>8}  verdict")
    with tempfile.TemporaryDirectory() as made:
        folder = words.folder or Path(made)
        for part, rows in parts(random.Random(words.seed)):
            last, before = None, None
            for name, size, make in rows if not words.only or part in words.only else []:
                pair = make()
                if words.largest and sum(len(c.gates) + c.inputs for c in pair) > words.largest:
                    continue
                before, done = row(words, folder, name, size, pair, before if name == last else None)
                last, right = name, right and done
    raise SystemExit(0 if right else 1)


if __name__ == "__main__":
    main()
