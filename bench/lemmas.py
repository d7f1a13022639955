#!/usr/bin/env python3
"""Measures lemma files: `--save` beside writing the proof, and `--load` beside `cec lrat` on the proof of the same merges.

Usage: lemmas.py [--program PROGRAM] [--sizes N ..] [--copies N ..] [--seed N]

mixed:  a random circuit of N gates (250,000, 500,000 and 1,000,000) against itself with about half of the fanins swapped. It is a
        permutation of its inputs, so that nothing folds: the lemmas are one merge a gate, of two steps
copies: N adders of 16 bits (128 and 256), ripple carry beside carry select: merges whose proofs are searched

For each pair the lemmas and the bytes of their file, then seconds of the processor: of the plain check, of what --save and --out add to it,
of the check by --load, of reading and judging the lemmas alone (what --load adds to a check with the last output negated, which a pattern
tells), and of `cec lrat` on the proof; then the peak memory of the check by --load, what --load adds to the plain check's, in bytes a byte of
the file, and the peak of `cec lrat`. Status 1 where a verdict isn't EQUIVALENT, a proof isn't VERIFIED or a lemma isn't taken.
"""
import argparse
import random
import subprocess
import sys
import tempfile
from pathlib import Path

sys.path.insert(0, str(Path(__file__).resolve().parents[1] / "tools"))
from aiger import binary, swapped
from house import program
from made_datapaths import copies
from workers import timed
from workload import Circuit

HEAD = (f"{'pair':>8} {'size':>8} {'lemmas':>8} {'MB':>6} {'plain s':>8} {'save +s':>8} {'proof +s':>8} {'load s':>8} {'alone s':>8} {'lrat s':>8} "
        f"{'load MB':>8} {'a byte':>6} {'lrat MB':>8}")


def mixed(rng, gates):
    """256 bits, each of which is turned again and again where two others, in a drawn polarity, are true."""
    a, b = Circuit(256), Circuit(256)
    bits = [a.input(k) for k in range(256)]
    while len(a.gates) < gates:
        k, left, right = rng.sample(range(256), 3)
        bits[k] = a.differ(bits[k], a.both(bits[left] ^ rng.randrange(2), bits[right] ^ rng.randrange(2)))
    a.outputs = b.outputs = bits
    b.gates = swapped(rng, a.gates)
    return a, b


def turned(circuit):
    """The same circuit with its last output negated."""
    made = Circuit(circuit.inputs)
    made.gates, made.outputs = circuit.gates, circuit.outputs[:-1] + [circuit.outputs[-1] ^ 1]
    return made


def row(mine, folder, name, size, pair):
    """Measures a pair and prints its row. Tells whether all was as it has to be."""
    a, b, other = [str(folder / file) for file in ("a.aig", "b.aig", "negated.aig")]
    for file, made in zip((a, b, other), (*pair, turned(pair[1]))):
        Path(file).write_bytes(binary(made.inputs, made.outputs, made.gates))
    lemmas, prefix = str(folder / "lemmas"), str(folder / "p")
    check, apart = ([mine, "check", a, second, "--workers", "1"] for second in (b, other))
    runs = [timed(command) for command in (
        check, [*check, "--save", lemmas], [*check, "--out", prefix], [*check, "--load", lemmas],
        apart, [*apart, "--load", lemmas], [mine, "lrat", f"{prefix}.0.cnf", f"{prefix}.0.lrat"])]
    plain, save, proof, load, reading, judged, lrat = (ran[1] for ran in runs)
    said = subprocess.run([*check, "--load", lemmas], capture_output=True, text=True, check=False).stdout.split()
    many, size_of = said[1], Path(lemmas).stat().st_size
    verdicts = ["EQUIVALENT"] * 3 + ["lemmas", "DIFFERENT", "lemmas", "VERIFIED"]
    right = said == ["lemmas", many, "of", many, "EQUIVALENT"] and [ran[3] for ran in runs] == verdicts
    print(f"{name:>8} {size:>8} {many:>8} {size_of / 1e6:>6.1f} {plain:>8.2f} {save - plain:>8.2f} {proof - plain:>8.2f} {load:>8.2f} "
          f"{judged - reading:>8.2f} {lrat:>8.2f} {runs[3][2] / 1e6:>8.0f} {(runs[3][2] - runs[0][2]) / size_of:>6.1f} {runs[6][2] / 1e6:>8.0f}"
          f"{'' if right else '  NOT AS IT HAS TO BE'}", flush=True)
    return right


def main():
    parser = argparse.ArgumentParser(description=__doc__, formatter_class=argparse.RawDescriptionHelpFormatter)
    parser.add_argument("--program", help="the built program, else the repository's own")
    parser.add_argument("--sizes", type=int, nargs="*", default=[250_000, 500_000, 1_000_000])
    parser.add_argument("--copies", type=int, nargs="*", default=[128, 256])
    parser.add_argument("--seed", type=int, default=20261130)
    words = parser.parse_args()
    mine, right = program(words.program), True
    print(f"seed {words.seed}\n{HEAD}")
    with tempfile.TemporaryDirectory() as made:
        for size in words.sizes:
            right &= row(mine, Path(made), "mixed", size, mixed(random.Random(words.seed), size))
        for size in words.copies:
            right &= row(mine, Path(made), "copies", size, copies(size))
    return 0 if right else 1


if __name__ == "__main__":
    sys.exit(main())
