#!/usr/bin/env python3
"""Measures what sharing out a pair by tools/scale gains: jobs over parts of the outputs, and one last run over the whole with their lemmas.

Usage: scale.py [--program PROGRAM] [--bits N ..] [--copies N] [--parts N ..] [--out]

The pair: copies (16) of a multiplier of N bits (4 and 5), whose rows are added from the lowest and from the highest one. Prints the lemmas' bytes and
seconds of the processor: of the whole check by one worker, of `split.py`, of the longest part's check by one worker, of `merge.py`, of the
last run with all lemmas; and the critical path, the sum of all but the first, with its ratio to the first. It is what jobs that all have a
processor of their own take; other work on the machine counts little. With --out the whole check and the last run leave their proofs. Status 1
where a verdict isn't EQUIVALENT or a lemma isn't taken.
"""
import argparse
import subprocess
import sys
import tempfile
from pathlib import Path

sys.path.insert(0, str(Path(__file__).resolve().parents[1] / "tools"))
from aiger import binary
from house import TOP, program
from made_datapaths import copied
from workers import timed
from workload import Circuit

SCALE = TOP / "tools" / "scale"
HEAD = (f"{'bits':>4} {'copies':>6} {'parts':>5} {'MB':>7} {'whole s':>8} {'split s':>8} {'part s':>8} {'merge s':>8} {'last s':>8} {'path s':>8} "
        f"{'of whole':>8}")


def multiplier(bits, is_from_the_highest):
    """The product of two words, by adding a row for each bit of the second one."""
    c = Circuit(2 * bits)
    first, total = [c.input(k) for k in range(bits)], [0] * (2 * bits)
    for row in sorted(range(bits), reverse=is_from_the_highest):
        shifted = [0] * row + [c.both(bit, c.input(bits + row)) for bit in first] + [0] * (bits - row)
        carry, sums = 0, []
        for x, y in zip(total, shifted):
            bit, carry = c.full(x, y, carry)
            sums.append(bit)
        total = sums
    c.outputs += total
    return c


def seconds_of(command):
    """(seconds of the processor, the first word that was said) of a command."""
    _, seconds, _, said = timed([str(word) for word in command])
    return seconds, said


def row(words, folder, bits, parts):
    """Shares a pair out and prints its row. Tells whether all was as it has to be."""
    a, b = (folder / f"{side}.aig" for side in "ab")
    pair = copied([multiplier(bits, False), multiplier(bits, True)], words.copies)
    for file, made in zip((a, b), pair):
        file.write_bytes(binary(made.inputs, made.outputs, made.gates))
    out = ["--out", folder / "p"] if words.out else []
    check = [words.mine, "check", a, b, "--workers", "1", *out]
    whole, said = seconds_of(check)
    room = folder / f"{bits}.{parts}"
    split, _ = seconds_of([sys.executable, SCALE / "split.py", a, b, parts, room])
    jobs = [seconds_of([words.mine, "check", room / f"{k}.a", room / f"{k}.b", "--workers", "1", "--save", room / f"{k}.lemmas"]) for k in range(parts)]
    lemmas = folder / "lemmas"
    merge, _ = seconds_of(["/bin/sh", "-c", f"{sys.executable} {SCALE / 'merge.py'} {room} > {lemmas}"])
    last, _ = seconds_of([*check, "--load", lemmas])
    taken = subprocess.run([words.mine, "check", a, b, "--load", lemmas], capture_output=True, text=True, check=False).stdout.split()
    right = said == "EQUIVALENT" and {job[1] for job in jobs} == {said} and taken[0::4] == ["lemmas", said] and taken[1] == taken[3]
    part = max(job[0] for job in jobs)
    path = split + part + merge + last
    print(f"{bits:>4} {words.copies:>6} {parts:>5} {lemmas.stat().st_size / 1e6:>7.1f} {whole:>8.2f} {split:>8.2f} {part:>8.2f} {merge:>8.2f} {last:>8.2f} "
          f"{path:>8.2f} {path / whole:>8.2f}{'' if right else '  NOT AS IT HAS TO BE'}", flush=True)
    return right


def main():
    parser = argparse.ArgumentParser(description=__doc__, formatter_class=argparse.RawDescriptionHelpFormatter)
    parser.add_argument("--program", help="the built program, else the repository's own")
    parser.add_argument("--bits", type=int, nargs="+", default=[4, 5])
    parser.add_argument("--copies", type=int, default=16)
    parser.add_argument("--parts", type=int, nargs="+", default=[4])
    parser.add_argument("--out", action="store_true")
    words = parser.parse_args()
    words.mine, right = program(words.program), True
    print(HEAD)
    with tempfile.TemporaryDirectory() as made:
        for bits in words.bits:
            for parts in words.parts:
                right &= row(words, Path(made), bits, parts)
    return 0 if right else 1


if __name__ == "__main__":
    sys.exit(main())
