#!/usr/bin/env python3
"""Checks pairs whose constraints admit few inputs, beside CaDiCaL on the same miters.

Usage: made_constrained.py [--program PROGRAM] [--options WORDS] [--limit SECONDS] [--only WORD] [--keep FOLDER]

Ten pairs: select lines of which one is true, words within a range or equal, thermometer codes, decimal digits whose other codes a decoder
leaves open, and constraints that admit nothing. Hardly a random pattern is admitted, and the pairs that are equivalent are so only where the
constraints hold. Each pair is given to `PROGRAM check A B --out P`, and the miter that it writes to `cadical`, where that is installed
(Debian's package); the checker in C judges each refutation. Prints a line for each pair, and with --keep leaves the files there. Status 1
where a verdict is wrong, a proof is refused, or CaDiCaL decides a pair within the limit that the program leaves open.
"""
import argparse
import shutil
import subprocess
import sys
import tempfile
from functools import reduce
from pathlib import Path

sys.path.insert(0, str(Path(__file__).resolve().parents[1] / "tools"))
from house import compiled, program
from made_datapaths import prefix, ripple
from made_designs import Words
from solver import best, shown
from sweep import judged, of_cadical


class Constrained(Words):
    """A circuit with literals that have to be true."""

    def __init__(self, inputs):
        super().__init__(inputs)
        self.constraints = []

    def binary(self):
        head, rest = super().binary().split(b"\n", 1)
        outputs = rest.split(b"\n", len(self.outputs))
        bounds = [str(literal).encode() for literal in self.constraints]
        count = f" 0 {len(bounds)}".encode() if bounds else b""
        return b"\n".join([head + count, *outputs[:-1], *bounds, outputs[-1]])

    def below(self, word, number):
        """Whether the word is less than a number."""
        less, same = 0, 1
        for k in reversed(range(len(word))):
            if number >> k & 1:
                less = self.either(less, self.both(same, word[k] ^ 1))
            same = self.both(same, word[k] ^ 1 ^ (number >> k & 1))
        return less

    def one_hot(self, word):
        """Constrains the word so that one bit of it is true."""
        seen = 0
        for bit in word:
            self.constraints.append(self.both(seen, bit) ^ 1)
            seen = self.either(seen, bit)
        self.constraints.append(seen)


def both(inputs, constrain):
    """Two empty circuits; the first has the constraints."""
    a, b = Constrained(inputs), Constrained(inputs)
    constrain(a)
    return a, b


def selected(lines, width, turned=False):
    """Words that one of the select lines picks: ANDs and ORs beside a chain of choices. The turned pair picks another word at one line."""
    a, b = both(lines + lines * width, lambda c: c.one_hot(c.word(0, lines)))
    for k in range(width):
        data = [a.input(lines + width * line + k) for line in range(lines)]
        a.outputs.append(a.any_of(a.both(a.input(line), bit) for line, bit in enumerate(data)))
        if turned:
            data[lines // 2] = data[lines // 2 + 1]
        b.outputs.append(reduce(lambda rest, line: b.choose(b.input(line), data[line], rest), range(lines), 0))
    return a, b


def encoded(lines):
    """The number of the line that is true: ORs beside a chain of choices."""
    a, b = both(lines, lambda c: c.one_hot(c.word(0, lines)))
    for k in range((lines - 1).bit_length()):
        a.outputs.append(a.any_of(a.input(line) for line in range(lines) if line >> k & 1))
        b.outputs.append(reduce(lambda rest, line: b.choose(b.input(line), line >> k & 1, rest), range(lines), 0))
    return a, b


SEGMENTS = ["1011011111", "1111100111", "1101111111", "1011011011", "1010001010", "1000111011", "0011111011"]


def digits(count, turned=False):
    """Segments of decimal digits: all ten codes beside those of the shorter list, where the six other codes may be either. The turned pair
    has one code less in the last digit."""
    a, b = both(4 * count, lambda c: c.constraints.extend(c.below(c.word(4 * k, 4), 10) for k in range(count)))
    for k in range(count):
        for row in SEGMENTS:
            lit, dark = [n for n in range(10) if row[n] == "1"], [n for n in range(10) if row[n] == "0"]
            a.outputs.append(a.any_of(a.constant(a.word(4 * k, 4), n) for n in lit))
            b.outputs.append(b.any_of(b.constant(b.word(4 * k, 4), n) for n in dark) ^ 1)
    if turned:
        b.outputs[-1] = b.both(b.outputs[-1], b.constant(b.word(4 * count - 4, 4), 8) ^ 1)
    return a, b


def small_sums(width, small, turned=False):
    """The sum of two words below 2^small: an adder of the whole width beside one of the low bits and a carry, which the turned pair drops."""
    words = lambda c: (c.word(0, width), c.word(width, width))
    a, b = both(2 * width, lambda c: c.constraints.extend(c.below(word, 1 << small) for word in words(c)))
    a.outputs += ripple(a, *words(a))
    low = [word[:small] + [0] for word in words(b)]
    total = prefix(b, *low)
    b.outputs += (total[:small] + [0] if turned else total) + [0] * (width - small - 1)
    return a, b


def doubled(width):
    """The sum of two words that are equal beside one of them moved by a bit."""
    words = lambda c: (c.word(0, width), c.word(width, width))
    a, b = both(2 * width, lambda c: c.constraints.extend(c.differ(x, y) ^ 1 for x, y in zip(*words(c))))
    a.outputs += ripple(a, *words(a))
    b.outputs += [0] + words(b)[0][:-1]
    return a, b


def counted(width):
    """How many bits of a thermometer code are true: added one by one beside the place of its edge."""
    ordered = lambda c: c.constraints.extend(c.both(c.input(k) ^ 1, c.input(k + 1)) ^ 1 for k in range(width - 1))
    a, b = both(width, ordered)
    bits = width.bit_length()
    a.outputs += reduce(lambda total, k: ripple(a, total, [a.input(k)] + [0] * (bits - 1)), range(width), [0] * bits)
    edges = [b.both(b.input(k), b.input(k + 1) ^ 1) for k in range(width - 1)] + [b.input(width - 1)]
    b.outputs += [b.any_of(edge for k, edge in enumerate(edges) if k + 1 >> place & 1) for place in range(bits)]
    return a, b


def never(width):
    """A sum beside a bitwise AND, where no input is admitted: a word is to be below 5 and above 9."""
    words = lambda c: (c.word(0, width), c.word(width, width))
    a, b = both(2 * width, lambda c: c.constraints.extend([c.below(words(c)[0], 5), c.below(words(c)[0], 10) ^ 1]))
    a.outputs += ripple(a, *words(a))
    b.outputs += [b.both(x, y) for x, y in zip(*words(b))]
    return a, b


PAIRS = {
    "one of 24 lines": (lambda: selected(24, 4), "EQUIVALENT"),
    "one of 24 lines, turned": (lambda: selected(24, 4, True), "DIFFERENT"),
    "encoder of 64 lines": (lambda: encoded(64), "EQUIVALENT"),
    "8 decimal digits": (lambda: digits(8), "EQUIVALENT"),
    "8 decimal digits, turned": (lambda: digits(8, True), "DIFFERENT"),
    "sums below 2^12": (lambda: small_sums(32, 12), "EQUIVALENT"),
    "sums below 2^12, turned": (lambda: small_sums(32, 12, True), "DIFFERENT"),
    "equal words": (lambda: doubled(32), "EQUIVALENT"),
    "thermometer of 48": (lambda: counted(48), "EQUIVALENT"),
    "nothing admitted": (lambda: never(32), "EQUIVALENT"),
}


def measured(words, name, folder, reference):
    """Prints the pair's line, and answers whether it is as it should be."""
    make, expected = PAIRS[name]
    circuits, stem = make(), str(folder / name.replace(" ", "_").replace(",", "").replace("^", ""))
    files = [f"{stem}.{side}.aig" for side in "ab"]
    for file, circuit in zip(files, circuits):
        Path(file).write_bytes(circuit.binary())
    run = best([words.program, "check", *files, "--out", stem, *words.options.split()], words.limit, 1)
    verdict = run[2].split()[0] if run and run[2] else "-"
    peer = best(["cadical", "-q", "-n", f"{stem}.0.cnf"], words.limit, 1) if shutil.which("cadical") and Path(f"{stem}.0.cnf").exists() else None
    proof = judged(reference, verdict, stem)
    gates = sum(len(circuit.gates) for circuit in circuits)
    print(f"{name:26} {gates:6} {len(circuits[0].constraints):4} {verdict:10} {shown(run):>7} {of_cadical(peer) or '-':10} {shown(peer):>7} {proof}", flush=True)
    is_open = verdict not in ("EQUIVALENT", "DIFFERENT")
    return proof != "REFUSED" and (of_cadical(peer) is None if is_open else verdict == expected)


def main():
    parser = argparse.ArgumentParser(description=__doc__, formatter_class=argparse.RawDescriptionHelpFormatter)
    parser.add_argument("--program")
    parser.add_argument("--options", default="")
    parser.add_argument("--limit", type=float, default=60)
    parser.add_argument("--only", default="")
    parser.add_argument("--keep", type=Path)
    words = parser.parse_args()
    words.program = program(words.program)
    print(f"{'pair':26} {'gates':>6} {'cons':>4} {'verdict':10} {'cec':>7} {'cadical':10} {'':>7} proof")
    with tempfile.TemporaryDirectory() as place:
        folder, reference = words.keep or Path(place), compiled(place)
        wrong = sum(not measured(words, name, folder, reference) for name in PAIRS if words.only in name)
    print(f"wrong {wrong}")
    return 1 if wrong else 0


if __name__ == "__main__":
    sys.exit(main())
