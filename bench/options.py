#!/usr/bin/env python3
"""Measures what raised options do to checks, and what it costs to be told of them.

Usage: options.py [raised | told] [--program PROGRAM] [--limit SECONDS] [--rounds N] [--only REGEX] [--corpus FOLDER --pairs NAME ..]

Six pairs of one function in two architectures are made here: an adder (two prefix trees), the corrected word of a Hamming code (by
parities; position by position), a CRC (bit by bit; a parity for each bit), a multiplier (rows from the lowest and from the highest one), a
popcount (a chain of incrementers; a tree of sums) and an S-box (by table; by an inverse in its field). Their values on 64 drawn inputs are
compared first. With --corpus the named pairs of a folder as for `sweep.py` take their place; these have to be equivalent.

raised: prints for each pair the verdict and the seconds of the processor by one worker with the defaults, then with each of the
options of `RAISED`, and a last line that counts the verdicts. A run that takes longer than the limit has a dash.

told: prints for the first two pairs how many instructions `valgrind --tool=callgrind` counts without `--stats` and `--progress`, and by how
much either takes more, in per cent. Instructions don't scatter as seconds do, so one run is enough. `--progress` warns twice a second, and a
run under valgrind takes some fifty times as long: its lines cost a user that much less. Status 1 where a verdict is wrong, or either costs 1 % or more.
"""
import argparse
import random
import re
import shutil
import subprocess
import sys
import tempfile
from pathlib import Path

sys.path.insert(0, str(Path(__file__).resolve().parents[1] / "tools"))
from house import program
from made_datapaths import prefix, ripple, values
from scale import multiplier
from solver import best, shown
from workload import Circuit

RAISED = ["", "--sweep-budget 1000", "--sweep-budget 1000 --words 64", "--budget 1000000"]
TOLD = ["--stats", "--progress"]


def pair(inputs, *makers):
    """A circuit by each maker, which gives the outputs for a circuit and its inputs."""
    for make in makers:
        circuit = Circuit(inputs)
        circuit.outputs += make(circuit, [circuit.input(k) for k in range(inputs)])
        yield circuit


def parity(c, bits):
    """The sum modulo 2, added bit by bit."""
    total = 0
    for bit in bits:
        total = c.differ(total, bit) if total else bit
    return total


def prefix_by_halves(c, xs, ys):
    """The sum of two words, lowest bits first: the carries of a lower half go into each place of the upper one (Sklansky 1960)."""
    flips = [c.differ(x, y) for x, y in zip(xs, ys)]
    spans = [(c.both(x, y), flip) for x, y, flip in zip(xs, ys, flips)]

    def join(low, high):
        if high - low > 1:
            middle = (low + high) // 2
            join(low, middle)
            join(middle, high)
            made, passes = spans[middle - 1]
            for k in range(middle, high):
                spans[k] = (c.either(spans[k][0], c.both(spans[k][1], made)), c.both(spans[k][1], passes))

    join(0, len(spans))
    return [flips[0]] + [c.differ(flip, made) for flip, (made, _) in zip(flips[1:], spans)]


def adder(bits):
    return pair(2 * bits, lambda c, x: prefix_by_halves(c, x[:bits], x[bits:]), lambda c, x: prefix(c, x[:bits], x[bits:]))


def syndrome(c, word):
    """The parities of a Hamming code over positions 1, 2, ..: digit k is that of the positions that have it set."""
    return [parity(c, [bit for place, bit in enumerate(word, 1) if place >> k & 1]) for k in range(len(word).bit_length())]


def corrected_by_parities(c, word):
    """Each bit is turned where the syndrome is its position, which an AND of the syndrome's digits tells."""
    digits, made = syndrome(c, word), []
    for place, bit in enumerate(word, 1):
        is_here = 1
        for k, digit in enumerate(digits):
            is_here = c.both(is_here, digit if place >> k & 1 else digit ^ 1)
        made.append(c.differ(bit, is_here))
    return made


def corrected_in_a_loop(c, word):
    """The positions of the bits that are set are added up modulo 2, a bit after another, and compared with each position."""
    digits = [0] * len(word).bit_length()
    for place, bit in enumerate(word, 1):
        digits = [c.differ(digit, c.both(bit, place >> k & 1)) for k, digit in enumerate(digits)]
    made = []
    for place, bit in enumerate(word, 1):
        differs = 0
        for k, digit in reversed(list(enumerate(digits))):
            differs = c.either(differs, c.differ(digit, place >> k & 1))
        made.append(c.choose(differs, bit, bit ^ 1))
    return made


def hamming(bits):
    return pair(bits, corrected_by_parities, corrected_in_a_loop)


POLYNOMIAL, WIDTH = 0x1021, 16


def crc_by_bits(c, data):
    """The register is shifted a bit at a time."""
    register = [0] * WIDTH
    for bit in data:
        back = c.differ(register[-1], bit)
        register = [back if k == 0 else c.differ(register[k - 1], back) if POLYNOMIAL >> k & 1 else register[k - 1] for k in range(WIDTH)]
    return register


def crc_by_parities(c, data):
    """Each bit of the register is the parity of the data that reach it, added from the last one."""
    reaching = [0] * WIDTH
    for place in range(len(data)):
        back = reaching[-1] ^ 1 << place
        reaching = [back if k == 0 else reaching[k - 1] ^ (back if POLYNOMIAL >> k & 1 else 0) for k in range(WIDTH)]
    return [parity(c, [bit for place, bit in reversed(list(enumerate(data))) if reached >> place & 1]) for reached in reaching]


def crc(bits):
    return pair(bits, crc_by_bits, crc_by_parities)


def products(bits):
    return multiplier(bits, False), multiplier(bits, True)


def counted_in_a_chain(c, bits):
    """Each bit increments the count."""
    count = [0] * len(bits).bit_length()
    for bit in bits:
        carry = bit
        for k, digit in enumerate(count):
            count[k], carry = c.differ(digit, carry), c.both(digit, carry)
    return count


def counted_in_a_tree(c, bits):
    """Counts of halves are added."""
    if len(bits) == 1:
        return list(bits)
    halves = [counted_in_a_tree(c, half) for half in (bits[: len(bits) // 2], bits[len(bits) // 2:])]
    width = len(bits).bit_length()
    return ripple(c, *[half + [0] * (width - len(half)) for half in halves])


def popcount(bits):
    return pair(bits, counted_in_a_chain, counted_in_a_tree)


def times(x, y):
    """The product in the field of 256 elements that the S-box of AES takes."""
    total = 0
    for k in range(8):
        total ^= x << k if y >> k & 1 else 0
    for k in range(14, 7, -1):
        total ^= 0x11B << k - 8 if total >> k & 1 else 0
    return total


def affine(byte):
    """Five of its rotations added, and a constant."""
    turned = [byte << k | byte >> 8 - k for k in range(5)]
    return (turned[0] ^ turned[1] ^ turned[2] ^ turned[3] ^ turned[4]) & 255 ^ 0x63


def box_of(x):
    return affine(next((y for y in range(256) if times(x, y) == 1), 0))


def by_table(c, x):
    """A tree of choices for each bit, by the inputs from the highest to the lowest."""
    rows = [box_of(value) for value in range(256)]
    made = []
    for bit in range(8):
        level = [row >> bit & 1 for row in rows]
        for digit in x:
            level = [zero if zero == one else c.choose(digit, one, zero) for zero, one in zip(level[::2], level[1::2])]
        made += level
    return made


def product(c, x, y):
    """The product of two words of the field."""
    rows = [0] * 15
    for j, left in enumerate(x):
        for k, right in enumerate(y):
            rows[j + k] = c.differ(rows[j + k], c.both(left, right))
    for k in range(14, 7, -1):
        for turn in (0, 1, 3, 4):
            rows[k - 8 + turn] = c.differ(rows[k - 8 + turn], rows[k])
    return rows[:8]


def squared(c, x, turns):
    """The word squared so many times, which is linear."""
    for _ in range(turns):
        images = [times(1 << k, 1 << k) for k in range(8)]
        x = [parity(c, [bit for image, bit in zip(images, x) if image >> k & 1]) for k in range(8)]
    return x


def by_field(c, x):
    """The power 254, which is the inverse, and the affine map behind it."""
    cube = product(c, squared(c, x, 1), x)
    twelve = squared(c, cube, 2)
    most = product(c, squared(c, product(c, twelve, cube), 4), twelve)
    inverse = product(c, most, squared(c, x, 1))
    return [parity(c, [inverse[(k - turn) % 8] for turn in range(5)]) ^ 0x63 >> k & 1 for k in range(8)]


def box(bits):
    return pair(bits, by_table, by_field)


KINDS = {"adder": (adder, 128), "hamming": (hamming, 255), "crc": (crc, 40), "multiplier": (products, 6), "popcount": (popcount, 32), "box": (box, 8)}
MEASURED = 2


def pairs(words, folder):
    """The name and the two files of each pair: those that are named of a corpus, else those made here, which agree on drawn inputs."""
    if words.corpus:
        yield from ((name, [str(words.corpus / f"{name}.{side}.aig") for side in "ab"]) for name in words.pairs)
        return
    for kind, (make, size) in KINDS.items():
        if not words.only.search(kind):
            continue
        circuits, files = list(make(size)), [folder / f"{kind}.{side}.aig" for side in "ab"]
        row = [random.Random(k).getrandbits(64) for k in range(circuits[0].inputs)]
        if values(circuits[0], row) != values(circuits[1], row):
            raise SystemExit(f"the circuits of {kind} aren't of one function")
        for file, circuit in zip(files, circuits):
            file.write_bytes(circuit.binary())
        yield f"{kind} {size}", [str(file) for file in files]


def verdict_of(run):
    """The verdict of a run, or a dash where it has none."""
    return run[2].split()[0] if run and run[2] else "-"


def raised(words, made):
    """Prints what each of the options does to each pair, and answers how many verdicts are wrong."""
    decided = [0] * len(RAISED)
    wrong = many = 0
    print(f"{'pair':24}" + "".join(f" {option or 'defaults':>32}" for option in RAISED))
    for name, files in made:
        runs = [best([words.mine, "check", *files, "--workers", "1", *option.split()], words.limit, words.rounds) for option in RAISED]
        said = [verdict_of(run) for run in runs]
        print(f"{name:24}" + "".join(f" {f'{verdict} {shown(run)}':>32}" for verdict, run in zip(said, runs)), flush=True)
        decided = [before + (verdict == "EQUIVALENT") for before, verdict in zip(decided, said)]
        wrong += sum(verdict not in ("EQUIVALENT", "UNDECIDED", "-") for verdict in said)
        many += 1
    print(f"{'decided':24}" + "".join(f" {f'{count} of {many}':>32}" for count in decided))
    return wrong


def instructions(command):
    """How many instructions callgrind counts of a command."""
    ran = subprocess.run(["valgrind", "--tool=callgrind", "--callgrind-out-file=/dev/null", *command], capture_output=True, text=True, check=False)
    found = re.search(r"Collected\s*:\s*(\d+)", ran.stderr)
    if not found or ran.returncode:
        raise SystemExit(f"{' '.join(command)} ended with {ran.returncode} under valgrind:\n{ran.stderr[-1000:]}")
    return int(found[1])


def told(words, made):
    """Prints what the options that tell of a check cost, and answers how many cost too much."""
    if not shutil.which("valgrind"):
        print("skipped: valgrind is not there (Debian's package valgrind)")
        return 0
    dear = 0
    print(f"{'pair':24} {'instructions':>16}" + "".join(f" {option:>12}" for option in TOLD))
    for name, files in made[:MEASURED]:
        plain, *more = [instructions([words.mine, "check", *files, "--workers", "1", *option]) for option in [[], *([option] for option in TOLD)]]
        shares = [100 * (many - plain) / plain for many in more]
        print(f"{name:24} {plain:16,}" + "".join(f" {share:+10.3f} %" for share in shares), flush=True)
        dear += sum(share >= 1 for share in shares)
    return dear


def main():
    parser = argparse.ArgumentParser(description=__doc__, formatter_class=argparse.RawDescriptionHelpFormatter)
    parser.add_argument("part", choices=["raised", "told"], nargs="?")
    parser.add_argument("--program")
    parser.add_argument("--limit", type=float, default=300)
    parser.add_argument("--rounds", type=int, default=1)
    parser.add_argument("--corpus", type=Path)
    parser.add_argument("--pairs", nargs="+", default=[])
    parser.add_argument("--only", type=re.compile, default=re.compile(""))
    words = parser.parse_args()
    words.mine, wrong = program(words.program), 0
    with tempfile.TemporaryDirectory() as folder:
        made = list(pairs(words, Path(folder)))
        for part in (raised, told):
            if words.part in (None, part.__name__):
                wrong += part(words, made)
    print(f"wrong {wrong}")
    return 1 if wrong else 0


if __name__ == "__main__":
    sys.exit(main())
