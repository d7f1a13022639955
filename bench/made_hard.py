#!/usr/bin/env python3
"""Pairs whose outputs are hard once structure and sweep are done, in families that the corpus hasn't: both circuits of each compute one function
of words by other ways, so few of their gates agree.

Usage: made_hard.py FOLDER [--only REGEX]

Writes the pairs and their table into the folder, as `sweep.py` and `outputs.py` read it. Nothing is drawn: each call makes the same
bytes. Both circuits of each pair are evaluated on 640 random inputs before that, on which they have to agree.

| family | one circuit | the other |
|---|---|---|
| mac | a product's rows are added to the third word | the product first, then the third word |
| wallace, booth | a product row by row | its columns as a tree; its digits of two bits, from -2 to 2 |
| karatsuba | a product row by row | three products of half the size |
| square | a product of a word with itself | each two bits' product once |
| spread | a sum times a word | the sum of two products |
| dot | two products' sum, one after the other | all of both one's rows as a tree |
| root | digit by digit | squares that are compared |
| divider | the remainder restored | one that may be negative |
| box | a table as a tree of choices | the inverse in the field as a power |
| sorter | a network of exchanges | the rank of each word |
| modulus | remainders are taken bit by bit | digits are added up, and their sum again |
| cube | a word times its square | its square times the word, as a tree |
"""
import argparse
import re
import sys
from pathlib import Path

sys.path.insert(0, str(Path(__file__).resolve().parents[1] / "tools"))
from made_datapaths import prefix, ripple
from made_designs import CLASSES, Words, agree, box, divider, root, sorter
from made_pairs import write


class Folded(Words):
    """A circuit of words without gates of constants, of which each row of a product has many."""

    def both(self, x, y):
        if 0 in (x, y) or x == y ^ 1:
            return 0
        if 1 in (x, y):
            return x if y == 1 else y
        return x if x == y else super().both(x, y)


def pair_of(inputs):
    return Folded(inputs), Folded(inputs)


def wide(word, width):
    """The word with zeros above it, or without what is above."""
    return (word + [0] * width)[:width]


def rows_of(c, x, y, width):
    """The rows of a product: the first word, moved, under each bit of the second."""
    return [wide([0] * k + c.masked(bit, x), width) for k, bit in enumerate(y)]


def row_by_row(c, x, y, add=ripple):
    """The product as an array multiplier has it."""
    width = len(x) + len(y)
    total = [0] * width
    for row in rows_of(c, x, y, width):
        total = add(c, total, row)
    return total


def tree(c, rows, add=prefix):
    """The sum of rows of one width: three bits of a column are two of the next layer until two rows are left (Wallace 1964)."""
    width = len(rows[0])
    columns = [[row[k] for row in rows if row[k]] for k in range(width)]
    while max(map(len, columns)) > 2:
        layer = [[] for _ in range(width + 1)]
        for k, column in enumerate(columns):
            while len(column) > 2:
                total, carry = c.full(*column[:3])
                column = column[3:]
                layer[k].append(total)
                layer[k + 1].append(carry)
            layer[k] += column
        columns = layer[:width]
    return add(c, *([wide(column, 2)[place] for column in columns] for place in range(2)))


def as_a_tree(c, x, y):
    return tree(c, rows_of(c, x, y, len(x) + len(y)))


def by_digits(c, x, y):
    """The product by digits of two bits, from -2 to 2 (Booth 1951, MacSorley 1961)."""
    width = len(x) + len(y)
    bits, rows = [0] + y + [0, 0], []
    for k in range(0, len(y) + 1, 2):
        low, middle, high = bits[k:k + 3]
        one = c.differ(low, middle)
        two = c.either(c.both(high, c.both(low ^ 1, middle ^ 1)), c.both(high ^ 1, c.both(low, middle)))
        digit = [c.either(c.both(one, p), c.both(two, q)) for p, q in zip(x + [0], [0] + x)]
        turned = [c.differ(high, bit) for bit in digit]
        rows.append(wide([0] * k + turned + [high] * width, width))
        rows.append(wide([0] * k + [high], width))
    return tree(c, rows, ripple)


def in_halves(c, x, y):
    """The product by three of half the size (Karatsuba and Ofman 1962)."""
    half, width = len(x) // 2, 2 * len(x)
    low, high = row_by_row(c, x[:half], y[:half]), row_by_row(c, x[half:], y[half:])
    x_sum, y_sum = (ripple(c, word[:half] + [0], word[half:] + [0]) for word in (x, y))
    middle = row_by_row(c, x_sum, y_sum)
    for part in (low, high):
        middle = minus(c, middle, part)
    return prefix(c, low + high, wide([0] * half + middle, width))


def minus(c, x, y):
    return ripple(c, x, [bit ^ 1 for bit in wide(y, len(x))], 1)


def mac(n):
    a, b = pair_of(4 * n)
    for c in (a, b):
        x, y, z = c.word(0, n), c.word(n, n), c.word(2 * n, 2 * n)
        if c is a:
            for row in rows_of(c, x, y, 2 * n):
                z = ripple(c, z, row)
            c.outputs += z
        else:
            c.outputs += prefix(c, row_by_row(c, x, y), z)
    return a, b


def multiplied(n, multiply):
    a, b = pair_of(2 * n)
    for c, how in ((a, row_by_row), (b, multiply)):
        c.outputs += how(c, c.word(0, n), c.word(n, n))
    return a, b


def square(n):
    a, b = pair_of(n)
    x = a.word(0, n)
    a.outputs += row_by_row(a, x, x)
    x, rows = b.word(0, n), []
    rows.append(wide([bit for each in x for bit in (each, 0)], 2 * n))
    for k in range(n - 1):
        rows.append(wide([0] * (2 * k + 2) + b.masked(x[k], x[k + 1:]), 2 * n))
    b.outputs += tree(b, rows)
    return a, b


def spread(n):
    a, b = pair_of(3 * n)
    for c in (a, b):
        x, y, z = (c.word(n * k, n) for k in range(3))
        if c is a:
            c.outputs += row_by_row(c, ripple(c, x + [0], y + [0]), z)
        else:
            c.outputs += prefix(c, row_by_row(c, x, z) + [0], row_by_row(c, y, z) + [0])
    return a, b


def dot(n):
    a, b = pair_of(4 * n)
    for c in (a, b):
        w, x, y, z = (c.word(n * k, n) for k in range(4))
        if c is a:
            c.outputs += ripple(c, row_by_row(c, w, x) + [0], row_by_row(c, y, z) + [0])
        else:
            c.outputs += tree(c, rows_of(c, w, x, 2 * n + 1) + rows_of(c, y, z, 2 * n + 1))
    return a, b


def modulus(n):
    """What is left of a number by 7."""
    a, b = pair_of(n)
    rest = [0, 0, 0]
    for bit in reversed(a.word(0, n)):
        rest = [bit] + rest
        less, below = a.less(rest, [1, 1, 1, 0])
        rest = a.chosen(below, rest, less)[:3]
    a.outputs += rest
    word = b.word(0, n)
    while len(word) > 3:
        digits = [wide(word[k:k + 3], 3) for k in range(0, len(word), 3)]
        width = 2 + len(digits).bit_length() if len(digits) > 2 else 4
        total = wide(digits[0], width)
        for digit in digits[1:]:
            total = ripple(b, total, wide(digit, width))
        if len(digits) == 2:
            total = ripple(b, total[:3], [total[3], 0, 0])
        word = total
    b.outputs += b.masked(b.all_of(word) ^ 1, word)
    return a, b


def cube(n):
    a, b = pair_of(n)
    x = a.word(0, n)
    a.outputs += row_by_row(a, x, row_by_row(a, x, x))
    x = b.word(0, n)
    b.outputs += as_a_tree(b, as_a_tree(b, x, x), x)
    return a, b


FAMILIES = {
    "mac4": lambda: mac(4), "mac5": lambda: mac(5), "mac6": lambda: mac(6),
    "wallace6": lambda: multiplied(6, as_a_tree), "wallace7": lambda: multiplied(7, as_a_tree), "wallace8": lambda: multiplied(8, as_a_tree),
    "booth6": lambda: multiplied(6, by_digits), "booth7": lambda: multiplied(7, by_digits), "booth8": lambda: multiplied(8, by_digits),
    "karatsuba6": lambda: multiplied(6, in_halves), "square9": lambda: square(9), "square10": lambda: square(10),
    "spread5": lambda: spread(5), "spread6": lambda: spread(6), "dot4": lambda: dot(4), "dot5": lambda: dot(5),
    "root6": lambda: root(6, pair_of), "root8": lambda: root(8, pair_of), "root16": lambda: root(16, pair_of), "divider8": lambda: divider(8), "box": box, "sorter6x4": lambda: sorter(6, 4),
    "modulus24": lambda: modulus(24), "cube5": lambda: cube(5), "cube6": lambda: cube(6),
}


def lay_out(folder, only=re.compile("")):
    """Writes the pairs whose names are wanted, and their table, into the folder."""
    rows = ["name\tclass\texpected"]
    for name, make in FAMILIES.items():
        if not only.search(name):
            continue
        a, b = make()
        if not agree(a, b):
            raise SystemExit(f"{name}: the two circuits differ")
        write(folder, name, a, b)
        gates = len(a.gates) + len(b.gates)
        rows.append(f"{name}\t{next((kind for kind, bound in CLASSES.items() if gates < bound), 'large')}\tEQUIVALENT")
    (folder / "manifest.tsv").write_text("\n".join(rows) + "\n")


if __name__ == "__main__":
    words = argparse.ArgumentParser(description=__doc__, formatter_class=argparse.RawDescriptionHelpFormatter)
    words.add_argument("folder", type=Path)
    words.add_argument("--only", type=re.compile, default=re.compile(""))
    asked = words.parse_args()
    asked.folder.mkdir(parents=True, exist_ok=True)
    lay_out(asked.folder, asked.only)
