#!/usr/bin/env python3
"""Pairs of circuits of one function in two architectures, made from a kind and a number, apart from the program's own generator.

Usage: workload.py KIND N A B [--ascii]

KIND is adder (ripple carry; carry select in blocks of four bits), parity (a chain; a tree) or comparator (a < b: from the
lowest bit up; from the highest bit down), N the number of bits. A is written as ASCII AIGER, B as binary AIGER, or with
--ascii as ASCII too.
"""
import argparse
from pathlib import Path


class Circuit:
    """Gates in order over inputs 0, 1, ..; nothing is folded."""

    def __init__(self, inputs):
        self.inputs, self.gates, self.outputs = inputs, [], []

    def input(self, k):
        return 2 * (k + 1)

    def both(self, x, y):
        lhs = 2 * (self.inputs + len(self.gates) + 1)
        self.gates.append((lhs, max(x, y), min(x, y)))
        return lhs

    def either(self, x, y):
        return self.both(x ^ 1, y ^ 1) ^ 1

    def differ(self, x, y):
        p = self.both(x, y ^ 1)
        q = self.both(x ^ 1, y)
        return self.either(p, q)

    def choose(self, s, x, y):
        p = self.both(s, x)
        q = self.both(s ^ 1, y)
        return self.either(p, q)

    def full(self, x, y, c):
        """(sum, carry)"""
        t = self.differ(x, y)
        s = self.differ(t, c)
        u = self.both(x, y)
        v = self.both(t, c)
        return s, self.either(u, v)

    def ascii(self):
        rows = [f"aag {self.inputs + len(self.gates)} {self.inputs} 0 {len(self.outputs)} {len(self.gates)}"]
        rows += [str(self.input(k)) for k in range(self.inputs)] + [str(l) for l in self.outputs]
        rows += [f"{lhs} {r0} {r1}" for lhs, r0, r1 in self.gates]
        return ("\n".join(rows) + "\n").encode()

    def binary(self):
        rows = [f"aig {self.inputs + len(self.gates)} {self.inputs} 0 {len(self.outputs)} {len(self.gates)}"]
        rows += [str(l) for l in self.outputs]
        made = bytearray(("\n".join(rows) + "\n").encode())
        for lhs, r0, r1 in self.gates:
            for delta in (lhs - r0, r0 - r1):
                while delta >= 128:
                    made.append(delta % 128 + 128)
                    delta //= 128
                made.append(delta)
        return bytes(made)


def adder(n):
    a, b = Circuit(2 * n), Circuit(2 * n)
    carry = 0
    for k in range(n):
        total, carry = a.full(a.input(k), a.input(n + k), carry)
        a.outputs.append(total)
    a.outputs.append(carry)
    carry = 0
    for start in range(0, n, 4):
        bits = range(start, min(start + 4, n))
        chains = []
        for c in (0, 1):
            sums = []
            for k in bits:
                total, c = b.full(b.input(k), b.input(n + k), c)
                sums.append(total)
            chains.append((sums, c))
        (sums0, carry0), (sums1, carry1) = chains
        b.outputs += [b.choose(carry, x, y) for x, y in zip(sums1, sums0)]
        carry = b.choose(carry, carry1, carry0)
    b.outputs.append(carry)
    return a, b


def parity(n):
    a, b = Circuit(n), Circuit(n)
    c = a.input(0)
    for k in range(1, n):
        c = a.differ(c, a.input(k))
    a.outputs.append(c)
    row = [b.input(k) for k in range(n)]
    while len(row) > 1:
        odd = row[len(row) - len(row) % 2:]
        row = [b.differ(row[i], row[i + 1]) for i in range(0, len(row) - 1, 2)] + odd
    b.outputs.append(row[0])
    return a, b


def comparator(n):
    a, b = Circuit(2 * n), Circuit(2 * n)
    less = 0
    for k in range(n):
        d = a.differ(a.input(k), a.input(n + k))
        less = a.choose(d, a.input(n + k), less)
    a.outputs.append(less)
    equal, less = 1, 0
    for k in reversed(range(n)):
        p = b.both(b.input(k) ^ 1, b.input(n + k))
        q = b.both(equal, p)
        less = b.either(less, q)
        d = b.differ(b.input(k), b.input(n + k))
        equal = b.both(equal, d ^ 1)
    b.outputs.append(less)
    return a, b


KINDS = {"adder": adder, "parity": parity, "comparator": comparator}


def main():
    parser = argparse.ArgumentParser(description=__doc__, formatter_class=argparse.RawDescriptionHelpFormatter)
    parser.add_argument("kind", choices=KINDS)
    parser.add_argument("n", type=int)
    parser.add_argument("a", type=Path)
    parser.add_argument("b", type=Path)
    parser.add_argument("--ascii", action="store_true")
    words = parser.parse_args()
    a, b = KINDS[words.kind](words.n)
    words.a.write_bytes(a.ascii())
    words.b.write_bytes(b.ascii() if words.ascii else b.binary())


if __name__ == "__main__":
    main()
