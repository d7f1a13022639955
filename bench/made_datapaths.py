"""Pairs of large circuits of one function in two architectures whose checks ask many questions: copies, a processor, a hash, an adder."""
import sys
from pathlib import Path

sys.path.insert(0, str(Path(__file__).resolve().parents[1] / "tools"))
from workload import Circuit, adder


def ripple(c, xs, ys, carry=0):
    """The sum of two words, lowest bits first: a ripple carry adder, whose last carry is dropped."""
    made = []
    for x, y in zip(xs, ys):
        total, carry = c.full(x, y, carry)
        made.append(total)
    return made


def prefix(c, xs, ys, carry=0):
    """The same by generated and propagated carries, joined as a prefix tree over spans that double."""
    flips = [c.differ(x, y) for x, y in zip(xs, ys)]
    spans = [(c.both(x, y), flip) for x, y, flip in zip(xs, ys, flips)]
    if carry:
        spans[0] = (c.either(spans[0][0], spans[0][1]), spans[0][1])
    reach = 1
    while reach < len(spans):
        before = list(spans)
        for k in range(reach, len(spans)):
            made, passes = before[k - reach]
            spans[k] = (c.either(before[k][0], c.both(before[k][1], made)), c.both(before[k][1], passes))
        reach *= 2
    carries = [carry] + [made for made, _ in spans[:-1]]
    return [c.differ(flip, into) for flip, into in zip(flips, carries)]


def copied(circuits, times):
    """Disjoint copies of a circuit side by side."""
    (one,) = {circuit.inputs for circuit in circuits}
    made = []
    for circuit in circuits:
        copy = Circuit(one * times)
        for turn in range(times):
            moved = {0: 0, **{circuit.input(k): copy.input(one * turn + k) for k in range(one)}}
            at = lambda literal: moved[literal & ~1] ^ (literal & 1)
            for lhs, left, right in circuit.gates:
                moved[lhs] = copy.both(at(left), at(right))
            copy.outputs += [at(literal) for literal in circuit.outputs]
        made.append(copy)
    return made


def copies(times):
    """Adders of 16 bits side by side, ripple carry beside carry select."""
    return copied(adder(16), times)


def rotated(word, by):
    return word[-by:] + word[:-by]


def hashed(rounds, add, width=32):
    """Rounds of add, rotate and differ over four words, as ARX hashes have them."""
    c = Circuit(4 * width)
    words = [[c.input(width * w + k) for k in range(width)] for w in range(4)]
    for k in range(rounds):
        a, b, x, y = words
        a = add(c, a, b)
        y = rotated([c.differ(p, q) for p, q in zip(y, a)], 7 + k % 5)
        x = add(c, x, y)
        b = rotated([c.differ(p, q) for p, q in zip(b, x)], 11)
        words = [b, x, y, a]
    c.outputs += [bit for word in words for bit in word]
    return c


def hashes(rounds):
    return hashed(rounds, ripple), hashed(rounds, prefix)


def picked(c, choices, selects):
    """The word that the selecting bits name, the lowest bit first."""
    if not selects:
        return choices[0]
    half = [[c.choose(selects[0], q, p) for p, q in zip(*pair)] for pair in zip(choices[::2], choices[1::2])]
    return picked(c, half, selects[1:])


def summed(c, choices, selects):
    """The same word as an OR of all choices, each under its own number."""
    made = None
    for number, choice in enumerate(choices):
        is_it = 1
        for k, select in enumerate(selects):
            is_it = c.both(is_it, select ^ 1 ^ (number >> k & 1))
        masked = [c.both(is_it, bit) for bit in choice]
        made = masked if made is None else [c.either(p, q) for p, q in zip(made, masked)]
    return made


def stepped(steps, add, pick, width=16, registers=4):
    """A small processor: at each step an instruction of the inputs reads two registers, and writes what it computes to a third."""
    c = Circuit(registers * width + steps * 9)
    file = [[c.input(width * r + k) for k in range(width)] for r in range(registers)]
    for step in range(steps):
        at = registers * width + 9 * step
        code = [c.input(at + k) for k in range(9)]
        x, y = pick(c, file, code[:2]), pick(c, file, code[2:4])
        less = add(c, x, [bit ^ 1 for bit in y], 1)
        results = [add(c, x, y), less, [c.both(p, q) for p, q in zip(x, y)], [c.either(p, q) for p, q in zip(x, y)],
                   [c.differ(p, q) for p, q in zip(x, y)], rotated(x, 1), add(c, x, rotated(y, 3)), y]
        result = pick(c, results, code[4:7])
        names = [pick(c, [[1 if r == k else 0] for k in range(registers)], code[7:9])[0] for r in range(registers)]
        file = [[c.choose(name, new, old) for new, old in zip(result, word)] for name, word in zip(names, file)]
    c.outputs += [bit for word in file for bit in word]
    return c


def processors(steps):
    return stepped(steps, ripple, picked), stepped(steps, prefix, summed)


def values(circuit, words):
    """The outputs' values on rows of inputs, each row an integer that has a bit a run."""
    every = (1 << 64) - 1
    at = {0: 0, **{circuit.input(k): word for k, word in enumerate(words)}}
    value = lambda literal: at[literal & ~1] ^ (every if literal & 1 else 0)
    for lhs, left, right in circuit.gates:
        at[lhs] = value(left) & value(right)
    return [value(literal) for literal in circuit.outputs]


KINDS = {"copies": (copies, 384), "hashes": (hashes, 5), "processors": (processors, 40), "adders": (adder, 3000)}
SMALL = {"small copies": (copies, 1), "small adders": (adder, 24)}
