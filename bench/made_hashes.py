"""Circuits of hashes, gate by gate: the permutation of SHA-3 and rounds of the compression of SHA-256."""
import sys
from math import isqrt
from pathlib import Path

sys.path.insert(0, str(Path(__file__).resolve().parents[1] / "tools"))
from made_datapaths import ripple
from workload import Circuit

LANES = [(x, y) for y in range(5) for x in range(5)]
ROUNDS = 24


def offsets():
    """By how much each lane of Keccak-f[1600] is rotated (FIPS 202, 3.2.2)."""
    x, y, found = 1, 0, {(0, 0): 0}
    for t in range(24):
        found[x, y] = (t + 1) * (t + 2) // 2 % 64
        x, y = y, (2 * x + 3 * y) % 5
    return found


def round_bits():
    """For each round the bits of its constant that are set (FIPS 202, 3.2.5)."""
    state, made = 1, []
    for _ in range(ROUNDS):
        bits = set()
        for j in range(7):
            if state & 1:
                bits.add((1 << j) - 1)
            state = (state << 1) ^ (0x171 if state & 0x80 else 0)
        made.append(bits)
    return made


def permuted():
    """Keccak-f[1600], the permutation of SHA-3: its 24 rounds (FIPS 202, 3.3)."""
    c, turn = Circuit(1600), offsets()
    lanes = {(x, y): [c.input(64 * (x + 5 * y) + z) for z in range(64)] for x, y in LANES}
    word = lambda p, q: [c.differ(a, b) for a, b in zip(p, q)]
    for bits in round_bits():
        sums = []
        for x in range(5):
            total = lanes[x, 0]
            for y in range(1, 5):
                total = word(total, lanes[x, y])
            sums.append(total)
        mixes = [word(sums[x - 1], sums[(x + 1) % 5][-1:] + sums[(x + 1) % 5][:-1]) for x in range(5)]
        lanes = {(x, y): word(lanes[x, y], mixes[x]) for x, y in LANES}
        rotated = {(x, y): lanes[x, y][64 - turn[x, y]:] + lanes[x, y][:64 - turn[x, y]] for x, y in LANES}
        moved = {(y, (2 * x + 3 * y) % 5): rotated[x, y] for x, y in LANES}
        lanes = {(x, y): [c.differ(p, c.both(q ^ 1, r)) for p, q, r in zip(moved[x, y], moved[(x + 1) % 5, y], moved[(x + 2) % 5, y])]
                 for x, y in LANES}
        lanes[0, 0] = [bit ^ (z in bits) for z, bit in enumerate(lanes[0, 0])]
    c.outputs += [bit for lane in LANES for bit in lanes[lane[0], lane[1]]]
    return c


def primes(many):
    found = []
    number = 2
    while len(found) < many:
        if all(number % prime for prime in found):
            found.append(number)
        number += 1
    return found


def cube_root(number):
    """The greatest number whose cube isn't above this one."""
    low, high = 0, 1 << (number.bit_length() // 3 + 1)
    while low + 1 < high:
        middle = (low + high) // 2
        low, high = (middle, high) if middle ** 3 <= number else (low, middle)
    return low


def constants():
    """What is added in the rounds of SHA-256: 32 bits of the cube roots of primes (FIPS 180-4, 4.2.2)."""
    return [cube_root(prime << 96) & 0xffffffff for prime in primes(64)]


def first_state():
    """The state before the first block: 32 bits of the square roots of primes (FIPS 180-4, 5.3.3)."""
    return [isqrt(prime << 64) & 0xffffffff for prime in primes(8)]


def shifted(word, by, fill=None):
    """A word, lowest bits first, rotated to the right, or shifted to the right and filled."""
    return word[by:] + (word[:by] if fill is None else [fill] * by)


def compressed(rounds):
    """Rounds of the compression of SHA-256 (FIPS 180-4, 6.2.2): 16 words of a block and then the state of 8 words, each lowest bits
    first; the state that is added to what the rounds leave."""
    c = Circuit(24 * 32)
    block = [[c.input(32 * word + k) for k in range(32)] for word in range(16)]
    state = [[c.input(32 * word + k) for k in range(32)] for word in range(16, 24)]
    differ = lambda *words: words[0] if len(words) == 1 else [c.differ(p, q) for p, q in zip(differ(*words[:-1]), words[-1])]
    total = lambda *words: words[0] if len(words) == 1 else ripple(c, total(*words[:-1]), words[-1])
    for k in range(16, rounds):
        near, far = block[k - 15], block[k - 2]
        one = differ(shifted(near, 7), shifted(near, 18), shifted(near, 3, 0))
        two = differ(shifted(far, 17), shifted(far, 19), shifted(far, 10, 0))
        block.append(total(block[k - 16], one, block[k - 7], two))
    a, b, d, e, f, g, h, i = state
    for word, constant in zip(block[:rounds], constants()):
        chosen = [c.choose(p, q, r) for p, q, r in zip(f, g, h)]
        most = [c.either(c.both(p, q), c.both(r, c.either(p, q))) for p, q, r in zip(a, b, d)]
        added = [constant >> k & 1 for k in range(32)]
        one = total(i, differ(shifted(f, 6), shifted(f, 11), shifted(f, 25)), chosen, added, word)
        two = total(differ(shifted(a, 2), shifted(a, 13), shifted(a, 22)), most)
        a, b, d, e, f, g, h, i = total(one, two), a, b, d, total(e, one), f, g, h
    for before, after in zip(state, (a, b, d, e, f, g, h, i)):
        c.outputs += total(before, after)
    return c
