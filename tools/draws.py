#!/usr/bin/env python3
"""The words that a pool of patterns draws, apart from the program: PCG XSL RR 128/64 with its stream (M. E. O'Neill, "PCG: A Family of Simple
Fast Space-Efficient Statistically Good Algorithms for Random Number Generation", 2014), seeded by a number as the crate rand_core of
Rust does it: eight words of PCG XSH RR 64/32 from that number are the 32 bytes of state and stream.

Usage: draws.py SEED COUNT
"""
import sys

M32, M64, M128 = (1 << 32) - 1, (1 << 64) - 1, (1 << 128) - 1


def rotated(x, by, bits):
    by %= bits
    return (x >> by | x << (bits - by)) & ((1 << bits) - 1)


def seed_bytes(state):
    made = b""
    for _ in range(8):
        state = (state * 6364136223846793005 + 11634580027462260723) & M64
        word = rotated(((state >> 18 ^ state) >> 27) & M32, state >> 59, 32)
        made += word.to_bytes(4, "little")
    return made


def draws(seed, count):
    made = seed_bytes(seed)
    multiplier = 0x2360ED051FC65DA44385DF649FCCF645
    start, stream = int.from_bytes(made[:16], "little"), int.from_bytes(made[16:], "little") | 1
    state = ((start + stream) * multiplier + stream) & M128
    for _ in range(count):
        state = (state * multiplier + stream) & M128
        yield rotated((state >> 64 ^ state) & M64, state >> 122, 64)


if __name__ == "__main__":
    for word in draws(int(sys.argv[1]), int(sys.argv[2])):
        print(f"0x{word:016x}")
