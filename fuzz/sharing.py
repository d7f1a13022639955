"""Circuits and a formula whose parts share slots of the program's tables, each beside one of as many others.

The program's hashes have fixed seeds, so whoever makes a file can do this; how each goes is said where it is used. That of pairs of
roots alone has a seed that the circuits make, so there the parts share slots under the seed of another circuit.
"""
import sys
from pathlib import Path

sys.path.insert(0, str(Path(__file__).resolve().parents[1] / "bench"))
sys.path.insert(0, str(Path(__file__).resolve().parents[1] / "tools"))
from aiger import binary
from draws import draws

GOLDEN = 0x9E37_79B9_7F4A_7C15
WORD = 1 << 64
SLOTS = 1 << 18
MASK = WORD - 1


def ands(inputs, pairs):
    """A circuit of one AND for each pair of inputs, without outputs."""
    gates = []
    for at, pair in enumerate(pairs):
        left, right = sorted((2 * (k + 1) for k in pair), reverse=True)
        gates.append((2 * (inputs + at + 1), left, right))
    return binary(inputs, [], gates)


def pairs_of_roots(rng, count):
    """(sharing, drawn): gates of a pair of inputs each, k and the lower l, with the same low bits of 31^4 k + 31 l, by which the
    structural pass once looked pairs up."""
    most, inverse = pow(31, 4, SLOTS), pow(31, -1, SLOTS)
    sharing = []
    for k in range(SLOTS):
        lower = (12345 - most * k) * inverse % SLOTS
        if lower < k:
            sharing.append((k, lower))
    drawn = [rng.sample(range(SLOTS), 2) for _ in sharing]
    return ands(SLOTS, sharing[:count]), ands(SLOTS, drawn[:count])


def turned(word, by):
    return (word << by | word >> 64 - by) & MASK


def siphash(words):
    """SipHash-1-3 of words of 64 bits, with the keys 0."""
    def mixed_once(a, b, c, d):
        a, c = a + b & MASK, c + d & MASK
        b, d, a = turned(b, 13) ^ a, turned(d, 16) ^ c, turned(a, 32)
        c, a = c + b & MASK, a + d & MASK
        return a, turned(b, 17) ^ c, turned(c, 32), turned(d, 21) ^ a
    a, b, c, d = 0x736F_6D65_7073_6575, 0x646F_7261_6E64_6F6D, 0x6C79_6765_6E65_7261, 0x7465_6462_7974_6573
    for word in [*words, (8 * len(words) & 255) << 56]:
        a, b, c, d = mixed_once(a, b, c, d ^ word)
        a ^= word
    c ^= 255
    for _ in range(3):
        a, b, c, d = mixed_once(a, b, c, d)
    return a ^ b ^ c ^ d


def folded(state, word, length):
    """The state of std's `FoldHasher` after a word of so many bytes."""
    product = (state ^ word) * (GOLDEN ^ 2 * length)
    return product & MASK ^ product >> 64


def start_of(pairs):
    """Where the hash of a pair of roots begins in a check of this circuit of ANDs against itself: by the fanins of both sides."""
    words = []
    for pair in pairs:
        left, right = sorted((2 * (k + 1) for k in pair), reverse=True)
        words.append(turned(left, 32) ^ right)
    return folded(0x243F_6A88_85A3_08D3, siphash(words * 2), 8)


def roots_of_a_seed(rng, count):
    """(sharing, drawn): gates of two inputs each, whose hashes lie in one of 32 parts of the table under the seed of the drawn circuit."""
    inputs = 4096
    drawn = [rng.sample(range(inputs), 2) for _ in range(count)]
    start, groups = start_of(drawn), 1
    while 9 * groups < 2 * count:
        groups *= 2
    sharing = []
    for low in range(2, 2 * inputs, 2):
        state = folded(start, low | low << 32, 4)
        for high in range(low + 2, 2 * inputs + 2, 2):
            made = folded(state, high | high << 32, 4)
            if (made ^ made >> 32) % groups < groups // 32:
                sharing.append((high // 2 - 1, low // 2 - 1))
        if len(sharing) >= count:
            return ands(inputs, sharing[:count]), ands(inputs, drawn)
    raise SystemExit("too few pairs")


def one_fanin(rng, count):
    """(sharing, drawn): gates that have one fanin in common, and gates of two drawn inputs."""
    sharing = [(k, 0) for k in range(1, count + 1)]
    return ands(count + 1, sharing), ands(count + 1, [rng.sample(range(count + 1), 2) for _ in range(count)])


def merged_nodes(count):
    """(sharing, plain): gates that are merged, whose variables lie 128 apart, so that they are in few slots; and beside
    one another."""
    def circuit(step):
        lines = [f"aag {2 + step * count} 2 0 0 {count}", "2", "4"]
        last = 2
        for at in range(1, count + 1):
            lines.append(f"{2 * (2 + step * at)} {last} 4")
            last = 2 * (2 + step * at)
        return ("\n".join(lines) + "\n").encode()
    return circuit(128), circuit(1)


def mixed(number, word):
    product = (number ^ word) * GOLDEN % WORD
    return product ^ product >> 32


def signatures(rng, count):
    """(sharing, drawn): gates whose rows of 64 patterns have hashes with one beginning of four bits, by the words that
    seed 1 draws."""
    inputs = 2048
    rows = list(draws(1, inputs))

    def bucket(pair):
        row = rows[pair[0]] & rows[pair[1]]
        return mixed(0, row ^ (WORD - 1) if row & 1 else row) >> 60

    sharing, drawn, seen = [], [], set()
    while len(sharing) < count:
        pair = tuple(sorted(rng.sample(range(inputs), 2)))
        if pair in seen:
            continue
        seen.add(pair)
        if len(drawn) < count:
            drawn.append(pair)
        if bucket(pair) == 7:
            sharing.append(pair)
    return ands(inputs, sharing), ands(inputs, drawn)


def codes_in_one_slot(count, limit=1 << 32):
    """Numbers below the limit whose products with the multiplier lie in the first slots of a table, as few as may be."""
    width = WORD * count // limit * 9 // 8
    steps = [1, 2]
    while len(steps) < 52:
        steps.append(steps[-1] + steps[-2])
    found, code = [], 0
    while len(found) < count:
        code += next(step for step in steps if (code + step) * GOLDEN % WORD < width)
        if code >= limit:
            raise SystemExit("too few codes")
        found.append(code)
    return found


def words_of(codes):
    """The words of literals of these codes, twice the variable and one more where it is negated, each variable once."""
    seen, words = set(), []
    for code in codes:
        if code // 2 and code // 2 not in seen:
            seen.add(code // 2)
            words.append(("-" if code % 2 else "") + str(code // 2))
    return words


def literals(rng, count):
    """(sharing, drawn): a clause of literals whose codes share slots."""
    def clause(codes):
        return f"p cnf 2147483647 1\n{' '.join(words_of(codes))} 0\n".encode()
    sharing = codes_in_one_slot(count)
    return clause(sharing), clause(rng.sample(range(2, 1 << 32), count))


def proofs(rng, count):
    """(sharing, drawn): a formula of one literal, and a line that adds it among literals whose codes share slots."""
    def pair(codes):
        words = words_of(codes)
        return f"p cnf 2147483647 1\n{words[0]} 0\n".encode(), f"2 {' '.join(words)} 0 1 0\n".encode()
    sharing = codes_in_one_slot(count)
    return pair(sharing), pair(rng.sample(range(2, 1 << 32), count))


def lemmas(rng, count):
    """(sharing, drawn): a lemma file with a step of literals whose codes share slots, which are the numbers of nodes twice, and one
    more where negated; what is left of a node's number modulo 5 tells its kind."""
    limit = 10 << 32

    def file(codes):
        nodes = {code // 2: code % 2 for code in codes if code // 2 % 5}
        words = ["-" * negated + " iabx"[node % 5] + str(node // 5) for node, negated in nodes.items()]
        return f"lemmas 1\nm b3 a3\ns {' '.join(words[:count])} ; c/0\n.\n".encode()
    return file(codes_in_one_slot(count * 3 // 2, limit)), file([rng.randrange(2, limit) for _ in range(count * 3 // 2)])
