"""Circuits for the measurements: lists of AND gates with fanins that are there, made from a seed, as AIGER in both forms."""
import random


def random_gates(rng, inputs, gates):
    """Gates (lhs, rhs0, rhs1) over input literals 2, 4, .., each on earlier literals, near ones more often than far ones."""
    made = []
    for k in range(gates):
        lhs = 2 * (inputs + k + 1)
        low = max(1, inputs + k + 1 - 64)
        fanins = [2 * rng.randrange(low, inputs + k + 1) + rng.randrange(2) for _ in range(2)]
        made.append((lhs, fanins[0], fanins[1]))
    return made


def text(inputs, outputs, gates):
    """The ASCII file."""
    variables = max([inputs] + [lhs // 2 for lhs, _, _ in gates])
    lines = [f"aag {variables} {inputs} 0 {len(outputs)} {len(gates)}"]
    lines += [str(2 * (k + 1)) for k in range(inputs)]
    lines += [str(literal) for literal in outputs]
    lines += [f"{lhs} {left} {right}" for lhs, left, right in gates]
    return "\n".join(lines) + "\n"


def delta(number):
    """The number in groups of 7 bits, the least first."""
    made = bytearray()
    while number > 127:
        made.append(number & 127 | 128)
        number >>= 7
    made.append(number)
    return bytes(made)


def binary(inputs, outputs, gates):
    """The binary file of the same circuit, whose gates define the variables behind the inputs in order."""
    made = bytearray(f"aig {inputs + len(gates)} {inputs} 0 {len(outputs)} {len(gates)}\n".encode())
    for literal in outputs:
        made += f"{literal}\n".encode()
    for lhs, left, right in gates:
        high, low = max(left, right), min(left, right)
        made += delta(lhs - high) + delta(high - low)
    return bytes(made)


def backwards(inputs, gates):
    """A chain of gates, each over the next line's, as an ASCII file: its last gate stands first."""
    lines = [f"aag {inputs + gates} {inputs} 0 0 {gates}"] + [str(2 * (k + 1)) for k in range(inputs)]
    lines += [f"{2 * v} {2 * v - 2} {2 * v - 1}" for v in range(inputs + gates, inputs, -1)]
    return "\n".join(lines) + "\n"


def swapped(rng, gates):
    """The same gates, about half of them with swapped fanins."""
    return [(lhs, right, left) if rng.randrange(2) else (lhs, left, right) for lhs, left, right in gates]


def make_binary(seed, inputs, gates):
    """The bytes of the first circuit of such a pair, without outputs."""
    return binary(inputs, [], random_gates(random.Random(seed), inputs, gates))


def make_pair(seed, inputs, gates, outputs, turned=False):
    """Texts of a circuit and of one that computes the same, with the last gates as outputs; or one sign is turned."""
    rng = random.Random(seed)
    first = random_gates(rng, inputs, gates)
    ends = [lhs for lhs, _, _ in first[len(first) - outputs:]]
    second = swapped(rng, first)
    if turned:
        lhs, left, right = second[-1]
        second[-1] = (lhs, left ^ 1, right)
    return text(inputs, ends, first), text(inputs, ends, second)
