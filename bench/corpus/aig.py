"""Combinational AIGER circuits: read, write and simulate.

A literal is AIGER's: twice the variable, plus one where it is complemented; variable 0 is constant false. The inputs
of a circuit are the variables 1 to I and its gates I + 1 to I + A, each after its fanins.
"""
import random
from dataclasses import dataclass, field
from pathlib import Path


@dataclass
class Aig:
    """A circuit. Gate k is the AND of its two literals and has the variable inputs + 1 + k."""

    inputs: int
    gates: list = field(default_factory=list)
    outputs: list = field(default_factory=list)
    input_symbols: dict = field(default_factory=dict)
    output_symbols: dict = field(default_factory=dict)

    def add(self, left: int, right: int) -> int:
        """Appends an AND gate and gives its literal."""
        self.gates.append((left, right))
        return 2 * (self.inputs + len(self.gates))

    def depth(self) -> int:
        """Most gates on a path from an input to an output."""
        level = [0] * (self.inputs + 1)
        for left, right in self.gates:
            level.append(1 + max(level[left >> 1], level[right >> 1]))
        return max((level[literal >> 1] for literal in self.outputs), default=0)

    def simulate(self, words: list, width: int) -> list:
        """The output words for one word of `width` patterns per input."""
        mask = (1 << width) - 1
        value = [0, *words]
        for left, right in self.gates:
            x, y = value[left >> 1], value[right >> 1]
            value.append((x ^ mask if left & 1 else x) & (y ^ mask if right & 1 else y))
        return [value[literal >> 1] ^ (mask if literal & 1 else 0) for literal in self.outputs]


def differ(a: Aig, b: Aig, width: int, seed: int) -> bool:
    """Whether some of `width` random patterns tells a from b."""
    source = random.Random(seed)
    words = [source.getrandbits(width) for _ in range(a.inputs)]
    return a.simulate(words, width) != b.simulate(words, width)


def read(path: Path) -> Aig:
    """The circuit of a binary file without latches, constraints and properties."""
    data = path.read_bytes()
    kind, *counts = data.split(b"\n", 1)[0].split()
    variables, inputs, latches, outputs, gates, *others = map(int, counts)
    if kind != b"aig" or latches or any(others) or variables != inputs + gates:
        raise ValueError(f"{path}: not a combinational binary AIGER file")
    _, *literals, rest = data.split(b"\n", 1 + outputs)
    circuit = Aig(inputs, outputs=[int(literal) for literal in literals])
    at = 0
    for k in range(gates):
        first, at = _read_delta(rest, at)
        second, at = _read_delta(rest, at)
        left = 2 * (inputs + 1 + k) - first
        circuit.gates.append((left, left - second))
    _read_symbols(rest[at:].decode("latin-1"), circuit)
    return circuit


def _read_delta(data: bytes, at: int) -> tuple:
    """A number in groups of seven bits from place `at`, and the place behind it."""
    number = shift = 0
    while True:
        byte = data[at]
        at += 1
        number |= (byte & 127) << shift
        shift += 7
        if byte < 128:
            return number, at


def _read_symbols(text: str, circuit: Aig) -> None:
    """Takes the lines behind the gates, up to the comment, into the circuit."""
    for line in text.split("\n"):
        if line == "c":
            return
        if line[:1] in ("i", "o"):
            place, symbol = line[1:].split(" ", 1)
            symbols = circuit.input_symbols if line[0] == "i" else circuit.output_symbols
            symbols[int(place)] = symbol


def write_ascii(circuit: Aig, path: Path, comment: str) -> None:
    """Writes the circuit as an ASCII file (.aag)."""
    count = len(circuit.gates)
    lines = [f"aag {circuit.inputs + count} {circuit.inputs} 0 {len(circuit.outputs)} {count}"]
    lines += [str(2 * variable) for variable in range(1, circuit.inputs + 1)]
    lines += map(str, circuit.outputs)
    for k, (left, right) in enumerate(circuit.gates):
        lines.append(f"{2 * (circuit.inputs + 1 + k)} {max(left, right)} {min(left, right)}")
    path.write_text("\n".join(lines) + "\n" + _tail(circuit, comment))


def write_binary(circuit: Aig, path: Path, comment: str) -> None:
    """Writes the circuit as a binary file (.aig)."""
    count = len(circuit.gates)
    data = bytearray(b"aig %d %d 0 %d %d\n" % (circuit.inputs + count, circuit.inputs, len(circuit.outputs), count))
    for literal in circuit.outputs:
        data += b"%d\n" % literal
    for k, (left, right) in enumerate(circuit.gates):
        high, low = max(left, right), min(left, right)
        for delta in (2 * (circuit.inputs + 1 + k) - high, high - low):
            while delta > 127:
                data.append(delta & 127 | 128)
                delta >>= 7
            data.append(delta)
    path.write_bytes(data + _tail(circuit, comment).encode())


def _tail(circuit: Aig, comment: str) -> str:
    """Symbols and comment, the same in both forms."""
    lines = [f"i{k} {symbol}" for k, symbol in sorted(circuit.input_symbols.items())]
    lines += [f"o{k} {symbol}" for k, symbol in sorted(circuit.output_symbols.items())]
    return "\n".join([*lines, "c", comment]) + "\n"
