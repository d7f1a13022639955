#!/usr/bin/env python3
"""Shares out a pair of circuits: parts of its outputs, each a pair of files with the gates that those outputs rest on.

Usage: split.py A B PARTS FOLDER

Writes FOLDER/K.a, FOLDER/K.b, in ASCII, and FOLDER/K.first, the number of the part's first output, for each part K from 0; says how many
parts there are. Outputs are shared out in order. Inputs, constraints and the variables of gates keep their numbers, so a lemma of a part is one
of the whole, in which output j of the part is output first + j.
"""
import sys
from pathlib import Path

sys.path.insert(0, str(Path(__file__).resolve().parents[1]))
from miter import circuit_in


def cone(circuit, literals):
    """The gates that these literals rest on, in order."""
    wanted = {literal // 2 for literal in literals}
    found = []
    for variable, left, right in reversed(circuit.gates):
        if variable in wanted:
            wanted.update((left // 2, right // 2))
            found.append((variable, left, right))
    return found[::-1]


def part(circuit, greatest, first, behind):
    """The file with the outputs from `first` to before `behind`."""
    outputs, constraints = circuit.outputs[first:behind], circuit.constraints
    gates = cone(circuit, [*outputs, *constraints])
    counts = [greatest, len(circuit.inputs), 0, len(outputs), len(gates)] + ([0, len(constraints)] if constraints else [])
    lines = [f"aag {' '.join(map(str, counts))}"]
    lines += [str(2 * variable) for variable in circuit.inputs] + [str(literal) for literal in [*outputs, *constraints]]
    lines += [f"{2 * variable} {left} {right}" for variable, left, right in gates]
    text = "".join(line + "\n" for line in lines).encode()
    names = [(b"i%d " % place, name) for place, name in sorted(circuit.names["i"].items())]
    names += [(b"o%d " % (place - first), name) for place, name in sorted(circuit.names["o"].items()) if first <= place < behind]
    return text + b"".join(head + name + b"\n" for head, name in names)


def main():
    if len(sys.argv) != 5:
        raise SystemExit(__doc__)
    circuits, parts, folder = [circuit_in(name) for name in sys.argv[1:3]], int(sys.argv[3]), Path(sys.argv[4])
    outputs = len(circuits[0].outputs)
    if outputs != len(circuits[1].outputs):
        raise SystemExit("the circuits have other numbers of outputs")
    folder.mkdir(parents=True, exist_ok=True)
    greatest = [max([0, *circuit.inputs, *(gate[0] for gate in circuit.gates)]) for circuit in circuits]
    parts = max(1, min(parts, outputs))
    for number in range(parts):
        first, behind = number * outputs // parts, (number + 1) * outputs // parts
        for side, circuit, most in zip("ab", circuits, greatest):
            (folder / f"{number}.{side}").write_bytes(part(circuit, most, first, behind))
        (folder / f"{number}.first").write_text(f"{first}\n")
    print(parts)


if __name__ == "__main__":
    main()
