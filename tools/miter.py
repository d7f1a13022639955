#!/usr/bin/env python3
"""The miter of two AIGER files as a DIMACS CNF, made by the words of docs/MODEL.md alone. It shares nothing with the program.

Usage: miter.py A B [--names] [--compare CNF]

Reads both circuits, in either form, with constraints and names; with --names puts the inputs and outputs of B into A's order by name.
Writes the CNF to standard output; with --compare it reads that file in place of writing, and says `same`, or the first line in
which the two differ. It takes files that `cec check` takes: of others it says that it can't read them, and no more. Status 1 where
the files differ, 2 where a circuit can't be read or the two can't be compared.
"""
import argparse
import sys
from pathlib import Path


class Unreadable(Exception):
    """A file that isn't a combinational AIGER circuit, or two that can't be compared."""


class Circuit:
    """Input variables, gates in order (variable, two fanin literals), outputs, constraints, and names by place."""

    def __init__(self, inputs, gates, outputs, constraints):
        self.inputs, self.gates, self.outputs, self.constraints = inputs, gates, outputs, constraints
        self.names = {"i": {}, "o": {}}


def in_order(inputs, gates):
    """The gates in the file's order where each fanin stands before its gate, else by level and in one level by place."""
    level = {0: 0, **{variable: 0 for variable in inputs}}
    if all(fanins_known(gate, level) for gate in gates):
        return gates
    level = {0: 0, **{variable: 0 for variable in inputs}}
    readers, missing, ready = {}, {}, []
    for place, (variable, left, right) in enumerate(gates):
        wanted = {fanin // 2 for fanin in (left, right)} - level.keys()
        missing[place] = len(wanted)
        for fanin in wanted:
            readers.setdefault(fanin, []).append(place)
        if not wanted:
            ready.append(place)
    for place in ready:
        variable, left, right = gates[place]
        level[variable] = 1 + max(level[left // 2], level[right // 2])
        for reader in readers.get(variable, ()):
            missing[reader] -= 1
            if not missing[reader]:
                ready.append(reader)
    if len(ready) < len(gates):
        raise Unreadable("a gate is undefined, or on or above a cycle")
    return sorted(gates, key=lambda gate: level[gate[0]])


def fanins_known(gate, level):
    """Whether both fanins were seen before; the gate then is seen too."""
    variable, left, right = gate
    known = left // 2 in level and right // 2 in level
    level[variable] = 0
    return known


class Reader:
    """The lines and bytes of a file, from the front."""

    def __init__(self, data):
        self.data, self.at = data, 0

    def line(self):
        end = self.data.find(b"\n", self.at)
        end = len(self.data) if end < 0 else end
        found, self.at = self.data[self.at : end], min(end + 1, len(self.data))
        return found

    def numbers(self, count):
        words = self.line().split(b" ")
        if len(words) != count or not all(word.isdigit() for word in words):
            raise Unreadable("a line isn't one of numbers")
        return [int(word) for word in words]

    def delta(self):
        value = shift = 0
        while True:
            byte = self.data[self.at]
            self.at += 1
            value |= (byte & 127) << shift
            shift += 7
            if byte < 128:
                return value


def header(reader):
    words = reader.line().split(b" ")
    if words[0] not in (b"aag", b"aig") or not 6 <= len(words) <= 10 or not all(word.isdigit() for word in words[1:]):
        raise Unreadable("it has no AIGER header")
    numbers = [int(word) for word in words[1:]] + [0] * (10 - len(words))
    if numbers[2] or numbers[5] or numbers[7] or numbers[8]:
        raise Unreadable("it has latches or properties")
    return words[0] == b"aig", numbers


def symbols(reader, circuit):
    """Of two names for one place the later one counts, and an empty one is none."""
    while reader.at < len(reader.data):
        line = reader.line()
        if line[:1] == b"c":
            return
        place, _, name = line[1:].partition(b" ")
        kind = line[:1].decode("latin-1")
        if kind not in circuit.names or not place.isdigit():
            raise Unreadable("a symbol line has another form")
        circuit.names[kind][int(place)] = name


def circuit_in(name):
    reader = Reader(Path(name).read_bytes())
    is_binary, (_, many, _, outputs, gates, _, constraints, *_) = header(reader)
    if is_binary:
        inputs = list(range(1, many + 1))
    else:
        inputs = [reader.numbers(1)[0] // 2 for _ in range(many)]
    ends = [reader.numbers(1)[0] for _ in range(outputs + constraints)]
    found = []
    for place in range(gates):
        if is_binary:
            literal = 2 * (many + place + 1)
            left = literal - reader.delta()
            found.append((literal // 2, left, left - reader.delta()))
        else:
            literal, left, right = reader.numbers(3)
            found.append((literal // 2, left, right))
    circuit = Circuit(inputs, in_order(inputs, found), ends[:outputs], ends[outputs:])
    symbols(reader, circuit)
    return circuit


def by_name(first, second, kind, places):
    """The places of the second circuit's inputs or outputs in the order of the first one's names."""
    place_of = {name: place for place, name in second.names[kind].items() if name}
    try:
        order = [place_of[first.names[kind][place]] for place in range(places)]
    except KeyError as missing:
        raise Unreadable("a name is missing") from missing
    if sorted(order) != list(range(places)):
        raise Unreadable("two have one name")
    return order


def put_in_order(first, second):
    second.inputs = [second.inputs[place] for place in by_name(first, second, "i", len(first.inputs))]
    second.outputs = [second.outputs[place] for place in by_name(first, second, "o", len(first.outputs))]


def numbered(circuit, first):
    """The CNF literal of each AIGER variable: 1 is the constant true, so variable 0 is false."""
    number = {0: -1}
    for place, variable in enumerate(circuit.inputs):
        number[variable] = 2 + place
    for place, (variable, _, _) in enumerate(circuit.gates):
        number[variable] = first + place
    return lambda literal: -number[literal // 2] if literal % 2 else number[literal // 2]


def miter(a, b):
    """The number of variables, and the clauses in order. A repeated literal is written once, and a clause with a complementary pair
    is left out."""
    if len(a.inputs) != len(b.inputs) or len(a.outputs) != len(b.outputs):
        raise Unreadable("the circuits have other numbers of inputs or outputs")
    first_of_a = 2 + len(a.inputs)
    first_of_b = first_of_a + len(a.gates)
    first_xor = first_of_b + len(b.gates)
    sides = [(a, numbered(a, first_of_a)), (b, numbered(b, first_of_b))]
    clauses = [[1]]
    for circuit, number in sides:
        for variable, left, right in circuit.gates:
            gate, x, y = number(2 * variable), number(left), number(right)
            clauses += [[-gate, x], [-gate, y], [gate, -x, -y]]
    for place, (one, other) in enumerate(zip(a.outputs, b.outputs)):
        xor, x, y = first_xor + place, sides[0][1](one), sides[1][1](other)
        clauses += [[-xor, x, y], [-xor, -x, -y], [xor, -x, y], [xor, x, -y]]
    clauses += [[number(literal)] for circuit, number in sides for literal in circuit.constraints]
    clauses.append([first_xor + place for place in range(len(a.outputs))])
    once = [list(dict.fromkeys(clause)) for clause in clauses]
    return first_xor - 1 + len(a.outputs), [clause for clause in once if not any(-literal in clause for literal in clause)]


def lines(variables, clauses):
    yield f"p cnf {variables} {len(clauses)}"
    for clause in clauses:
        yield " ".join(map(str, [*clause, 0]))


def compared(made, name):
    """Whether the file has these lines and no others; says where it doesn't."""
    with open(name, encoding="ascii", errors="replace", newline="\n") as file:
        number = 0
        for number, line in enumerate(made, 1):
            found = file.readline()
            if found != line + "\n":
                print(f"{name}: line {number} is {found.rstrip()!r} and should be {line!r}")
                return False
        if file.read(1):
            print(f"{name}: more than {number} lines")
            return False
    print("same")
    return True


def main():
    words = argparse.ArgumentParser(description=__doc__, formatter_class=argparse.RawDescriptionHelpFormatter)
    words.add_argument("a")
    words.add_argument("b")
    words.add_argument("--names", action="store_true")
    words.add_argument("--compare")
    asked = words.parse_args()
    try:
        a, b = circuit_in(asked.a), circuit_in(asked.b)
        if asked.names:
            put_in_order(a, b)
        made = lines(*miter(a, b))
    except (Unreadable, IndexError, KeyError, OSError) as fault:
        print(f"miter.py: {fault}", file=sys.stderr)
        return 2
    if asked.compare:
        return 0 if compared(made, asked.compare) else 1
    sys.stdout.writelines(line + "\n" for line in made)
    return 0


if __name__ == "__main__":
    sys.exit(main())
