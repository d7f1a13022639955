"""A second reader of AIGER files, ASCII and binary, written from the format's description alone: the first fault of some
bytes as the program words it, or the circuit: inputs, gates in their order, outputs, constraints and names."""
from dataclasses import dataclass, field

MOST = 16_777_216
CAP = 10 ** 18


class Fault(Exception):
    """The first fault, in the program's words."""


@dataclass
class Circuit:
    """Variables of the inputs, (literal, fanin, fanin) of the gates, literals of the outputs and of the constraints, and
    for `i` and for `o` the names, by place, of those that have one."""
    inputs: list
    gates: list
    outputs: list
    constraints: list
    names: dict = field(default_factory=dict)


def number_at(data, at):
    """(value, place behind) of the digits that stand here; None in place of the value where there is none."""
    end = at
    while end < len(data) and data[end] in b"0123456789":
        end += 1
    return (min(int(data[at:end]), CAP), end) if end > at else (None, at)


def misplaced(data, at):
    return Fault(f"bad number at byte {at}" if at < len(data) else f"ends too early at byte {len(data)}")


def due_number(data, at):
    value, end = number_at(data, at)
    if value is None:
        raise misplaced(data, at)
    return value, end


def due_space(data, at):
    if data[at:at + 1] != b" ":
        raise misplaced(data, at)
    return at + 1


def line_of_numbers(data, at, count):
    """The numbers of a line, and the place behind it."""
    numbers = []
    for k in range(count):
        if k:
            at = due_space(data, at)
        value, at = due_number(data, at)
        numbers.append(value)
    if at < len(data) and data[at] != 10:
        raise misplaced(data, at)
    return numbers, min(at + 1, len(data))


def header(data, letter):
    end = data.find(b"\n")
    line = data if end < 0 else data[:end]
    words = line.split(b" ")
    if words[0] != b"a" + letter + b"g" or not 6 <= len(words) <= 10 or not all(w and set(w) <= set(b"0123456789") for w in words[1:]):
        raise Fault("bad header")
    numbers = [min(int(w), CAP) for w in words[1:]] + [0] * (10 - len(words))
    for n in numbers:
        if n > MOST:
            raise Fault(f"{n} is above {MOST}")
    m, i, latches, o, a = numbers[:5]
    if latches:
        raise Fault(f"{latches} latches")
    bad, constraints, justice, fairness = numbers[5:]
    for name, n in (("B", bad), ("J", justice), ("F", fairness)):
        if n:
            raise Fault(f"section {name} is not supported")
    if m < i + a or (letter == b"i" and m != i + a):
        raise Fault("bad header")
    return m, i, o, a, constraints, min(len(line) + 1, len(data))


def used(m, n):
    if n > 2 * m + 1:
        raise Fault(f"bad literal {n}")
    return n


def tail(data, at, i, o):
    """The names that the symbol lines give: a later line for a place counts, and an empty name is none."""
    names = {b"i": {}, b"o": {}}
    while at < len(data):
        end = data.find(b"\n", at)
        line = data[at:] if end < 0 else data[at:end]
        if line[:1] == b"c":
            break
        value, behind = number_at(line, 1)
        limit = {b"i": i, b"o": o}.get(line[:1], 0)
        if value is None or value >= limit or line[behind:behind + 1] != b" ":
            raise Fault(f"bad symbol line at byte {at}")
        names[line[:1]][value] = line[behind + 1:]
        at = len(data) if end < 0 else end + 1
    return {letter: {place: name for place, name in given.items() if name} for letter, given in names.items()}


def literals(data, at, m, count):
    """The literals of so many lines, and the place behind them."""
    found = []
    for _ in range(count):
        (n,), at = line_of_numbers(data, at, 1)
        found.append(used(m, n))
    return found, at


def in_order(inputs, gates):
    """The gates in the order of the file where that serves, else by level and then by place; else the fault."""
    level = {0: 0, **{v: 0 for v in inputs}}
    known = set(level)
    serves = True
    for lhs, left, right in gates:
        serves = serves and left // 2 in known and right // 2 in known
        known.add(lhs // 2)
    waiting = list(gates)
    while waiting:
        found = [g for g in waiting if g[1] // 2 in level and g[2] // 2 in level]
        if not found:
            raise Fault(f"literal {waiting[0][0]} is on or above a cycle")
        for lhs, left, right in found:
            level[lhs // 2] = 1 + max(level[left // 2], level[right // 2])
        gone = {g[0] for g in found}
        waiting = [g for g in waiting if g[0] not in gone]
    return gates if serves else sorted(gates, key=lambda g: level[g[0] // 2])


def ascii_file(data):
    m, i, o, a, c, at = header(data, b"a")
    defined, gates = {0}, []

    def define(n):
        if n % 2 or n == 0 or n > 2 * m:
            raise Fault(f"bad literal {n}")
        if n // 2 in defined:
            raise Fault(f"literal {n} is defined twice")
        defined.add(n // 2)

    inputs = []
    for _ in range(i):
        (n,), at = line_of_numbers(data, at, 1)
        define(n)
        inputs.append(n // 2)
    outputs, at = literals(data, at, m, o)
    constraints, at = literals(data, at, m, c)
    for _ in range(a):
        (lhs, left, right), at = line_of_numbers(data, at, 3)
        define(lhs)
        gates.append((lhs, used(m, left), used(m, right)))
    for n in outputs + constraints + [n for gate in gates for n in gate[1:]]:
        if n // 2 not in defined:
            raise Fault(f"literal {n} is undefined")
    gates = in_order(inputs, gates)
    return Circuit(inputs, gates, outputs, constraints, tail(data, at, i, o))


def delta_at(data, at, gate):
    value = 0
    for k in range(5):
        if at >= len(data):
            raise Fault(f"ends too early at byte {len(data)}")
        byte, at = data[at], at + 1
        value |= (byte & 127) << (7 * k)
        if byte < 128:
            return value, at
    raise Fault(f"bad delta at gate {gate}")


def binary_file(data):
    m, i, o, a, c, at = header(data, b"i")
    outputs, at = literals(data, at, m, o)
    constraints, at = literals(data, at, m, c)
    gates = []
    for gate in range(a):
        lhs = 2 * (i + gate + 1)
        first, at = delta_at(data, at, gate)
        if first == 0 or first > lhs:
            raise Fault(f"bad delta at gate {gate}")
        second, at = delta_at(data, at, gate)
        if second > lhs - first:
            raise Fault(f"bad delta at gate {gate}")
        gates.append((lhs, lhs - first, lhs - first - second))
    return Circuit(list(range(1, i + 1)), gates, outputs, constraints, tail(data, at, i, o))


def read(data):
    """The circuit that the bytes spell; Fault where they spell none."""
    if data[:4] == b"aag ":
        return ascii_file(data)
    if data[:4] == b"aig ":
        return binary_file(data)
    raise Fault("bad header")
