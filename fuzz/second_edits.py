"""Edit scripts apart from the product: the fault of a line, and the circuit after an edit.

A circuit is (input literals, output literals, gates), a gate (lhs, left, right), all AIGER literals. Edits are made of copies.
"""
MOST = 33_554_433
GATES = 16_777_216


def number_in(word):
    """The number of a word that has digits only and isn't above the limit, or None."""
    if not word or word.strip(b"0123456789"):
        return None
    digits = word.lstrip(b"0") or b"0"
    return int(digits) if len(digits) <= len(str(MOST)) and int(digits) <= MOST else None


def gate_in(word):
    number = number_in(word)
    return None if number is None or number % 2 else number


def numbers_of(words, readers):
    """The numbers of the words, each read by its reader, or None where one isn't such a number or there are more or fewer."""
    if len(words) != len(readers):
        return None
    found = [reader(word) for word, reader in zip(words, readers)]
    return None if None in found else found


def command_in(line):
    """[] for an empty line, None for a bad one, else a list of the command's name, its side and its numbers."""
    if not line:
        return []
    name, *words = line.split(b" ")
    if name == b"check":
        return ["check"] if not words else None
    if name not in (b"set", b"new", b"drop", b"out") or not words or words[0] not in (b"a", b"b"):
        return None
    side, words = words[0].decode(), words[1:]
    if name == b"new":
        if words[-1:] == [b"end"]:
            words, place = words[:-1], None
        elif words[-2:-1] == [b"before"]:
            words, place = words[:-2], gate_in(words[-1])
            if place is None:
                return None
        else:
            return None
        found = numbers_of(words, [gate_in, number_in, number_in])
        return None if found is None else ["new", side, *found, place]
    readers = {b"set": [gate_in, number_in, number_in], b"drop": [gate_in], b"out": [number_in, number_in]}[name]
    found = numbers_of(words, readers)
    return None if found is None else [name.decode(), side, *found]


def variables_before(circuit, place):
    """The variables of the constant, of the inputs and of the gates before this place."""
    inputs, _, gates = circuit
    return {0} | {literal // 2 for literal in inputs} | {lhs // 2 for lhs, _, _ in gates[:place]}


def place_of(circuit, literal):
    """The place of the gate of a literal among the gates, or None."""
    return next((k for k, gate in enumerate(circuit[2]) if gate[0] // 2 == literal // 2), None)


def fault_of_fanins(circuit, place, fanins):
    known, earlier = variables_before(circuit, len(circuit[2])), variables_before(circuit, place)
    for literal in fanins:
        if literal // 2 not in known:
            return f"no literal {literal}"
    for literal in fanins:
        if literal // 2 not in earlier:
            return f"literal {literal} is not earlier"
    return None


def fault_of(circuit, edit, constraints=()):
    """The text of the edit's first fault, or None."""
    name, _, *numbers = edit
    inputs, outputs, gates = circuit
    if name == "out":
        j, literal = numbers
        if j >= len(outputs):
            return f"no output {j}"
        return None if literal // 2 in variables_before(circuit, len(gates)) else f"no literal {literal}"
    lhs = numbers[0]
    if name == "new":
        if len(gates) >= GATES:
            return "too many gates"
        if lhs // 2 in variables_before(circuit, len(gates)):
            return f"literal {lhs} is taken"
        before = numbers[3]
        place = len(gates) if before is None else place_of(circuit, before)
        return f"no gate {before}" if place is None else fault_of_fanins(circuit, place, numbers[1:3])
    place = place_of(circuit, lhs)
    if place is None:
        return f"no gate {lhs}"
    if name == "set":
        return fault_of_fanins(circuit, place, numbers[1:3])
    read = {literal // 2 for _, left, right in gates for literal in (left, right)} | {literal // 2 for literal in (*outputs, *constraints)}
    return f"gate {lhs} is in use" if lhs // 2 in read else None


def edited(circuit, edit):
    """The circuit after an edit without a fault."""
    name, _, *numbers = edit
    inputs, outputs, gates = circuit[0], list(circuit[1]), list(circuit[2])
    if name == "set":
        gates[place_of(circuit, numbers[0])] = tuple(numbers)
    elif name == "new":
        place = len(gates) if numbers[3] is None else place_of(circuit, numbers[3])
        gates.insert(place, tuple(numbers[:3]))
    elif name == "drop":
        del gates[place_of(circuit, numbers[0])]
    else:
        outputs[numbers[0]] = numbers[1]
    return inputs, outputs, gates


def lines_of(script):
    """The lines of a script's bytes; the last may lack its line feed."""
    lines = script.split(b"\n")
    return lines[:-1] if not lines[-1] else lines


def checks_of(sides, script, bounds=((), ())):
    """(the pairs of circuits of the checks, in order; the refused line's number and text, or None), where the circuits have these constraints."""
    sides, checks = dict(sides), [(sides["a"], sides["b"])]
    for number, line in enumerate(lines_of(script), 1):
        command = command_in(line)
        if command is None:
            return checks, (number, "bad line")
        if command == ["check"]:
            checks.append((sides["a"], sides["b"]))
        elif command:
            fault = fault_of(sides[command[1]], command, bounds["ab".index(command[1])])
            if fault:
                return checks, (number, fault)
            sides[command[1]] = edited(sides[command[1]], command)
    return checks, None
