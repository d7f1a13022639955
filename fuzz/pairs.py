#!/usr/bin/env python3
"""Random small pairs of circuits, judged apart from the program.

Usage: pairs.py [PROGRAM [CHECKER]] [--runs N] [--seed N]

PROGRAM is the repository's own where it is left out. CHECKER (else tools/lrat_strict.py) is a strict LRAT checker that is called as
`CHECKER [--steps] CNF PROOF` and prints VERIFIED for a refutation, and with --steps `STEPS COUNT` for lines that are all steps and add no
empty clause. For each pair the circuits are evaluated on every input here, and what counts are the inputs on which each constraint of both
is true, of which there may be none. EQUIVALENT must be true and its proof VERIFIED. DIFFERENT must name an output and such an input on
which it differs, and with the whole budget the first output that differs. UNDECIDED may list only outputs whose logs stand at those lines
of the file, as long as the budget, and each other output must be equal. Some pairs are XORs by two shapes, and mostly a query of two nodes
has a budget of one clause: without both no output is left open. Some pairs are ANDs of many literals: patterns that are drawn don't tell
these from the constant, so that counterexamples are searched for. Some pairs are matched by name: the second file then has its inputs and
outputs in another order, and is judged by the first one's. The CNF must be the one that tools/miter.py makes of the two files. Status 1
where anything is wrong.
"""
import random
import re
import subprocess
import tempfile
from pathlib import Path

from rounds import Tally, house, words_of
import miter


def random_circuit(rng, inputs, outputs, gates):
    """(input literals, output literals, gates) with constants, repeated and complementary fanins among the cases."""
    known = list(range(2 * inputs + 2))
    made = []
    for k in range(gates):
        lhs = 2 * (inputs + k + 1)
        made.append((lhs, rng.choice(known), rng.choice(known)))
        known += [lhs, lhs + 1]
    return [2 * (k + 1) for k in range(inputs)], [rng.choice(known) for _ in range(outputs)], made


def rewritten(rng, circuit):
    """The same function mostly: fanins swapped, a gate doubled by idempotence; sometimes one sign is turned."""
    inputs, outputs, gates = circuit
    gates = [(lhs, right, left) if rng.random() < 0.5 else (lhs, left, right) for lhs, left, right in gates]
    if gates and rng.random() < 0.35:
        place = rng.randrange(len(gates))
        lhs, left, right = gates[place]
        gates[place] = (lhs, left ^ 1, right)
    if rng.random() < 0.5 and outputs:
        lhs = 2 * (len(inputs) + len(gates) + 1)
        place = rng.randrange(len(outputs))
        gates = gates + [(lhs, outputs[place], rng.choice([1, outputs[place]]))]
        outputs = outputs[:place] + [lhs] + outputs[place + 1:]
    return inputs, outputs, gates


def put_xor(rng, gates, next_literal, left, right):
    """The literal of the XOR of two literals, by one of two shapes of three gates, which are put last."""
    pairs = rng.choice([[(left, right ^ 1), (left ^ 1, right)], [(left, right), (left ^ 1, right ^ 1)]])
    lhs = next_literal + 2 * len(gates)
    gates += [(lhs, *pairs[0]), (lhs + 2, *pairs[1]), (lhs + 4, lhs + 1, lhs + 3)]
    return lhs + 4 ^ (pairs[0] == (left, right ^ 1))


def xor_circuit(rng, inputs, outputs):
    """Each output is the XOR of all inputs, which are taken in an order and by shapes that are drawn."""
    gates, ends = [], []
    for _ in range(outputs):
        order = rng.sample(range(2, 2 * inputs + 2, 2), inputs)
        end = order[0]
        for literal in order[1:]:
            end = put_xor(rng, gates, 2 * inputs + 2, end, literal)
        ends.append(end)
    return [2 * (k + 1) for k in range(inputs)], ends, gates


def products(rng, inputs, terms):
    """Each output is the AND of the literals of a term, in an order that is drawn."""
    gates, ends = [], []
    for term in terms:
        end, *others = rng.sample(term, len(term))
        for literal in others:
            gates.append((2 * (inputs + len(gates) + 1), end, literal))
            end = gates[-1][0]
        ends.append(end)
    return [2 * (k + 1) for k in range(inputs)], ends, gates


def drawn_products(rng):
    """Two circuits whose outputs are ANDs of a literal of each input, in two orders, the second one rewritten."""
    inputs = rng.randrange(16, 21)
    terms = [[2 * k + rng.choice([2, 3]) for k in range(inputs)] for _ in range(rng.randrange(1, 4))]
    return products(rng, inputs, terms), rewritten(rng, products(rng, inputs, terms))


def drawn_pair(rng):
    """Two circuits, mostly of one function. Those of XORs take clauses that are learned, so small budgets leave outputs open."""
    drawn = rng.random()
    if drawn < 0.1:
        return drawn_products(rng)
    if drawn < 0.4:
        size = rng.randrange(2, 5), rng.randrange(1, 4)
        return xor_circuit(rng, *size), rewritten(rng, xor_circuit(rng, *size))
    a = random_circuit(rng, rng.randrange(0, 5), rng.randrange(0, 4), rng.randrange(0, 9))
    return a, rewritten(rng, a) if rng.random() < 0.75 else random_circuit(rng, len(a[0]), len(a[1]), rng.randrange(0, 9))


def literals_of(circuit):
    """Every literal: constants, inputs and gates, and their negations."""
    positive = [0, *circuit[0], *(lhs for lhs, _, _ in circuit[2])]
    return positive + [literal + 1 for literal in positive]


def drawn_constraints(rng, a, b):
    """Literals of each circuit that have to be true: mostly none, some that leave no input, some under which the circuits agree."""
    drawn = rng.random()
    if drawn < 0.4:
        return (), ()
    if drawn < 0.6:
        agreeing = [literal for literal in literals_of(a) if not differing_outputs(a, b, ((literal,), ()))]
        return ((rng.choice(agreeing),) if agreeing else ()), ()
    return tuple(tuple(rng.choice(literals_of(side)) for _ in range(rng.choice([0, 1, 1, 2]))) for side in (a, b))


def symbols(kind, names):
    return [f"{kind}{place} {name}" for place, name in enumerate(names)]


def text(circuit, constraints=(), names=((), ())):
    """The file in ASCII, with the names of the inputs and those of the outputs, where there are any."""
    inputs, outputs, gates = circuit
    variables = max([0] + [literal // 2 for literal in inputs] + [lhs // 2 for lhs, _, _ in gates])
    lines = [f"aag {variables} {len(inputs)} 0 {len(outputs)} {len(gates)}" + (f" 0 {len(constraints)}" if constraints else "")]
    lines += [str(literal) for literal in [*inputs, *outputs, *constraints]]
    lines += [f"{lhs} {left} {right}" for lhs, left, right in gates]
    lines += symbols("i", names[0]) + symbols("o", names[1])
    return "\n".join(lines) + "\n"


def named_files(rng, a, b, bounds):
    """Both files with names, the second with its inputs and its outputs in an order of its own."""
    words = ["x", "y", "z z", "sum[0]", "1", "-", "\u00e9", "c", *(f"in[{k}]" for k in range(16))]
    pool = rng.sample(words, len(a[0])), rng.sample(["x", "o", "carry out", "q"], len(a[1]))
    orders = [rng.sample(range(len(places)), len(places)) for places in b[:2]]
    turned = [[places[k] for k in order] for places, order in zip(b[:2], orders)]
    names = [[places[k] for k in order] for places, order in zip(pool, orders)]
    return text(a, bounds[0], pool), text((*turned, b[2]), bounds[1], names)


def values_of(circuit, bits, literals, true=True):
    """The truth values of literals. Many inputs at once are numbers in base 2, a digit for each of them: true has a one for each then."""
    inputs, _, gates = circuit
    values = {0: true ^ true}
    values.update({literal // 2: bit for literal, bit in zip(inputs, bits)})

    def value(literal):
        return values[literal // 2] ^ true if literal % 2 else values[literal // 2]

    for lhs, left, right in gates:
        values[lhs // 2] = value(left) & value(right)
    return [value(literal) for literal in literals]


def evaluated(circuit, bits):
    """The outputs' truth values."""
    return values_of(circuit, bits, circuit[1])


def is_admitted(a, b, bounds, bits):
    """Whether each constraint of both circuits is true on the input."""
    return all(values_of(a, bits, bounds[0])) and all(values_of(b, bits, bounds[1]))


def differing_outputs(a, b, bounds=((), ())):
    """The outputs that differ on some admitted input. All inputs are evaluated at once: digit d is the case whose bits spell d."""
    columns, true = [], 1
    for k in range(len(a[0])):
        columns = [column | column << (1 << k) for column in columns] + [true << (1 << k)]
        true |= true << (1 << k)
    admitted = true
    for circuit, literals in zip((a, b), bounds):
        for value in values_of(circuit, columns, literals, true):
            admitted &= value
    ends = zip(values_of(a, columns, a[1], true), values_of(b, columns, b[1], true))
    return {j for j, (x, y) in enumerate(ends) if (x ^ y) & admitted}


def checked(checker, folder, *options):
    """What the checker prints of the files that were left."""
    files = [str(Path(folder, name)) for name in ("p.0.cnf", "p.0.lrat")]
    return subprocess.run(checker + list(options) + files, capture_output=True, text=True).stdout.strip()


def judged_equal(said, differing, folder, checker):
    if said != "EQUIVALENT\n" or differing:
        return "a wrong yes"
    strict = checked(checker, folder)
    return None if strict == "VERIFIED" else "its proof is " + strict


def judged_different(said, a, b, differing, folder, budget, bounds=((), ())):
    match = re.fullmatch(r"DIFFERENT\noutput (\d+)\ninput (none|[01]+)\n", said)
    if not match:
        return "no such verdict"
    output, digits = int(match[1]), match[2].replace("none", "")
    if len(digits) != len(a[0]) or (match[2] == "none") != (not a[0]):
        return "an input of another length"
    bits = [digit == "1" for digit in digits]
    if not is_admitted(a, b, bounds, bits):
        return "an input that isn't admitted"
    if evaluated(a, bits)[output] == evaluated(b, bits)[output]:
        return "a wrong no"
    if budget is None and output != min(differing):
        return "another output than the first that differs"
    return "a proof that isn't empty" if Path(folder, "p.0.lrat").read_bytes() else None


def judged_open(said, differing, folder, checker, budget):
    first, *lines = said.splitlines()
    spans = [re.fullmatch(r"output (\d+) lines (\d+)-(\d+)", line) for line in lines]
    if first != "UNDECIDED" or not spans or not all(spans):
        return "no such verdict"
    spans = [tuple(map(int, span.groups())) for span in spans]
    listed = [output for output, _, _ in spans]
    if listed != sorted(set(listed)) or any(j not in listed for j in differing):
        return "another list of outputs"
    if any(last - begin + 1 != budget for _, begin, last in spans):
        return "a log of another length"
    clauses = int(Path(folder, "p.0.cnf").read_text().split()[3])
    ends = [begin - 1 for _, begin, _ in spans[1:]] + [spans[-1][2]]
    if ends != [last for _, _, last in spans]:
        return "logs with gaps"
    strict = checked(checker, folder, "--steps")
    return None if strict == f"STEPS {spans[-1][2] - clauses}" else "its lines are " + strict


def is_miter(folder, by_name):
    """Whether the CNF is that of the two files, as another program makes it."""
    a, b = (miter.circuit_in(Path(folder, name)) for name in "AB")
    if by_name:
        miter.put_in_order(a, b)
    made = "".join(line + "\n" for line in miter.lines(*miter.miter(a, b)))
    return made == Path(folder, "p.0.cnf").read_text()


def judged(ran, a, b, bounds, folder, checker, budget):
    """None where the answer is right, else what is wrong."""
    differing = differing_outputs(a, b, bounds)
    if ran.stderr:
        return "a warning"
    if not is_miter(folder, "--match" in ran.args):
        return "another CNF"
    if ran.returncode == 0:
        return judged_equal(ran.stdout, differing, folder, checker)
    if ran.returncode == 1:
        return judged_different(ran.stdout, a, b, differing, folder, budget, bounds)
    if ran.returncode == 2 and budget is not None:
        return judged_open(ran.stdout, differing, folder, checker, budget)
    return "no answer"


def main():
    words = words_of(__doc__, 400, "checker")
    rng, tally, checker = random.Random(words.seed), Tally(words.seed), house.checker(words.checker)
    with tempfile.TemporaryDirectory() as folder:
        for _ in range(words.runs):
            a, b = drawn_pair(rng)
            bounds, by_name = drawn_constraints(rng, a, b), rng.random() < 0.3
            files = named_files(rng, a, b, bounds) if by_name else (text(a, bounds[0]), text(b, bounds[1]))
            Path(folder, "A").write_text(files[0])
            Path(folder, "B").write_text(files[1])
            budget = rng.choice([None, None, 1, 2, 3])
            command = [words.program, "check", "A", "B", "--out", "p"] + (["--match", "names"] if by_name else [])
            command += [] if budget is None else ["--budget", str(budget)]
            command += ["--sweep-budget", "1"] if rng.random() < 0.7 else []
            ran = subprocess.run(command, cwd=folder, capture_output=True, text=True)
            fault = judged(ran, a, b, bounds, folder, checker, budget)
            tally.add(ran.returncode, fault and f"{fault}: {ran!r}, on {files!r}")
    tally.end()


if __name__ == "__main__":
    main()
