#!/usr/bin/env python3
"""Compares the structural pass with a second implementation of its rule, to the hint.

Usage: structure.py [PROGRAM] [--runs N] [--seed N]

Random pairs of equal circuits (fanins swapped, gates doubled) are checked with --out. The first additions of the proof have to be the
merges that the rule gives, without those that nothing cites: gate by gate in the order of positions, to what the roots of the fanins fold to, else to the earliest
unmerged gate over the same two roots; each of the two clauses with the hints that scanning finds in the clauses of the gate, of its
twin, of the constant where a root or the target is it, and of the merges that the fanins pass, in the order of the miter. Each line
but the last has to be cited, and deleted behind the last line that cites it, unless the last line does. Status 1
where a line differs. 2,000 runs take some half a minute on a processor.
"""
import random
import subprocess
import tempfile
from pathlib import Path

from pairs import random_circuit, text
from rounds import Tally, words_of

TRUE = (0, False)
FALSE = (0, True)


def opposite(literal):
    return literal[0], not literal[1]


def kept(clauses):
    """Each clause with the first of each repeated literal, without those that have a literal beside its negation."""
    return [list(dict.fromkeys(clause)) for clause in clauses if not any(opposite(literal) in clause for literal in clause)]


class Pair:
    """The gates of a pair by position, the ids of their clauses, and the merges so far. A literal is a position and a sign."""

    def __init__(self, a, b):
        self.inputs = len(a[0])
        self.gates = {}
        for circuit in (a, b):
            first = {0: 0, **{literal // 2: k + 1 for k, literal in enumerate(circuit[0])}}
            for lhs, left, right in circuit[2]:
                first[lhs // 2] = 1 + self.inputs + len(self.gates)
                named = [(first[side // 2], bool(side % 2) != (side < 2)) for side in (left, right)]
                self.gates[first[lhs // 2]] = tuple(named)
        self.merges, self.ids, next_id = {}, {0: 1}, 2
        for gate in self.gates:
            self.ids[gate] = next_id
            next_id += len(self.axioms(gate))

    def axioms(self, node):
        if node not in self.gates:
            return [[TRUE]] if node == 0 else []
        left, right = self.gates[node]
        return kept([[(node, True), left], [(node, True), right], [(node, False), opposite(left), opposite(right)]])

    def root(self, literal):
        """The root of a literal, and the nodes that are passed."""
        passed = []
        while literal[0] in self.merges:
            passed.append(literal[0])
            target, _ = self.merges[literal[0]]
            literal = opposite(target) if literal[1] else target
        return literal, passed

    def clauses_of(self, nodes, clauses):
        """The clauses of these nodes with their ids, in order; `clauses` is how many the miter has."""
        found = []
        for node in sorted(set(nodes)):
            if node in self.merges:
                target, place = self.merges[node]
                both = [[(node, True), target], [(node, False), opposite(target)]]
                found += [(clause, clauses + 1 + 2 * place + k) for k, clause in enumerate(both)]
            else:
                found += [(clause, self.ids[node] + k) for k, clause in enumerate(self.axioms(node))]
        return found

    def folded(self, a, b):
        if FALSE in (a, b) or a == opposite(b):
            return FALSE
        if a == TRUE:
            return b
        return a if b == TRUE or a == b else None

    def finding(self, gate):
        """What a gate is merged to and the nodes whose clauses show it; none where it stays."""
        (a, passed), (b, more) = map(self.root, self.gates[gate])
        target = self.folded(a, b)
        if target is not None:
            return target, [gate] + passed + more + ([0] if 0 in (a[0], b[0], target[0]) else [])
        for twin in self.gates:
            if twin == gate:
                return None
            (x, way), (y, rest) = map(self.root, self.gates[twin])
            if twin not in self.merges and (x, y) in ((a, b), (b, a)):
                return (twin, False), [gate] + passed + more + [twin] + way + rest


def scanned(base, clause):
    """The hints that scanning the base again and again gives."""
    true, hints = {opposite(literal) for literal in clause}, []
    while True:
        for lits, name in base:
            left = [literal for literal in lits if opposite(literal) not in true]
            if not left or (len(left) == 1 and left[0] not in true):
                break
        else:
            raise SystemExit("no hint is left")
        hints.append(name)
        if not left:
            return hints
        true.add(left[0])


def expected_lines(a, b, clauses):
    """The lines of the proof that the structural pass makes over a miter of so many clauses."""
    pair, lines = Pair(a, b), []
    for gate in pair.gates:
        found = pair.finding(gate)
        if found is None:
            continue
        target, nodes = found
        base = pair.clauses_of(nodes, clauses)
        for clause in ([(gate, True), target], [(gate, False), opposite(target)]):
            written = [(-1 if neg else 1) * (node + 1) for node, neg in clause]
            lines.append(" ".join(map(str, [clauses + 1 + len(lines), *written, 0, *scanned(base, clause), 0])))
        pair.merges[gate] = target, len(pair.merges)
    return lines


def rewritten(rng, circuit):
    """The same function: fanins swapped."""
    inputs, outputs, gates = circuit
    return inputs, outputs, [(lhs, right, left) if rng.random() < 0.5 else (lhs, left, right) for lhs, left, right in gates]


def numbers_of(line):
    """The id, the literals and the hints of an addition."""
    numbers = [int(word) for word in line.split()]
    end = numbers.index(0, 1)
    return numbers[0], numbers[1:end], numbers[end + 1:-1]


def with_deletions(additions, clauses):
    """These lines, each with the deletion of what it is the last to cite, but for what the last line cites."""
    hints = [numbers_of(line)[2] for line in additions]
    last = {name: place for place, names in enumerate(hints) for name in names if name > clauses}
    lines = []
    for place, line in enumerate(additions):
        lines.append(line)
        gone = sorted(name for name, use in last.items() if use == place) if place + 1 < len(additions) else []
        if gone:
            lines.append(" ".join(map(str, [clauses + 1 + place, "d", *gone, 0])))
    return lines, all(clauses + 1 + place in last for place in range(len(additions) - 1))


def fault_of(ran, folder, a, b):
    if ran.returncode != 0 or ran.stdout != "EQUIVALENT\n":
        return "no yes"
    clauses = int(Path(folder, "p.0.cnf").read_text().split()[3])
    proof = Path(folder, "p.0.lrat").read_text().splitlines()
    additions = [line for line in proof if line.split()[1] != "d"]
    names, place = {}, 0
    for line in expected_lines(a, b, clauses):
        name, literals, hints = numbers_of(line)
        if numbers_of(additions[place])[1] != literals:
            continue
        renamed = [names.get(hint, "left out") if hint > clauses else hint for hint in hints]
        wanted = " ".join(map(str, [clauses + 1 + place, *literals, 0, *renamed, 0]))
        if additions[place] != wanted:
            return f"addition {place + 1} isn't {wanted!r} but {additions[place]!r}"
        names[name], place = clauses + 1 + place, place + 1
    lines, reached = with_deletions(additions, clauses)
    if lines != proof:
        return f"deletions aren't as in {lines!r} but as in {proof!r}"
    return None if reached else f"a line that nothing cites in {proof!r}"


def main():
    words = words_of(__doc__, 2000)
    rng, tally = random.Random(words.seed), Tally(words.seed)
    with tempfile.TemporaryDirectory() as folder:
        for _ in range(words.runs):
            a = random_circuit(rng, rng.randrange(0, 6), rng.randrange(0, 4), rng.randrange(0, 40))
            b = rewritten(rng, a)
            Path(folder, "A").write_text(text(a))
            Path(folder, "B").write_text(text(b))
            ran = subprocess.run([words.program, "check", "A", "B", "--out", "p"], cwd=folder, capture_output=True, text=True)
            fault = fault_of(ran, folder, a, b)
            tally.add(ran.returncode, fault and f"{fault}: {ran!r}, on {text(a)!r} and {text(b)!r}")
    tally.end()


if __name__ == "__main__":
    main()
