#!/usr/bin/env python3
"""Checks by programs whose search is made wrong on purpose: no verdict may be another one than the circuits have.

Usage: wrong_search.py [--runs N] [--seed N] [--jobs N] [--edit NAME ..]

For each file `wrong_search/NAME.edit` (its lines as in a must-fail edit, its file by its place in `crates`) a program over a copy of the
crates, in which `circuit_search` or a crate below it is changed so, checks the same random pairs, and so does one that isn't changed. Edits whose names begin with `whole` are of the search
of whole cones: pairs of nodes have a budget of one clause there, and the lazy search is given no output, so that all that is left open
comes to it. Those whose names begin with `short` are of its caps: outputs have a budget of 20 clauses besides, so that some stay undecided.
Those whose names begin with `shared` are of the equalities that workers share: there two workers check each pair, so that
which books come depends on the order of the threads. The pairs are evaluated on every input here:
EQUIVALENT must be true, and DIFFERENT must name an output and an input on which it differs. A proposal that the lemma book refuses may
cost a query of the whole cone, and may leave a pair undecided, but that is all. Nothing is proved here: the contract of
`circuit_search`, that an entry is good, is what this shows at work. Each program is built by itself, --jobs at a time, which takes minutes;
an edit whose old text doesn't stand once in its file is told before that. Prints a line for each program; status 1 where anything is wrong,
or where an edit changed no answer, no book and no count of conflicts, since it showed nothing then: with few runs that may be.
"""
import argparse
import random
import shutil
import sys
from collections import Counter
from concurrent.futures import ThreadPoolExecutor
from pathlib import Path

import runner
from crates import replaced
from house import TOP
from pairs import differing_outputs, drawn_products, evaluated, random_circuit, rewritten, text, xor_circuit
from rounds import SEED

EDITS = Path(__file__).resolve().parent / "wrong_search"
LAZY = [
    ("search.rt", "self.proposer.output_shortly(alloc, net, output, caps)?", "None::<Entry>"),
    ("proposer.rt", "self.output_by_equalities(alloc, net, output, caps)?", "None::<Entry>"),
    ("proposer.rt", "self.equate_open(alloc, net, caps)?;", ""),
]
BUDGET = ("sweep_budget: 1000", "sweep_budget: 1")
SHORT = ("out_budget: 100000", "out_budget: 20")
WORKERS = ("workers: 1", "workers: 2")
# The first word of an edit's name says which texts of `runner/checks.txt` are replaced; other edits are of the lazy search, by that text.
KINDS = {"whole": [BUDGET], "short": [BUDGET, SHORT], "shared": [BUDGET, WORKERS]}
LAZY_KIND = ""
USES = ["check_session", "desk_port", "aiger_file", "lemma_book", "lits"]


def expanded(circuit):
    """The same functions of other gates: an AND with a negated AND is taken apart into two cases, and any other gate is doubled. That
    two cases are one AND takes a search and a clause that it learns."""
    inputs, outputs, gates = circuit
    made, moved, fanins = [], {}, {lhs: pair for lhs, *pair in gates}

    def at(literal):
        return moved.get(literal & ~1, literal & ~1) ^ (literal & 1)

    def gate(left, right):
        made.append((2 * (len(inputs) + len(made) + 1), left, right))
        return made[-1][0]

    for lhs, left, right in gates:
        if right & 1 and right & ~1 in fanins:
            first, second = (gate(at(left), at(fanin) ^ 1) for fanin in fanins[right & ~1])
            moved[lhs] = gate(first ^ 1, second ^ 1) ^ 1
        else:
            moved[lhs] = gate(gate(at(left), at(right)), at(right))
    return inputs, [at(literal) for literal in outputs], made


def pairs(rng, runs):
    """Random pairs of circuits, the second one rewritten or changed. A third is of XORs in two orders, since the sweep settles
    all of the small ones that are drawn gate by gate, and leaves no output to the search of whole cones. A third is of ANDs of many
    literals, whose counterexamples are searched for."""
    for place in range(runs):
        if place % 3 == 1:
            size = rng.randrange(4, 8), rng.randrange(1, 4)
            yield xor_circuit(rng, *size), rewritten(rng, xor_circuit(rng, *size))
        elif place % 3 == 2:
            yield drawn_products(rng)
        else:
            a = random_circuit(rng, rng.randrange(2, 8), rng.randrange(1, 4), rng.randrange(4, 30))
            yield a, expanded(rewritten(rng, a))


def fault_in(answer, a, b):
    """What is wrong with an answer, or none."""
    word, *rest = answer.split() or ["nothing"]
    if word == "DIFFERENT":
        bits = [digit == "1" for digit in rest[1]]
        j = int(rest[0])
        return None if evaluated(a, bits)[j] != evaluated(b, bits)[j] else "a wrong no"
    if word == "EQUIVALENT":
        return "a wrong yes" if differing_outputs(a, b) else None
    return None if word == "UNDECIDED" else "no answer"


def parts_of(name):
    """The file, the old text and the new one of an edit."""
    lines = (EDITS / f"{name}.edit").read_text().splitlines()
    return [next(line.removeprefix(word) for line in lines if line.startswith(word)) for word in ("file: ", "old: ", "new: ")]


def places(name):
    """How many times the old text of an edit stands in its file."""
    file, old, _ = parts_of(name)
    return (TOP / "crates" / file).read_text().count(old)


def changed(crates, name):
    """Makes the edit in the copy."""
    file, old, new = parts_of(name)
    replaced(crates / file, old, new)


def kind(name):
    """The first word of the name where that is a kind."""
    return next((word for word in KINDS if name.startswith(word)), LAZY_KIND)


def as_it_is(word):
    """What the program of this kind without an edit is called."""
    return f"{word} as it is".strip()


def answers(name, lines):
    """What the program with this edit, or with none, says of the pairs."""

    def change(crates):
        for file, old, new in LAZY if kind(name) else []:
            replaced(crates / "circuit_search" / "src" / file, old, new)
        if name != as_it_is(kind(name)):
            changed(crates, name)

    return runner.answers("checks", USES, lines, change, KINDS.get(kind(name), [])).splitlines()


def main():
    words = argparse.ArgumentParser(description=__doc__, formatter_class=argparse.RawDescriptionHelpFormatter)
    words.add_argument("--runs", type=int, default=120)
    words.add_argument("--seed", type=int, default=SEED)
    words.add_argument("--jobs", type=int, default=2)
    words.add_argument("--edit", nargs="+", default=sorted(file.stem for file in EDITS.glob("*.edit")))
    asked = words.parse_args()
    if unfit := [name for name in asked.edit if places(name) != 1]:
        words.error(f"the old text doesn't stand once in its file: {', '.join(unfit)}")
    if not shutil.which("rt"):
        print("skipped: the toolchain's command rt is not there")
        return 0
    made = list(pairs(random.Random(asked.seed), asked.runs))
    lines = ["\t".join(text(circuit).replace("\n", ";") for circuit in pair) for pair in made]
    names = [*sorted({as_it_is(kind(name)) for name in asked.edit}), *asked.edit]
    with ThreadPoolExecutor(asked.jobs) as workers:
        said = dict(zip(names, workers.map(lambda name: answers(name, lines), names)))
    wrong = 0
    for name in names:
        faults = [(fault_in(answer, *pair), line) for answer, pair, line in zip(said[name], made, lines)]
        faults = [(fault, line) for fault, line in faults if fault] + [("no answer", line) for line in lines[len(said[name]):]]
        found = dict(Counter(answer.split()[0] for answer in said[name] if answer))
        others = sum(one != other for one, other in zip(said[name], said[as_it_is(kind(name))]))
        if name in asked.edit and not others:
            faults.append(("nothing was changed by it", name))
        print(f"{name}: {found}, {others} other answers, books or counts than as it is, {len(faults)} wrong")
        for fault, line in faults:
            print(f"  {fault}: {line}")
        wrong += len(faults)
    print(f"seed {asked.seed}: {len(names) * asked.runs} runs, {wrong} wrong")
    return 1 if wrong else 0


if __name__ == "__main__":
    sys.exit(main())
