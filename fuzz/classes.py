#!/usr/bin/env python3
"""Classes that are kept while patterns join a pool, beside those of all rows.

Usage: classes.py [--runs N] [--seed N]

Draws pairs of circuits of many inputs, whose classes random patterns don't settle, and patterns that are nearly all 0 or 1. After each
pattern `sig_classes` is asked for the tasks twice (`runner/classes.txt`): by the classes that it keeps from round to round, and by all
rows of the pool. Both lists have to be the same. Status 1 where two differ, or where no pattern broke a class.
"""
import argparse
import random
import shutil
import sys

import runner
from pairs import random_circuit, rewritten, text
from rounds import SEED

USES = ["aiger_file", "netlist", "lemma_book", "word_sim", "sig_classes"]


def case(rng):
    """A line of the cases: a pair, and the patterns that join."""
    inputs = rng.randrange(4, 20)
    a = random_circuit(rng, inputs, rng.randrange(1, 4), rng.randrange(10, 80))
    often = rng.choice([0.02, 0.5, 0.98])
    patterns = ["".join("1" if rng.random() < often else "0" for _ in range(inputs)) for _ in range(rng.randrange(1, 90))]
    return "\t".join([text(circuit).replace("\n", ";") for circuit in (a, rewritten(rng, a))] + patterns)


def main():
    words = argparse.ArgumentParser(description=__doc__, formatter_class=argparse.RawDescriptionHelpFormatter)
    words.add_argument("--runs", type=int, default=200)
    words.add_argument("--seed", type=int, default=SEED)
    asked = words.parse_args()
    if not shutil.which("rt"):
        print("skipped: the toolchain's command rt is not there")
        return 0
    rng = random.Random(asked.seed)
    cases = [case(rng) for _ in range(asked.runs)]
    said = runner.answers("classes", USES, cases).splitlines()
    wrong = [line for line, answer in zip(cases, said) if "apart" in answer] + cases[len(said):]
    rounds = [answer.replace("apart", "").split() for answer in said]
    broken = sum(one != other for counts in rounds for one, other in zip(counts, counts[1:]))
    for line in wrong:
        print(f"other tasks: {line}")
    print(f"seed {asked.seed}: {len(cases)} pairs, {sum(map(len, rounds))} rounds, {broken} with other tasks than before, {len(wrong)} wrong")
    return 1 if wrong or not broken else 0


if __name__ == "__main__":
    sys.exit(main())
