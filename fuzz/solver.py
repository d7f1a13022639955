#!/usr/bin/env python3
"""Random queries to both solvers, beside MiniSat or CaDiCaL.

Usage: solver.py [--runs N] [--seed N] [--reference COMMAND]

Draws N queries (2000): a base of clauses, a target and budgets. The bases are 3-CNFs near the threshold of satisfiability, chains
of XORs, pigeonholes and cones of random circuits. A small program over the crates is built without proof in a folder that is given
up, and asks both solvers. COMMAND (else `cadical -q`, else `minisat -verb=0`, whichever is there) decides the base with the
target's negation apart. Yes must be unsatisfiable, and its hints make the target a strict step over base and log. No must
come with a value for each variable that meets the base and not the target. Spent must be a whole budget below 3^v. Each
clause of a log must be a strict step, and new: for one of its literals unit propagation from the others' negations neither
clashes nor finds it. Status 1 where anything is wrong.
"""
import argparse
import operator
import random
import shutil
import subprocess
import tempfile
from pathlib import Path

from rounds import SEED, Tally, house
import runner
from lrat_strict import is_step
from propagation import closed

USES = ["lits", "unit_prop", "solver_plain", "solver_watch"]
WHOLE = 1_000_000


def near_threshold(rng):
    """A 3-CNF with some 4.3 clauses a variable, and an empty target or a clause of one of its variables."""
    variables = rng.randrange(4, 30)
    count = int(variables * rng.uniform(3.6, 5.0))
    base = []
    for _ in range(count):
        drawn = rng.sample(range(1, variables + 1), 3)
        base.append([v if rng.random() < 0.5 else -v for v in drawn])
    return base, [rng.choice(rng.choice(base)) for _ in range(rng.randrange(0, 2))]


def xor_clauses(out, a, b):
    return [[-out, a, b], [-out, -a, -b], [out, -a, b], [out, a, -b]]


def xor_chains(rng):
    """Two chains of XORs over the same inputs in other orders; the target says that one implies the other, or not."""
    inputs = list(range(1, rng.randrange(3, 7)))
    base, last, ends = [], len(inputs), []
    for order in (inputs, rng.sample(inputs, len(inputs))):
        end = order[0]
        for other in order[1:]:
            last += 1
            base += xor_clauses(last, end, other)
            end = last
        ends.append(end)
    return base, [rng.choice([1, -1]) * ends[0], rng.choice([1, -1]) * ends[1]]


def pigeonhole(rng):
    """Pigeons in holes, one a hole: no room for one of them, or room for all."""
    holes = rng.randrange(1, 5)
    pigeons = holes + rng.randrange(0, 2)
    place = lambda pigeon, hole: 1 + pigeon * holes + hole
    base = [[place(p, h) for h in range(holes)] for p in range(pigeons)]
    base += [[-place(p, h), -place(q, h)] for h in range(holes) for p in range(pigeons) for q in range(p)]
    return base, []


def circuit_cone(rng):
    """The clauses of random gates; the target says that a literal of one implies a literal of another."""
    inputs, gates = rng.randrange(2, 8), rng.randrange(2, 30)
    base = []
    for gate in range(inputs + 1, inputs + gates + 1):
        near = max(1, gate - 12)
        a, b = (rng.choice([1, -1]) * v for v in rng.sample(range(near, gate), 2))
        base += [[-gate, a], [-gate, b], [gate, -a, -b]]
    pair = [rng.choice([1, -1]) * v for v in rng.sample(range(inputs + 1, inputs + gates + 1), 2)]
    rng.shuffle(base)
    return base, pair


KINDS = [near_threshold, xor_chains, pigeonhole, circuit_cone]


def drawn(rng):
    """A query: its base, its target, and the budgets of the plain and of the learning solver, 0 where it isn't asked."""
    base, target = rng.choice(KINDS)(rng)
    occurring = {abs(lit) for clause in base for lit in clause}
    target = [lit for lit in dict.fromkeys(target) if abs(lit) in occurring]
    target = target[:1] if len(target) == 2 and target[0] == -target[1] else target
    plain = 0 if len(occurring) > 12 else rng.choice([1, 3, WHOLE, WHOLE])
    return base, target, plain, rng.choice([1, 5, WHOLE, WHOLE, WHOLE])


def line_of(query):
    base, target, plain, watch = query
    return " ".join(map(str, [plain, watch, *target, 0] + [word for clause in base for word in [*clause, 0]]))


def is_satisfiable(command, base, target, folder):
    """Whether base and the target's negation have a model, as the reference says."""
    clauses = base + [[-lit] for lit in target]
    variables = max([abs(lit) for clause in clauses for lit in clause], default=0)
    lines = [f"p cnf {variables} {len(clauses)}"] + [" ".join(map(str, clause + [0])) for clause in clauses]
    Path(folder, "q.cnf").write_text("\n".join(lines) + "\n")
    status = subprocess.run(command + ["q.cnf"], cwd=folder, capture_output=True, check=False).returncode
    if status not in (10, 20):
        raise SystemExit(f"{command} ended with status {status}")
    return status == 10


def is_new(clauses, clause):
    for lit in clause:
        found = closed(clauses, [-other for other in clause if other != lit], operator.neg)
        if found is not None and lit not in found:
            return True
    return False


def fault_in_log(base, log):
    clauses = list(base)
    for place, (clause, hints) in enumerate(log):
        if not is_step(clause, [clauses[hint - 1] for hint in hints]):
            return f"clause {place} of the log is no step"
        if place < 40 and not is_new(clauses, clause):
            return f"clause {place} of the log isn't new"
        clauses.append(clause)
    return None


def fault_in(query, budget, answer, log, satisfiable):
    """What is wrong with an answer: its word, the units that are left, and numbers."""
    base, target = query[:2]
    word, left, numbers = answer
    occurring = {abs(lit) for clause in base for lit in clause}
    if left + len(log) != budget:
        return "another count of units"
    if word == "yes":
        clauses = [list(clause) for clause in base] + [clause for clause, _ in log]
        right = not satisfiable and is_step(target, [clauses[hint - 1] for hint in numbers])
        return None if right else "a wrong yes"
    if word == "no":
        true = set(numbers)
        met = all(true & set(clause) for clause in base) and not true & set(target)
        whole = {abs(lit) for lit in true} == occurring and len(true) == len(occurring)
        return None if satisfiable and met and whole else "a wrong no"
    return None if word == "spent" and left == 0 and budget <= 3 ** len(occurring) else "spent with units left"


def told(text):
    """The answers to each query: (solver, answer, log)."""
    queries, answers = [], []
    for words in map(str.split, text.splitlines()):
        if words == ["end"]:
            queries.append(answers)
            answers = []
        elif words[0] == "step":
            numbers = [int(word) for word in words[1:]]
            middle = numbers.index(0)
            answers[-1][2].append((numbers[:middle], numbers[middle + 1:]))
        else:
            answers.append((words[0], (words[1], int(words[2]), [int(word) for word in words[3:]]), []))
    return queries


def reference(given):
    if given:
        return given.split()
    for command in (["cadical", "-q"], ["minisat", "-verb=0"]):
        if shutil.which(command[0]):
            return command
    print("skipped: neither cadical nor minisat is there (Debian's packages of these names)")
    raise SystemExit(0)


def main():
    parser = argparse.ArgumentParser(description=__doc__, formatter_class=argparse.RawDescriptionHelpFormatter)
    parser.add_argument("--runs", type=int, default=2000)
    parser.add_argument("--seed", type=int, default=SEED)
    parser.add_argument("--reference")
    words = parser.parse_args()
    rng, tally, command = random.Random(words.seed), Tally(words.seed), reference(words.reference)
    queries = [drawn(rng) for _ in range(words.runs)]
    found = told(runner.answers("solvers", USES, map(line_of, queries)))
    if len(found) != len(queries):
        raise SystemExit(f"{len(found)} answers to {len(queries)} queries")
    with tempfile.TemporaryDirectory() as folder:
        for query, answers in zip(queries, found):
            satisfiable = is_satisfiable(command, *query[:2], folder)
            for solver, answer, log in answers:
                budget = query[2] if solver == "plain" else query[3]
                fault = fault_in(query, budget, answer, log, satisfiable) or fault_in_log(query[0], log)
                tally.add(f"{solver} {answer[0]}", fault and f"{solver}: {fault}, on {line_of(query)}")
    tally.end()


if __name__ == "__main__":
    main()
