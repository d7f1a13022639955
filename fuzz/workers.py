#!/usr/bin/env python3
"""Checks by 1 to 64 workers under load: no verdict may be wrong, no proof refused, and each run has to end.

Usage: workers.py [PROGRAM [CHECKER]] [--runs N] [--seed N] [--side N] [--only WORD]
                  [--corpus FOLDER] [--classes NAME ..] [--workers N] [--minutes N] [--limit SECONDS]

PROGRAM and CHECKER are as for `pairs.py`; without the second one tools/lrat_strict.c, where `cc` is there. The groups, of which --only
runs those alone whose names have the word:

small   N random pairs (400) as in `pairs.py`, constraints among them, and a quarter as many with random edit scripts as in `scripts.py`, judged by their values
large   half as many pairs with gates enough that several workers have something to do, parities and ANDs of many literals among them,
        and half with tight budgets
corpus  the pairs of FOLDER (as for `bench/sweep.py`), of the named classes, else a small corpus made here, each by 1, 2, 4 and 64
        workers, or by those of --workers alone. With --minutes they are drawn, one after another, until the time is up

So many runs as --side says (6) go on at once, a third of them held to one processor, so that there are more threads than processors at
all times. A run of a random pair that takes longer than --limit (300 seconds) is wrong; one of a corpus is told as stopped. Prints the
counts by status and by workers. Status 1 where anything is wrong.
"""
import argparse
import os
import random
import shutil
import subprocess
import sys
import tempfile
import time
from collections import Counter
from concurrent.futures import ThreadPoolExecutor
from pathlib import Path

from pairs import drawn_constraints, drawn_products, judged, literals_of, random_circuit, rewritten, text
from rounds import SEED, Tally, house
from scripts import drawn_pair, drawn_script, tried
from wrong_search import expanded

sys.path.insert(0, str(house.TOP / "bench"))
import made_pairs
from workload import Circuit

MANY = (1, 2, 2, 3, 4, 4, 8, 16, 64, 64)
STATUS = {"EQUIVALENT": 0, "DIFFERENT": 1, "UNDECIDED": 2}


class Round:
    """Runs the program by workers, several runs at once, and counts what is wrong."""

    def __init__(self, words, checker):
        self.words, self.program, self.checker = words, house.program(words.program), checker
        self.rng, self.tally, self.by_workers = random.Random(words.seed), Tally(words.seed), Counter()
        self.processors = sorted(os.sched_getaffinity(0))

    def held(self):
        """The words that hold a run to one processor, in a third of the cases."""
        return ["taskset", "-c", str(self.rng.choice(self.processors))] if shutil.which("taskset") and self.rng.random() < 0.33 else []

    def judge_all(self, cases):
        """Counts what each of these calls says of its run: (workers, status, what is wrong or None)."""
        with ThreadPoolExecutor(self.words.side) as pool:
            for workers, status, fault in pool.map(lambda case: case(), cases):
                self.by_workers[workers] += 1
                self.tally.add(status, fault)

    def case(self, a, b, bounds, budget, workers, held):
        """A call that runs the check of two circuits under constraints, and judges it by their values."""
        texts = text(a, bounds[0]), text(b, bounds[1])

        def run():
            with tempfile.TemporaryDirectory() as folder:
                for name, file in zip("AB", texts):
                    Path(folder, name).write_text(file)
                command = [*held, self.program, "check", "A", "B", "--out", "p", "--workers", str(workers)]
                command += [] if budget is None else ["--budget", str(budget), "--sweep-budget", str(min(2, budget))]
                try:
                    ran = subprocess.run(command, cwd=folder, capture_output=True, text=True, timeout=self.words.limit, check=False)
                except subprocess.TimeoutExpired:
                    return workers, "hang", f"it doesn't end: {workers} workers, {command!r} on {texts!r}"
                fault = judged(ran, a, b, bounds, folder, self.checker, budget)
            return workers, ran.returncode, fault and f"{fault}: {workers} workers, {ran!r}, on {texts!r}"
        return run

    def script_case(self, sides, bounds, script, budget, workers):
        """The same with an edit script."""
        def run():
            status, fault = tried(self.program, self.checker, sides, bounds, script, budget, ("--workers", str(workers)))
            return workers, status, fault
        return run


def small(round_):
    rng, cases = round_.rng, []
    for k in range(round_.words.runs):
        a = random_circuit(rng, rng.randrange(0, 5), rng.randrange(0, 4), rng.randrange(0, 9))
        b = rewritten(rng, a)
        cases.append(round_.case(a, b, drawn_constraints(rng, a, b), rng.choice([None, None, 1, 2, 3]), rng.choice(MANY), round_.held()))
        if k % 4 == 0:
            sides = drawn_pair(rng)
            bounds = drawn_constraints(rng, sides["a"], sides["b"])
            cases.append(round_.script_case(sides, bounds, drawn_script(rng, sides), rng.choice([None, None, 1, 2]), rng.choice(MANY)))
    round_.judge_all(cases)


def parities(rng):
    """Two circuits of the same parities of some inputs each, whose XORs are of other gates and in another order."""
    inputs = rng.randrange(5, 9)
    both, subsets = (Circuit(inputs), Circuit(inputs)), [rng.sample(range(inputs), rng.randrange(3, inputs + 1)) for _ in range(rng.randrange(1, 9))]
    for turn, circuit in enumerate(both):
        for subset in subsets:
            made = circuit.input(subset[0])
            for k in subset[1:] if turn == 0 else rng.sample(subset[1:], len(subset) - 1):
                other = circuit.input(k)
                made = circuit.differ(made, other) if turn == 0 else circuit.differ(other ^ 1, made) ^ 1
            circuit.outputs.append(made)
    return [([c.input(k) for k in range(inputs)], c.outputs, c.gates) for c in both]


def large(round_):
    rng, cases = round_.rng, []
    for k in range(round_.words.runs // 2):
        if k % 3 == 0:
            a, b = parities(rng)
        elif k % 6 == 1:
            a, b = drawn_products(rng)
        else:
            a = random_circuit(rng, rng.randrange(3, 9), rng.randrange(1, 12), rng.randrange(20, 120))
            b = expanded(rewritten(rng, a))
        bounds = tuple((rng.choice(literals_of(side)),) if k % 2 and rng.random() < 0.5 else () for side in (a, b))
        cases.append(round_.case(a, b, bounds, rng.choice([None, None, 1, 2]), rng.choice(MANY), round_.held()))
    round_.judge_all(cases)


# ---- pairs of a corpus

def proof_fault(checker, verdict, prefix):
    """What the checker has against the proof of a verdict."""
    if verdict == "DIFFERENT":
        return "a proof that isn't empty" if Path(prefix + ".0.lrat").stat().st_size else None
    options, wanted = ([], "VERIFIED") if verdict == "EQUIVALENT" else (["--steps"], "STEPS")
    said = subprocess.run([*checker, *options, prefix + ".0.cnf", prefix + ".0.lrat"], capture_output=True, text=True, check=False).stdout
    return None if said.startswith(wanted) else f"its proof is {said.strip()}"


def pair_case(round_, row, workers, held):
    """A call that runs the check of a pair of the corpus, and judges it by its table and by the checker."""
    def run():
        with tempfile.TemporaryDirectory() as place:
            prefix, pair = str(Path(place) / "p"), [str(round_.words.corpus / f"{row['name']}.{side}.aig") for side in "ab"]
            command = [*held, round_.program, "check", *pair, "--out", prefix, "--workers", str(workers)]
            try:
                ran = subprocess.run(command, capture_output=True, text=True, timeout=round_.words.limit, check=False)
            except subprocess.TimeoutExpired:
                return workers, "stopped", None
            verdict = ran.stdout.split("\n")[0]
            right = verdict in (row["expected"], "UNDECIDED") and ran.returncode == STATUS[verdict] and not ran.stderr
            fault = proof_fault(round_.checker, verdict, prefix) if right else "another verdict"
        return workers, ran.returncode, fault and f"{fault}: {row['name']} by {workers} workers, {ran!r}"
    return run


def rows_of(words):
    """The rows of the corpus's table that the words want."""
    with open(words.corpus / "manifest.tsv", encoding="utf-8") as table:
        names, *rows = [line.rstrip("\n").split("\t") for line in table]
    rows = [dict(zip(names, row)) for row in rows]
    return [row for row in rows if row["class"] in words.classes and row["name"] not in words.without]


def drawn_cases(round_, rows, many):
    """Pairs of the corpus until the time is up; each is told when it is begun, in minutes."""
    ends, begun, order = time.monotonic() + 60 * round_.words.minutes, time.monotonic(), []
    while time.monotonic() < ends:
        order = order or round_.rng.sample(rows, len(rows))
        row = order.pop()
        found = sum(round_.tally.found.values())
        print(f"{(time.monotonic() - begun) / 60:.1f} min, {found} runs, {round_.tally.wrong} wrong: {row['name']}", flush=True)
        yield pair_case(round_, row, round_.rng.choice(many), round_.held())


def corpus(round_):
    words = round_.words
    many = (words.workers,) if words.workers else (1, 2, 4, 64)
    with made_pairs.corpus(words.corpus) as folder:
        words.corpus = folder
        rows = rows_of(words)
        if words.minutes:
            for case in drawn_cases(round_, rows, many):
                round_.judge_all([case])
        else:
            round_.judge_all([pair_case(round_, row, workers, round_.held()) for row in rows for workers in many])


GROUPS = (small, large, corpus)


def words_given():
    parser = argparse.ArgumentParser(description=__doc__, formatter_class=argparse.RawDescriptionHelpFormatter)
    for name in ("program", "checker"):
        parser.add_argument(name, nargs="?")
    for name, number in (("runs", 400), ("seed", SEED), ("side", 6), ("workers", 0)):
        parser.add_argument(f"--{name}", type=int, default=number)
    for name, number in (("minutes", 0), ("limit", 300)):
        parser.add_argument(f"--{name}", type=float, default=number)
    parser.add_argument("--corpus", type=Path)
    parser.add_argument("--classes", nargs="+", default=["tiny", "small"])
    parser.add_argument("--without", nargs="+", default=[])
    parser.add_argument("--only", default="")
    return parser.parse_args()


def main():
    words = words_given()
    with tempfile.TemporaryDirectory() as made:
        checker = [house.compiled(made)] if words.checker is None and shutil.which("cc") else house.checker(words.checker)
        round_ = Round(words, checker)
        for group in GROUPS:
            if words.only in group.__name__:
                begun, before = time.monotonic(), sum(round_.tally.found.values())
                group(round_)
                runs = sum(round_.tally.found.values()) - before
                print(f"{group.__name__}: {runs} runs, {time.monotonic() - begun:.1f} s", flush=True)
    print("runs by workers: " + ", ".join(f"{many}: {count}" for many, count in sorted(round_.by_workers.items())))
    round_.tally.end()


if __name__ == "__main__":
    main()
