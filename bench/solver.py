#!/usr/bin/env python3
"""Measures `check` beside MiniSat and CaDiCaL on the same miters.

Usage: solver.py [FOLDER] [--program PROGRAM] [--options WORDS] [--classes tiny small] [--limit SECONDS] [--rounds N] [--only REGEX]

Without FOLDER it makes a small corpus (`made_pairs.py`). FOLDER has pairs of circuits, `NAME.a.aag` and `NAME.b.aag`, and `manifest.tsv`, a table with a header: at least the columns
`name`, `class` and `expected`. Each pair is given to `PROGRAM check A B --out P` with the words of --options, then `minisat P.0.cnf` and `cadical -q P.0.cnf`
get the miter that the program wrote, and the checker of proofs in C judges its proof. The seconds are those of the processor, the
least of the rounds; a run that takes more than the limit has none.

Prints a line for each pair: the program's verdict, the seconds of the three, the lines of the proof (learned clauses, and one
for each output and the end) and how many a second, and what was said of the proof. Then the geometric mean of the program's time
over that of MiniSat and of CaDiCaL, over the pairs that both decide; times below a hundredth of a second count as that. Status 1
where a verdict is wrong or a proof is refused.
"""
import math
import resource
import shutil
import subprocess
import sys
import tempfile
from pathlib import Path

sys.path.insert(0, str(Path(__file__).resolve().parents[1] / "tools"))
import made_pairs
from house import compiled, program

LEAST = 0.01
VERDICTS = {"EQUIVALENT": 20, "DIFFERENT": 10}
PEERS = {"minisat": ["minisat", "-verb=0"], "cadical": ["cadical", "-q", "-n"]}


def peers():
    """The solvers that are there; a line says which is not."""
    for name in PEERS:
        if not shutil.which(name):
            print(f"skipped: {name} is not there (Debian's package {name})")
    return {name: command for name, command in PEERS.items() if shutil.which(name)}


def seconds(command, limit):
    """The seconds of a command, its status and what it wrote, or None where it took too long."""
    before = resource.getrusage(resource.RUSAGE_CHILDREN)
    try:
        done = subprocess.run(command, capture_output=True, text=True, timeout=limit, check=False)
    except subprocess.TimeoutExpired:
        return None
    after = resource.getrusage(resource.RUSAGE_CHILDREN)
    spent = after.ru_utime - before.ru_utime + after.ru_stime - before.ru_stime
    return spent, done.returncode, done.stdout


def best(command, limit, rounds):
    runs = [seconds(command, limit) for _ in range(rounds)]
    return None if None in runs else min(runs)


def shown(run):
    return "-" if run is None else f"{run[0]:.2f}"


def mean(ratios):
    return math.exp(sum(map(math.log, ratios)) / len(ratios)) if ratios else float("nan")


def ratio(mine, other):
    return max(mine[0], LEAST) / max(other[0], LEAST)


def measured(words, rows):
    """Measures each pair of these rows, and gives the script's status."""
    mine = program(words.program)
    there = peers()
    ratios, decided, wrong = {name: [] for name in there}, 0, 0
    print(f"{'pair':32} {'verdict':10} {'cec':>7} {'minisat':>8} {'cadical':>8} {'lines':>8} {'a second':>9} proof")
    with tempfile.TemporaryDirectory() as place:
        prefix, reference = str(Path(place) / "p"), compiled(place)
        for row in rows:
            pair = [str(words.folder / f"{row['name']}.{side}.aag") for side in "ab"]
            run = best([mine, "check", *pair, "--out", prefix, *words.options.split()], words.limit, words.rounds)
            verdict = run[2].split()[0] if run and run[2] else "-"
            others, lines, said = {}, 0, "-"
            if run and Path(prefix + ".0.cnf").exists():
                cnf, proof = prefix + ".0.cnf", prefix + ".0.lrat"
                for name, command in there.items():
                    others[name] = best([*command, cnf], words.limit, words.rounds)
                lines = sum(1 for _ in open(proof))
                if verdict == "EQUIVALENT":
                    judged = subprocess.run([reference, cnf, proof], capture_output=True, check=False)
                    said = "VERIFIED" if judged.returncode == 0 else "REFUSED"
            if verdict in VERDICTS:
                decided += 1
                good = verdict == row["expected"] and said in ("-", "VERIFIED")
                wrong += not good
                for name, other in others.items():
                    if other and other[1] in (10, 20):
                        wrong += other[1] != VERDICTS[verdict]
                        ratios[name].append(ratio(run, other))
            pace = f"{lines / max(run[0], LEAST):.0f}" if run else "-"
            times = f"{shown(run):>7} {shown(others.get('minisat')):>8} {shown(others.get('cadical')):>8}"
            print(f"{row['name']:32} {verdict:10} {times} {lines:>8} {pace:>9} {said}", flush=True)
    print(f"decided {decided} of {len(rows)}, wrong {wrong}")
    for name, list_of in ratios.items():
        print(f"time over {name}'s: geometric mean {mean(list_of):.2f} over {len(list_of)} pairs")
    return 1 if wrong else 0


if __name__ == "__main__":
    sys.exit(made_pairs.measured_by(measured, made_pairs.words_for(__doc__.splitlines()[0], "tiny", "small").parse_args()))
