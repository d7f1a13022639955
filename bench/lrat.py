#!/usr/bin/env python3
"""Measures the built program's check of LRAT proofs beside a reference checker.

Usage: lrat.py [PROGRAM [REFERENCE.c]] [--lines N ..] [--kinds WORD ..] [--rounds N] [--seed N] [--folder DIR]

PROGRAM is the repository's own where it is left out. REFERENCE.c (else tools/lrat_strict.c) is a checker in one file of C, which is compiled by `cc -O2` and run as `reference CNF PROOF`; the program is run
as `PROGRAM lrat CNF PROOF`. Both check the same files in turn, and the least time of the rounds is taken for each: seconds of
the processor, so that other work on the machine counts little. Each proof is right by construction and made from the seed:

chains:    hints one behind the other, up to 64 a line, over clauses of two and three literals, and one chain over all
           variables at the end
wide:      clauses of many literals, at least one of them of 100000, which are cited and widened
deletions: short chains in a window of live clauses; each line is followed by a deletion, some of them of unknown ids
formula:   as many clauses in the formula, one of them of 100000 literals, some with repeated literals, and one line

Prints the bytes of both files, the seconds of both programs, their ratio, and the program's peak memory for each literal of
the clauses that are live at one time at most. Status 1 where an answer isn't VERIFIED.
"""
import argparse
import multiprocessing
import os
import random
import subprocess
import sys
import tempfile
from pathlib import Path

sys.path.insert(0, str(Path(__file__).resolve().parent))
sys.path.insert(0, str(Path(__file__).resolve().parents[1] / "tools"))
import house
from run import SEED

WIDEST = 100_000
SHARED = 64  # guards: variables that the formula's units make true


class Writer:
    """Writes a formula and a proof of it, and counts the literals of the clauses that are live."""

    def __init__(self, cnf, proof):
        self.cnf, self.out = cnf, open(proof, "w", buffering=1 << 20)
        self.formula, self.variables, self.last, self.lines = [], 0, 0, 0
        self.size, self.live, self.most = {}, 0, 0

    def _join(self, clause):
        self.last += 1
        self.size[self.last] = len(set(clause))
        self.live += self.size[self.last]
        self.most = max(self.most, self.live)
        return self.last

    def axiom(self, *clause):
        """The id of a clause of the formula."""
        self.variables = max([self.variables] + [abs(literal) for literal in clause])
        self.formula.append(" ".join(map(str, clause)) + " 0\n")
        return self._join(clause)

    def add(self, clause, hints):
        """The id of a clause that the hints show."""
        name = self._join(clause)
        self.lines += 1
        self.out.write(f"{name} {' '.join(map(str, [*clause, 0, *hints, 0]))}\n")
        return name

    def delete(self, names):
        self.lines += 1
        self.out.write(f"{self.last} d {' '.join(map(str, names))} 0\n")
        for name in names:
            self.live -= self.size.pop(name, 0)

    def end(self):
        self.out.close()
        with open(self.cnf, "w", buffering=1 << 20) as out:
            out.write(f"p cnf {self.variables} {len(self.formula)}\n")
            out.writelines(self.formula)


class Road:
    """Variables 1 to `length`, each of which implies the next one, some of them under a guard that a unit makes true."""

    def __init__(self, writer, rng, length, guarded):
        self.writer, self.length = writer, length
        self.guards = list(range(length + 1, length + 1 + SHARED))
        self.unit = {guard: writer.axiom(guard) for guard in self.guards}
        self.start, self.end = writer.axiom(1), writer.axiom(-length)
        self.base = [None] * (length + 1)
        self.guard = [0] * (length + 1)
        for place in range(1, length):
            guard = rng.choice(self.guards) if guarded and rng.randrange(2) else 0
            clause = [-place, place + 1] + ([-guard] if guard else [])
            self.guard[place] = guard
            self.base[place] = writer.axiom(*clause)
        self.jump = [None] * (length + 1)  # (where to, id) of a clause of the proof that begins at a place

    def walk(self, start, count, rng):
        """(end, hints) of at most so many steps from a place; the units of guards stand before their first use."""
        hints, seen, place = [], set(), start
        for _ in range(count):
            if place == self.length:
                break
            jump = self.jump[place]
            if jump and rng.randrange(3) == 0:
                place, name = jump
            else:
                guard = self.guard[place]
                if guard and guard not in seen:
                    seen.add(guard)
                    hints.append(self.unit[guard])
                name = self.base[place]
                place += 1
            hints.append(name)
        return place, hints

    def finish(self):
        """The empty clause, by one chain over the whole road."""
        hints = [self.start] + list(self.unit.values())
        hints += self.base[1:self.length]
        self.writer.add([], hints + [self.end])


def chains(writer, rng, lines):
    road = Road(writer, rng, max(100, lines // 10), True)
    while writer.lines < lines - 1:
        start = rng.randrange(1, road.length)
        end, hints = road.walk(start, rng.randrange(2, 64 if lines < 1_000_000 else 32), rng)
        name = writer.add([-start, end], hints)
        if end - start < 200:
            road.jump[start] = (end, name)
    road.finish()


def wide(writer, rng, lines):
    road = Road(writer, rng, max(1000, lines // 10), False)
    first = road.length + SHARED + 1
    pool = range(first, first + 2 * WIDEST)
    writer.variables = pool[-1]
    mean = max(8, 10_000_000 // lines)
    widths = [WIDEST]
    while writer.lines < lines - 1:
        width = widths.pop() if widths else rng.randrange(mean // 2, 2 * mean)
        extra = [literal if rng.randrange(2) else -literal for literal in rng.sample(pool, width)]
        start = rng.randrange(1, road.length - 8)
        name, end = road.base[start], start + 1
        for _ in range(min(4, lines - 1 - writer.lines)):
            clause = [-start, end + 1] + extra
            name, end = writer.add(clause, [name, road.base[end]]), end + 1
    road.finish()


def deletions(writer, rng, lines):
    road = Road(writer, rng, max(100, min(lines // 10, 20_000)), True)
    window = []
    while writer.lines < lines - 2:
        start = rng.randrange(1, road.length)
        old = road.jump[start]
        end, hints = road.walk(start, rng.randrange(2, 8), rng)
        name = writer.add([-start, end], hints)
        road.jump[start] = (end, name)
        window.append((start, name))
        gone = [old[1]] if old else []
        while len(window) > 4000:
            place, name = window.pop(rng.randrange(1000))
            if road.jump[place] and road.jump[place][1] == name:
                road.jump[place] = None
                gone.append(name)
        if not gone or rng.randrange(10) == 0:
            gone.append(10**9 + rng.randrange(10**6))
        writer.delete(gone)
    road.finish()


def formula(writer, rng, clauses):
    road = Road(writer, rng, clauses // 2, True)
    first = road.length + SHARED + 1
    writer.axiom(*rng.sample(range(first, first + 2 * WIDEST), WIDEST))
    while len(writer.formula) < clauses:
        clause = [rng.choice((1, -1)) * rng.randrange(first, first + 2 * WIDEST) for _ in range(rng.randrange(2, 9))]
        writer.axiom(*clause, clause[0])
    road.finish()


KINDS = {"chains": chains, "wide": wide, "deletions": deletions, "formula": formula}


def run(command, folder):
    """(what was said, seconds of the processor, bytes of peak memory) of a command."""
    with open(os.path.join(folder, "said"), "w+b") as out:
        process = subprocess.Popen(command, cwd=folder, stdout=out, stderr=subprocess.STDOUT)
        _, status, usage = os.wait4(process.pid, 0)
        process.returncode = os.waitstatus_to_exitcode(status)
        out.seek(0)
        said = out.read().decode(errors="replace")
    return said, usage.ru_utime + usage.ru_stime, usage.ru_maxrss * 1024


def write(kind, lines, seed, cnf, proof):
    """Writes the files, and answers how many literals the clauses have that are live at one time at most."""
    writer = Writer(cnf, proof)
    KINDS[kind](writer, random.Random(seed + lines), lines)
    writer.end()
    return writer.most


def files_of(kind, lines, folder):
    """The paths of the formula and of its proof."""
    return [os.path.join(folder, f"{kind}-{lines}.{form}") for form in ("cnf", "lrat")]


def written(asked, seed, folder):
    """How many literals are live at most in each of the files that are asked for, which processes of their own write side by side: what a
    process used counts in the peak memory of those that it starts."""
    with multiprocessing.Pool() as pool:
        return pool.starmap(write, [(kind, lines, seed, *files_of(kind, lines, folder)) for kind, lines in asked], 1)


def measure(program, reference, kind, lines, most, words, folder):
    """Prints a row, and says whether both answers are right."""
    cnf, proof = files_of(kind, lines, folder)
    runs = [(run([program, "lrat", cnf, proof], folder), run([reference, cnf, proof], folder)) for _ in range(words.rounds)]
    ours, theirs = (min(seconds for _, seconds, _ in side) for side in zip(*runs))
    peak = min(peak for (_, _, peak), _ in runs)
    said = {said for both in runs for said, _, _ in both}
    size = os.path.getsize(cnf) + os.path.getsize(proof)
    print(f"{kind:>9} {lines:>8} {size / 1e6:>8.1f} {ours:>8.3f} {theirs:>10.3f} {ours / max(theirs, 1e-6):>6.2f} "
          f"{most:>9} {peak / most:>10.0f}  {' | '.join(sorted(said)).strip()}", flush=True)
    os.remove(cnf)
    os.remove(proof)
    return said == {"VERIFIED\n"}


def main():
    parser = argparse.ArgumentParser(description=__doc__, formatter_class=argparse.RawDescriptionHelpFormatter)
    parser.add_argument("program", nargs="?", help="the built program")
    parser.add_argument("reference", nargs="?", default=house.REFERENCE, help="a checker in one file of C")
    parser.add_argument("--lines", type=int, nargs="*", default=[10_000, 100_000, 1_000_000])
    parser.add_argument("--kinds", nargs="*", choices=KINDS, default=list(KINDS))
    parser.add_argument("--rounds", type=int, default=3)
    parser.add_argument("--seed", type=int, default=SEED)
    parser.add_argument("--folder", help="where the files are made (else a folder that is removed)")
    words = parser.parse_args()
    program = house.program(words.program)
    print(f"seed {words.seed}")
    print(f"{'kind':>9} {'lines':>8} {'MB':>8} {'seconds':>8} {'reference':>10} {'ratio':>6} {'literals':>9} {'peak B/lit':>10}"
          "  answer")
    with tempfile.TemporaryDirectory() as made:
        reference = house.compiled(made, words.reference)
        folder = words.folder or made
        asked = [(kind, lines) for kind in words.kinds for lines in words.lines]
        live = written(asked, words.seed, folder)
        right = [measure(program, reference, *each, most, words, folder) for each, most in zip(asked, live)]
    sys.exit(0 if all(right) else 1)


if __name__ == "__main__":
    main()
