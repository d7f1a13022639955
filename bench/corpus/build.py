#!/usr/bin/env python3
"""Builds the pairs that docs/MEASURED.md has, with Yosys and ABC (Debian's packages `yosys` and `berkeley-abc`).

Usage: build.py FOLDER [--only REGEX] [--jobs N]

Leaves in FOLDER
  NAME.a.aig NAME.b.aig   a pair in binary form, NAME.a.aag NAME.b.aag in ASCII form
  src/                    the Verilog
  manifest.tsv            a row a pair, with the verdict that is right by construction
  manifest.sha256         digests, for `sha256sum -c`
All seeds are fixed: the same versions of Yosys and ABC give the same bytes, and the same digest of all, which is printed last.
The variables ABC and YOSYS say how the two are called. `bench/sweep.py FOLDER` measures the pairs.
"""
import argparse
import hashlib
import os
import random
import re
import shutil
import subprocess
import sys
from concurrent.futures import ProcessPoolExecutor
from dataclasses import dataclass
from pathlib import Path

import aig
from derive import mutate, random_circuit, replicate
from pairs import CLASSES, COPIES, MUTANTS, PAIRS, RANDOM, Copies, Mutant, Random, design_of, family_of
from scripts import ABC_SCRIPTS, FLOWS, TECHMAPS

ABC = os.environ.get("ABC", "berkeley-abc")
YOSYS = os.environ.get("YOSYS", "yosys")
COLUMNS = "name family kind inputs outputs gates_a gates_b depth_a depth_b class expected made".split()
PATTERNS = 2048
TRIES = 50


@dataclass(frozen=True)
class Builder:
    """Makes circuits in a folder. Yosys and ABC run inside it, so that its name never meets their parsers."""

    out: Path

    def call(self, *command: str) -> str:
        """The output of a command that succeeds."""
        done = subprocess.run(command, cwd=self.out, stdout=subprocess.PIPE, stderr=subprocess.STDOUT, text=True)
        if done.returncode:
            raise RuntimeError(f"{command[0]} failed: {done.stdout[-2000:]}")
        return done.stdout

    def synthesise(self, design: str, variant: str) -> None:
        """Makes tmp/DESIGN.VARIANT.aig of its Verilog."""
        text, flow = design_of(design)[1][variant]
        name = f"{design}.{variant}"
        (self.out / "src" / f"{name}.v").write_text(text)
        self.call(YOSYS, "-QTq", "-p", f"read_verilog src/{name}.v; {FLOWS[flow]}; write_aiger -symbols tmp/{name}.aig")

    def synthesised(self, design: str, variant: str) -> aig.Aig:
        """What `synthesise` made."""
        return aig.read(self.out / "tmp" / f"{design}.{variant}.aig")

    def optimised(self, circuit: aig.Aig, script: str, name: str) -> aig.Aig:
        """What an ABC script makes of a circuit; some scripts drop the symbols, none changes the order."""
        before, after = self.out / "tmp" / f"{name}.in.aig", self.out / "tmp" / f"{name}.out.aig"
        aig.write_binary(circuit, before, name)
        log = self.call(ABC, "-q", f"read tmp/{before.name}; {ABC_SCRIPTS[script]}; write_aiger tmp/{after.name}")
        if not after.exists():
            raise RuntimeError(f"{name}: ABC wrote nothing: {log}")
        result = aig.read(after)
        result.input_symbols, result.output_symbols = circuit.input_symbols, circuit.output_symbols
        return result

    def build_pair(self, name: str) -> str:
        """Builds a pair of PAIRS and gives its row."""
        design, first, second = name.split("-")
        variants = design_of(name)[1]
        a = self.synthesised(design, first)
        made = f"yosys {design}:{first} ({variants[first].flow})"
        if second in ABC_SCRIPTS:
            b = self.optimised(a, second, name)
            return self.finish(name, "optimised", a, b, "EQUIVALENT", f"{made} | abc {second}")
        b = in_order_of(self.synthesised(design, second), a)
        made += f" | yosys {design}:{second} ({variants[second].flow})"
        return self.finish(name, "variants", a, b, "EQUIVALENT", made)

    def build_random(self, row: Random) -> str:
        """Builds a pair of RANDOM and gives its row."""
        a = random_circuit(row.inputs, row.gates, row.outputs, row.seed)
        b = self.optimised(a, row.script, row.name)
        made = f"random AIG seed {row.seed} | abc {row.script}"
        return self.finish(row.name, "optimised", a, b, "EQUIVALENT", made)

    def build_copies(self, row: Copies) -> str:
        """Builds a pair of COPIES and gives its row."""
        a, b = (replicate(circuit, row.times) for circuit in self.finished(row.base))
        made = f"{row.times} disjoint copies of {row.base}, no symbols"
        return self.finish(row.name, "copies", a, b, "EQUIVALENT", made)

    def build_mutant(self, row: Mutant) -> str:
        """Builds a pair of MUTANTS and gives its row. All changes but needles are seen by random simulation."""
        a, b = self.finished(row.base)
        source = random.Random(f"{row.name}/{row.seed}")
        for _ in range(TRIES):
            mutant = mutate(b, row.change, source)
            if row.change == "needle" or aig.differ(b, mutant, PATTERNS, row.seed):
                break
        else:
            raise RuntimeError(f"{row.name}: no change is visible")
        made = f"{row.base}, B mutated: {row.change}"
        if row.script:
            mutant = self.optimised(mutant, row.script, row.name)
            made += f" | abc {row.script}"
        return self.finish(row.name, "mutant", a, mutant, "DIFFERENT", made)

    def finished(self, name: str) -> tuple:
        """Both circuits of a pair that was built before."""
        return tuple(aig.read(self.out / f"{name}.{side}.aig") for side in "ab")

    def finish(self, name: str, kind: str, a: aig.Aig, b: aig.Aig, expected: str, made: str) -> str:
        """Writes a pair in both forms and gives its row of the manifest."""
        if expected == "EQUIVALENT" and aig.differ(a, b, PATTERNS, seed=1):
            raise RuntimeError(f"{name}: the circuits differ")
        for side, circuit in (("a", a), ("b", b)):
            comment = f"{name}, side {side}: {made}"
            aig.write_binary(circuit, self.out / f"{name}.{side}.aig", comment)
            aig.write_ascii(circuit, self.out / f"{name}.{side}.aag", comment)
        gates = len(a.gates) + len(b.gates)
        size = next(word for word, bound in CLASSES.items() if gates < bound)
        row = (name, family_of(name), kind, a.inputs, len(a.outputs), len(a.gates), len(b.gates), a.depth(), b.depth(),
               size, expected, made)
        return "\t".join(map(str, row))


def in_order_of(circuit: aig.Aig, model: aig.Aig) -> aig.Aig:
    """The circuit with inputs and outputs in the model's order, matched by symbol."""
    for ours, others in ((circuit.input_symbols, model.input_symbols), (circuit.output_symbols, model.output_symbols)):
        if sorted(ours.values()) != sorted(others.values()):
            raise RuntimeError("the variants have different ports")
    place = {symbol: k for k, symbol in model.input_symbols.items()}
    variable = {k + 1: place[symbol] + 1 for k, symbol in circuit.input_symbols.items()}

    def moved(literal: int) -> int:
        return variable.get(literal >> 1, literal >> 1) * 2 + (literal & 1)

    output = {symbol: moved(circuit.outputs[k]) for k, symbol in circuit.output_symbols.items()}
    return aig.Aig(model.inputs, [(moved(left), moved(right)) for left, right in circuit.gates],
                   [output[model.output_symbols[k]] for k in range(len(model.outputs))],
                   model.input_symbols, model.output_symbols)


def plan(only: str) -> tuple:
    """What to build: variants, then pairs and random ones, copies, mutants; with what these are made from."""
    asked = re.compile(only)
    mutants = [row for row in MUTANTS if asked.search(row.name)]
    needed = {row.base for row in mutants}
    copies = [row for row in COPIES if asked.search(row.name) or row.name in needed]
    needed |= {row.base for row in copies}
    pairs = [name for name in PAIRS if asked.search(name) or name in needed]
    randoms = [row for row in RANDOM if asked.search(row.name) or row.name in needed]
    variants = []
    for design, *ways in (name.split("-") for name in pairs):
        variants += [(design, way) for way in ways if way not in ABC_SCRIPTS]
    return sorted(set(variants)), pairs, randoms, copies, mutants


def build(out: Path, only: str, jobs: int) -> list:
    """Builds the pairs that `only` matches and gives their rows."""
    builder = Builder(out)
    variants, pairs, randoms, copies, mutants = plan(only)
    rows = []
    with ProcessPoolExecutor(jobs) as pool:
        list(pool.map(builder.synthesise, *zip(*variants)))
        for make, asked in ((builder.build_pair, pairs), (builder.build_random, randoms),
                            (builder.build_copies, copies), (builder.build_mutant, mutants)):
            for row in pool.map(make, asked):
                print(row.replace("\t", "  "), flush=True)
                rows.append(row)
    return rows


def main() -> int:
    """Builds, then writes the manifest and the digests."""
    words = argparse.ArgumentParser(description=__doc__, formatter_class=argparse.RawDescriptionHelpFormatter)
    words.add_argument("out", type=Path, help="the folder to build in")
    words.add_argument("--only", default="", metavar="REGEX",
                       help="only pairs whose name matches, and what these are made of")
    words.add_argument("--jobs", type=int, default=os.cpu_count(), metavar="N",
                       help="processes at a time (as many as there are processors)")
    asked = words.parse_args()
    out = asked.out.resolve()
    for folder in ("src", "tmp"):
        (out / folder).mkdir(parents=True, exist_ok=True)
    for name, text in TECHMAPS.items():
        (out / "src" / name).write_text(text)
    rows = build(out, asked.only, asked.jobs)
    shutil.rmtree(out / "tmp")
    (out / "manifest.tsv").write_text("\n".join(["\t".join(COLUMNS), *rows]) + "\n")
    files = sorted(path for path in out.iterdir() if path.suffix in (".aig", ".aag"))
    digests = (f"{hashlib.sha256(path.read_bytes()).hexdigest()}  {path.name}\n" for path in files)
    told = "".join(digests)
    (out / "manifest.sha256").write_text(told)
    print(f"{len(rows)} pairs, digest {hashlib.sha256(told.encode()).hexdigest()[:16]}")
    return 0


if __name__ == "__main__":
    sys.exit(main())
