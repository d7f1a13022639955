#!/usr/bin/env python3
"""Circuits that `cec fraig` reduces, judged apart from the program.

Usage: fraig.py [PROGRAM [CHECKER]] [--runs N] [--seed N] [--files FILE..] [--limit SECONDS]

PROGRAM and CHECKER are as for pairs.py. Of each random circuit, which may have constraints and names, OUT is read here: it has A's names,
and A's value at every output and every constraint on every input; no two of its nodes have one function up to complement, each gate is
one that an output or a constraint rests on, its variables stand in AIGER's order, and the greater fanin of each gate goes first. The CNF is the
one that tools/miter.py makes of A and OUT, and its proof VERIFIED. What is said has the numbers of gates of both files.

With --files these circuits are reduced instead, each in so many seconds: the program checks OUT against A, as does `berkeley-abc` by
`cec`; `yosys` reads OUT; the proof is checked by tools/lrat_strict.c. A line for each: gates of A, of OUT, and what `fraig` and `&fraig`
of ABC leave; a tool that isn't there is left out. Status 1 where anything is wrong.
"""
import argparse
import itertools
import random
import re
import shutil
import subprocess
import tempfile
from pathlib import Path

from pairs import checked, drawn_constraints, is_miter, random_circuit, rewritten, text
from rounds import SEED, Tally, house
import miter


def values(circuit, bits):
    """The truth value of each variable."""
    found = {0: False, **dict(zip(circuit.inputs, bits))}
    for variable, left, right in circuit.gates:
        found[variable] = (found[left // 2] ^ bool(left % 2)) and (found[right // 2] ^ bool(right % 2))
    return found


def table(circuit):
    """The truth values of each variable on every input, and those of the outputs and constraints."""
    rows = [values(circuit, bits) for bits in itertools.product([False, True], repeat=len(circuit.inputs))]
    columns = {variable: tuple(row[variable] for row in rows) for variable in rows[0]}
    ends = [tuple(row[lit // 2] ^ bool(lit % 2) for row in rows) for lit in [*circuit.outputs, *circuit.constraints]]
    return columns, ends


def reached(circuit):
    """The variables on which outputs and constraints rest."""
    fanins = {variable: (left // 2, right // 2) for variable, left, right in circuit.gates}
    found, stack = set(), [lit // 2 for lit in [*circuit.outputs, *circuit.constraints]]
    while stack:
        variable = stack.pop()
        if variable not in found:
            found.add(variable)
            stack += fanins.get(variable, ())
    return found


def of_form(circuit):
    """None where the circuit is numbered and laid out as it has to be, else what is wrong."""
    first = len(circuit.inputs) + 1
    if [variable for variable, _, _ in circuit.gates] != list(range(first, first + len(circuit.gates))):
        return "its gates are numbered otherwise"
    if any(left < right or left // 2 >= variable for variable, left, right in circuit.gates):
        return "a gate's fanins stand otherwise"
    if not {variable for variable, _, _ in circuit.gates} <= reached(circuit):
        return "a gate on which nothing rests"
    return None


def judged_out(a, out):
    """None where OUT is A reduced, else what is wrong."""
    if out.names != a.names or (len(out.inputs), len(out.outputs), len(out.constraints)) != (len(a.inputs), len(a.outputs), len(a.constraints)):
        return "other names, or other numbers of inputs, outputs or constraints"
    columns, ends = table(out)
    if ends != table(a)[1]:
        return "another function"
    functions = [min(column, tuple(not bit for bit in column)) for column in columns.values()]
    if len(set(functions)) != len(functions):
        return "two nodes of one function"
    return of_form(out)


def judged(ran, folder, checker):
    """None where the answer is right, else what is wrong."""
    if ran.returncode or ran.stderr:
        return "no answer"
    a, out = (miter.circuit_in(Path(folder, name)) for name in "AB")
    if ran.stdout != f"gates {len(a.gates)} {len(out.gates)}\nEQUIVALENT\n":
        return "another text"
    if not is_miter(folder, False):
        return "another CNF"
    strict = checked(checker, folder)
    return judged_out(a, out) if strict == "VERIFIED" else "its proof is " + strict


def drawn(rng):
    """The text of a random circuit, often with gates of one function, and with constraints and names."""
    circuit = random_circuit(rng, rng.randrange(0, 5), rng.randrange(0, 4), rng.randrange(0, 14))
    circuit = rewritten(rng, circuit)
    names = [rng.sample(["x", "y", "z z", "sum[0]", "1", "-", "c"], len(circuit[k])) if rng.random() < 0.4 else () for k in range(2)]
    return text(circuit, drawn_constraints(rng, circuit, circuit)[0], names)


def random_rounds(words):
    rng, tally, checker = random.Random(words.seed), Tally(words.seed), house.checker(words.checker)
    with tempfile.TemporaryDirectory() as folder:
        for _ in range(words.runs):
            file = drawn(rng)
            Path(folder, "A").write_text(file)
            command = [words.program, "fraig", "A", "B", "--out", "p", "--workers", str(rng.choice([1, 2, 4])), "--seed", str(rng.randrange(9))]
            ran = subprocess.run(command, cwd=folder, capture_output=True, text=True)
            fault = judged(ran, folder, checker)
            tally.add(ran.returncode, fault and f"{fault}: {ran!r}, on {file!r}")
    tally.end()


def ran_in(command, folder, limit):
    """What a command prints, or None where it takes longer."""
    try:
        return subprocess.run(command, cwd=folder, capture_output=True, text=True, timeout=limit)
    except subprocess.TimeoutExpired:
        return None


def gates_in(path):
    return int(path.read_bytes().split(b"\n", 1)[0].split()[5])


def by_abc(folder, script, limit):
    """How many gates a script of ABC leaves of A."""
    ran = ran_in(["berkeley-abc", "-q", script], folder, limit)
    made = Path(folder, "abc.aig")
    return gates_in(made) if ran and made.exists() else "-"


def judged_by_tools(folder, limit):
    """None where the other tools agree, else what is wrong."""
    if shutil.which("berkeley-abc"):
        ran = ran_in(["berkeley-abc", "-q", "cec -n A.aig r.aig"], folder, limit)
        if ran and re.search("NOT EQUIVALENT|error|Error", ran.stdout):
            return "ABC: " + ran.stdout.strip()[-200:]
    if shutil.which("yosys"):
        ran = ran_in(["yosys", "-q", "-p", "read_aiger -module_name reduced r.aig; check -assert"], folder, limit)
        if ran and ran.returncode:
            return "Yosys: " + ran.stderr.strip()[-200:]
    return None


def judged_file(program, reference, folder, limit):
    """The numbers of a file, and what is wrong with them."""
    ran = ran_in([program, "fraig", "A.aig", "r.aig", "--out", "p"], folder, limit)
    if not ran:
        return "no answer in time", None
    if ran.returncode or not re.fullmatch(r"gates \d+ \d+\nEQUIVALENT\n", ran.stdout):
        return ran.stdout, "no answer"
    check = ran_in([program, "check", "A.aig", "r.aig"], folder, limit)
    if check and check.returncode not in (0, 2):
        return ran.stdout, "check A OUT says " + check.stdout
    strict = ran_in([reference, "p.0.cnf", "p.0.lrat"], folder, limit)
    if strict and strict.stdout.strip() != "VERIFIED":
        return ran.stdout, "its proof is " + strict.stdout
    _, before, after = ran.stdout.split("\n")[0].split(" ")
    left = [by_abc(folder, f"read_aiger A.aig; strash; {step}; write_aiger abc.aig", limit) for step in ("fraig", "&get; &fraig; &put")]
    return f"{before} {after}, ABC's fraig {left[0]}, &fraig {left[1]}", judged_by_tools(folder, limit)


def file_rounds(words):
    wrong = 0
    with tempfile.TemporaryDirectory() as folder:
        reference = house.compiled(folder)
        for name in words.files:
            shutil.copy(name, Path(folder, "A.aig"))
            said, fault = judged_file(words.program, reference, folder, words.limit)
            print(Path(name).name, said.strip(), *(["WRONG", fault] if fault else []), flush=True)
            wrong += bool(fault)
    raise SystemExit(1 if wrong else 0)


def main():
    parser = argparse.ArgumentParser(description=__doc__, formatter_class=argparse.RawDescriptionHelpFormatter)
    for name in ("program", "checker"):
        parser.add_argument(name, nargs="?")
    parser.add_argument("--runs", type=int, default=400)
    parser.add_argument("--seed", type=int, default=SEED)
    parser.add_argument("--files", nargs="+", default=[])
    parser.add_argument("--limit", type=float, default=60)
    words = parser.parse_args()
    words.program = house.program(words.program)
    if words.files:
        file_rounds(words)
    random_rounds(words)


if __name__ == "__main__":
    main()
