#!/usr/bin/env python3
"""Random small pairs of circuits with random edit scripts, judged apart from the program.

Usage: scripts.py [PROGRAM [CHECKER]] [--runs N] [--seed N]

PROGRAM and CHECKER are as for `pairs.py`. A script has lines of each form, most of them accepted, some spoilt, and checks between;
second_edits.py says which line is refused and what each check is of. Every check's verdict is judged as `pairs.py` does, by the
circuits' values on every input, and its files by the checker; the status is the last verdict's, or 4 with the line's text behind
all verdicts before it. Status 1 where anything is wrong.
"""
import random
import re
import subprocess
import tempfile
from pathlib import Path

from pairs import differing_outputs, drawn_constraints, judged_different, judged_equal, judged_open, random_circuit, rewritten, text
from rounds import Tally, house, words_of
from second_edits import checks_of, command_in, edited, fault_of

VERDICT = re.compile(r"EQUIVALENT\n|DIFFERENT\noutput .*\ninput .*\n|UNDECIDED\n(?:output .*\n)+")
STATUS = {"EQUIVALENT": 0, "DIFFERENT": 1, "UNDECIDED": 2}


def drawn_edit(rng, sides):
    """An edit of one side, which may have a fault."""
    side = rng.choice("ab")
    inputs, outputs, gates = sides[side]
    known = [0, *inputs, *(lhs for lhs, _, _ in gates)]
    literal = lambda: rng.choice(known) + rng.randrange(2) if rng.random() < 0.97 else rng.randrange(60)
    gate = lambda: rng.choice(gates)[0] if gates and rng.random() < 0.9 else 2 * rng.randrange(20)
    kind = rng.choice(["set", "set", "new", "new", "drop", "out", "back"])
    if kind == "back" and gates:
        lhs, left, right = rng.choice(gates)
        return ["set", side, lhs, right, left]
    if kind == "set":
        return ["set", side, gate(), literal(), literal()]
    if kind == "new":
        lhs = 2 * rng.randrange(1, 40) if rng.random() < 0.3 else 2 + max(known)
        return ["new", side, lhs, literal(), literal(), None if rng.random() < 0.5 else gate()]
    if kind == "drop":
        return ["drop", side, gate()]
    return ["out", side, rng.randrange(len(outputs) + 1) if rng.random() < 0.1 or not outputs else rng.randrange(len(outputs)), literal()]


def line_of(edit):
    name, side, *numbers = edit
    if name == "new":
        place = "end" if numbers[3] is None else f"before {numbers[3]}"
        return f"new {side} {numbers[0]} {numbers[1]} {numbers[2]} {place}"
    return " ".join([name, side, *map(str, numbers)])


def spoilt(rng, line):
    """The line with a byte put in, taken out or changed."""
    at = rng.randrange(len(line) + 1)
    byte = rng.choice([" ", "0", "-", "x", "\t", "A", "\r"])
    return rng.choice([line[:at] + byte + line[at:], line[:at] + line[at + 1:], line[:at] + byte + line[at + 1:]])


def drawn_script(rng, sides):
    """The bytes of a script for these circuits."""
    sides, lines = dict(sides), []
    for _ in range(rng.randrange(0, 14)):
        if rng.random() < 0.3:
            lines.append("check")
            continue
        edit = drawn_edit(rng, sides)
        if fault_of(sides[edit[1]], edit) and rng.random() < 0.93:
            continue
        line = line_of(edit)
        if rng.random() < 0.02:
            line = spoilt(rng, line)
        lines.append(line)
        command = command_in(line.encode())
        if command and command != ["check"] and not fault_of(sides[command[1]], command):
            sides[command[1]] = edited(sides[command[1]], command)
        if rng.random() < 0.05:
            lines.append("")
    end = "" if rng.random() < 0.2 or not lines else "\n"
    return ("\n".join(lines) + end).encode()


def judged_check(said, check, bounds, number, folder, checker, budget):
    """What is wrong with a check's verdict and files, or None."""
    a, b = check
    for name in ("cnf", "lrat"):
        Path(folder, f"p.0.{name}").write_bytes(Path(folder, f"q.{number}.{name}").read_bytes())
    differing = differing_outputs(a, b, bounds)
    word = said.split("\n")[0]
    if word == "EQUIVALENT":
        return judged_equal(said, differing, folder, checker)
    if word == "DIFFERENT":
        return judged_different(said, a, b, differing, folder, budget, bounds)
    return judged_open(said, differing, folder, checker, budget) if budget is not None else "UNDECIDED within an ample budget"


def names_after(checks):
    """The names of the files that lie there after so many checks."""
    return {"A", "B", "F"} | {f"q.{number}.{kind}" for number in range(checks) for kind in ("cnf", "lrat")}


def judged(ran, sides, bounds, script, folder, checker, budget):
    """None where the run is right, else what is wrong."""
    checks, refused = checks_of(sides, script, bounds)
    verdicts = VERDICT.findall(ran.stdout)
    if "".join(verdicts) != ran.stdout or len(verdicts) != len(checks):
        return "other verdicts than checks"
    status = 4 if refused else STATUS[verdicts[-1].split("\n")[0]]
    warned = f"cec: F: line {refused[0]}: {refused[1]}\n" if refused else ""
    if (ran.returncode, ran.stderr) != (status, warned):
        return f"not status {status} with {warned!r}"
    if {file.name for file in Path(folder).iterdir()} != names_after(len(checks)):
        return "other files than those of the checks"
    for number, (said, check) in enumerate(zip(verdicts, checks)):
        fault = judged_check(said, check, bounds, number, folder, checker, budget)
        if fault:
            return f"check {number}: {fault}"
    return None


def tried(program, checker, sides, bounds, script, budget=None, options=()):
    """(status, what is wrong or None) of a run over these circuits, with these constraints and words more, and this script."""
    texts = [text(sides[side], bounds[place]) for place, side in enumerate("ab")]
    with tempfile.TemporaryDirectory() as folder:
        for name, file in zip("AB", texts):
            Path(folder, name).write_text(file)
        Path(folder, "F").write_bytes(script)
        command = [program, "check", "A", "B", "--edits", "F", "--out", "q", *options]
        command += [] if budget is None else ["--budget", str(budget), "--sweep-budget", "1"]
        ran = subprocess.run(command, cwd=folder, capture_output=True, text=True)
        fault = judged(ran, sides, bounds, script, folder, checker, budget)
        return ran.returncode, fault and f"{fault}: {ran!r}, on {texts!r} and {shortened(script)}"


def shortened(script):
    """A script as it is shown where a run on it is wrong."""
    return repr(script) if len(script) <= 4096 else f"{script[:2048]!r} .. {script[-2048:]!r}"


def drawn_pair(rng):
    """A random circuit, and another one that is mostly of the same functions."""
    a = random_circuit(rng, rng.randrange(0, 5), rng.randrange(0, 4), rng.randrange(0, 9))
    return {"a": a, "b": rewritten(rng, a)}


def main():
    words = words_of(__doc__, 400, "checker")
    rng, tally, checker = random.Random(words.seed), Tally(words.seed), house.checker(words.checker)
    for _ in range(words.runs):
        sides = drawn_pair(rng)
        bounds = drawn_constraints(rng, sides["a"], sides["b"])
        script = drawn_script(rng, sides)
        budget = rng.choice([None, None, 1, 2, 3])
        tally.add(*tried(words.program, checker, sides, bounds, script, budget))
    tally.end()


if __name__ == "__main__":
    main()
