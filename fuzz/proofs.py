#!/usr/bin/env python3
"""Random small proofs and mutations of them, judged by the program and by two checkers that were written apart from it.

Usage: proofs.py [PROGRAM [CHECKER.py [REFERENCE.c]]] [--runs N] [--seed N]

What is left out is the repository's own program, and the checkers under tools/. The program is run as `PROGRAM lrat CNF PROOF`. CHECKER.py has `check(cnf, proof)`, which answers the line that it would print
and a status, or raises `Malformed` or ValueError where a file isn't of its format. REFERENCE.c is compiled by `cc -O2`, run as
`reference CNF PROOF`, and prints the same lines, and `FAULT CNF text` or `FAULT PROOF text` where a file isn't of its format.

Each run makes a formula and a proof that is right, and mostly changes one or two things in steps or bytes. The program has to
print what the reference prints, with status 0 for VERIFIED and 1 for REFUSED; and for a fault nothing but one line of warning
with the file's name and the reference's text, with status 4. CHECKER.py has to say the same. It reads more freely than the
format does: where the reference finds a fault and CHECKER.py none (as for `+1`, `-0`, a tab between words, a deletion without
its 0, an id that is too large, or a fault behind a line that is refused), the reference decides, and these runs are counted
as lax. Prints the counts of the answers and the seed; status 1 where anything is wrong.
"""
import importlib.util
import os
import random
import re
import subprocess
import tempfile
from collections import Counter
from pathlib import Path

from rounds import Tally, house, words_of

NUMBERS = ["0", "-0", "00", "007", "+1", "1_0", "-", "--1", "1-", "x", "d", "dd", "1e3", "2147483647", "-2147483647", "2147483648",
           "-2147483648", "999999999999999999", "1000000000000000000", "99999999999999999999999999", "-1", "1", "2"]
PIECES = [b" ", b"  ", b"\n", b"\n\n", b"\t", b"\r", b"\r\n", b"\x0b", b"\x00", b"\xff", b"0", b"-", b"d", b"c", b"c x 0\n",
          b"\nc 1 2 0\n", b" 0", b"p", b"% 0\n"]


def propagated(clauses, assumed):
    """The names of clauses, each of which gives one literal more, and the false one last; None where there is none."""
    true, used = set(assumed), []
    while True:
        for name, clause in clauses:
            left = [literal for literal in clause if -literal not in true]
            if not left:
                return used + [name]
            if len(left) == 1 and left[0] not in true:
                true.add(left[0])
                used.append(name)
                break
        else:
            return None


def learned(rng, variables, clauses):
    """A clause that negates random decisions, and its hints; None where the decisions meet all clauses."""
    decisions = []
    order = [variable if rng.randrange(2) else -variable for variable in range(1, variables + 1)]
    rng.shuffle(order)
    while (hints := propagated(clauses, decisions)) is None:
        if not order:
            return None
        decisions.append(order.pop())
    return [-literal for literal in decisions], hints


class Pair:
    """A formula and steps of a proof of it: (id, clause, hints), or (number, None, ids) for a deletion."""

    def __init__(self, rng):
        self.variables = rng.randrange(1, 6)
        literals = [sign * variable for variable in range(1, self.variables + 1) for sign in (1, -1)]
        self.formula = [[rng.choice(literals) for _ in range(rng.randrange(1, 4))]
                        for _ in range(rng.randrange(1, 5 * self.variables))]
        self.steps = []
        live = dict(enumerate([list(dict.fromkeys(clause)) for clause in self.formula], 1))
        last = len(live)
        for _ in range(rng.randrange(1, 40)):
            clauses = list(live.items())
            rng.shuffle(clauses)
            found = learned(rng, self.variables, clauses)
            if found is None:
                break
            last += rng.choice([1, 1, 1, 2, 5])
            self.steps.append((last, *found))
            live[last] = found[0]
            if not found[0] and rng.randrange(3):
                break
            if rng.randrange(6) == 0:
                gone = [rng.choice([*live, last + 7]) for _ in range(rng.randrange(3))]
                self.steps.append((rng.choice([last, 0, 1]), None, gone))
                for name in gone:
                    live.pop(name, None)

    def cnf(self):
        lines = [f"p cnf {self.variables} {len(self.formula)}"]
        return "\n".join(lines + [" ".join(map(str, clause + [0])) for clause in self.formula]) + "\n"

    def proof(self):
        lines = []
        for name, clause, rest in self.steps:
            words = [name, "d"] if clause is None else [name, *clause, 0]
            lines.append(" ".join(map(str, words + rest + [0])) + "\n")
        return "".join(lines)


def change_list(rng, items, others):
    """One element dropped, doubled, exchanged with the next, replaced or put in."""
    kind, at = rng.randrange(5), rng.randrange(len(items) + 1)
    if kind == 0 and items:
        del items[at - 1]
    elif kind == 1 and items:
        items.insert(at, items[at - 1])
    elif kind == 2 and len(items) > 1:
        at = rng.randrange(len(items) - 1)
        items[at], items[at + 1] = items[at + 1], items[at]
    elif kind == 3 and items:
        items[at - 1] = rng.choice(others)
    else:
        items.insert(at, rng.choice(others))


def change_step(rng, pair):
    """Changes one step, or puts a deletion in."""
    at = rng.randrange(len(pair.steps))
    name, clause, rest = pair.steps[at]
    clause, rest = clause and list(clause), list(rest)
    names = [*range(1, len(pair.formula) + 1), *[step[0] for step in pair.steps], 10**6]
    kind = rng.randrange(8)
    if kind <= 1:
        change_list(rng, rest, names)
    elif kind == 2 and clause:
        place = rng.randrange(len(clause))
        clause[place] = -clause[place]
    elif kind == 3 and clause is not None:
        change_list(rng, clause, [sign * v for v in range(1, pair.variables + 3) for sign in (1, -1)])
    elif kind == 4:
        name = rng.choice([*names, 0, -1, name + 1, name - 1])
    elif kind == 5:
        other = rng.randrange(len(pair.steps))
        pair.steps[at], pair.steps[other] = pair.steps[other], pair.steps[at]
        return
    elif kind == 6:
        gone = [rng.choice(names) for _ in range(rng.randrange(1, 4))]
        pair.steps.insert(at, (name, None, gone))
        return
    elif kind == 7 and rest:
        place = rng.randrange(len(rest))
        rest[place] = -rest[place]
    pair.steps[at] = (name, clause, rest)


def change_bytes(rng, data):
    """A word, a byte or a piece changed, or the rest cut off."""
    kind, at = rng.randrange(6), rng.randrange(len(data) + 1)
    if kind == 0:
        words = data.split(b" ")
        words[rng.randrange(len(words))] = rng.choice(NUMBERS).encode()
        return b" ".join(words)
    if kind == 1:
        return data[:at]
    if kind == 2:
        return data[:at] + rng.choice(PIECES) + data[at:]
    if kind == 3:
        return data[:at] + bytes([rng.choice(b"0123456789- \n\td")]) + data[at + 1:]
    if kind == 4:
        return data[:at] + data[at + rng.randrange(1, 4):]
    lines = data.split(b"\n")
    lines.insert(rng.randrange(len(lines) + 1), rng.choice(lines))
    return b"\n".join(lines)


def made(rng):
    """The bytes of a formula and of a proof."""
    pair = Pair(rng)
    kind = rng.randrange(8)
    if kind <= 3 and pair.steps:
        for _ in range(rng.choice([1, 1, 2])):
            change_step(rng, pair)
    cnf, proof = pair.cnf().encode(), pair.proof().encode()
    if kind in (3, 4, 5):
        proof = change_bytes(rng, proof)
    if kind == 6:
        cnf = change_bytes(rng, cnf)
    return cnf, proof


def answer(command, folder):
    """(status, standard output, standard error) of a command."""
    try:
        ran = subprocess.run(command, cwd=folder, capture_output=True, timeout=60)
    except subprocess.TimeoutExpired:
        return "hang", b"", b""
    return ran.returncode, ran.stdout, ran.stderr


def wanted(said):
    """What the program has to answer where the reference says this."""
    if said.startswith(b"FAULT "):
        _, where, text = said.split(b" ", 2)
        return 4, b"", b"cec: " + {b"CNF": b"f.cnf", b"PROOF": b"f.lrat"}[where] + b": " + text
    return 0 if said == b"VERIFIED\n" else 1, said, b""


def judged(checker, folder):
    """What the checker says of the files in the folder, or FAULT."""
    try:
        return checker.check(os.path.join(folder, "f.cnf"), os.path.join(folder, "f.lrat"))[0].encode() + b"\n"
    except (checker.Malformed, ValueError):
        return b"FAULT"


def main():
    words = words_of(__doc__, 4000, "checker", "reference")
    spec = importlib.util.spec_from_file_location("checker", words.checker or house.CHECKER)
    checker = importlib.util.module_from_spec(spec)
    spec.loader.exec_module(checker)
    rng, tally, said_of = random.Random(words.seed), Tally(words.seed), Counter()
    with tempfile.TemporaryDirectory() as folder:
        reference = house.compiled(folder, words.reference or house.REFERENCE)
        for _ in range(words.runs):
            cnf, proof = made(rng)
            Path(folder, "f.cnf").write_bytes(cnf)
            Path(folder, "f.lrat").write_bytes(proof)
            said = answer([reference, "f.cnf", "f.lrat"], folder)[1]
            ran = answer([words.program, "lrat", "f.cnf", "f.lrat"], folder)
            theirs = judged(checker, folder)
            lax = said.startswith(b"FAULT") and theirs != b"FAULT"
            same = lax or theirs == (b"FAULT" if said.startswith(b"FAULT") else said)
            said_of[re.sub(r"[0-9]+", "n", said.decode().strip()) + (" (lax)" if lax else "")] += 1
            right = same and ran == wanted(said)
            tally.add(ran[0], None if right else f"{ran}, and {said}, {theirs} on {cnf!r} and {proof!r}")
    for kind, count in sorted(said_of.items()):
        print(f"{count:>7}  {kind}")
    tally.end()


if __name__ == "__main__":
    main()
