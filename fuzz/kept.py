#!/usr/bin/env python3
"""What is kept of random lemma books over edits of random pairs of circuits.

Usage: kept.py [--runs N] [--seed N]

Books are filled as `books.py` fills them. Between the entries come edits, one to three at a time, and what `keep` makes of the book, every
entry with its steps and hints, and the inputs that it hands on must be what `kept_entries` here makes of the second book by the definition:
the Merge and Out entries of which no step's clause and no cited axiom has a literal of a touched node, and all of whose cited
entries are kept, with new numbers in their hints. The next entries are offered to the kept book over the edited pair. Status 1 where anything
differs.
"""
import argparse
import random
import re

import books
from books import SEED, drawn_net, line_of_entry, line_of_net
from rounds import Tally
import runner
from scripts import drawn_edit, line_of
from second_book import SecondBook, SecondNet, node_of
from second_edits import edited, fault_of


def circuits_of(inputs, sides):
    """The sides as `second_edits.py` has circuits."""
    variables = [2 * (k + 1) for k in range(inputs)]
    return {side: (variables, outputs, [(2 * var, left, right) for var, left, right in gates])
            for side, (gates, outputs) in zip("ab", sides)}


def sides_of(circuits):
    return [([(lhs // 2, left, right) for lhs, left, right in circuits[side][2]], circuits[side][1]) for side in "ab"]


def touched_by(edit):
    """The node that an edit touches, or None."""
    name, side, number = edit[:3]
    return {"set": f"{side}{number // 2}", "drop": f"{side}{number // 2}", "out": f"x{number}", "new": None}[name]


def kept_entries(book, touched):
    """The entries that stay, with new numbers in their hints."""
    numbers, kept = {}, []
    for place, entry in enumerate(book.entries):
        if entry[0] in ("merge", "out") and all(stays(book, touched, numbers, step) for step in entry[-1]):
            numbers[place] = len(kept)
            kept.append([*entry[:-1], [[clause, [renewed(numbers, hint) for hint in hints]] for clause, hints in entry[-1]]])
    return kept


def stays(book, touched, numbers, step):
    clause, hints = step
    if any(node_of(lit) in touched for lit in clause):
        return False
    for hint in hints:
        head, _, k = hint.partition(".")
        if re.fullmatch(r"e\d+", head):
            if int(head[1:]) not in numbers:
                return False
        elif k and any(node_of(lit) in touched for lit in book.net.axioms[head][int(k)]):
            return False
    return True


def renewed(numbers, hint):
    head, dot, k = hint.partition(".")
    return f"e{numbers[int(head[1:])]}{dot}{k}" if dot and re.fullmatch(r"e\d+", head) else hint


def text_of(entries, inputs):
    """The line that the program writes of a kept book."""
    parts = [line_of_kept(entry) + " | " for entry in entries]
    return "".join(parts) + "".join("".join("1" if bit else "0" for bit in bits) + " " for bits in inputs)


def line_of_kept(entry):
    head, steps = " ".join(map(str, entry[:-1])), entry[-1]
    return f"{head}: " + "".join("".join(lit + " " for lit in clause) + "by" + "".join(" " + hint for hint in hints) + ";" for clause, hints in steps)


def accepted_edits(rng, circuits):
    """One to three edits without a fault, where draws find them, and the circuits after them."""
    edits = []
    for _ in range(40):
        edit = drawn_edit(rng, circuits)
        if fault_of(circuits[edit[1]], edit) is None:
            circuits = {**circuits, edit[1]: edited(circuits[edit[1]], edit)}
            edits.append(edit)
            if len(edits) == 3 or rng.random() < 0.5:
                break
    return edits, circuits


def run_of(rng):
    """(lines, the answers due) of one book."""
    inputs, sides = drawn_net(rng)
    sweep, out = rng.randrange(1, 3), rng.randrange(1, 3)
    lines, due = [line_of_net(inputs, sides, sweep, out)], []
    book = SecondBook(SecondNet(inputs, *sides), sweep, out)
    for _ in range(rng.randrange(1, 4)):
        for line, answer in books.offers_to(rng, book):
            lines.append(line)
            due.append(answer)
        edits, circuits = accepted_edits(rng, circuits_of(inputs, sides))
        if not edits:
            continue
        sides = sides_of(circuits)
        handed = [entry[-1] for entry in book.entries if entry[0] in ("apart", "outapart")]
        kept = kept_entries(book, {touched_by(edit) for edit in edits})
        book = SecondBook(SecondNet(inputs, *sides), sweep, out)
        book.entries = kept
        lines.append("edits: " + "; ".join(map(line_of, edits)))
        due.append(text_of(kept, handed))
    return lines, due


def main():
    parser = argparse.ArgumentParser(description=__doc__, formatter_class=argparse.RawDescriptionHelpFormatter)
    parser.add_argument("--runs", type=int, default=400)
    parser.add_argument("--seed", type=int, default=SEED)
    words = parser.parse_args()
    rng, tally, lines, due = random.Random(words.seed), Tally(words.seed), [], []
    for _ in range(words.runs):
        made, answers = run_of(rng)
        lines += made
        due += answers
    answers = runner.answers("offers", books.USES, lines).split("\n")[:-1]
    if len(answers) != len(due):
        raise SystemExit(f"{len(answers)} answers to {len(due)} lines")
    for answer, right in zip(answers, due):
        kind = "kept book" if "|" in right else "answer"
        tally.add(kind, answer != right and f"{answer}, and not {right}")
    tally.end()


if __name__ == "__main__":
    main()
