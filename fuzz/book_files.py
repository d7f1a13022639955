#!/usr/bin/env python3
"""Lemma files of random pairs of circuits, spoilt in many ways.

Usage: book_files.py [--runs N] [--seed N]

For each of N small pairs of circuits (300) a book of merges and equal outputs is drawn, and ten files are made of it: as it is, with
entries that are spoilt in a hint, a clause, a step, a node or an output, and with words, lines or bytes that are changed, doubled,
dropped or cut off. A small program over the crate book_file, built without proof in a folder that is given up, reads each, loads
it over the pair, and writes the book. Its faults, its counts and each byte that it writes must be those of second_file.py, and what
is written must be taken whole by the same pair. Status 1 where any of this differs.
"""
import argparse
import copy
import random

from books import drawn_net, good_merge, good_out, line_of_net, spoil
from rounds import SEED, Tally
import runner
from second_book import SecondBook, SecondNet
import second_file

USES = ["lits", "netlist", "lemma_book", "desk_port", "book_file"]
FILES = 10
BYTES = b" \n.;-#@!/0123456789abcimosx\r\xff"


def drawn_entries(rng, book):
    """Entries that are good one behind the other, mostly."""
    rows = book.net.rows()
    for _ in range(rng.randrange(1, 6)):
        entry = rng.choice([good_merge] * 3 + [good_out])(rng, book, rows)
        if entry:
            book.offer(entry)
    return copy.deepcopy(book.entries)


def spoilt_words(rng, text):
    """The text with a word or a line changed, doubled or dropped."""
    lines = text.split("\n")
    at = rng.randrange(len(lines))
    words = lines[at].split(" ")
    place = rng.randrange(len(words))
    kind = rng.randrange(6)
    if kind == 0:
        del lines[at]
    elif kind == 1:
        lines.insert(at, rng.choice(lines))
    elif kind == 2:
        del words[place]
    elif kind == 3:
        words.insert(place, rng.choice(text.split()))
    elif kind == 4:
        words[place] = rng.choice(["", "c", "-c", "i0", "x0", "#0/0", "#1/1", "#9/0", "@0", "@1", "!a0", "a3/0", "b4/2", ";", ".",
            "i4294967296", "x4294967295", "#999999999999999999/0", "#1000000000000000000/0", "a03", "c/256", "c/255", "#0/2"])
    else:
        other = rng.randrange(len(lines))
        lines[at], lines[other] = lines[other], lines[at]
    if kind in (2, 3, 4):
        lines[at] = " ".join(words)
    return "\n".join(lines)


def spoilt_bytes(rng, data):
    at = rng.randrange(len(data) + 1)
    kind = rng.randrange(4)
    if kind == 0:
        return data[:at]
    if kind == 1:
        return data[:at] + bytes([rng.choice(BYTES)]) + data[at:]
    return data[:at] + (bytes([rng.choice(BYTES)]) if kind == 2 else b"") + data[at + 1:]


def drawn_file(rng, book, entries):
    """The bytes of a file, spoilt or not."""
    entries = copy.deepcopy(entries)
    for _ in range(rng.choice([0, 0, 1, 1, 2])):
        if entries:
            spoil(rng, book, rng.choice(entries))
    if rng.random() < 0.2:
        rng.shuffle(entries)
    text = second_file.text_of(entries)
    for _ in range(rng.choice([0, 0, 0, 1, 2])):
        text = spoilt_words(rng, text)
    data = text.encode("latin-1")
    for _ in range(rng.choice([0, 0, 0, 1, 2])):
        data = spoilt_bytes(rng, data)
    return data


def told(net, sweep, out, data):
    """What the program should say of a file: its kind, and the words."""
    try:
        entries = second_file.read(data)
    except second_file.Fault as fault:
        return str(fault).split(": ")[1], str(fault)
    book = second_file.load(net, sweep, out, entries)
    text = second_file.text_of(book.entries).encode("latin-1")
    again = second_file.load(net, sweep, out, second_file.read(text))
    if again.entries != book.entries:
        raise SystemExit(f"the second reader differs from itself over {text}")
    passed = len(entries) - len(book.entries)
    return "passed over" if passed else "taken", f"{len(book.entries)} of {len(entries)} {text.hex()}"


def main():
    parser = argparse.ArgumentParser(description=__doc__, formatter_class=argparse.RawDescriptionHelpFormatter)
    parser.add_argument("--runs", type=int, default=300)
    parser.add_argument("--seed", type=int, default=SEED)
    words = parser.parse_args()
    rng, tally, lines, expected = random.Random(words.seed), Tally(words.seed), [], []
    for _ in range(words.runs):
        inputs, sides = drawn_net(rng)
        sweep, out = rng.randrange(1, 3), rng.randrange(1, 3)
        net = SecondNet(inputs, *sides)
        book = SecondBook(net, sweep, out)
        entries = drawn_entries(rng, book)
        net_line = line_of_net(inputs, sides, sweep, out)
        lines.append(net_line)
        for _ in range(FILES):
            data = drawn_file(rng, book, entries)
            lines.append(data.hex())
            expected.append((*told(net, sweep, out, data), f"{data} over {net_line}"))
    answers = runner.answers("book_files", USES, lines).splitlines()
    if len(answers) != len(expected):
        raise SystemExit(f"{len(answers)} answers to {len(expected)} files")
    for answer, (kind, right, what) in zip(answers, expected):
        tally.add(kind, answer != right and f"{answer}, and not {right}: {what}")
    tally.end()


if __name__ == "__main__":
    main()
