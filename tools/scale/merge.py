#!/usr/bin/env python3
"""Makes one lemma file of those that the parts of a pair left.

Usage: merge.py FOLDER > LEMMAS

Reads FOLDER/K.lemmas and FOLDER/K.first for each part K that is there. Outputs get the numbers that they have in the whole pair, entries the
numbers that they have in the one file. Of two lemmas about one node or output the first stays, and who cites the other cites it, if it is to the
same literal; a lemma that cites one which is left out is left out too. Nothing here has to be trusted: whoever loads the file judges each
lemma. A part whose file is missing or ill-formed is passed over with a line.
"""
import re
import sys
from pathlib import Path

# The node of an output: no other word has the letter.
OUTPUT = re.compile(r"x(\d+)")
ABOUT_OUTPUT = re.compile(r"\Ao (\d+)\n")


def entries_in(text):
    """The entries of a lemma file, each as its lines without the one at its end."""
    head, _, entries = text.partition("\n")
    if head != "lemmas 1" or not text.endswith("\n") or (entries and not entries.endswith("\n.\n")):
        raise ValueError("no whole lemma file")
    return entries.split("\n.\n")[:-1]


def shifted(entry, first):
    """An entry with the outputs' numbers of the whole pair."""
    if first == 0:
        return entry
    moved = OUTPUT.sub(lambda found: f"x{int(found[1]) + first}", entry)
    return ABOUT_OUTPUT.sub(lambda found: f"o {int(found[1]) + first}\n", moved)


def renamed(pieces, numbers):
    """The pieces between the signs of citations, under the numbers in the one file; each but the first begins with a number and a slash."""
    yield pieces[0]
    for piece in pieces[1:]:
        number, slash, rest = piece.partition("/")
        yield numbers[number] + slash + rest


class Merged:
    """The lemmas that stay, and what each part's entries became."""

    def __init__(self):
        self.entries, self.known = [], {}

    def take(self, entry, numbers):
        """Puts an entry last, or finds the one that it repeats; its number, or none where it is left out."""
        said = entry.partition("\n")[0]
        subject = said.rpartition(" ")[0] if said.startswith("m ") else said
        if subject in self.known:
            number, before = self.known[subject]
            return number if before == said else None
        try:
            entry = "#".join(renamed(entry.split("#"), numbers))
        except KeyError:
            return None
        number = str(len(self.entries))
        self.entries.append(entry)
        self.known[subject] = number, said
        return number


def main():
    if len(sys.argv) != 2:
        raise SystemExit(__doc__)
    folder, merged = Path(sys.argv[1]), Merged()
    for place in sorted(folder.glob("*.first"), key=lambda path: int(path.stem)):
        first, numbers = int(place.read_text()), {}
        try:
            entries = entries_in(place.with_suffix(".lemmas").read_text())
        except (OSError, ValueError) as fault:
            print(f"part {place.stem}: {fault}", file=sys.stderr)
            continue
        for number, entry in enumerate(entries):
            taken = merged.take(shifted(entry, first), numbers)
            if taken is not None:
                numbers[str(number)] = taken
    sys.stdout.write("lemmas 1\n")
    sys.stdout.writelines(f"{entry}\n.\n" for entry in merged.entries)


if __name__ == "__main__":
    main()
