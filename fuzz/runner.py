"""Small programs over crates of the repository, `runner/NAME.txt`, built without proof in a folder that is given up."""
from pathlib import Path

import rounds  # which makes the modules of tools/ known
from crates import unproved_answers

# Of the clock: on a machine whose processors others kept busy, a run had 8 seconds of a processor in its first 196.
SECONDS = 1500


def answers(name, uses, cases, change=None, said=()):
    """What the program of this name writes of a file of these lines, over a copy of the crates that is changed first where there is a
    change. What is said replaces texts of the program."""
    source = (Path(__file__).parent / "runner" / f"{name}.txt").read_text()
    for old, new in said:
        assert old in source, old
        source = source.replace(old, new)
    return unproved_answers(source, uses, cases, SECONDS, change)
