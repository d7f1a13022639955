"""What the rounds here share: their words, and the count of what the program answered."""
import argparse
import sys
from collections import Counter
from pathlib import Path

sys.path.insert(0, str(Path(__file__).resolve().parents[1] / "tools"))
import house

SEED = 20261126


def words_of(usage, runs, *others):
    """The words of the command line: PROGRAM and the others, each of which may be left out, --runs and --seed."""
    parser = argparse.ArgumentParser(description=usage, formatter_class=argparse.RawDescriptionHelpFormatter)
    for name in ("program", *others):
        parser.add_argument(name, nargs="?")
    parser.add_argument("--runs", type=int, default=runs)
    parser.add_argument("--seed", type=int, default=SEED)
    words = parser.parse_args()
    words.program = house.program(words.program)
    return words


class Tally:
    """Counts the runs by status, and prints what is wrong."""

    def __init__(self, seed):
        self.seed, self.found, self.wrong = seed, Counter(), 0

    def add(self, status, fault):
        self.found[status] += 1
        if fault:
            self.wrong += 1
            print(fault)

    def end(self):
        """Prints the counts and ends with status 1 where anything was wrong."""
        by_status = dict(sorted(self.found.items(), key=str))
        print(f"seed {self.seed}: {sum(self.found.values())} runs, by status {by_status}, {self.wrong} wrong")
        raise SystemExit(1 if self.wrong else 0)
