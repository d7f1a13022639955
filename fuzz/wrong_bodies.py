#!/usr/bin/env python3
"""Has the prover try the wrong bodies that the gate leaves out for their cost: it must refuse each.

Usage: wrong_bodies.py [--seed N] [--all | CRATE ..]

`wrong_bodies/CRATE/NAME.edit` is written like the must-fail edits of that crate, of which the gate tries those that tell most. Here
they take the place of these in a copy of the repository, where `rt ci` runs over the crate: where the toolchain keeps what the gate has
proved on this machine nothing is proved again, so an edit costs its own check, else all below the crate is proved first. Where `rt ci`
takes no crate's name, `rt must-fail` does. With no CRATE it is one that the seed draws. Prints what each edit came to; status 1 where one
isn't refused.
"""
import argparse
import random
import re
import shutil
import subprocess
import sys
import tempfile
from pathlib import Path

from rounds import SEED
from house import TOP

EDITS = Path(__file__).resolve().parent / "wrong_bodies"
TRIED = re.compile(r"must-fail ([a-z_]+/[a-z_]+)\.edit: (.*)")
# The status of `rt` at words that it doesn't know, and where a run stopped.
NO_SUCH_WORDS = 2


def copied(room, crates):
    """A copy of the repository whose crates have no must-fail edits but these crates' wrong bodies."""
    shutil.copytree(TOP, room, symlinks=True, ignore=shutil.ignore_patterns(".git", "out", "must-fail"))
    for crate in crates:
        shutil.copytree(EDITS / crate, room / "crates" / crate / "must-fail")


def main():
    every = sorted(folder.name for folder in EDITS.iterdir())
    words = argparse.ArgumentParser(description=__doc__, formatter_class=argparse.RawDescriptionHelpFormatter)
    words.add_argument("crates", nargs="*", metavar="CRATE")
    words.add_argument("--all", action="store_true")
    words.add_argument("--seed", type=int, default=SEED)
    asked = words.parse_args()
    if unknown := sorted({*asked.crates} - {*every}):
        words.error(f"no wrong bodies of {', '.join(unknown)}")
    if not shutil.which("rt"):
        print("skipped: the toolchain's command rt is not there")
        return 0
    drawn = [random.Random(asked.seed).choice(every)]
    crates = every if asked.all else asked.crates or drawn
    with tempfile.TemporaryDirectory() as scratch:
        room = Path(scratch) / "copy"
        copied(room, crates)
        piped = {"stdin": subprocess.DEVNULL, "stdout": subprocess.PIPE, "stderr": subprocess.STDOUT, "text": True}
        run = subprocess.run(["rt", "ci", *crates], cwd=room, check=False, **piped)
        if run.returncode == NO_SUCH_WORDS and not TRIED.search(run.stdout):
            run = subprocess.run(["rt", "must-fail", *crates], cwd=room, check=False, **piped)
    tried = TRIED.findall(run.stdout)
    for edit, came_to in tried:
        print(f"{edit}: {came_to}")
    due = sum(len(list((EDITS / crate).glob("*.edit"))) for crate in crates)
    refused = sum(came_to.startswith("refused") for _, came_to in tried)
    if run.returncode:
        print(run.stdout[-3000:])
    print(f"seed {asked.seed}: {due} wrong bodies of {', '.join(crates)}, {refused} refused, {due - refused} not")
    return 1 if run.returncode or refused < due else 0


if __name__ == "__main__":
    sys.exit(main())
