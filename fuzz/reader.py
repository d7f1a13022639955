#!/usr/bin/env python3
"""Hostile input: mutations of AIGER files in both forms, run through the built program.

Usage: reader.py [PROGRAM] [--runs N] [--seed N] [--files FILE ..]

The files are small ones that stand here, and those that are named (tools/real_aiger.py makes some with other tools). Each run
has to end by itself with status 0, 1, 2 or 4; and where it is 4, with the one line of warning that a second reader
(second_reader.py) has for the first fault of A, else of B, else for counts that differ. Prints what it found and the seed;
status 1 where a run did otherwise.
"""
import random
import subprocess
import sys
import tempfile
from pathlib import Path

import second_reader
from rounds import Tally, words_of

VALID = [
    b"aag 3 2 0 1 1\n2\n4\n6\n6 2 4\n",
    b"aag 5 2 0 1 3\n2\n4\n11\n6 2 5\n8 3 4\n10 7 9\n",
    b"aag 0 0 0 1 0\n1\n",
    b"aag 2 1 0 2 1\n2\n4\n5\n4 2 3\n",
    b"aag 7 3 0 2 4\n2\n4\n6\n14\n9\n8 2 4\n10 8 6\n12 9 11\n14 12 3\n",
    b"aag 7 3 0 2 4\n2\n4\n6\n14\n9\n14 12 3\n12 9 11\n10 8 6\n8 2 4\ni0 a\ni2 b c\no1 d\nc\nmade by hand\n",
    b"aig 3 2 0 1 1\n6\n\x02\x02",
    b"aig 5 2 0 1 3\n11\n\x01\x03\x04\x01\x01\x02i0 x\no0 y\nc\n",
    b"aig 0 0 0 1 0\n1\n",
    b"aag 3 2 0 1 1 0 2\n2\n4\n6\n2\n7\n6 2 4\n",
    b"aig 3 2 0 1 1 0 1\n6\n3\n\x02\x02i1 x\ni1 \n",
]
PIECES = [b"\n", b" ", b"-1", b"0", b"16777216", b"16777217", b"99999999999999999999999", b"aag ", b"aig ", b"\r", b"\x00", b"\xff", b"\x80",
          b"\x80\x80\x80\x80\x80", b"c", b"i0 x\n", b"o1 y\n"]


def mutated(rng, file):
    """The file after one to four changes of bytes, pieces or lines."""
    data = bytearray(file)
    for _ in range(rng.randrange(1, 5)):
        at = rng.randrange(len(data) + 1)
        kind = rng.randrange(7)
        if kind == 0 and data:
            data[min(at, len(data) - 1)] = rng.randrange(256)
        elif kind == 1:
            del data[at:at + rng.randrange(1, 4)]
        elif kind == 2:
            data[at:at] = rng.choice(PIECES)
        elif kind == 3:
            data = data[:at]
        elif kind == 4 and data:
            place = min(at, len(data) - 1)
            data[place] = rng.choice(b"0123456789 \n")
        else:
            lines = bytes(data).split(b"\n")
            line, other = rng.randrange(len(lines)), rng.randrange(len(lines))
            if kind == 5:
                lines.insert(other, lines[line])
            else:
                lines[line], lines[other] = lines[other], lines[line]
            data = bytearray(b"\n".join(lines))
    return bytes(data)


def wanted(names):
    """The line of warning that is due, or none."""
    counts = []
    for name in ("A", "B"):
        try:
            circuit = second_reader.read(names[name])
            counts.append((len(circuit.inputs), len(circuit.outputs)))
        except second_reader.Fault as fault:
            return f"cec: {name}: {fault}\n"
    (inputs_a, outputs_a), (inputs_b, outputs_b) = counts
    if inputs_a != inputs_b:
        return f"cec: inputs {inputs_a} and {inputs_b} differ\n"
    if outputs_a != outputs_b:
        return f"cec: outputs {outputs_a} and {outputs_b} differ\n"
    return ""


def main():
    files = VALID
    if "--files" in sys.argv:
        at = sys.argv.index("--files")
        files = VALID + [Path(name).read_bytes() for name in sys.argv[at + 1:]]
        del sys.argv[at:]
    words = words_of(__doc__, 10_000)
    rng, tally = random.Random(words.seed), Tally(words.seed)
    with tempfile.TemporaryDirectory() as folder:
        for _ in range(words.runs):
            file = rng.choice(files)
            names = {"A": mutated(rng, file), "B": rng.choice([file, mutated(rng, file)])}
            for name, data in names.items():
                Path(folder, name).write_bytes(data)
            command = [words.program, "check", "A", "B", "--budget", "100"]
            try:
                ran = subprocess.run(command, cwd=folder, capture_output=True, timeout=60)
                status, said = ran.returncode, ran.stderr.decode(errors="replace")
            except subprocess.TimeoutExpired:
                status, said = "hang", ""
            want = wanted(names)
            wrong = said != want or status not in ((4,) if want else (0, 1, 2))
            tally.add(status, wrong and f"status {status}, warned {said!r} for {want!r}, on {names!r}")
    tally.end()


if __name__ == "__main__":
    main()
