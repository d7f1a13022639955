#!/usr/bin/env python3
"""Measures checks by several workers: time by the clock and of the processors, memory, and how much of a run is parallel.

Usage: workers.py [--program PROGRAM] [--workers N ..] [--rounds N] [--only WORD] [--corpus FOLDER --pairs NAME ..]

Pairs of more than 10,000 gates whose time is queries (`made_datapaths.py`: copies of adders, a processor, a hash, an adder of 3,000 bits,
each in two architectures), or the named ones of a corpus as for `sweep.py`, and two pairs of under 1,000 gates. Each is checked by 1, 2,
4 and 64 workers; the times are medians of three rounds, without files. Beside those of one worker stand the ratios, then the peak
memory that a worker more takes, in bytes a gate. How much of a run is parallel is the part of the time in which a run by four workers has
more than one thread, as `/proc` tells it each millisecond. Times mean little unless the machine is idle. Status 1 where a verdict isn't
EQUIVALENT.
"""
import argparse
import os
import random
import subprocess
import sys
import tempfile
import time
from pathlib import Path
from statistics import median

sys.path.insert(0, str(Path(__file__).resolve().parents[1] / "tools"))
import made_datapaths
from house import program
from run import timed

HEAD = f"{'pair':20} {'gates':>7} {'workers':>7} {'wall s':>8} {'of one':>6} {'CPU s':>8} {'of one':>6} {'MB':>7} {'B/gate+worker':>13}"


def parallel_share(command):
    """The part of a run in which it has more than one thread."""
    running, found = subprocess.Popen(command, stdout=subprocess.DEVNULL), []
    while running.poll() is None:
        try:
            found.append(len(os.listdir(f"/proc/{running.pid}/task")) > 1)
        except OSError:
            break
        time.sleep(0.001)
    running.wait()
    return sum(found) / max(1, len(found))


def pairs(words, folder):
    """(name, gates, the two files) of each pair that is measured."""
    kinds = {**made_datapaths.KINDS, **made_datapaths.SMALL}
    if words.corpus:
        kinds = {}
        for name in words.pairs:
            files = [words.corpus / f"{name}.{side}.aig" for side in "ab"]
            yield name, sum(int(file.open("rb").readline().split()[5]) for file in files), files
    for name, (make, size) in kinds.items():
        if words.only in name:
            circuits, files = make(size), [folder / f"{name}.{side}.aig" for side in "ab"]
            row = [random.Random(k).getrandbits(64) for k in range(circuits[0].inputs)]
            if made_datapaths.values(circuits[0], row) != made_datapaths.values(circuits[1], row):
                raise SystemExit(f"the circuits of {name} aren't of one function")
            for file, circuit in zip(files, circuits):
                file.write_bytes(circuit.binary())
            yield name, sum(len(circuit.gates) for circuit in circuits), files


def measured(words, name, gates, files):
    """Prints the pair's lines, and answers how many verdicts are wrong."""
    command = [words.program, "check", *map(str, files)]
    first, wrong = None, 0
    for many in words.workers:
        runs = [timed([*command, "--workers", str(many)]) for _ in range(words.rounds)]
        wall, used, memory = (median(run[k] for run in runs) for k in (2, 3, 4))
        wrong += sum(not run[1].startswith("EQUIVALENT") for run in runs)
        first = first or (many, wall, used, memory)
        more = f"{(memory - first[3]) / gates / (many - first[0]):13.1f}" if many > first[0] else f"{'':13}"
        print(f"{name:20} {gates:7} {many:7} {wall:8.3f} {wall / first[1]:6.2f} {used:8.3f} {used / first[2]:6.2f} {memory / 1e6:7.1f} {more}", flush=True)
    share = parallel_share([*command, "--workers", "4"])
    print(f"{name}: {100 * share:.0f} % of a run by four workers has more than one thread", flush=True)
    return wrong


def main():
    parser = argparse.ArgumentParser(description=__doc__, formatter_class=argparse.RawDescriptionHelpFormatter)
    parser.add_argument("--program")
    parser.add_argument("--workers", type=int, nargs="+", default=[1, 2, 4, 64])
    parser.add_argument("--rounds", type=int, default=3)
    parser.add_argument("--only", default="")
    parser.add_argument("--corpus", type=Path)
    parser.add_argument("--pairs", nargs="+", default=[])
    words = parser.parse_args()
    words.program, wrong = program(words.program), 0
    print(f"{os.cpu_count()} processors, load {os.getloadavg()[0]:.1f}\n{HEAD}")
    with tempfile.TemporaryDirectory() as folder:
        for name, gates, files in pairs(words, Path(folder)):
            wrong += measured(words, name, gates, files)
    print(f"wrong {wrong}")
    return 1 if wrong else 0


if __name__ == "__main__":
    sys.exit(main())
