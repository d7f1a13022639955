#!/usr/bin/env python3
"""Measures the built program.

Usage: run.py [PROGRAM] [--sizes N ..] [--folder DIR]

big pairs:    two circuits of N gates a side and no output, as ASCII, as binary, and as an ASCII chain whose last gate stands
              first: seconds to read A alone (the run ends at a B that is missing), its bytes and gates a second, the seconds
              of `wc -c` and `wc -l` on it as yardsticks of the machine and of ABC's reader (`berkeley-abc -q "&r A"`, where it
              is installed and takes the form), seconds of the whole check, and its peak memory a gate
solved pairs: small circuits with outputs that the solver decides, some with one sign turned and some within a budget of one
              learned clause: verdict, seconds, clauses and proof lines
"""
import argparse
import os
import shutil
import subprocess
import sys
import tempfile
import time
from pathlib import Path

sys.path.insert(0, str(Path(__file__).resolve().parent))
sys.path.insert(0, str(Path(__file__).resolve().parents[1] / "tools"))
import house
from aiger import backwards, make_binary, make_pair

SEED = 20261126


# A small process that starts a command and tells of it: one that is started from here would have the memory of this script as the least that it
# is said to have taken.
LAUNCHER = """import os, sys, time
begun = time.monotonic()
_, status, used = os.wait4(os.posix_spawnp(sys.argv[1], sys.argv[1:], os.environ), 0)
print(os.waitstatus_to_exitcode(status), time.monotonic() - begun, used.ru_utime + used.ru_stime, used.ru_maxrss * 1024, file=sys.stderr)"""


def timed(command, folder=None):
    """(status, what it said, seconds by the clock, seconds of the processors, peak memory in bytes) of a command."""
    ran = subprocess.run([sys.executable, "-S", "-c", LAUNCHER, *map(str, command)], cwd=folder, capture_output=True, text=True, errors="replace", check=True)
    *warned, last = ran.stderr.splitlines()
    status, *figures = last.split()
    return int(status), "\n".join([ran.stdout, *warned]), *map(float, figures)


def measured(command, folder):
    """(status, what it said, seconds by the clock, peak memory in bytes) of a command."""
    status, said, seconds, _, peak = timed(command, folder)
    return status, said, seconds, int(peak)


def forms(size):
    """The name of each form and the bytes of a pair in it."""
    a, b = make_pair(SEED, 64, size, 0)
    yield "ASCII", a.encode(), b.encode()
    one = make_binary(SEED, 64, size)
    yield "binary", one, one
    chain = backwards(64, size).encode()
    yield "chain", chain, chain


def big_pairs(program, sizes, folder):
    abc = shutil.which("berkeley-abc")
    print(f"seed {SEED}")
    print(f"{'gates a side':>12} {'form':>7} {'bytes of A':>11} {'read A s':>8} {'MB/s':>7} {'Mgates/s':>8} {'wc -c s':>8} {'wc -l s':>8} "
          f"{'ABC s':>7} {'check s':>8} {'peak B/gate':>12}  verdict")
    for size in sizes:
        for form, a, b in forms(size):
            Path(folder, "A.aig").write_bytes(a)
            Path(folder, "B.aig").write_bytes(b)
            _, _, read, _ = measured([program, "check", "A.aig", "missing", "--out", "p"], folder)
            _, _, counted, _ = measured(["wc", "-c", "A.aig"], folder)
            _, _, lines, _ = measured(["wc", "-l", "A.aig"], folder)
            peer = measured([abc, "-q", "&r A.aig"], folder)[2] if abc and form == "binary" else None
            status, said, seconds, peak = measured([program, "check", "A.aig", "B.aig", "--out", "p"], folder)
            verdict = said.split("\n")[0]
            print(f"{size:>12} {form:>7} {len(a):>11} {read:>8.2f} {len(a) / read / 1e6:>7.1f} {size / read / 1e6:>8.2f} {counted:>8.3f} "
                  f"{lines:>8.3f} {'-' if peer is None else format(peer, '.2f'):>7} {seconds:>8.2f} {peak / (2 * size):>12.0f}  {status} {verdict}")


def solved_pairs(program, folder):
    print(f"{'inputs':>6} {'gates':>6} {'outputs':>7} {'pair':>10} {'seconds':>8} {'clauses':>8} {'lines':>7}  verdict")
    for inputs, gates, outputs in [(2, 4, 1), (3, 8, 2), (4, 12, 2), (5, 16, 4), (6, 24, 4), (8, 40, 8)]:
        for kind, turned, options in [("equal", False, []), ("one sign", True, []), ("budget 1", False, ["--budget", "1"])]:
            a, b = make_pair(SEED + gates, inputs, gates, outputs, turned)
            Path(folder, "A").write_text(a)
            Path(folder, "B").write_text(b)
            status, said, seconds, _ = measured([program, "check", "A", "B", "--out", "p"] + options, folder)
            header = Path(folder, "p.0.cnf").read_text().split("\n")[0].split()
            lines = Path(folder, "p.0.lrat").read_text().count("\n")
            print(f"{inputs:>6} {gates:>6} {outputs:>7} {kind:>10} {seconds:>8.3f} {header[3]:>8} {lines:>7}  {status} "
                  f"{said.split(chr(10))[0]}")


def main():
    parser = argparse.ArgumentParser(description=__doc__, formatter_class=argparse.RawDescriptionHelpFormatter)
    parser.add_argument("program", nargs="?", help="the built program, else the repository's own")
    parser.add_argument("--sizes", type=int, nargs="*", default=[10_000, 100_000, 1_000_000])
    parser.add_argument("--folder", help="where the files are made (else a folder that is removed)")
    words = parser.parse_args()
    program = house.program(words.program)
    with tempfile.TemporaryDirectory() as made:
        folder = words.folder or made
        big_pairs(program, words.sizes, folder)
        solved_pairs(program, folder)


if __name__ == "__main__":
    main()
