#!/usr/bin/env python3
"""The files of workloads, compared byte by byte with those of another generator, tools/workload.py; and `cec self`, compared
with `cec check` of those files.

Usage: workloads.py [PROGRAM] [--most N] [--every N]

A small program over the crate workload_gen, built by LLVM at -O2 with no proof, writes them, since `cec self` shows only counts and a
verdict. Each kind is compared for each number up to --most (64), and for each --every (251) up to 4096. For some numbers up
to 16 `cec self` has to say the counts of the other generator's circuits and then what `cec check` says of them, with its
status. PROGRAM is the repository's own where it is left out. Status 1 where anything differs.
"""
import argparse
import subprocess
import sys
import tempfile
from pathlib import Path

sys.path.insert(0, str(Path(__file__).resolve().parents[1] / "tools"))
import house
import workload
from crates import built

MOST = 4096

# Of so many bits are the circuits that are checked.
CHECKED = (1, 2, 3, 4, 5, 7, 8, 16)

MAIN = """//! Writes the two files of a workload to standard output: a line with the length of the first, then both.
#![tactic(auto)]

use std::env;
use std::io::{self, Write};
use workload_gen::{Kind, MOST_BITS, make};

fn asked(words: &[String]) -> Option<(Kind, u32)> {
    let [_, kind, number] = words else {
        return None;
    };
    let kind = match kind.as_str() {
        "adder" => Kind::Adder,
        "parity" => Kind::Parity,
        "comparator" => Kind::Comparator,
        _ => return None,
    };
    Some((kind, number.as_str().parse::<u32>().ok()?))
}

fn main(rt: HostRuntime) -> io::Result<()> {
    let words: Vec<String> = env::args(&rt)?.collect(rt.alloc())?;
    let Some((kind, n)) = asked(words.as_slice()) else {
        return Ok(());
    };
    if n == 0 || n > MOST_BITS {
        return Ok(());
    }
    let (first, second) = make(rt.alloc(), kind, n)?;
    let mut out = rt.stdout();
    let length = format!(in rt.alloc(); "{}\\n", first.len())?;
    out.write_all(length.as_bytes())?;
    out.write_all(first.as_slice())?;
    out.write_all(second.as_slice())
}
"""


def written(program, kind, n):
    """The bytes of both files."""
    told = subprocess.run([program, kind, str(n)], check=True, capture_output=True).stdout
    length, files = told.split(b"\n", 1)
    return files[:int(length)], files[int(length):]


def checked(program, folder, kind, n):
    """What `cec self` says with its status, and what it should."""
    a, b = workload.KINDS[kind](n)
    (folder / "a").write_bytes(a.ascii())
    (folder / "b").write_bytes(b.binary())
    own = subprocess.run([program, "self", kind, str(n)], cwd=folder, capture_output=True, text=True)
    check = subprocess.run([program, "check", "a", "b"], cwd=folder, capture_output=True, text=True)
    lines = f"kind {kind} n {n}\ngates {len(a.gates)} {len(b.gates)}\noutputs {len(a.outputs)}\n"
    return (own.stdout, own.stderr, own.returncode), (lines + check.stdout, check.stderr, check.returncode)


def main():
    parser = argparse.ArgumentParser(description=__doc__, formatter_class=argparse.RawDescriptionHelpFormatter)
    parser.add_argument("program", nargs="?")
    parser.add_argument("--most", type=int, default=64)
    parser.add_argument("--every", type=int, default=251)
    words = parser.parse_args()
    numbers = sorted({*range(1, words.most + 1), *range(words.every, MOST, words.every), MOST})
    wrong = 0
    with tempfile.TemporaryDirectory() as folder:
        program = built(folder, "workload_bytes", MAIN, ["workload_gen"])
        for kind, circuits in workload.KINDS.items():
            for n in numbers:
                a, b = circuits(n)
                if written(program, kind, n) != (a.ascii(), b.binary()):
                    wrong += 1
                    print(f"{kind} {n}: the bytes differ")
        print(f"{len(workload.KINDS) * len(numbers)} pairs of files, {wrong} wrong")
        cec, own_wrong = house.program(words.program), 0
        for kind in workload.KINDS:
            for n in CHECKED:
                own, expected = checked(cec, Path(folder), kind, n)
                if own != expected:
                    own_wrong += 1
                    print(f"{kind} {n}: {own}, and not {expected}")
        print(f"{len(workload.KINDS) * len(CHECKED)} self checks, {own_wrong} wrong")
    wrong += own_wrong
    raise SystemExit(1 if wrong else 0)


if __name__ == "__main__":
    main()
